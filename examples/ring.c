#include <stdio.h>

/* A token goes round a ring three times. Each process adds its number, and process 0
   prints what comes back. Nothing races here. */
int main(void)
{
    int round;
    int token;
    int next;

    token = 0;
    next = (self() + 1) % nprocs();
    for (round = 1; round <= 3; round++)
        if (self() == 0) {
            send(next, 0, token);
            token = receive(1u);
            printf("round %d: %d\n", round, token);
        } else {
            token = receive(1u);
            send(next, 0, token + self());
        }
    return 0;
}
