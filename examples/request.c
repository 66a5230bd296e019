#include <stdio.h>

/* Process 0 serves: whoever sends a number on channel 0 gets its square on channel 1.
   Two clients' requests race; a request and its reply never do. */
int main(void)
{
    int i;

    if (self() == 0)
        for (i = 0; i < 3 * (nprocs() - 1); i++) {
            int x;

            x = receive(1u);
            send(from(), 1, x * x);
        }
    else
        for (i = 1; i <= 3; i++) {
            send(0, 0, 10 * self() + i);
            printf("%d: %d\n", 10 * self() + i, receive(2u));
        }
    return 0;
}
