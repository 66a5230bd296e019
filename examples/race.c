#include <stdio.h>

/* Process 1 deposits, process 2 withdraws, process 0 keeps the account. Where the
   withdrawal comes first it is refused: which letter comes first is a race. */
int balance;

int main(void)
{
    int i;

    if (self() == 1)
        send(0, 0, 100);
    else if (self() == 2)
        send(0, 0, -70);
    else
        for (i = 0; i < 2; i++) {
            int amount;

            amount = receive(1u);
            if (balance + amount < 0)
                printf("process %d: %d refused\n", from(), amount);
            else {
                balance += amount;
                printf("process %d: balance %d\n", from(), balance);
            }
        }
    return 0;
}
