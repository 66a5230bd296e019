#include <stdio.h>

/* The account of race.c, repaired: the deposit has channel 0 and the withdrawal channel 1,
   and process 0 takes one letter of channel 0 first, then one of channel 1. */
int balance;

int main(void)
{
    int i;

    if (self() == 1)
        send(0, 0, 100);
    else if (self() == 2)
        send(0, 1, -70);
    else
        for (i = 0; i < 2; i++) {
            int amount;

            amount = receive(1u << i);
            if (balance + amount < 0)
                printf("process %d: %d refused\n", from(), amount);
            else {
                balance += amount;
                printf("process %d: balance %d\n", from(), balance);
            }
        }
    return 0;
}
