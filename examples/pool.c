#include <stdio.h>

/* A pool of workers: process 0 hands out the tasks 1 to 6 to whoever asks, adds up the
   answers, and tells who did what. Which worker does which task is a race, the sum isn't. */
int main(void)
{
    int task;
    int idle;
    int sum;

    if (self() == 0) {
        task = 1;
        sum = 0;
        for (idle = 0; idle < nprocs() - 1; ) {
            sum += receive(1u);
            if (task <= 6) {
                printf("task %d to %d\n", task, from());
                send(from(), 1, task++);
            } else {
                send(from(), 1, 0);
                idle++;
            }
        }
        printf("sum %d\n", sum);
    } else {
        send(0, 0, 0);
        while ((task = receive(2u)) != 0)
            send(0, 0, task * task);
    }
    return 0;
}
