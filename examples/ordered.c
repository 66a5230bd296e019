#include <stdio.h>

/* Process 1 switches a lamp on and then off again; process 0 is the lamp and does what each letter
   says. Where letters may overtake each other, "off" can come before "on", and the lamp stays on.
   Where channel 0 is ordered, that can't be. */
int main(void)
{
    int i;

    if (self() == 1) {
        send(0, 0, 1);
        send(0, 0, 0);
    } else
        for (i = 0; i < 2; i++)
            if (receive(1u))
                printf("on\n");
            else
                printf("off\n");
    return 0;
}
