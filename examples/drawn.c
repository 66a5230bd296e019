#include <stdio.h>

/* Processes 1 and 2 send a letter each to process 0, which receives twice: its first receive takes
   whichever letter comes first. It is the drawn example of docs/runs-and-traces.md. */
int main(void)
{
    self() ? send(0, 0, self()) : printf("%d\n", receive(1u)) + receive(1u);
}
