/* The message calls, as a C89 compiler wants them declared, so that it takes the examples:

       gcc -std=c89 -include examples/racetrace.h examples/race.c -o race

   racetrace itself never reads this file: it skips every line with #include. The calls are stubs for a
   process that is alone and gets no letters; a program is one file, so their bodies can stand here. */
#ifndef RACETRACE_H
#define RACETRACE_H

#include <stdio.h>

/* Sends a letter of 1 to 8 words to a process, on a channel from 0 to 31. */
int send(int process, int channel, int first_word, ...)
{
    (void) process, (void) channel, (void) first_word;
    return 0;
}

/* Waits for a letter on a channel of the set (bit c stands for channel c); gives its first word. */
int receive(unsigned set)
{
    (void) set;
    return 0;
}

/* Of the letter that was accepted last: word i, the number of words, the sender, the channel. */
int word(int i)
{
    (void) i;
    return 0;
}

int words(void)
{
    return 1;
}

int from(void)
{
    return 0;
}

int via(void)
{
    return 0;
}

/* This process's number, from 0, and how many processes there are. */
int self(void)
{
    return 0;
}

int nprocs(void)
{
    return 1;
}

#endif
