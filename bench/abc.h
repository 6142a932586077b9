/* Berkeley's abc on the on sheet of a pair that decides every setting. It works in the current folder. */
#ifndef ABC_H
#define ABC_H

#include "families.h"

bool abc_is_there(void);

typedef struct {
    double with, without; /* the best so far of a process with and without the command, 0 at first */
    uint32_t times;       /* how often it was given */
    size_t rows;
    bool inverted;        /* the rows are those of the off settings */
} Abc;

/* One more sample of a command, which is one line of abc. */
void abc_sample(Abc *abc, const Pair *pair, const char *command);

/* Of the command alone: process start, reading and hashing are taken off. */
double abc_seconds(const Abc *abc);

#endif
