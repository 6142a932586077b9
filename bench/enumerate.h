/* Document 01's list by going through all settings, without a search: what the plain program must give. */
#ifndef ENUMERATE_H
#define ENUMERATE_H

#include "families.h"

typedef struct {
    Whole whole;
    uint32_t care[MAX_ROWS], value[MAX_ROWS];
} Listed;

/* The setting of that rank in the order. */
uint32_t at_rank(const Pair *pair, uint32_t rank);

/* For a pair in form. */
void enumerate(const Pair *pair, Listed *out);

#endif
