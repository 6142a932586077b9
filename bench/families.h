/* Pairs of clause sheets to measure on. Within a pair no setting satisfies both sheets; the order is 1..n but
   where it says otherwise. */
#ifndef FAMILIES_H
#define FAMILIES_H

#include "plain.h"

typedef struct {
    size_t count;
    int32_t numbers[MAX_NUMBERS];
} Sheet;

typedef struct {
    uint32_t n;
    uint32_t order[MAX_INPUTS];
    Sheet on, off;
} Pair;

/* Building: an empty pair of n inputs; a number more; a clause more; the clause that only this setting of the n
   variables from first on denies. A sheet that grows too long ends the program. */
void start(Pair *pair, uint32_t n);
void put(Sheet *sheet, int32_t number);
void put_clause(Sheet *sheet, const int32_t *literals, size_t count);
void bar_setting(Sheet *sheet, uint32_t first, uint32_t n, uint32_t setting);

/* The sheet is satisfied at the setting. */
bool satisfied(const Sheet *sheet, uint32_t setting);

/* The sheet as bytes, four a number, lowest first. */
void write_bytes(const Sheet *sheet, uint8_t *bytes);

uint32_t ones(uint32_t word);

/* Repeatable random numbers. */
uint32_t random_below(uint64_t *state, uint32_t bound);

typedef struct {
    const char *name;
    void (*make)(Pair *pair, uint32_t size);
    uint32_t sizes[6]; /* up to the first 0 */
    bool decided;      /* every setting is on or off */
} Family;

enum { FAMILIES = 14 };
extern const Family families[FAMILIES];

/* Each takes its size: inputs, or select lines, or bits of a number. */
void parity(Pair *pair, uint32_t n);            /* on: an odd number of ones */
void threshold(Pair *pair, uint32_t n);         /* on: at least half of the inputs are 1 */
void multiplexer(Pair *pair, uint32_t selects); /* select lines first, lowest first; then the data lines */
void comparator(Pair *pair, uint32_t bits);     /* on: a > b; a and b interleaved, highest bits first */
void carry(Pair *pair, uint32_t bits);          /* on: a + b carries out; a and b by turns, lowest bits first; order n..1 */
void carry_low(Pair *pair, uint32_t bits);      /* the same; order 1..n */
void carry_apart(Pair *pair, uint32_t bits);    /* the same; all of a, then all of b, lowest bits first; order 1..n */
void random_decided(Pair *pair, uint32_t n);    /* on: random clauses; off: every other setting */
void random_undecided(Pair *pair, uint32_t n);  /* the same, with random clauses for the off sheet too */
void random_guarded(Pair *pair, uint32_t n);    /* random clauses each; four variables have odd parity in on, even in off */
void level_codes(Pair *pair, uint32_t n);       /* switches give a level's number: on: one level with Set pressed */
void level_switches(Pair *pair, uint32_t n);    /* a switch for each level: on: one switch alone with Set pressed */
void late(Pair *pair, uint32_t n);              /* on: odd parity of the last three variables */
void late_multiplexer(Pair *pair, uint32_t selects); /* data lines first, then the select lines */

#endif
