/* Sheets and orders as byte runs, for the tests of the host. */
#ifndef SHEETS_H
#define SHEETS_H

#include <stddef.h>
#include <stdint.h>

enum { MAX_INPUTS = 24, MAX_NUMBERS = 8192, MAX_CLAUSES = 1024, MAX_ROWS = 256, LONGEST_TEXT = 6933 };

/* A run of words, with room for a sheet past its limits and three bytes left over. */
struct run {
    size_t len;
    uint8_t bytes[4 * (MAX_NUMBERS + 2) + 3];
};

/* Puts a word behind the others, lowest byte first. */
void put(struct run *run, uint32_t word);

/* The word at a place. */
uint32_t word_at(const struct run *run, size_t place);

/* The run of these numbers. */
void set(struct run *run, const int32_t *numbers, size_t count);

/* The order 1..n, or n..1. */
void upward(struct run *order, uint32_t n);
void downward(struct run *order, uint32_t n);

/* The sheet of n clauses of one literal, with sign 1 or -1 on every variable: one setting satisfies it. */
void of_one_setting(struct run *sheet, uint32_t n, int32_t sign);

/* The sheet of odd or even parity of so many variables, `first` and those that follow. */
void of_parity(struct run *sheet, uint32_t first, uint32_t count, uint32_t odd);

/* Says the sheet's clauses again until it has 8,192 numbers. Its settings stay the same. */
void fill(struct run *sheet);

#endif
