/* The method of document 01 as a plain C program: what the proved program is measured against. */
#ifndef PLAIN_H
#define PLAIN_H

#include <stdbool.h>
#include <stddef.h>
#include <stdint.h>

enum { MAX_INPUTS = 24, MAX_ROWS = 256, MAX_CLAUSES = 1024, MAX_NUMBERS = 8192 };

/* Holds every setting s with (s & care) == value. Bit v - 1 belongs to variable v. */
typedef struct {
    uint32_t care, value;
} Row;

/* A sheet read where it lies: four bytes a number, lowest first. */
typedef struct {
    const uint8_t *bytes;
    size_t numbers;
} Clauses;

/* What a setting must do: satisfy both sheets in place (NULL asks for nothing) and lie in no kept row. */
typedef struct {
    uint32_t n;
    const uint32_t *order;
    const Clauses *first, *second;
    const Row *kept;
    size_t count;
    const uint32_t *swift; /* another order, to ask in whether there is any; NULL: the order itself */
} Question;

/* The smallest setting of the row that does; and the smallest of all settings not below a start. */
bool smallest(const Question *q, Row row, uint32_t *setting);
bool smallest_from(const Question *q, uint32_t start, uint32_t *setting);

/* The rows that the clauses of a well-formed sheet bar. Answers their count. */
size_t bar(const int32_t *sheet, size_t numbers, Row *barred);

/* The rows generated from barred rows, unpruned, at most so many; more says whether a further one would come.
   The barred on rows are followed by room for them, and the generated rows stand there afterwards. */
size_t generate(uint32_t n, const uint32_t *order, Row *on, size_t on_count, const Row *off, size_t off_count, size_t most,
                bool *more);

/* Leaves the rows that pruning keeps, in their order. Answers their count. */
size_t prune(uint32_t n, const uint32_t *order, Row *rows, size_t count);

typedef struct {
    uint32_t refusal;   /* document 01's number, 0 for a list */
    uint32_t setting;   /* the smallest setting of both sheets, for 6 */
    size_t generated;   /* rows before pruning */
    size_t count;       /* rows of the list */
} Whole;

Whole plain_whole(uint32_t n, const uint32_t *order, size_t places, const int32_t *on, size_t on_numbers,
                  const int32_t *off, size_t off_numbers, uint32_t *care, size_t care_room, uint32_t *value, size_t value_room);

typedef struct {
    uint32_t refusal;   /* as of a whole list */
    uint32_t setting;
    size_t count;       /* rows given */
    bool complete;      /* generation has at most k rows */
} Partial;

/* The first k generated rows, unpruned. */
Partial plain_partial(uint32_t n, const uint32_t *order, size_t places, const int32_t *on, size_t on_numbers, const int32_t *off,
                      size_t off_numbers, size_t k, uint32_t *care, size_t care_room, uint32_t *value, size_t value_room);

/* The search phase alone: every setting of the sheet, each found from the last one on and kept as a full row.
   Answers their count. Through barred rows, which come first in rows; and with the clauses read in place. */
uint32_t plain_phase_rows(uint32_t n, const uint32_t *order, const int32_t *sheet, size_t numbers, Row *rows, size_t room);
uint32_t plain_phase_bytes(uint32_t n, const uint32_t *order, const uint8_t *sheet, size_t bytes, Row *rows, size_t room);

#endif
