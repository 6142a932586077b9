/* The proved program's entries, from the static library of the probe. A slice passes as its pointer and its length. */
#ifndef OURS_H
#define OURS_H

#include <stddef.h>
#include <stdint.h>

/* number * 2^56 + size * 2^52 + second * 2^32 + first; number is the refusal's, and of a list first is its count. */
uint64_t probe_whole(uint32_t n, const uint32_t *order, size_t places, const int32_t *on, size_t on_numbers,
                     const int32_t *off, size_t off_numbers, uint32_t *care, size_t care_room, uint32_t *value, size_t value_room);

/* The search phase: every setting of the sheet, as many as there is room for, each found from the last one on and kept as a full row:
   care, value, care, value, .. Answers their count; 0 where the input is not in form. Through barred rows, which come first and
   of which there must be room for MAX_CLAUSES; and with the clauses read in place, four bytes a number, lowest first. */
size_t bench_phase_rows(uint32_t n, const uint32_t *order, size_t places, const int32_t *on, size_t numbers, uint32_t *rows,
                        size_t words);
size_t bench_phase_bytes(uint32_t n, const uint32_t *order, size_t places, const uint8_t *on, size_t bytes, uint32_t *rows,
                         size_t words);

#endif
