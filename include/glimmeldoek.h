/* Glimmeldoek for a host written in C: list building and PLA writing on numbers and byte runs.
 *
 * A run is a pointer and its length in bytes. A word is four bytes, lowest first; a sheet's number is a word in two's
 * complement. One to three bytes left over at the end of a run make a sheet not well formed and an order refused; in the
 * runs of a list they add no room.
 *
 * A pointer may be null if its length is 0. The runs of one call must not overlap one another.
 *
 * Nothing is allocated and nothing is kept between calls: all working memory stands on the caller's stack. There
 * glimmeldoek_list was measured to need 3,888 bytes at most, and glimmeldoek_pla 2,168 (tests/host/stack.c, which holds
 * both to 8,192).
 *
 * An answer is one number: the refusal's number times 2^32, plus a payload. The refusal's number is 0 for a result. A
 * refusal writes to none of the runs, and of several that apply the one with the lowest number is given.
 */
#ifndef GLIMMELDOEK_H
#define GLIMMELDOEK_H

#include <stddef.h>
#include <stdint.h>

#ifdef __cplusplus
extern "C" {
#endif

enum glimmeldoek_refusal {
    /* There is a result. The payload is the count of rows, or the text's length. */
    GLIMMELDOEK_NONE = 0,
    /* n is outside 1..24. The payload is 0, as for every refusal but GLIMMELDOEK_COLLISION. */
    GLIMMELDOEK_INPUTS = 1,
    /* The order does not have length n with each of 1..n once. */
    GLIMMELDOEK_ORDER = 2,
    /* The on sheet is not well formed. */
    GLIMMELDOEK_ON_SHEET = 3,
    /* The off sheet is not well formed. */
    GLIMMELDOEK_OFF_SHEET = 4,
    /* Some setting satisfies both sheets. The payload is the smallest; bit i - 1 of it is variable i. */
    GLIMMELDOEK_COLLISION = 6,
    /* Generation would exceed 256 rows. */
    GLIMMELDOEK_TOO_MANY_ROWS = 7,
    /* The given list has a count above its room or 256, or within its count care bits from n up or value bits outside care. */
    GLIMMELDOEK_GIVEN_LIST = 8,
    /* The result does not fit the lent room. */
    GLIMMELDOEK_ROOM = 15
};

/* The two parts of an answer. */
static inline uint32_t glimmeldoek_refusal_of(uint64_t answer)
{
    return (uint32_t)(answer >> 32);
}

static inline uint32_t glimmeldoek_payload_of(uint64_t answer)
{
    return (uint32_t)answer;
}

/* Builds the list of n inputs for an on sheet and an off sheet, and answers the count of its rows.
 *
 * order: the numbers 1..n, each once. on, off: sheets; v stands for variable v at 1, -v for variable v at 0, and 0 closes
 * a clause. A sheet is empty or ends in 0, and has at most 8,192 numbers and 1,024 clauses.
 *
 * care, value: the rows, a word of each run for a row. Bit i - 1 belongs to variable i, which the row fixes to its bit of
 * the value word if its bit of the care word is 1. Words past the count stay as they were. The room is the shorter run's;
 * 1,024 bytes each are enough for every list.
 *
 * Refusals: 1, 2, 3, 4, 6, 7, 15.
 */
uint64_t glimmeldoek_list(uint32_t n, const uint8_t *order, size_t order_len, const uint8_t *on, size_t on_len,
                          const uint8_t *off, size_t off_len, uint8_t *care, size_t care_len, uint8_t *value,
                          size_t value_len);

/* Writes the PLA text of the first `count` rows of a list of n inputs, and answers its length in bytes.
 *
 * care, value: the rows, as glimmeldoek_list leaves them. text: where the text goes. Bytes past it stay as they were, and
 * no zero byte is added. 6,933 bytes are enough for every text.
 *
 * Refusals: 1, 8, 15.
 */
uint64_t glimmeldoek_pla(uint32_t n, uint32_t count, const uint8_t *care, size_t care_len, const uint8_t *value,
                         size_t value_len, uint8_t *text, size_t text_len);

#ifdef __cplusplus
}
#endif

#endif
