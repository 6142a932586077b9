/* Byte runs lent to a call. The library is not instrumented, so each call is made with its runs lent in each of these
 * ways, and what may not have changed is compared afterwards.
 */
#ifndef LENT_H
#define LENT_H

#include <stddef.h>
#include <stdint.h>

enum way {
    /* An allocation of exactly the run's length: AddressSanitizer watches the library's memcpy and memset. */
    EXACT,
    /* The same, but null where the length is 0. */
    NULL_IF_EMPTY,
    /* Between guard bytes. */
    GUARDED,
    /* Behind guard bytes, and right before a page that can be neither read nor written. */
    FENCED,
    WAYS
};

struct lent {
    enum way way;
    size_t len;
    uint8_t *run;
    uint8_t *block;
};

/* Lends a copy of these bytes. The runs of one call have different slots, below 5. */
struct lent lend(enum way way, size_t slot, const uint8_t *bytes, size_t len);

/* Takes the run back: whether it has these bytes, and its guards are as they were. */
int returned(struct lent *lent, const uint8_t *bytes);

#endif
