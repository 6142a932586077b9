/* Calls with the outcome that document 01 gives them; each is made in every way of lending. */
#ifndef EXPECTED_H
#define EXPECTED_H

#include "sheets.h"

struct row {
    uint32_t care, value;
};

/* An answer, and the first rows of a list. */
struct outcome {
    uint32_t refusal, payload;
    struct row rows[2];
};

struct list_call {
    uint32_t n;
    const struct run *order, *on, *off;
    size_t care_len, value_len;
};

/* Makes the call. `in_form` is its outcome where n, the order and the sheets are in form and there is room. */
void list(const struct list_call *call, const struct outcome *in_form);

struct pla_call {
    uint32_t n, count;
    const struct run *care, *value;
    size_t text_len;
};

/* Makes the call. */
void pla(const struct pla_call *call);

/* How long its text is, were there room and the list in form. */
size_t text_length(const struct pla_call *call);

/* Prints how often each answer was met; whether all that can be given were. */
int all_met(void);

#endif
