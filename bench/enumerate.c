#include "enumerate.h"

uint32_t at_rank(const Pair *p, uint32_t rank)
{
    uint32_t setting = 0; /* the first place is the highest bit of the rank */
    for (uint32_t i = 0; i < p->n; i++)
        if (rank >> (p->n - 1 - i) & 1)
            setting |= (uint32_t)1 << (p->order[i] - 1);
    return setting;
}

static bool holds(uint32_t care, uint32_t value, uint32_t setting)
{
    return (setting & care) == value;
}

/* The row holds no off setting. */
static bool widenable(const Pair *p, uint32_t care, uint32_t value)
{
    for (uint32_t s = 0; s < (uint32_t)1 << p->n; s++)
        if (holds(care, value, s) && satisfied(&p->off, s))
            return false;
    return true;
}

/* Every setting of row i lies in another row not dropped so far. */
static bool needless(const Listed *out, const bool *dropped, size_t count, size_t i, uint32_t n)
{
    for (uint32_t s = 0; s < (uint32_t)1 << n; s++) {
        bool elsewhere = false;
        for (size_t j = 0; j < count && !elsewhere; j++)
            elsewhere = j != i && !dropped[j] && holds(out->care[j], out->value[j], s);
        if (holds(out->care[i], out->value[i], s) && !elsewhere)
            return false;
    }
    return true;
}

void enumerate(const Pair *p, Listed *out)
{
    const uint32_t all = ((uint32_t)1 << p->n) - 1;
    bool dropped[MAX_ROWS] = {false};
    size_t count = 0, kept = 0;
    out->whole = (Whole){0, 0, 0, 0};
    for (uint32_t rank = 0; rank <= all; rank++) {
        uint32_t s = at_rank(p, rank);
        if (satisfied(&p->on, s) && satisfied(&p->off, s)) {
            out->whole = (Whole){6, s, 0, 0};
            return;
        }
    }
    for (uint32_t rank = 0; rank <= all; rank++) {
        uint32_t s = at_rank(p, rank);
        bool held = !satisfied(&p->on, s);
        for (size_t j = 0; j < count && !held; j++)
            held = holds(out->care[j], out->value[j], s);
        if (held)
            continue;
        if (count == MAX_ROWS) {
            out->whole = (Whole){7, 0, 0, 0};
            return;
        }
        uint32_t care = all;
        for (uint32_t i = 0; i < p->n; i++) {
            uint32_t bit = (uint32_t)1 << (p->order[i] - 1);
            if (widenable(p, care & ~bit, s & care & ~bit))
                care &= ~bit;
        }
        out->care[count] = care;
        out->value[count++] = s & care;
    }
    for (size_t i = 0; i < count; i++)
        dropped[i] = needless(out, dropped, count, i, p->n);
    for (size_t i = 0; i < count; i++)
        if (!dropped[i]) {
            out->care[kept] = out->care[i];
            out->value[kept++] = out->value[i];
        }
    out->whole = (Whole){0, 0, count, kept};
}
