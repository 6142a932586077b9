/* Pairs of random clauses of three literals, the same at every run. */
#include "families.h"

/* Splitmix64, and its high half scaled. */
uint32_t random_below(uint64_t *state, uint32_t bound)
{
    uint64_t z = *state += 0x9e3779b97f4a7c15u;
    z = (z ^ z >> 30) * 0xbf58476d1ce4e5b9u;
    z = (z ^ z >> 27) * 0x94d049bb133111ebu;
    z ^= z >> 31;
    return (uint32_t)((z >> 32) * bound >> 32);
}

/* Three different variables with random signs. */
static void random_clause(Sheet *sheet, uint32_t n, uint64_t *state)
{
    int32_t literals[3];
    uint32_t taken = 0, count = 0;
    while (count < 3) {
        uint32_t i = random_below(state, n);
        if (taken >> i & 1)
            continue;
        taken |= (uint32_t)1 << i;
        literals[count++] = random_below(state, 2) ? (int32_t)(i + 1) : -(int32_t)(i + 1);
    }
    put_clause(sheet, literals, 3);
}

/* Random on clauses until few settings are left; the off sheet bars those, and has so many random clauses beside. */
static void random_pair(Pair *pair, uint32_t n, uint32_t beside)
{
    enum { FEW = 240 };
    static uint32_t settings[(size_t)1 << 16];
    uint64_t state = n;
    size_t count = 0;
    start(pair, n);
    for (uint32_t s = 0; s < (uint32_t)1 << n; s++)
        settings[count++] = s;
    while (count > FEW) {
        size_t left = 0;
        random_clause(&pair->on, n, &state);
        for (size_t i = 0; i < count; i++)
            if (satisfied(&pair->on, settings[i]))
                settings[left++] = settings[i];
        count = left;
    }
    for (size_t i = 0; i < count; i++)
        bar_setting(&pair->off, 1, n, settings[i]);
    for (uint32_t i = 0; i < beside; i++)
        random_clause(&pair->off, n, &state);
}

void random_decided(Pair *pair, uint32_t n)
{
    random_pair(pair, n, 0);
}

void random_undecided(Pair *pair, uint32_t n)
{
    random_pair(pair, n, n);
}

void random_guarded(Pair *pair, uint32_t n)
{
    const int32_t guards[4] = {1, (int32_t)n / 3, 2 * (int32_t)n / 3, (int32_t)n};
    uint64_t state = n;
    start(pair, n);
    for (uint32_t s = 0; s < 16; s++) {
        int32_t literals[4];
        for (uint32_t i = 0; i < 4; i++)
            literals[i] = s >> i & 1 ? -guards[i] : guards[i];
        put_clause(ones(s) % 2 ? &pair->off : &pair->on, literals, 4);
    }
    for (uint32_t i = 0; i < 2 * n; i++) {
        random_clause(&pair->on, n, &state);
        random_clause(&pair->off, n, &state);
    }
}
