#include "families.h"

#include <stdio.h>
#include <stdlib.h>

const Family families[FAMILIES] = {
    {"odd parity", parity, {7, 8, 9, 10}, true},
    {"threshold", threshold, {6, 8, 9, 10}, true},
    {"multiplexer", multiplexer, {2, 3}, true},
    {"comparator", comparator, {3, 4, 5, 6, 7, 8}, true},
    {"carry", carry, {3, 4, 5, 6, 7, 8}, true},
    {"carry, low first", carry_low, {3, 4, 5, 6, 7, 8}, true},
    {"carry, a then b", carry_apart, {3, 4, 5, 6, 7, 8}, true},
    {"random, decided", random_decided, {10, 12, 14, 16}, true},
    {"random, undecided", random_undecided, {10, 12, 14, 16}, false},
    {"random, guarded", random_guarded, {12, 16, 20, 24}, false},
    {"level codes", level_codes, {7, 10, 16, 24}, false},
    {"level switches", level_switches, {7, 10, 16, 24}, false},
    {"late parity", late, {12, 14, 16, 18, 20}, true},
    {"late multiplexer", late_multiplexer, {2, 3}, true},
};

bool satisfied(const Sheet *sheet, uint32_t setting)
{
    bool held = false;
    for (size_t k = 0; k < sheet->count; k++) {
        int32_t x = sheet->numbers[k];
        if (x == 0) {
            if (!held)
                return false;
            held = false;
        } else if ((setting >> (abs(x) - 1) & 1) == (x > 0)) {
            held = true;
        }
    }
    return true;
}

void write_bytes(const Sheet *sheet, uint8_t *bytes)
{
    for (size_t i = 0; i < 4 * sheet->count; i++)
        bytes[i] = (uint8_t)((uint32_t)sheet->numbers[i / 4] >> 8 * (i % 4));
}

void put(Sheet *sheet, int32_t number)
{
    if (sheet->count == MAX_NUMBERS) {
        fprintf(stderr, "a sheet is too long\n");
        exit(1);
    }
    sheet->numbers[sheet->count++] = number;
}

void put_clause(Sheet *sheet, const int32_t *literals, size_t count)
{
    for (size_t i = 0; i < count; i++)
        put(sheet, literals[i]);
    put(sheet, 0);
}

void start(Pair *pair, uint32_t n)
{
    pair->n = n;
    pair->on.count = pair->off.count = 0;
    for (uint32_t i = 0; i < n; i++)
        pair->order[i] = i + 1;
}

void bar_setting(Sheet *sheet, uint32_t first, uint32_t n, uint32_t setting)
{
    for (uint32_t i = 0; i < n; i++)
        put(sheet, setting >> i & 1 ? -(int32_t)(first + i) : (int32_t)(first + i));
    put(sheet, 0);
}

uint32_t ones(uint32_t word)
{
    uint32_t count = 0;
    for (; word; word &= word - 1)
        count++;
    return count;
}

static void parity_from(Pair *pair, uint32_t first, uint32_t n)
{
    for (uint32_t s = 0; s < (uint32_t)1 << n; s++)
        bar_setting(ones(s) % 2 ? &pair->off : &pair->on, first, n, s);
}

void parity(Pair *pair, uint32_t n)
{
    start(pair, n);
    parity_from(pair, 1, n);
}

void late(Pair *pair, uint32_t n)
{
    start(pair, n);
    parity_from(pair, n - 2, 3);
}

/* Every choice of so many variables has one with the sign. */
static void choices(Sheet *sheet, uint32_t n, uint32_t many, int32_t sign)
{
    for (uint32_t s = 0; s < (uint32_t)1 << n; s++) {
        if (ones(s) != many)
            continue;
        for (uint32_t i = 0; i < n; i++)
            if (s >> i & 1)
                put(sheet, sign * (int32_t)(i + 1));
        put(sheet, 0);
    }
}

void threshold(Pair *pair, uint32_t n)
{
    uint32_t half = (n + 1) / 2;
    start(pair, n);
    choices(&pair->on, n, n - half + 1, 1);
    choices(&pair->off, n, half, -1);
}

/* For each number on the select lines, that data line's literal. */
static void selected(Pair *pair, uint32_t selects, uint32_t first_select, uint32_t first_data)
{
    uint32_t lines = (uint32_t)1 << selects;
    start(pair, selects + lines);
    for (uint32_t line = 0; line < lines; line++) {
        int32_t literals[MAX_INPUTS];
        for (uint32_t i = 0; i < selects; i++)
            literals[i] = line >> i & 1 ? -(int32_t)(first_select + i) : (int32_t)(first_select + i);
        literals[selects] = (int32_t)(first_data + line);
        put_clause(&pair->on, literals, selects + 1);
        literals[selects] = -literals[selects];
        put_clause(&pair->off, literals, selects + 1);
    }
}

void multiplexer(Pair *pair, uint32_t selects)
{
    selected(pair, selects, 1, selects + 1);
}

void late_multiplexer(Pair *pair, uint32_t selects)
{
    selected(pair, selects, ((uint32_t)1 << selects) + 1, 1);
}

/* Bars every row with both literals of some bit and one literal of each higher bit; with ties, also one of each bit.
   Highest bits first. */
static void ladder(Sheet *sheet, uint32_t bits, const int32_t *left, const int32_t *right, bool ties)
{
    for (uint32_t bit = 0; bit < bits + ties; bit++)
        for (uint32_t choice = 0; choice < (uint32_t)1 << bit; choice++) {
            for (uint32_t i = 0; i < bit; i++)
                put(sheet, choice >> i & 1 ? -left[i] : -right[i]);
            if (bit < bits) {
                put(sheet, -left[bit]);
                put(sheet, -right[bit]);
            }
            put(sheet, 0);
        }
}

/* On where some bit of a and b has both literals and each higher bit at least one. a and b are the variables of their highest bits,
   and step leads to the next lower; b's literals have the sign. */
static void ladders(Pair *pair, uint32_t bits, int32_t a, int32_t b, int32_t step, int32_t sign)
{
    int32_t left[MAX_INPUTS] = {0}, right[MAX_INPUTS] = {0};
    start(pair, 2 * bits);
    for (uint32_t i = 0; i < bits; i++) {
        left[i] = a + (int32_t)i * step;
        right[i] = sign * (b + (int32_t)i * step);
    }
    ladder(&pair->off, bits, left, right, false);
    for (uint32_t i = 0; i < bits; i++) {
        left[i] = -left[i];
        right[i] = -right[i];
    }
    ladder(&pair->on, bits, left, right, true);
}

void comparator(Pair *pair, uint32_t bits)
{
    ladders(pair, bits, 1, 2, 2, -1);
}

void carry_low(Pair *pair, uint32_t bits)
{
    ladders(pair, bits, 2 * (int32_t)bits - 1, 2 * (int32_t)bits, -2, 1);
}

void carry(Pair *pair, uint32_t bits)
{
    carry_low(pair, bits);
    for (uint32_t i = 0; i < pair->n; i++)
        pair->order[i] = pair->n - i;
}

void carry_apart(Pair *pair, uint32_t bits)
{
    ladders(pair, bits, (int32_t)bits, 2 * (int32_t)bits, -1, 1);
}

/* n - 1 switches, lowest bit first, and Set last. Five eighths of the levels are in use; the one in their middle is on. */
void level_codes(Pair *pair, uint32_t n)
{
    const int32_t set = (int32_t)n, top = set - 1;
    const uint32_t level = ((uint32_t)5 << (n - 4)) / 2;
    start(pair, n);
    for (int32_t i = 1; i < set; i++) {
        int32_t literal = level >> (i - 1) & 1 ? i : -i;
        put_clause(&pair->on, &literal, 1);
        put(&pair->off, -literal);
    }
    put_clause(&pair->off, (int32_t[]){-set}, 1);
    put_clause(&pair->on, &set, 1);
    put_clause(&pair->off, (int32_t[]){-set, -top, -(top - 1)}, 3);
    put_clause(&pair->off, (int32_t[]){-set, -top, -(top - 2)}, 3);
}

/* Set first, then n - 1 switches, the first of which is on. Off: Set not pressed, or one other switch alone. */
void level_switches(Pair *pair, uint32_t n)
{
    const int32_t set = 1, own = 2, last = (int32_t)n;
    start(pair, n);
    put_clause(&pair->on, &set, 1);
    put_clause(&pair->on, &own, 1);
    for (int32_t i = own + 1; i <= last; i++)
        put_clause(&pair->on, (int32_t[]){-i}, 1);
    put_clause(&pair->off, (int32_t[]){-set, -own}, 2);
    put(&pair->off, -set);
    for (int32_t i = own + 1; i <= last; i++)
        put(&pair->off, i);
    put(&pair->off, 0);
    for (int32_t i = own + 1; i <= last; i++)
        for (int32_t j = i + 1; j <= last; j++)
            put_clause(&pair->off, (int32_t[]){-set, -i, -j}, 3);
}
