#include "sheets.h"

void put(struct run *run, uint32_t word)
{
    for (uint32_t i = 0; i < 4; i++) {
        run->bytes[run->len++] = (uint8_t)(word >> (8 * i));
    }
}

uint32_t word_at(const struct run *run, size_t place)
{
    uint32_t word = 0;
    for (size_t i = 4; i > 0; i--) {
        word = 256 * word + run->bytes[4 * place + i - 1];
    }
    return word;
}

void set(struct run *run, const int32_t *numbers, size_t count)
{
    run->len = 0;
    for (size_t i = 0; i < count; i++) {
        put(run, (uint32_t)numbers[i]);
    }
}

void upward(struct run *order, uint32_t n)
{
    order->len = 0;
    for (uint32_t v = 1; v <= n; v++) {
        put(order, v);
    }
}

void downward(struct run *order, uint32_t n)
{
    order->len = 0;
    for (uint32_t v = n; v > 0; v--) {
        put(order, v);
    }
}

void of_one_setting(struct run *sheet, uint32_t n, int32_t sign)
{
    sheet->len = 0;
    for (uint32_t v = 1; v <= n; v++) {
        put(sheet, (uint32_t)(sign * (int32_t)v));
        put(sheet, 0);
    }
}

void of_parity(struct run *sheet, uint32_t first, uint32_t count, uint32_t odd)
{
    sheet->len = 0;
    for (uint32_t barred = 0; barred < (uint32_t)1 << count; barred++) {
        uint32_t ones = 0;
        for (uint32_t i = 0; i < count; i++) {
            ones += (barred >> i) % 2;
        }
        if (ones % 2 == odd) {
            continue;
        }
        for (uint32_t i = 0; i < count; i++) {
            int32_t v = (int32_t)(first + i);
            put(sheet, (uint32_t)((barred >> i) % 2 == 1 ? -v : v));
        }
        put(sheet, 0);
    }
}

/* The last clause repeats its last literal up to the last number but one. */
void fill(struct run *sheet)
{
    size_t clauses = 0;
    for (size_t i = 0; i < sheet->len / 4; i++) {
        clauses += word_at(sheet, i) == 0;
    }
    for (size_t from = 0; sheet->len / 4 < MAX_NUMBERS; from++) {
        size_t begun = from;
        while (word_at(sheet, from) != 0) {
            put(sheet, word_at(sheet, from));
            from++;
        }
        clauses++;
        int last = clauses == MAX_CLAUSES || sheet->len / 4 + 2 * MAX_INPUTS > MAX_NUMBERS;
        while (last && from > begun && sheet->len / 4 < MAX_NUMBERS - 1) {
            put(sheet, word_at(sheet, from - 1));
        }
        put(sheet, 0);
    }
}
