/* The plain program against document 01's cases and against enumeration; the families against what they stand for. */
#include "enumerate.h"

#include <stdio.h>
#include <stdlib.h>
#include <string.h>

static int failures, checks;

static void check(bool good, const char *what, uint32_t size)
{
    checks++;
    if (!good) {
        failures++;
        printf("wrong: %s %u\n", what, size);
    }
}

static void list(const Pair *p, Listed *out)
{
    out->whole = plain_whole(p->n, p->order, p->n, p->on.numbers, p->on.count, p->off.numbers, p->off.count,
                             out->care, MAX_ROWS, out->value, MAX_ROWS);
}

static bool same(const Listed *a, const Listed *b)
{
    size_t bytes = a->whole.count * sizeof(uint32_t);
    return a->whole.refusal == b->whole.refusal && a->whole.setting == b->whole.setting &&
           a->whole.generated == b->whole.generated && a->whole.count == b->whole.count &&
           !memcmp(a->care, b->care, bytes) && !memcmp(a->value, b->value, bytes);
}

static Listed found, wanted;

static void check_enumerated(const Pair *p, const char *what, uint32_t size)
{
    list(p, &found);
    enumerate(p, &wanted);
    check(same(&found, &wanted), what, size);
}

static uint8_t on_bytes[4 * MAX_NUMBERS], off_bytes[4 * MAX_NUMBERS];

/* From the setting of that rank on, through barred rows and with the clauses in place; and both sheets in place. */
static void check_queries(const Pair *p, uint32_t rank)
{
    Row rows[MAX_CLAUSES];
    write_bytes(&p->on, on_bytes);
    write_bytes(&p->off, off_bytes);
    Clauses on = {on_bytes, p->on.count}, off = {off_bytes, p->off.count};
    Question barred = {p->n, p->order, NULL, NULL, rows, bar(p->on.numbers, p->on.count, rows), NULL};
    Question in_place = {p->n, p->order, &on, NULL, NULL, 0, NULL};
    Question both = {p->n, p->order, &on, &off, NULL, 0, NULL};
    uint32_t from = at_rank(p, rank), end = (uint32_t)1 << p->n, a = 0, b = 0, c = 0;
    while (rank < end && !satisfied(&p->on, at_rank(p, rank)))
        rank++;
    bool found_a = smallest_from(&barred, from, &a), found_b = smallest_from(&in_place, from, &b);
    check(found_a == (rank < end) && (!found_a || a == at_rank(p, rank)), "query of barred rows", from);
    check(found_b == found_a && (!found_a || b == a), "query of clauses in place", from);
    bool collide = smallest(&both, (Row){0, 0}, &c);
    check(collide == (found.whole.refusal == 6) && (!collide || c == found.whole.setting), "sheets in place", from);
}

static void read_sheet(Sheet *sheet, const char *text)
{
    char *end;
    sheet->count = 0;
    for (long x = strtol(text, &end, 10); end != text; text = end, x = strtol(text, &end, 10))
        put(sheet, (int32_t)x);
}

/* The outcome as the table of document 01 has it: the rows, or the refusal and its setting, variable 1 first. */
static void write_outcome(const Pair *p, const Listed *out, char *text)
{
    *text = 0;
    if (out->whole.refusal)
        text += sprintf(text, "refused %u ", out->whole.refusal);
    for (uint32_t i = 0; i < p->n && out->whole.refusal == 6; i++)
        text += sprintf(text, "%u", out->whole.setting >> i & 1);
    for (size_t k = 0; k < out->whole.count; k++) {
        if (k)
            text += sprintf(text, " ");
        for (uint32_t i = 0; i < p->n; i++)
            text += sprintf(text, "%c", !(out->care[k] >> i & 1) ? '-' : out->value[k] >> i & 1 ? '1' : '0');
    }
}

static void check_cases(Pair *p)
{
    static const struct {
        uint32_t n;
        const char *on, *off, *outcome;
        size_t generated;
    } cases[] = {
        {3, "1 0 2 0 3 0", "-1 -2 -3 0", "111", 1},
        {3, "-1 -2 -3 0", "1 0 2 0 3 0", "--0 -0- 0--", 3},
        {3, "1 2 3 0 -1 -2 -3 0", "1 -2 0 2 -3 0 3 -1 0", "-01 -10 0-1 1-0", 4},
        {3, "1 2 3 0 -1 -2 -3 0", "1 -2 0 2 -3 0 3 -1 0", "10- 01- 1-0 0-1", 4},
        {3, "-1 -2 0 1 -3 0", "-1 2 0 1 3 0", "0-0 10-", 3},
        {3, "-1 0 -3 0", "1 -2 0 -1 2 0 1 3 0 -1 -3 0", "-00 0-0", 2},
        {3, "0", "0", "", 0},
        {3, "", "0", "---", 1},
        {3, "", "", "refused 6 000", 0},
        {2, "1 0", "2 0", "refused 6 11", 0},
        {1, "1 0", "-1 0", "1", 1},
    };
    char text[MAX_ROWS * (MAX_INPUTS + 1) + 32];
    for (uint32_t k = 0; k < sizeof cases / sizeof *cases; k++) {
        start(p, cases[k].n);
        if (k == 3)
            memcpy(p->order, (uint32_t[]){3, 2, 1}, sizeof(uint32_t[3]));
        read_sheet(&p->on, cases[k].on);
        read_sheet(&p->off, cases[k].off);
        check_enumerated(p, "enumeration of case P", k + 1);
        write_outcome(p, &found, text);
        check(!strcmp(text, cases[k].outcome) && found.whole.generated == cases[k].generated, "case P", k + 1);
        for (uint32_t rank = 0; rank < (uint32_t)1 << p->n; rank++)
            check_queries(p, rank);
    }
}

/* Little sheets of any shape: empty clauses, both signs, repeated literals, any order. */
static void check_random(Pair *p)
{
    uint64_t state = 1;
    for (uint32_t k = 0; k < 20000; k++) {
        start(p, 1 + random_below(&state, 5));
        for (uint32_t i = p->n; i-- > 1;) {
            uint32_t j = random_below(&state, i + 1), other = p->order[j];
            p->order[j] = p->order[i];
            p->order[i] = other;
        }
        for (uint32_t side = 0; side < 2; side++) {
            Sheet *sheet = side ? &p->off : &p->on;
            for (uint32_t left = random_below(&state, 8); left > 0; left--) {
                for (uint32_t width = random_below(&state, 16) ? 1 + random_below(&state, 3) : 0; width > 0; width--) {
                    int32_t v = 1 + (int32_t)random_below(&state, p->n);
                    put(sheet, random_below(&state, 2) ? v : -v);
                }
                put(sheet, 0);
            }
        }
        check_enumerated(p, "random sheets", k);
        check_queries(p, random_below(&state, (uint32_t)1 << p->n));
    }
}

/* Of equal rows the last stays, also where they fix every variable. */
static void check_equal_rows(void)
{
    const uint32_t order[2] = {1, 2};
    Row rows[3] = {{3, 2}, {3, 2}, {3, 2}};
    check(prune(2, order, rows, 3) == 1 && rows[0].care == 3 && rows[0].value == 2, "equal rows", 3);
}

static void check_refusals(Pair *p)
{
    Listed out;
    start(p, 24);
    p->n = 25;
    list(p, &out);
    check(out.whole.refusal == 1, "n outside", 25);
    start(p, 3);
    p->order[1] = 1;
    list(p, &out);
    check(out.whole.refusal == 2, "a repeated place", 1);
    start(p, 3);
    put(&p->on, 3);
    list(p, &out);
    check(out.whole.refusal == 3, "an open clause", 3);
    p->on.numbers[0] = INT32_MIN;
    put(&p->on, 0);
    list(p, &out);
    check(out.whole.refusal == 3, "the lowest number", 0);
}

/* What a family's sheets stand for at a setting: 1 on, 0 off, -1 neither. */
typedef int Meaning(uint32_t size, uint32_t n, uint32_t s);

static uint32_t low(uint32_t word, uint32_t bits)
{
    return word & (((uint32_t)1 << bits) - 1);
}

static int mean_parity(uint32_t size, uint32_t n, uint32_t s) { (void)size; (void)n; return ones(s) % 2; }
static int mean_threshold(uint32_t size, uint32_t n, uint32_t s) { (void)size; return 2 * ones(s) >= n; }
static int mean_late(uint32_t size, uint32_t n, uint32_t s) { (void)size; return ones(s >> (n - 3)) % 2; }
static int mean_mux(uint32_t size, uint32_t n, uint32_t s) { (void)n; return s >> (size + low(s, size)) & 1; }
static int mean_late_mux(uint32_t size, uint32_t n, uint32_t s) { return s >> (s >> (n - size)) & 1; }
static int mean_apart(uint32_t size, uint32_t n, uint32_t s) { (void)n; return (low(s, size) + (s >> size)) >> size; }

/* The number in every other bit from the lowest on, whose highest or lowest bit comes first. */
static uint32_t every_other(uint32_t word, uint32_t bits, bool high_first)
{
    uint32_t number = 0;
    for (uint32_t i = 0; i < bits; i++)
        number |= (word >> 2 * i & 1) << (high_first ? bits - 1 - i : i);
    return number;
}

static int mean_comparator(uint32_t size, uint32_t n, uint32_t s)
{
    (void)n;
    return every_other(s, size, true) > every_other(s >> 1, size, true);
}

static int mean_carry(uint32_t size, uint32_t n, uint32_t s)
{
    (void)n;
    return (every_other(s, size, false) + every_other(s >> 1, size, false)) >> size;
}

static int mean_codes(uint32_t size, uint32_t n, uint32_t s)
{
    uint32_t level = low(s, n - 1), used = (uint32_t)5 << (n - 4);
    (void)size;
    return !(s >> (n - 1)) ? 0 : level >= used ? -1 : level == used / 2;
}

static int mean_switches(uint32_t size, uint32_t n, uint32_t s)
{
    (void)size, (void)n;
    return !(s & 1) ? 0 : ones(s >> 1) != 1 ? -1 : s == 3;
}

/* In the order of families[]; a family of random clauses has no meaning beside its clauses. */
static Meaning *const meanings[FAMILIES] = {mean_parity, mean_threshold, mean_mux, mean_comparator, mean_carry, mean_carry, mean_apart,
                                            NULL, NULL, NULL, mean_codes, mean_switches, mean_late, mean_late_mux};

static void check_family(Pair *p, const Family *family, Meaning *means)
{
    for (uint32_t k = 0; k < 6 && family->sizes[k]; k++) {
        uint32_t size = family->sizes[k];
        family->make(p, size);
        list(p, &found);
        check(found.whole.refusal == 0 || (means == mean_parity && size == 10 && found.whole.refusal == 7), family->name, size);
        if (p->n <= 10)
            check_enumerated(p, family->name, size);
        for (uint32_t s = 0; p->n <= 16 && s < (uint32_t)1 << p->n; s++) {
            bool on = satisfied(&p->on, s), off = satisfied(&p->off, s);
            bool good = !(on && off) && (on || off || !family->decided);
            if (means)
                good = good && on == (means(size, p->n, s) == 1) && off == (means(size, p->n, s) == 0);
            if (!good) {
                check(good, family->name, s);
                break;
            }
        }
    }
}

static void check_parity(Pair *p)
{
    static Row rows[2 * MAX_CLAUSES];
    parity(p, 9);
    list(p, &found);
    check(found.whole.refusal == 0 && found.whole.generated == 256 && found.whole.count == 256, "odd parity of", 9);
    write_bytes(&p->on, on_bytes);
    check(plain_phase_rows(9, p->order, p->on.numbers, p->on.count, rows, 2 * MAX_CLAUSES) == 256, "phase of barred rows", 9);
    check(plain_phase_bytes(9, p->order, on_bytes, 4 * p->on.count, rows, 2 * MAX_CLAUSES) == 256, "phase of clauses in place", 9);
    check(rows[0].value == 256 && rows[1].value == 128 && rows[255].value == 511, "settings of odd parity of", 9);
    parity(p, 10);
    list(p, &found);
    check(found.whole.refusal == 7 && p->on.count == 5632 && p->off.count == 5632, "odd parity of", 10);
}

int main(void)
{
    static Pair pair;
    check_cases(&pair);
    check_equal_rows();
    check_refusals(&pair);
    check_random(&pair);
    check_parity(&pair);
    for (uint32_t k = 0; k < FAMILIES; k++)
        check_family(&pair, &families[k], meanings[k]);
    printf("selftest: %d checks, %d failed\n", checks, failures);
    return failures != 0;
}
