/* One table: each family's list by the proved program and by the plain C program, side by side in one run. */
#include "abc.h"
#include "ours.h"

#include <stdio.h>
#include <stdlib.h>
#include <string.h>
#include <time.h>

enum { ROUNDS = 25, ABC_ROUNDS = 5, LINES = 64, WORDS = 4 * MAX_CLAUSES };

/* A call to measure; it answers a number that both sides must agree on. */
typedef uint64_t Call(const Pair *pair);

static uint32_t care[MAX_ROWS], value[MAX_ROWS];
static uint8_t bytes[4 * MAX_NUMBERS]; /* the on sheet of the search phase */
static Row rows_c[WORDS / 2];          /* and what it leaves */

/* The refusal, the count and a sum over the rows. */
static uint64_t digest(uint32_t refusal, size_t count)
{
    uint64_t sum = refusal;
    for (size_t i = 0; refusal == 0 && i < count; i++)
        sum = (sum * 31 + care[i]) * 31 + value[i];
    return sum * 257 + count;
}

static uint64_t whole_c(const Pair *p)
{
    Whole whole = plain_whole(p->n, p->order, p->n, p->on.numbers, p->on.count, p->off.numbers, p->off.count,
                              care, MAX_ROWS, value, MAX_ROWS);
    return digest(whole.refusal, whole.count);
}

static uint64_t phase_rows_c(const Pair *p)
{
    return plain_phase_rows(p->n, p->order, p->on.numbers, p->on.count, rows_c, WORDS / 2);
}

static uint64_t phase_bytes_c(const Pair *p)
{
    return plain_phase_bytes(p->n, p->order, bytes, 4 * p->on.count, rows_c, WORDS / 2);
}

#ifdef HAVE_PROBE
static uint32_t words_ours[WORDS];

static uint64_t whole_ours(const Pair *p)
{
    uint64_t answer = probe_whole(p->n, p->order, p->n, p->on.numbers, p->on.count, p->off.numbers, p->off.count,
                                  care, MAX_ROWS, value, MAX_ROWS);
    uint32_t refusal = (uint32_t)(answer >> 56);
    return digest(refusal, refusal ? 0 : (uint32_t)answer);
}

static uint64_t phase_rows_ours(const Pair *p)
{
    return bench_phase_rows(p->n, p->order, p->n, p->on.numbers, p->on.count, words_ours, WORDS);
}

static uint64_t phase_bytes_ours(const Pair *p)
{
    return bench_phase_bytes(p->n, p->order, p->n, bytes, 4 * p->on.count, words_ours, WORDS);
}

/* After a phase of both. */
static bool same_rows(void)
{
    return memcmp(words_ours, rows_c, sizeof rows_c) == 0;
}
#else
static Call *const whole_ours = NULL, *const phase_rows_ours = NULL, *const phase_bytes_ours = NULL;

static bool same_rows(void)
{
    return true;
}
#endif

/* What is measured on one line of the table. */
typedef struct {
    const Family *family;
    Pair pair;
    Whole whole;
    Call *ours, *c;
    uint32_t times;              /* calls to a sample */
    double best_ours, best_c;    /* seconds a call; 0 where there is none yet */
    Abc satclp, collapse;
} Line;

static Line lines[LINES];
static size_t line_count;

static double sample(Call *call, const Pair *pair, uint32_t times)
{
    clock_t start = clock();
    for (uint32_t i = 0; i < times; i++)
        call(pair);
    return (double)(clock() - start) / CLOCKS_PER_SEC / times;
}

static void keep_best(double *best, double seconds)
{
    if (*best == 0 || seconds < *best)
        *best = seconds;
}

static Line *add(const Family *family, uint32_t size, Call *ours, Call *c)
{
    Line *line = &lines[line_count++];
    line->family = family;
    line->ours = ours;
    line->c = c;
    family->make(&line->pair, size);
    const Pair *p = &line->pair;
    line->whole = plain_whole(p->n, p->order, p->n, p->on.numbers, p->on.count, p->off.numbers, p->off.count,
                              care, MAX_ROWS, value, MAX_ROWS);
    return line;
}

/* Both sides must agree. A sample is one call, or calls for about four milliseconds. */
static void prepare(Line *line)
{
    if (line->ours && (line->ours(&line->pair) != line->c(&line->pair) || !same_rows())) {
        fprintf(stderr, "%s %u: the two programs differ\n", line->family->name, line->pair.n);
        exit(1);
    }
    line->times = 1;
    while (line->times < 1 << 20 && sample(line->c, &line->pair, line->times) * line->times < 0.004)
        line->times *= 2;
}

static void measure(Line *line)
{
    keep_best(&line->best_c, sample(line->c, &line->pair, line->times));
    if (line->ours)
        keep_best(&line->best_ours, sample(line->ours, &line->pair, line->times));
}

static bool for_abc(const Line *line)
{
    return line->c == whole_c && line->family->decided && !line->whole.refusal;
}

static void measure_abc(Line *line)
{
    abc_sample(&line->satclp, &line->pair, "satclp -c");
    abc_sample(&line->collapse, &line->pair, "collapse; sop");
}

static void print_times(const Line *line)
{
    if (line->ours)
        printf(" %10.3f %10.3f %7.2f", 1e3 * line->best_ours, 1e3 * line->best_c, line->best_ours / line->best_c);
    else
        printf(" %10s %10.3f %7s", "-", 1e3 * line->best_c, "-");
}

static void print_growth(double above, double here)
{
    if (above > 0)
        printf(" %7.2f", here / above);
    else
        printf(" %7s", "-");
}

static void print_abc(const Abc *abc, double ours)
{
    printf(" %13.3f %5zu%s", 1e3 * abc_seconds(abc), abc->rows, abc->inverted ? "*" : " ");
    if (ours > 0)
        printf(" %7.2f", abc_seconds(abc) / ours);
    else
        printf(" %7s", "-");
}

static void print_line(const Line *line, const Line *above, bool abc)
{
    printf("%-18s %2u %5zu %5zu", line->family->name, line->pair.n, line->pair.on.count, line->pair.off.count);
    if (line->whole.refusal)
        printf("   >256     -");
    else
        printf(" %6zu %5zu", line->whole.generated, line->whole.count);
    print_times(line);
    print_growth(above ? above->best_ours : 0, line->best_ours);
    print_growth(above ? above->best_c : 0, line->best_c);
    if (abc && for_abc(line)) {
        print_abc(&line->satclp, line->best_ours);
        print_abc(&line->collapse, line->best_ours);
    }
    printf("\n");
}

static void print_head(bool ours, bool abc)
{
    printf("Processor time of one call in milliseconds: the best of %d samples, taken in turn in %d rounds over the table.\n",
           ROUNDS, ROUNDS);
    printf("on, off: numbers of the sheets. ratio: ours / plain C. growth: time / time of the line above, ours and plain C.\n");
    if (!ours)
        printf("ours: left out, for crates/probe/out/libprobe.a is not there (rt lib in crates/probe).\n");
    if (abc)
        printf("abc: the best of %d; process start, reading and hashing taken off. *: it took the off settings' list, as the shorter.\n",
               ABC_ROUNDS);
    else
        printf("abc: left out, for berkeley-abc is not installed.\n");
    printf("\n%-18s %2s %5s %5s %6s %5s %10s %10s %7s %7s %7s", "family", "n", "on", "off", "gener.", "list", "ours", "plain C",
           "ratio", "growth", "growth");
    if (abc)
        printf(" %13s %5s  %7s %13s %5s  %7s", "satclp -c", "rows", "/ ours", "collapse; sop", "rows", "/ ours");
    printf("\n");
}

int main(void)
{
    bool abc = abc_is_there();
    for (size_t f = 0; f < FAMILIES; f++)
        for (uint32_t k = 0; k < 6 && families[f].sizes[k]; k++)
            add(&families[f], families[f].sizes[k], whole_ours, whole_c);
    const size_t wholes = line_count;
    const Line *barred = add(&families[0], 9, phase_rows_ours, phase_rows_c);
    const Line *in_place = add(&families[0], 9, phase_bytes_ours, phase_bytes_c);
    write_bytes(&in_place->pair.on, bytes);

    for (size_t i = 0; i < line_count; i++)
        prepare(&lines[i]);
    for (uint32_t round = 0; round < ROUNDS; round++)
        for (size_t i = 0; i < line_count; i++) {
            measure(&lines[i]);
            if (abc && round < ABC_ROUNDS && for_abc(&lines[i]))
                measure_abc(&lines[i]);
        }

    print_head(lines[0].ours != NULL, abc);
    for (size_t i = 0; i < wholes; i++)
        print_line(&lines[i], i > 0 && lines[i - 1].family == lines[i].family ? &lines[i - 1] : NULL, abc);
    printf("%-46s", "search phase, barred rows (parity of 9)");
    print_times(barred);
    printf("\n%-46s", "search phase, clauses in place (parity of 9)");
    print_times(in_place);
    printf("\n");
    return 0;
}
