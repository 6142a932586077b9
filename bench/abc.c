#define _XOPEN_SOURCE 700
#include "abc.h"

#include <stdio.h>
#include <stdlib.h>
#include <string.h>
#include <sys/resource.h>

enum { TIMES = 10 };

bool abc_is_there(void)
{
    return system("command -v berkeley-abc >/dev/null 2>&1") == 0;
}

static FILE *open_file(const char *name, const char *mode)
{
    FILE *file = fopen(name, mode);
    if (!file) {
        perror(name);
        exit(1);
    }
    return file;
}

/* The on sheet as one node that is 0 in every barred row, its inputs in the order of the pair. */
static void write_pair(const Pair *p, const char *name)
{
    static Row rows[MAX_CLAUSES];
    FILE *file = open_file(name, "w");
    size_t count = bar(p->on.numbers, p->on.count, rows);
    fprintf(file, ".model pair\n.inputs");
    for (uint32_t i = 0; i < p->n; i++)
        fprintf(file, " x%u", p->order[i]);
    fprintf(file, "\n.outputs f\n.names");
    for (uint32_t i = 0; i < p->n; i++)
        fprintf(file, " x%u", p->order[i]);
    fprintf(file, " f\n");
    for (size_t k = 0; k < count; k++) {
        for (uint32_t i = 0; i < p->n; i++) {
            uint32_t bit = p->order[i] - 1;
            fputc(!(rows[k].care >> bit & 1) ? '-' : rows[k].value >> bit & 1 ? '1' : '0', file);
        }
        fprintf(file, " 0\n");
    }
    fprintf(file, ".end\n");
    fclose(file);
}

/* Processor seconds of the processes started and ended so far. */
static double spent(void)
{
    struct rusage use;
    getrusage(RUSAGE_CHILDREN, &use);
    return (double)(use.ru_utime.tv_sec + use.ru_stime.tv_sec) + 1e-6 * (double)(use.ru_utime.tv_usec + use.ru_stime.tv_usec);
}

/* Processor seconds for one process that reads and hashes the pair and gives the command, so many times over. */
static double run(const char *command, uint32_t times, const char *last)
{
    FILE *script = open_file("abc.script", "w");
    for (uint32_t i = 0; i < times; i++)
        fprintf(script, "read_blif pair.blif\nstrash\n%s\n", command);
    fprintf(script, "%s\n", last);
    fclose(script);
    double start = spent();
    if (system("berkeley-abc -s -f abc.script >abc.log 2>&1") != 0) {
        fprintf(stderr, "berkeley-abc failed; its words are in abc.log\n");
        exit(1);
    }
    return spent() - start;
}

/* The rows of the one node in the network that abc wrote. */
static void count_rows(Abc *abc, const char *name)
{
    char line[256];
    FILE *file = open_file(name, "r");
    abc->rows = 0;
    while (fgets(line, sizeof line, file)) {
        if (!strchr("01-", line[0]))
            continue;
        abc->rows++;
        abc->inverted = line[strlen(line) - 2] == '0';
    }
    fclose(file);
}

static void keep_best(double *best, double seconds)
{
    if (*best == 0 || seconds < *best)
        *best = seconds;
}

void abc_sample(Abc *abc, const Pair *pair, const char *command)
{
    write_pair(pair, "pair.blif");
    if (abc->times == 0) {
        abc->times = run(command, 1, "write_blif out.blif") > 1 ? 1 : TIMES;
        count_rows(abc, "out.blif");
    }
    keep_best(&abc->without, run("", abc->times, ""));
    keep_best(&abc->with, run(command, abc->times, ""));
}

double abc_seconds(const Abc *abc)
{
    return (abc->with - abc->without) / abc->times;
}
