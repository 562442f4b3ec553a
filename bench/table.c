#define _POSIX_C_SOURCE 200809L
#include "table.h"

#include <stdio.h>
#include <stdlib.h>
#include <string.h>
#include <time.h>

#define SAMPLE_NS 1000000.0

enum { COLUMNS_MOST = 8 };

static struct {
    const column *columns;
    int count, samples;
    const char *by, *rows;
    struct {
        double worst, worst_fast, sum;
        int rows;
    } summary[COLUMNS_MOST];
} table;

void table_begin(int argc, char **argv, const char *by, const char *units, const char *lines, const column *columns, int count)
{
    char head[64];
    table.columns = columns;
    table.count = count;
    table.by = by;
    table.samples = argc > 1 ? atoi(argv[1]) : 9;
    table.rows = argc > 2 ? argv[2] : "";
    snprintf(head, sizeof head, "nanoseconds %s, and the ratio", by);
    printf("%-52s %7s", head, units);
    for (int f = 0; f < count; f++)
        printf(" | %-22s", columns[f].name);
    printf("\n%-52s %7s", lines, "");
    for (int f = 0; f < count; f++)
        printf(" | %7s %7s %6s", "library", "fast C", "ratio");
    printf("\n");
}

int logs_in_turn(void)
{
    static int logs;
    if (logs == 0) {
        const char *said = getenv("LOGS");
        logs = said == NULL ? 1 : atoi(said);
        logs = logs < 1 ? 1 : logs > LOGS_MAX ? LOGS_MAX : logs;
    }
    return logs;
}

int is_wanted(const char *name)
{
    return strstr(name, table.rows) != NULL;
}

void line_begin(const char *name, size_t size)
{
    printf("%-52s %7zu", name, size);
}

void line_blank(void)
{
    printf(" | %7s %7s %6s", "", "", "");
}

void line_end(void)
{
    printf("\n");
}

static double now(void)
{
    struct timespec s;
    clock_gettime(CLOCK_THREAD_CPUTIME_ID, &s);
    return 1e9 * (double)s.tv_sec + (double)s.tv_nsec;
}

static double sample(int f, enum who who, long calls)
{
    double began = now();
    for (long n = 0; n < calls; n++)
        table.columns[f].call(who);
    return (now() - began) / (double)calls;
}

/* Nanoseconds a unit, the best of the samples, taken in turns. */
void line_figure(int f, double units)
{
    double best[2] = {1e30, 1e30}, ratio;
    long calls = logs_in_turn(); /* each sample has every log equally often */
    while (sample(f, FAST, calls) * (double)calls < SAMPLE_NS)
        calls *= 2;
    for (int n = 0; n < table.samples; n++)
        for (enum who who = LIBRARY; who <= FAST; who++) {
            double ns = sample(f, who, calls) / units;
            best[who] = ns < best[who] ? ns : best[who];
        }
    ratio = best[LIBRARY] / best[FAST];
    printf(" | %7.2f %7.2f %6.2f", best[LIBRARY], best[FAST], ratio);
    fflush(stdout);
    table.summary[f].worst = ratio > table.summary[f].worst ? ratio : table.summary[f].worst;
    table.summary[f].worst_fast = best[FAST] > table.summary[f].worst_fast ? best[FAST] : table.summary[f].worst_fast;
    table.summary[f].sum += best[FAST];
    table.summary[f].rows++;
}

void table_end(void)
{
    for (int f = 0; f < table.count; f++)
        if (table.summary[f].rows > 0)
            printf("%-12s worst ratio %5.2f; fast C: mean %5.2f ns %s, slowest row %5.2f\n", table.columns[f].name,
                   table.summary[f].worst, table.summary[f].sum / table.summary[f].rows, table.by, table.summary[f].worst_fast);
}

void must_agree(int good, const char *row, enum who who, const char *function)
{
    if (good)
        return;
    printf("%s: %s disagrees with the independent implementation on %s\n", row, who == FAST ? "bench/fast" : "the library", function);
    exit(1);
}
