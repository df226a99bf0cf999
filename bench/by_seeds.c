/*
 * Each kind of call under the house seeds and under others, at three lengths of
 * the history. The lengths and seeds are measured one after another, in several
 * passes; see growth.c.
 */
#include "kinds.h"
#include "parts.h"
#include "seeds.h"

#include <stdio.h>

enum { PASSES = 4, ROUNDS = 15, LENGTHS = 3 };

static const size_t lengths[LENGTHS] = {32, 888, 4096};

static const struct shape shapes[LENGTHS] = {
    {1120, 242250, 255, 16, 8},
    {31065, 24528, 255, 16, 8},
    {143360, 24528, 255, 16, 8},
};

static void measure_lengths(struct times least[LENGTHS][SEEDINGS][KINDS])
{
    struct times now[KINDS];
    for (size_t pass = 0; pass < PASSES; pass++)
        for (size_t i = 0; i < LENGTHS; i++)
            for (size_t s = 0; s < SEEDINGS; s++) {
                take_seeds(s);
                measure_kinds(&shapes[i], ROUNDS, now);
                keep_least(pass, least[i][s], now, KINDS);
            }
    take_seeds(HOUSE_SEEDS);
}

/* Where there is a former library, its time comes before the library's, and their ratio after. */
static void print_head(size_t length)
{
    printf("\nH %-21zu", length);
    for (size_t s = 0; s < SEEDINGS; s++)
        printf(has_former() ? " %26s" : " %18s", seeds_names[s]);
    printf("  %19s\n%-23s", "C, house seeds", "");
    for (size_t s = 0; s < SEEDINGS; s++)
        if (has_former())
            printf(" %10s %8s %6s", "former", "library", "ratio");
        else
            printf(" %18s", "library");
    printf("  %9s %9s\n", "-O3", "native");
}

static void print_line(size_t kind, const struct times by[SEEDINGS])
{
    printf("%-23s", kind_names[kind]);
    for (size_t s = 0; s < SEEDINGS; s++) {
        const double *ns = by[s].ns;
        if (has_former())
            printf(" %10.1f %8.1f %6.2f", ns[FORMER], ns[LIBRARY], ns[LIBRARY] / ns[FORMER]);
        else
            printf(" %18.1f", ns[LIBRARY]);
    }
    printf("  %9.1f %9.1f\n", best_o3(&by[HOUSE_SEEDS]), best_native(&by[HOUSE_SEEDS]));
}

void run_seeds(void)
{
    struct times times[LENGTHS][SEEDINGS][KINDS];
    measure_lengths(times);
    printf("By seeds: 16 banks, 8 threads; nanoseconds a call, best of %d\n", PASSES * ROUNDS);
    for (size_t i = 0; i < LENGTHS; i++) {
        print_head(lengths[i]);
        for (size_t k = 0; k < SHOWN; k++) {
            struct times by[SEEDINGS];
            for (size_t s = 0; s < SEEDINGS; s++)
                by[s] = times[i][s][k];
            print_line(k, by);
        }
    }
    printf("\n");
}
