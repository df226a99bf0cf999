/*
 * How the cost of a call grows with the history, the banks and the threads. The
 * settings are measured one after another, in several passes, so that a busy
 * moment of the machine does not fall on one of them alone.
 */
#include "kinds.h"
#include "parts.h"

#include <stdio.h>

/* The last length is of the new width alone. */
enum { PASSES = 4, ROUNDS = 10, LENGTHS = BASE_MOST_HISTORY < 32768 ? 3 : 4, SIZES = 5 };

static const size_t lengths[] = {8, 888, 4096, 32768};

static const struct shape length_shapes[] = {
    {200, 1400000, 255, 16, 8},
    {31065, 24528, 255, 16, 8},
    {143360, 24528, 255, 16, 8},
    {1146880, 24528, 255, 16, 8},
};

static const struct shape size_shapes[SIZES] = {
    {200, 1400000, 255, 1, 8},  {200, 1400000, 255, 4, 8},   {200, 1400000, 255, 16, 8},
    {200, 1400000, 255, 16, 1}, {200, 1400000, 255, 16, 32},
};

/* Measures n shapes; each gets the times of its kinds of calls. */
static void measure_shapes(const struct shape *shapes, size_t n, struct times least[][KINDS])
{
    struct times now[KINDS];
    for (size_t pass = 0; pass < PASSES; pass++)
        for (size_t i = 0; i < n; i++) {
            measure_kinds(&shapes[i], ROUNDS, now);
            keep_least(pass, least[i], now, KINDS);
        }
}

static void run_lengths(void)
{
    struct times times[LENGTHS][KINDS];
    measure_shapes(length_shapes, LENGTHS, times);
    printf("Growth with H: 16 banks, 8 threads; nanoseconds a call, best of %d\n", PASSES * ROUNDS);
    for (size_t i = 0; i < LENGTHS; i++) {
        char name[32];
        snprintf(name, sizeof name, "H %zu", lengths[i]);
        printf("\n");
        print_heading(name);
        for (size_t k = 0; k < SHOWN; k++)
            print_times(kind_names[k], &times[i][k]);
    }
    printf("\nNanoseconds a cell: an index reading at H less one at H 8, by the cells more\n\n");
    printf("%-8s %9s %9s %18s\n", "H", "library", "gcc -O3", "-O3 -march=native");
    for (size_t i = 1; i < LENGTHS; i++) {
        const struct times *few = &times[0][READING], *many = &times[i][READING];
        double cells = (double)(lengths[i] - lengths[0]);
        printf("%-8zu %9.3f %9.3f %18.3f\n", lengths[i],
               (many->ns[LIBRARY] - few->ns[LIBRARY]) / cells,
               (best_o3(many) - best_o3(few)) / cells,
               (best_native(many) - best_native(few)) / cells);
    }
}

/* What the lines of a size show. */
enum { LINE_LIBRARY, LINE_O3, LINE_NATIVE, LINE_FORMER, LINES };

static double time_of(const struct times *t, size_t line)
{
    return line == LINE_LIBRARY  ? t->ns[LIBRARY]
           : line == LINE_O3     ? best_o3(t)
           : line == LINE_NATIVE ? best_native(t)
                                 : t->ns[FORMER];
}

static void run_sizes(void)
{
    static const char *const names[LINES] = {"library", "gcc -O3", "gcc -O3 -march=native",
                                             "former"};
    size_t lines = has_former() ? LINES : LINE_FORMER;
    struct times times[SIZES][KINDS];
    measure_shapes(size_shapes, SIZES, times);
    printf("\nGrowth with banks and threads: H 8; nanoseconds a call, best of %d\n\n",
           PASSES * ROUNDS);
    printf("%5s %7s  %-22s %9s %9s %9s %9s %9s\n", "banks", "threads", "", "row wait", "bank wait",
           "opened", "done", "index");
    for (size_t i = 0; i < SIZES; i++)
        for (size_t line = 0; line < lines; line++) {
            printf("%5d %7d  %-22s", (int)size_shapes[i].banks, (int)size_shapes[i].threads,
                   names[line]);
            for (size_t k = 0; k < SHOWN; k++)
                printf(" %9.1f", time_of(&times[i][k], line));
            printf("\n");
        }
    printf("\n");
}

void run_growth(void)
{
    run_lengths();
    run_sizes();
}
