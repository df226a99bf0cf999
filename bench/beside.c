/* Times of the library and of three builds of plain C, by turns. See beside.h. */
#define _POSIX_C_SOURCE 199309L
#include "beside.h"

#include <stdio.h>
#include <stdlib.h>
#include <time.h>

static const char *const names[BUILDS] = {"library", "gcc -O2", "gcc -O3", "-march=native"};
static const char *const ratio_names[BUILDS] = {"", "/ -O2", "/ -O3", "/ native"};

static size_t taken;
static double spent[BUILDS][MOST_ROUNDS];

_Noreturn void fail(const char *what)
{
    fprintf(stderr, "bench: %s\n", what);
    exit(1);
}

size_t number_of(const char *word, unsigned long most, const char *wrong)
{
    char *end;
    unsigned long x = strtoul(word, &end, 10);
    if (*word < '0' || *word > '9' || *end != '\0' || x > most)
        fail(wrong);
    return x;
}

uint64_t next_random(void)
{
    static uint64_t x = 88172645463325252u;
    x ^= x << 13;
    x ^= x >> 7;
    x ^= x << 17;
    return x;
}

double nanoseconds(void)
{
    struct timespec t;
    clock_gettime(CLOCK_MONOTONIC, &t);
    return (double)t.tv_sec * 1e9 + (double)t.tv_nsec;
}

void take_times(size_t rounds, double (*time_build)(size_t build))
{
    taken = rounds;
    for (size_t b = 0; b < BUILDS; b++)
        time_build(b);
    for (size_t r = 0; r < rounds; r++)
        for (size_t k = 0; k < BUILDS; k++) {
            size_t b = (k + r) % BUILDS;
            spent[b][r] = time_build(b);
        }
}

double best_time(size_t build)
{
    double best = spent[build][0];
    for (size_t r = 1; r < taken; r++)
        best = spent[build][r] < best ? spent[build][r] : best;
    return best;
}

static int by_size(const void *x, const void *y)
{
    double a = *(const double *)x, b = *(const double *)y;
    return (a > b) - (a < b);
}

static void print_pair(const struct columns *c, double best, double values[MOST_ROUNDS])
{
    qsort(values, taken, sizeof *values, by_size);
    printf(" %*.*f %*.*f", c->best, c->digits, best, c->median, c->digits, values[taken / 2]);
}

void print_times(const struct columns *times, const struct columns *ratios)
{
    double values[MOST_ROUNDS];
    for (size_t b = 0; b < BUILDS; b++) {
        for (size_t r = 0; r < taken; r++)
            values[r] = spent[b][r];
        print_pair(times, best_time(b), values);
    }
    for (size_t b = 1; b < BUILDS; b++) {
        for (size_t r = 0; r < taken; r++)
            values[r] = spent[LIBRARY][r] / spent[b][r];
        print_pair(ratios, best_time(LIBRARY) / best_time(b), values);
    }
}

void print_builds(const struct columns *times, const struct columns *ratios)
{
    for (size_t b = 0; b < BUILDS; b++)
        printf(" %*s", times->best + 1 + times->median, names[b]);
    for (size_t b = 1; b < BUILDS; b++)
        printf(" %*s", ratios->best + 1 + ratios->median, ratio_names[b]);
}

void print_columns(const struct columns *times, const struct columns *ratios)
{
    for (size_t b = 0; b < 2 * BUILDS - 1; b++) {
        const struct columns *c = b < BUILDS ? times : ratios;
        printf(" %*s %*s", c->best, "best", c->median, "median");
    }
}
