/*
 * The test of the history by itself, in both C forms, and a loop that only
 * reads the cells, which is the limit of any test of all of them. The library
 * has no call that makes this test alone. Its calls take at most 4,096 places at
 * the old width and 32,768 at the new one.
 */
#include "harness.h"
#include "parts.h"

#include <stdio.h>

BASE_DECLARE_HISTORY(o3_differences);
BASE_DECLARE_HISTORY(o3_compares);
BASE_DECLARE_HISTORY(native_differences);
BASE_DECLARE_HISTORY(native_compares);

enum { MOST = 32768, LENGTHS = 4, TESTS = 6, ROUNDS = 100, CELLS = 131072 };

static const size_t lengths[LENGTHS] = {8, 888, 4096, MOST};

typedef int test(const uint64_t *ticks, size_t h, size_t place, uint64_t last);

static test *const tests[TESTS] = {
    o3_differences_history,     o3_compares_history,     o3_differences_read,
    native_differences_history, native_compares_history, native_differences_read,
};

static _Alignas(4096) uint64_t ticks[MOST];

/* The shortest time of each test, in nanoseconds. */
static void measure_tests(size_t h, double best[TESTS])
{
    size_t place = h * 5 / 8 + 1, calls = CELLS / h;
    uint64_t last = 1000000 + 40 * h;
    for (size_t i = 0; i < h; i++)
        ticks[(place + i) % h] = 1000000 + 40 * i;
    for (size_t round = 0; round < ROUNDS; round++)
        for (size_t k = 0; k < TESTS; k++) {
            int sum = 0;
            double begin = nanoseconds();
            for (size_t i = 0; i < calls; i++)
                sum += tests[k](ticks, h, place, last);
            double t = (nanoseconds() - begin) / (double)calls;
            if (sum != 0)
                fail("a sound history is refused");
            if (round == 0 || t < best[k])
                best[k] = t;
        }
}

void run_history(void)
{
    printf("The test of the history alone, in C; nanoseconds, best of %d\n\n", ROUNDS);
    printf("%-6s %-22s %12s %9s %9s %14s %9s\n", "H", "", "differences", "compares", "reading",
           "better, a cell", "reading");
    for (size_t i = 0; i < LENGTHS; i++) {
        double best[TESTS];
        size_t h = lengths[i];
        measure_tests(h, best);
        for (size_t k = 0; k < TESTS; k += 3) {
            double better = best[k] < best[k + 1] ? best[k] : best[k + 1];
            printf("%-6zu %-22s %12.1f %9.1f %9.1f %14.3f %9.3f\n", h,
                   k == 0 ? "gcc -O3" : "gcc -O3 -march=native", best[k], best[k + 1], best[k + 2],
                   better / (double)h, best[k + 2] / (double)h);
        }
    }
    printf("\n");
}
