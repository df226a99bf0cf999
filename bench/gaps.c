/*
 * Index readings with large ticks and large gaps in the history. A test of the
 * history that trusts small differences has to look again where one is large.
 */
#include "harness.h"
#include "parts.h"

#include <stdio.h>

enum { BATCH = 512, PIECES = 16, PASSES = 4, ROUNDS = 10, STEP = 50, LENGTHS = 2, CASES = 4 };

static const size_t lengths[LENGTHS] = {888, 4096};

static const struct shape shapes[LENGTHS] = {
    {31065, 24528, 64, 16, 8},
    {143360, 24528, 64, 16, 8},
};

/* The first tick of a history, and a gap in the middle of it. */
struct history {
    const char *name;
    uint64_t first;
    uint64_t gap;
};

static const struct history cases[CASES] = {
    {"small ticks", 1000, STEP},
    {"ticks from 2^61 on", (uint64_t)1 << 61, STEP},
    {"a gap of 2^50 ticks", 1000, (uint64_t)1 << 50},
    {"a gap of 2^60 ticks", 1000, (uint64_t)1 << 60},
};

/*
 * Fills h places with activations, each reported done at once, so that no
 * thread reaches its quota, and returns the tick of the last one.
 */
static uint64_t fill(const struct history *history, size_t h)
{
    uint64_t now = history->first;
    for (size_t i = 0; i < h; i++) {
        struct reply r;
        struct call c = {now, (uint16_t)(i * 40503u), i % 16, i / 16 % 8, REQUEST};
        call_all(&c, &r);
        if (r.out[0] != THROTTLE_OPENED)
            fail("the history is not filled");
        c.kind = DONE;
        call_all(&c, &r);
        if (i + 1 < h)
            now += i == h / 2 ? history->gap : STEP;
    }
    return now;
}

static void measure_history(const struct shape *s, size_t h, const struct history *history,
                            struct times *times)
{
    take_shape(s);
    uint64_t now = fill(history, h);
    start_list();
    for (size_t i = 0; i < PIECES * BATCH; i++) {
        struct reply r;
        struct call c = {now + i, 0, i % 16, i / 16 % 8, INDEX};
        add_call(&c, &r);
        if (i % BATCH == BATCH - 1)
            end_piece(0);
    }
    measure(ROUNDS, 4, times);
}

/* The cases of all lengths, in several passes; see growth.c. */
static void measure_cases(struct times least[LENGTHS][CASES])
{
    for (size_t pass = 0; pass < PASSES; pass++)
        for (size_t i = 0; i < LENGTHS; i++)
            for (size_t k = 0; k < CASES; k++) {
                struct times now;
                measure_history(&shapes[i], lengths[i], &cases[k], &now);
                keep_least(pass, &least[i][k], &now, 1);
            }
}

void run_gaps(void)
{
    struct times times[LENGTHS][CASES];
    measure_cases(times);
    printf("Index readings, large ticks and gaps: 16 banks, 8 threads; nanoseconds a call, "
           "best of %d\n\n",
           PASSES * ROUNDS);
    print_heading("history");
    for (size_t i = 0; i < LENGTHS; i++)
        for (size_t k = 0; k < CASES; k++) {
            char name[64];
            snprintf(name, sizeof name, "H %zu, %s", lengths[i], cases[k].name);
            print_times(name, &times[i][k]);
        }
    printf("\n");
}
