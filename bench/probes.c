/*
 * Measures throttle_fit_probes beside three builds of the same call in plain C
 * (probes_plain.c), all in one process and on the same lists, by turns.
 *
 *   probes PAIRS ROUNDS
 *
 * All builds must answer alike, in every round and on many short lists before.
 */
#include "beside.h"
#include "probes_plain.h"

#include <inttypes.h>
#include <stdio.h>
#include <stdlib.h>
#include <string.h>

PLAIN_DECLARE(o2);
PLAIN_DECLARE(o3);
PLAIN_DECLARE(native);

enum { SHORT_LISTS = 200000, LONGEST_SHORT = 4 };
/* Lists of fewer pairs are asked about several times in a round. */
enum { FEW_PAIRS = 100000, CALLS_OF_FEW = 100 };

static const struct columns times = {7, 6, 2};

typedef uint32_t fit_call(const uint64_t *, size_t, const uint32_t *, size_t, uint64_t,
                          const uint64_t *, size_t, const uint32_t *, size_t, uint64_t, uint64_t,
                          uint64_t[THROTTLE_LEAST THROTTLE_PROBES_OUT]);

static fit_call *const builds[BUILDS] = {
    [LIBRARY] = throttle_fit_probes,
    [O2] = o2_fit_probes,
    [O3] = o3_fit_probes,
    [NATIVE] = native_fit_probes,
};

/* One of the two lists: its memory, and how many of its records are given. */
struct list {
    uint64_t *ticks;
    uint32_t *rows;
    size_t length;
    uint64_t count;
};

/* What a call gave back. */
struct answer {
    uint64_t code;
    uint64_t out[THROTTLE_PROBES_OUT];
};

static struct list first, second;
static uint64_t jitter;
static size_t rounds;
/* What all builds answer to the lists that are measured. */
static struct answer measured;

/* The words of out hold a pattern that shows where one is not written. */
static struct answer ask(size_t build)
{
    struct answer a = {0, {UINT64_C(0x5a5a5a5a5a5a5a5a), UINT64_C(0x5a5a5a5a5a5a5a5a)}};
    a.code = builds[build](first.ticks, first.length, first.rows, first.length, first.count,
                           second.ticks, second.length, second.rows, second.length, second.count,
                           jitter, a.out);
    return a;
}

static void must_be(const struct answer *a, const struct answer *wanted)
{
    if (memcmp(a, wanted, sizeof *a) != 0)
        fail("an answer is another than it must be");
}

/* Short lists of values at the ends of their ranges; some are refused with 6 or with 18. */
static void fill_short(struct list *l)
{
    static const uint64_t ticks[] = {0, 1, 999, 1000, 1001, 2000, 2001, (UINT64_C(1) << 62) - 1};
    l->length = next_random() % (LONGEST_SHORT + 1);
    l->count = next_random() % 16 != 0 ? l->length : next_random() % (LONGEST_SHORT + 2);
    for (size_t i = 0; i < LONGEST_SHORT; i++) {
        l->ticks[i] = ticks[next_random() % 8];
        if (next_random() % 64 == 0)
            l->ticks[i] = (UINT64_C(1) << 62) << next_random() % 2;
        l->rows[i] = next_random() % 16 != 0 ? 0 : next_random() % 2 != 0 ? 65536 : 1;
    }
}

/* All builds answer many short lists alike; there are lists that fit, that do not, and both refusals. */
static void compare_short(void)
{
    static const uint64_t jitters[] = {0, 1, 999, 1000, 1000, 1001, UINT64_MAX};
    uint64_t ticks[2][LONGEST_SHORT], seen[4] = {0};
    uint32_t rows[2][LONGEST_SHORT];
    first = (struct list){ticks[0], rows[0], 0, 0};
    second = (struct list){ticks[1], rows[1], 0, 0};
    for (size_t i = 0; i < SHORT_LISTS; i++) {
        fill_short(&first);
        fill_short(&second);
        if (next_random() % 4 != 0) {
            second.length = first.length;
            second.count = first.count;
        }
        jitter = jitters[next_random() % 7];
        struct answer wanted = ask(LIBRARY);
        seen[wanted.code == 0 ? wanted.out[0] & 1 : wanted.code == 6 ? 2 : 3]++;
        for (size_t b = 1; b < BUILDS; b++) {
            struct answer a = ask(b);
            must_be(&a, &wanted);
        }
    }
    if (seen[0] == 0 || seen[1] == 0 || seen[2] == 0 || seen[3] == 0)
        fail("the short lists do not lead to every kind of answer");
}

static void *room(size_t cells, size_t size)
{
    void *p = calloc(cells, size);
    if (p == NULL)
        fail("out of memory");
    return p;
}

/* Random rows, ticks that rise; the second ticks are 87 to 107 more, 107 in the first pair. */
static void fill(size_t pairs)
{
    uint64_t tick = 0;
    first = (struct list){room(pairs, sizeof(uint64_t)), room(pairs, sizeof(uint32_t)), pairs, pairs};
    second = (struct list){room(pairs, sizeof(uint64_t)), room(pairs, sizeof(uint32_t)), pairs, pairs};
    for (size_t i = 0; i < pairs; i++) {
        tick += 1 + next_random() % 400;
        first.ticks[i] = tick;
        second.ticks[i] = tick + 87 + (i < 2 ? 20 - 20 * i : next_random() % 21);
        first.rows[i] = second.rows[i] = (uint32_t)next_random() & 0xfffff;
    }
    jitter = 10;
}

/* The records of the longer list. */
static double longer(void)
{
    return (double)(first.count > second.count ? first.count : second.count);
}

/* The time of a build for each of these; it must answer alike every time. */
static double time_build(size_t build)
{
    double pairs = longer();
    size_t calls = pairs < FEW_PAIRS ? CALLS_OF_FEW : 1;
    double begin = nanoseconds();
    for (size_t i = 0; i < calls; i++) {
        struct answer a = ask(build);
        must_be(&a, &measured);
    }
    return (nanoseconds() - begin) / pairs / (double)calls;
}

/* Measures the lists as they are, and prints a line; all builds must answer this. */
static void measure(const char *name, uint64_t code, uint64_t fits, uint64_t offset)
{
    measured = (struct answer){code, {fits, offset}};
    if (code != 0)
        measured.out[0] = measured.out[1] = UINT64_C(0x5a5a5a5a5a5a5a5a);
    take_times(rounds, time_build);
    printf("%-27s %9" PRIu64, name, (uint64_t)longer());
    print_times(&times, &times);
    printf("\n");
    fflush(stdout);
}

static void print_heading(void)
{
    printf("%-37s", "");
    print_builds(&times, &times);
    printf("\n%-27s %9s", "lists", "pairs");
    print_columns(&times, &times);
    printf("\n");
}

/*
 * Lists that fit, of several lengths, the shortest of which stays in a cache; then
 * lists that do not fit, for each reason, and one that is refused.
 */
static void measure_all(size_t pairs)
{
    static const size_t parts[] = {1000, 10, 5, 2, 1};
    for (size_t i = 0; i < sizeof parts / sizeof *parts; i++) {
        first.count = second.count = pairs / parts[i];
        measure("they fit", 0, 1, 97);
    }
    second.rows[0] ^= 1;
    measure("the first rows differ", 0, 0, 0);
    second.rows[0] ^= 1;
    jitter = 9;
    measure("differences too far apart", 0, 0, 0);
    jitter = 10;
    second.count = pairs / 2;
    measure("the second is half as long", 0, 0, 0);
    second.count = pairs;
    uint64_t last = second.ticks[pairs - 1];
    second.ticks[pairs - 1] = UINT64_C(1) << 62;
    measure("the last tick is 2^62", 18, 0, 0);
    second.ticks[pairs - 1] = last;
}

int main(int argc, char **argv)
{
    if (argc != 3)
        fail("PAIRS and ROUNDS are needed");
    static const char wrong[] = "PAIRS and ROUNDS must be whole numbers, ROUNDS at most 1000";
    size_t pairs = number_of(argv[1], SIZE_MAX / 16, wrong);
    rounds = number_of(argv[2], MOST_ROUNDS, wrong);
    if (pairs < 1000 || rounds == 0)
        fail("at least 1000 pairs and a round are needed");
    compare_short();
    fill(pairs);
    print_heading();
    measure_all(pairs);
    return 0;
}
