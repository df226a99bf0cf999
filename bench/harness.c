/* What the parts of the benchmark share. See harness.h. */
#define _POSIX_C_SOURCE 199309L
#include "harness.h"
#include "seeds.h"

#include <stdio.h>
#include <stdlib.h>
#include <string.h>
#include <time.h>

/* The library's calls of the width. */
#ifdef BASE_WIDE
#define LIBRARY_PREFIX throttle_wide
#else
#define LIBRARY_PREFIX throttle
#endif

BASE_DECLARE(o3_differences);
BASE_DECLARE(o3_compares);
BASE_DECLARE(native_differences);
BASE_DECLARE(native_compares);
BASE_DECLARE(former);
/* Null where the program is linked without a former library. */
#pragma weak former_setup
#pragma weak former_request
#pragma weak former_done
#pragma weak former_index

/* One of the implementations. */
struct build {
    uint32_t (*setup)(BASE_STATE);
    uint32_t (*request)(BASE_STATE, uint64_t, uint64_t, uint64_t, uint16_t,
                        uint64_t[THROTTLE_LEAST THROTTLE_REQUEST_OUT]);
    uint32_t (*done)(BASE_STATE, uint64_t, uint64_t, uint64_t);
    uint32_t (*index)(BASE_STATE, uint64_t, uint64_t, uint64_t,
                      uint64_t[THROTTLE_LEAST THROTTLE_INDEX_OUT]);
};

#define BUILD(prefix)                                             \
    {                                                             \
        BASE_NAME(prefix, setup), BASE_NAME(prefix, request),     \
            BASE_NAME(prefix, done), BASE_NAME(prefix, index)     \
    }

static const struct build builds[BUILDS] = {
    [LIBRARY] = BUILD(LIBRARY_PREFIX),
    [O3_DIFFERENCES] = BUILD(o3_differences),
    [O3_COMPARES] = BUILD(o3_compares),
    [NATIVE_DIFFERENCES] = BUILD(native_differences),
    [NATIVE_COMPARES] = BUILD(native_compares),
    [FORMER] = BUILD(former),
};

/*
 * The memory of one state, as long as the largest setting needs. It is aligned
 * so that the cells of all builds lie alike in pages and cache lines.
 */
struct memory {
    _Alignas(4096) uint64_t head[THROTTLE_HEAD_CELLS];
    uint64_t ticks[BASE_MOST_HISTORY];
    uint32_t rows[BASE_MOST_HISTORY];
    uint32_t threads[THROTTLE_MOST_THREAD_CELLS];
    base_counter counters[THROTTLE_MOST_COUNTER_CELLS];
};

/* Successive calls of a list that are timed together. */
struct piece {
    size_t first, end;
    size_t class;
};

static struct memory memories[BUILDS];
static struct memory origin; /* the state from which the list starts */
static struct call calls[MOST_CALLS];
static size_t calls_made;
static struct piece pieces[MOST_PIECES];
static size_t pieces_made;
static size_t seeding = HOUSE_SEEDS;
static uint16_t seeds[THROTTLE_SEEDS];
static uint64_t words[THROTTLE_SETTING_WORDS];
const uint64_t *setting;

#define STATE(m)                                                                           \
    setting, seeds, THROTTLE_SEEDS, (m)->head, (m)->counters, THROTTLE_MOST_COUNTER_CELLS, \
        (m)->ticks, BASE_MOST_HISTORY, (m)->rows, BASE_MOST_HISTORY, (m)->threads,         \
        THROTTLE_MOST_THREAD_CELLS

_Noreturn void fail(const char *what)
{
    fprintf(stderr, "bench: %s\n", what);
    exit(1);
}

uint64_t next_random(uint64_t *x)
{
    *x ^= *x << 13;
    *x ^= *x >> 7;
    *x ^= *x << 17;
    return *x;
}

double nanoseconds(void)
{
    struct timespec t;
    clock_gettime(CLOCK_MONOTONIC, &t);
    return (double)t.tv_sec * 1e9 + (double)t.tv_nsec;
}

int has_former(void)
{
    return builds[FORMER].setup != NULL;
}

/* The number of builds that there are. */
static size_t present(void)
{
    return has_former() ? BUILDS : FORMER;
}

void take_seeds(size_t which)
{
    seeding = which;
}

/* The memories are set up over a pattern that shows in the cells that nothing may touch. */
void take_shape(const struct shape *shape)
{
    struct throttle_setting s = {
        .w = 256000000,
        .trc = 185,
        .tfaw = 140,
        .n = 8192,
        .td = shape->td,
        .l = shape->l,
        .q = shape->q,
        .banks = shape->banks,
        .threads = shape->threads,
    };
    setting = throttle_words(&s, words);
    make_seeds(seeding, seeds);
    for (size_t b = 0; b < present(); b++) {
        memset(&memories[b], 0x5a, sizeof memories[b]);
        if (builds[b].setup(STATE(&memories[b])) != 0)
            fail("the setting is refused");
    }
}

static inline void run_call(const struct build *b, struct memory *m, const struct call *c,
                            struct reply *r)
{
    if (c->kind == REQUEST)
        r->code = b->request(STATE(m), c->tick, c->bank, c->thread, c->row, r->out);
    else if (c->kind == DONE)
        r->code = b->done(STATE(m), c->tick, c->bank, c->thread);
    else if (c->kind == INDEX)
        r->code = b->index(STATE(m), c->tick, c->bank, c->thread, r->out);
    else
        r->code = b->setup(STATE(m));
}

static void compare_memories(void)
{
    for (size_t b = 1; b < present(); b++)
        if (memcmp(&memories[0], &memories[b], sizeof memories[0]) != 0)
            fail("memory differs");
}

/* The words of out hold a pattern that shows where one is not written. */
void call_all(const struct call *c, struct reply *r)
{
    for (size_t b = 0; b < present(); b++) {
        struct reply other;
        memset(&other, 0x5a, sizeof other);
        run_call(&builds[b], &memories[b], c, &other);
        if (b == 0)
            *r = other;
        else if (memcmp(r, &other, sizeof other) != 0)
            fail("answers differ");
    }
    if (r->code != 0)
        fail("a call is refused");
}

void start_list(void)
{
    compare_memories();
    origin = memories[0];
    calls_made = 0;
    pieces_made = 0;
}

void add_call(const struct call *c, struct reply *r)
{
    if (calls_made == MOST_CALLS)
        fail("the list is too long");
    call_all(c, r);
    calls[calls_made++] = *c;
}

void end_piece(size_t class)
{
    size_t first = pieces_made == 0 ? 0 : pieces[pieces_made - 1].end;
    if (pieces_made == MOST_PIECES || class >= MOST_CLASSES || first == calls_made)
        fail("a piece too many");
    pieces[pieces_made++] = (struct piece){first, calls_made, class};
    compare_memories();
}

/* Replays one piece of the list; sum gathers all that is given back. */
static double time_piece(const struct build *b, struct memory *m, const struct piece *p,
                         uint64_t *sum)
{
    struct reply r = {0, {0}};
    uint64_t s = *sum;
    double begin = nanoseconds();
    for (size_t i = p->first; i < p->end; i++) {
        run_call(b, m, &calls[i], &r);
        s = s * 31 + r.code + r.out[0] + r.out[1] + r.out[2];
    }
    double end = nanoseconds();
    *sum = s;
    return end - begin;
}

/*
 * Replays the whole list once on all builds and keeps the shortest time of each
 * piece. In each round a build has another of the memories, since where one lies
 * can make all calls on it slower.
 */
static void replay(size_t round, size_t span, double least[BUILDS][MOST_PIECES])
{
    uint64_t sums[BUILDS] = {0};
    size_t n = present();
    for (size_t b = 0; b < n; b++)
        memories[b] = origin;
    for (size_t first = 0; first < pieces_made; first += span)
        for (size_t k = 0; k < n; k++) {
            size_t b = (k + round + first / span) % n;
            struct memory *m = &memories[(b + round) % n];
            for (size_t p = first; p < first + span && p < pieces_made; p++) {
                double t = time_piece(&builds[b], m, &pieces[p], &sums[b]);
                if (round == 0 || t < least[b][p])
                    least[b][p] = t;
            }
        }
    for (size_t b = 1; b < n; b++)
        if (sums[b] != sums[0])
            fail("answers differ in the replay");
    compare_memories();
}

void measure(size_t rounds, size_t span, struct times *classes)
{
    static double least[BUILDS][MOST_PIECES];
    size_t counts[MOST_CLASSES] = {0}, last = 0;
    for (size_t round = 0; round < rounds; round++)
        replay(round, span, least);
    for (size_t p = 0; p < pieces_made; p++) {
        counts[pieces[p].class] += pieces[p].end - pieces[p].first;
        last = pieces[p].class > last ? pieces[p].class : last;
    }
    memset(classes, 0, (last + 1) * sizeof *classes);
    for (size_t b = 0; b < present(); b++)
        for (size_t p = 0; p < pieces_made; p++)
            classes[pieces[p].class].ns[b] += least[b][p] / (double)counts[pieces[p].class];
}

static double lesser(double a, double b)
{
    return a < b ? a : b;
}

void keep_least(size_t pass, struct times *least, const struct times *now, size_t n)
{
    for (size_t i = 0; i < n; i++)
        for (size_t b = 0; b < BUILDS; b++)
            least[i].ns[b] = pass == 0 ? now[i].ns[b] : lesser(least[i].ns[b], now[i].ns[b]);
}

double best_o3(const struct times *t)
{
    return lesser(t->ns[O3_DIFFERENCES], t->ns[O3_COMPARES]);
}

double best_native(const struct times *t)
{
    return lesser(t->ns[NATIVE_DIFFERENCES], t->ns[NATIVE_COMPARES]);
}

void print_heading(const char *what)
{
    printf("%-29s %9s %20s %20s %8s %8s", what, "library", "gcc -O3", "-O3 -march=native",
           "/ -O3", "/ native");
    if (has_former())
        printf(" %9s %8s", "former", "/ former");
    printf("\n");
}

void print_times(const char *name, const struct times *t)
{
    const double *ns = t->ns;
    double o3 = best_o3(t), native = best_native(t);
    printf("%-29s %9.1f %8.1f %-11s %8.1f %-11s %8.2f %8.2f", name, ns[LIBRARY], o3,
           ns[O3_DIFFERENCES] <= ns[O3_COMPARES] ? "differences" : "compares", native,
           ns[NATIVE_DIFFERENCES] <= ns[NATIVE_COMPARES] ? "differences" : "compares",
           ns[LIBRARY] / o3, ns[LIBRARY] / native);
    if (has_former())
        printf(" %9.1f %8.2f", ns[FORMER], ns[LIBRARY] / ns[FORMER]);
    printf("\n");
}
