/*
 * The profile, the last word of the setting: which settings are refused with 16
 * and which with a number before it, that every call tests it and a refused one
 * changes nothing, and that the same calls under both profiles give the same
 * replies and leave the same memory. At either width, see lent.h.
 */
#include "calls.h"

_Static_assert(THROTTLE_PROFILE_LARGE == 0 && THROTTLE_PROFILE_SMALL == 1, "the marks");
_Static_assert(THROTTLE_SMALL_BANKS == 4 && THROTTLE_SMALL_HISTORY_CELLS == 1024, "the limits");
_Static_assert(THROTTLE_SMALL_COUNTER_CELLS == THROTTLE_SMALL_BANKS * 2048, "its counters");
_Static_assert(THROTTLE_SMALL_THREAD_CELLS == THROTTLE_SMALL_BANKS * 32 * 3, "its threads");

enum { AROUND = 4, PATTERN = 0xA5 };
static const uint64_t PATTERNS = UINT64_C(0xA5A5A5A5A5A5A5A5);

/*
 * All that the calls are given, in one piece. The cells around each part, and
 * those behind the cells that a setting uses, are touched by nothing.
 */
struct whole {
    struct lent m; /* the parts below, as the calls take them */
    uint64_t a[AROUND], words[THROTTLE_SETTING_WORDS];
    uint64_t b[AROUND], head[THROTTLE_HEAD_CELLS];
    uint64_t c[AROUND], ticks[MOST_HISTORY];
    uint64_t d[AROUND], out[THROTTLE_REQUEST_OUT];
    uint64_t e[AROUND], index[THROTTLE_INDEX_OUT];
    uint64_t f[AROUND];
    uint32_t rows[MOST_HISTORY];
    uint64_t g[AROUND];
    uint32_t threads[THROTTLE_MOST_THREAD_CELLS];
    uint64_t h[AROUND];
    uint16_t seeds[THROTTLE_SEEDS];
    uint64_t i[AROUND];
    counter_cell counters[THROTTLE_MOST_COUNTER_CELLS];
    uint64_t j[AROUND];
};

/* Memory with a pattern in every cell, the setting under this profile and the house seeds. */
static void start(struct whole *w, struct throttle_setting s, uint64_t profile)
{
    memset(w, PATTERN, sizeof *w);
    w->m = (struct lent){.words = w->words,
                         .seeds = w->seeds,
                         .seeds_len = THROTTLE_SEEDS,
                         .head = w->head,
                         .counters = w->counters,
                         .counters_len = THROTTLE_MOST_COUNTER_CELLS,
                         .ticks = w->ticks,
                         .ticks_len = MOST_HISTORY,
                         .rows = w->rows,
                         .rows_len = MOST_HISTORY,
                         .threads = w->threads,
                         .threads_len = THROTTLE_MOST_THREAD_CELLS,
                         .out = w->out,
                         .index = w->index};
    s.profile = profile;
    throttle_words(&s, w->words);
    throttle_house_seeds(w->seeds);
}

/* Every call is refused with this number, and no byte changes. */
static int refused(struct whole *w, uint32_t number, uint64_t tick, uint64_t bank, uint64_t thread)
{
    static struct whole before;
    memcpy(&before, w, sizeof before);
    int all = setup(&w->m) == number && request(&w->m, tick, bank, thread, 5) == number &&
              done(&w->m, tick, bank, thread) == number &&
              reading(&w->m, tick, bank, thread) == number;
    return all && memcmp(&before, w, sizeof before) == 0;
}

/* The cells around the parts hold the pattern. */
static int around_kept(const struct whole *w)
{
    const uint64_t *around[] = {w->a, w->b, w->c, w->d, w->e, w->f, w->g, w->h, w->i, w->j};
    for (size_t k = 0; k < sizeof around / sizeof *around; k++)
        for (size_t i = 0; i < AROUND; i++)
            if (around[k][i] != PATTERNS)
                return 0;
    return 1;
}

/* Every call is answered, the request of a fresh state with opened. */
static int answered(struct whole *w, uint64_t bank, uint64_t thread)
{
    return setup(&w->m) == 0 && request(&w->m, 7, bank, thread, 5) == 0 &&
           w->out[0] == THROTTLE_OPENED && w->out[1] == 0 && w->out[2] + 1 == w->words[3] &&
           reading(&w->m, 7, bank, thread) == 0 && w->index[2] == w->words[6] &&
           done(&w->m, 7, bank, thread) == 0 && around_kept(w);
}

/* The setting under this profile gets this number; 0 means answered. */
static int gets(struct throttle_setting s, uint64_t profile, uint32_t number)
{
    static struct whole w;
    start(&w, s, profile);
    return number == 0 ? answered(&w, s.banks - 1, s.threads - 1) : refused(&w, number, 0, 0, 0);
}

/* S with so many banks, and settings with so many history places. */
#define BANKS(banks) {40, 1, 4, 2, 6, 10, 4, banks, 1, 0}
#define DELAY(td, tfaw, l, banks) {4000, 1, tfaw, 2, td, l, 4, banks, 32, 0}
/* The longest history, and so many ticks more of delay. */
#define LONGER(ticks, banks) {40000, 1, 1, 2, MOST_HISTORY / 4 + ticks, 100, 4, banks, 32, 0}
/* The timing of docs/hardware-guide.md. */
#define CARD(n, td, l, banks) {256000000, 185, 140, n, td, l, 64, banks, 8, 0}

/* Settings with the number that each profile gives. */
static const struct {
    uint32_t large, small;
    struct throttle_setting s;
} cases[] = {
    {0, 0, BANKS(1)},
    {0, 0, BANKS(4)},
    {0, 16, BANKS(5)},
    {0, 16, BANKS(16)},
    {1, 1, BANKS(17)},
    {0, 0, DELAY(256, 1, 100, 4)},       /* H 1,024 */
    {0, 16, DELAY(257, 1, 100, 4)},      /* H 1,028 */
    {0, 0, DELAY(766, 3, 100, 1)},       /* H 1,024, rounded up */
    {0, 0, DELAY(768, 3, 100, 1)},       /* H 1,024 */
    {0, 16, DELAY(769, 3, 100, 1)},      /* H 1,028, rounded up */
    {0, 16, DELAY(1024, 1, 100, 1)},     /* H 4,096 */
    {0, 16, DELAY(257, 1, 100, 5)},      /* both are above */
    {0, 16, LONGER(0, 5)},
    {4, 4, LONGER(1, 1)},                /* H four places above the limit */
    {4, 4, LONGER(1, 5)},
    {0, 16, DELAY(257, 1, 20, 1)},       /* B 20 */
    {5, 5, DELAY(257, 1, 19, 1)},
    {5, 5, {40, 1, 4, 2, 6, 9, 4, 5, 1, 0}},
    {3, 3, {40, 1, 4, 2, 21, 10, 4, 5, 1, 0}},
    {3, 3, {40, 4, 4, 2, 3, 100, 4, 5, 1, 0}},
    {2, 2, {36, 9, 4, 2, 9, 100, 4, 5, 1, 0}},
    {1, 1, {40, 1, 4, 2, 6, 10, 0, 5, 1, 0}},
    {1, 1, {41, 1, 4, 2, 6, 10, 4, 5, 1, 0}},
    {0, 0, CARD(4096, 31065, 16384, 4)}, /* H 888 */
    {0, 16, CARD(4096, 31065, 16384, 16)},
    {0, 16, CARD(7308, 143267, 16384, 4)},
    {0, 0, CARD(1, 35840, 7145, 4)},     /* H 1,024, B 7,145 */
    {5, 5, CARD(1, 35840, 7144, 4)},
    {0, 16, CARD(1, 35841, 7145, 4)},
};

/* No mark but 0 and 1 is in range, whatever its lowest bits are and whatever else is wrong. */
static const uint64_t wrong[] = {2,
                                 3,
                                 16,
                                 255,
                                 256,
                                 257,
                                 UINT64_C(1) << 32,
                                 (UINT64_C(1) << 32) + 1,
                                 UINT64_C(1) << 63,
                                 (UINT64_C(1) << 63) + 1,
                                 UINT64_MAX};

static void each_case(void)
{
    for (size_t k = 0; k < sizeof cases / sizeof *cases; k++) {
        CHECK(gets(cases[k].s, THROTTLE_PROFILE_LARGE, cases[k].large));
        CHECK(gets(cases[k].s, THROTTLE_PROFILE_SMALL, cases[k].small));
        for (size_t i = 0; i < sizeof wrong / sizeof *wrong; i++)
            CHECK(gets(cases[k].s, wrong[i], THROTTLE_OUT_OF_RANGE));
    }
}

static const struct throttle_setting S = BANKS(1), FIVE = BANKS(5), MOST = DELAY(256, 1, 100, 4);

/* The sample run of row 5 under S with the small profile. */
static void samples(void)
{
    static const uint64_t run[][4] = {{0, THROTTLE_OPENED, 0, 1},
                                      {1, THROTTLE_OPENED, 0, 0},
                                      {2, THROTTLE_WAIT_ROW, 7, 0},
                                      {7, THROTTLE_OPENED, 0, 0},
                                      {8, THROTTLE_WAIT_ROW, 13, 0}};
    static struct whole w;
    start(&w, S, THROTTLE_PROFILE_SMALL);
    CHECK(setup(&w.m) == 0);
    for (size_t k = 0; k < sizeof run / sizeof *run; k++)
        CHECK(request(&w.m, run[k][0], 0, 0, 5) == 0 &&
              memcmp(w.out, run[k] + 1, sizeof w.out) == 0);
    CHECK(reading(&w.m, 8, 0, 0) == 0 && w.index[0] == 1 && w.index[1] == 8 && w.index[2] == 4);
}

/* 16 comes before short buffers, bad memory, and a bank, thread or tick that is refused. */
static void before_the_others(void)
{
    static struct whole w;
    size_t *lengths[] = {&w.m.counters_len, &w.m.ticks_len, &w.m.rows_len, &w.m.threads_len};
    for (size_t k = 0; k < 4; k++) {
        start(&w, FIVE, THROTTLE_PROFILE_LARGE);
        *lengths[k] = 0;
        CHECK(refused(&w, THROTTLE_SHORT_BUFFER, 0, 9, 9));
        w.words[THROTTLE_SETTING_WORDS - 1] = THROTTLE_PROFILE_SMALL;
        CHECK(refused(&w, THROTTLE_ABOVE_PROFILE, 0, 9, 9));
    }
    start(&w, FIVE, THROTTLE_PROFILE_LARGE);
    CHECK(reading(&w.m, 0, 9, 9) == THROTTLE_BAD_MEMORY);
    w.words[THROTTLE_SETTING_WORDS - 1] = THROTTLE_PROFILE_SMALL;
    CHECK(refused(&w, THROTTLE_ABOVE_PROFILE, 0, 9, 9));
    CHECK(refused(&w, THROTTLE_ABOVE_PROFILE, UINT64_MAX, 0, 0));
}

/* A state of five banks, whose calls are refused while the mark is that of the small profile. */
static void marked_later(void)
{
    static struct whole w;
    start(&w, FIVE, THROTTLE_PROFILE_LARGE);
    CHECK(setup(&w.m) == 0 && request(&w.m, 3, 4, 0, 5) == 0 && w.out[0] == THROTTLE_OPENED);
    w.words[THROTTLE_SETTING_WORDS - 1] = THROTTLE_PROFILE_SMALL;
    CHECK(refused(&w, THROTTLE_ABOVE_PROFILE, 4, 4, 0));
    CHECK(refused(&w, THROTTLE_ABOVE_PROFILE, 400, 0, 0));
    w.words[THROTTLE_SETTING_WORDS - 1] = 2;
    CHECK(refused(&w, THROTTLE_OUT_OF_RANGE, 4, 4, 0));
    w.words[THROTTLE_SETTING_WORDS - 1] = THROTTLE_PROFILE_LARGE;
    CHECK(done(&w.m, 3, 4, 0) == 0 && done(&w.m, 3, 4, 0) == THROTTLE_NONE_IN_FLIGHT);
}

/* The largest setting of the small profile, in buffers of the sizes that the header names. */
static void sizes(void)
{
    static struct whole w;
    size_t *lengths[] = {&w.m.counters_len, &w.m.ticks_len, &w.m.rows_len, &w.m.threads_len};
    CHECK(throttle_counter_cells(&MOST) == THROTTLE_SMALL_COUNTER_CELLS);
    CHECK(throttle_history_cells(&MOST) == THROTTLE_SMALL_HISTORY_CELLS);
    CHECK(throttle_thread_cells(&MOST) == THROTTLE_SMALL_THREAD_CELLS);
    start(&w, MOST, THROTTLE_PROFILE_SMALL);
    w.m.counters_len = THROTTLE_SMALL_COUNTER_CELLS;
    w.m.ticks_len = w.m.rows_len = THROTTLE_SMALL_HISTORY_CELLS;
    w.m.threads_len = THROTTLE_SMALL_THREAD_CELLS;
    for (size_t k = 0; k < 4; k++) {
        *lengths[k] -= 1;
        CHECK(refused(&w, THROTTLE_SHORT_BUFFER, 7, 3, 31));
        *lengths[k] += 1;
    }
    CHECK(answered(&w, 3, 31));
    CHECK(done(&w.m, 7, 4, 0) == THROTTLE_OUTSIDE_SETTING);
    CHECK(w.counters[w.m.counters_len - 1] == 0);
    CHECK(w.counters[w.m.counters_len] == (counter_cell)PATTERNS);
    CHECK(w.ticks[w.m.ticks_len - 1] == 0 && w.ticks[w.m.ticks_len] == PATTERNS);
    CHECK(w.rows[w.m.rows_len - 1] == 0 && w.rows[w.m.rows_len] == (uint32_t)PATTERNS);
    CHECK(w.threads[w.m.threads_len - 1] == 0);
    CHECK(w.threads[w.m.threads_len] == (uint32_t)PATTERNS);
}

/* All but the setting is the same. */
static int alike(const struct whole *x, const struct whole *y)
{
    size_t from = offsetof(struct whole, b);
    return memcmp((const char *)x + from, (const char *)y + from, sizeof *x - from) == 0;
}

static struct tally tally;

/* The same calls on two states, one under each profile. */
static void same_run(struct throttle_setting s, uint64_t count)
{
    static struct whole large, small;
    uint64_t x = 88172645463325252u;
    start(&large, s, THROTTLE_PROFILE_LARGE);
    start(&small, s, THROTTLE_PROFILE_SMALL);
    memset(large.out, 0, sizeof large.out);
    memset(small.out, 0, sizeof small.out);
    CHECK(setup(&large.m) == 0 && setup(&small.m) == 0);
    for (uint64_t k = 0; k < count; k++) {
        struct call c = next_call(&s, large.head[0], &x);
        uint32_t number = make_call(&large.m, &c);
        int same_reply = make_call(&small.m, &c) == number &&
                         memcmp(large.out, small.out, sizeof large.out) == 0 &&
                         memcmp(large.index, small.index, sizeof large.index) == 0;
        CHECK(same_reply && noted(&tally, &c, number, small.out));
        CHECK(k % 64 != 0 || alike(&large, &small));
    }
    CHECK(alike(&large, &small) && around_kept(&small));
}

/* Runs in which every answer and every refusal of a call occurs. */
static void same_runs(void)
{
    static const struct throttle_setting runs[] = {BANKS(1),
                                                   BANKS(4),
                                                   DELAY(256, 1, 100, 4),
                                                   {400, 3, 16, 4, 32, 40, 4, 3, 4, 0},
                                                   CARD(1, 35840, 8192, 4)};
    for (size_t k = 0; k < sizeof runs / sizeof *runs; k++)
        same_run(runs[k], 4000);
    all_noted(&tally);
}

int main(void)
{
    each_case();
    samples();
    before_the_others();
    marked_later();
    sizes();
    same_runs();
    return result("profile" OF_WIDTH);
}
