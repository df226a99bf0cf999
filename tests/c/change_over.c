/*
 * The change-over, and both widths side by side: its type; its refusals, at the
 * limits of the old width, and that they change nothing; that it changes the used
 * part of the new counters and nothing else; and that after it the calls of the
 * new width give the same replies and leave the same memory as those of the old,
 * as they do from set-up on.
 */
#include "throttle_wide.h"

#include "calls.h"

typedef uint32_t change_type(const uint64_t *, const uint16_t *, size_t, const uint64_t *,
                             const uint16_t *, size_t, uint32_t *, size_t, const uint64_t *, size_t,
                             const uint32_t *, size_t, const uint32_t *, size_t);

_Static_assert(_Generic(&throttle_change_over, change_type *: 1, default: 0), "its type");

static const struct throttle_setting S = {40, 1, 4, 2, 6, 10, 4, 1, 1, THROTTLE_PROFILE_LARGE};

/* Ten numbers that differ. B = 9 + floor((4,001 - 40)/90) = 53, H = 4 x ceil(90/7) = 52 */
static const struct throttle_setting TEN = {
    .w = 4002, .trc = 5, .tfaw = 7, .n = 4, .td = 90, .l = 60, .q = 11, .banks = 3, .threads = 6,
    .profile = THROTTLE_PROFILE_SMALL};

static const uint64_t FIRST = (UINT64_C(1) << 40) + 17;

/* Cells behind the used part of the new counters, and what all of them hold at first. */
enum { BEHIND = 5 };
static const uint32_t MARK = 0xA5C3B1D2;

/*
 * A state of the new width: the head, ticks, rows and threads of a lent one, and
 * counters of its own. The lent one's counters are those that were taken over.
 */
struct wide {
    struct lent m;
    uint32_t *counters;
    size_t counters_len;
};

/* A copy of the state of the old width, not yet changed over. */
static struct wide widen(const struct lent *m, const struct throttle_setting *s)
{
    struct wide w;
    w.m = copy(m, s);
    memcpy(w.m.seeds, m->seeds, THROTTLE_SEEDS * sizeof *m->seeds);
    memset(w.m.out, 0, THROTTLE_REQUEST_OUT * sizeof *w.m.out);
    memset(w.m.index, 0, THROTTLE_INDEX_OUT * sizeof *w.m.index);
    w.counters_len = throttle_counter_cells(s) + BEHIND;
    w.counters = block(w.counters_len, sizeof *w.counters);
    for (size_t i = 0; i < w.counters_len; i++)
        w.counters[i] = MARK;
    return w;
}

static void give_back_wide(struct wide *w)
{
    free(w->counters);
    give_back(&w->m);
}

static uint32_t change(struct wide *w)
{
    struct lent *m = &w->m;
    return throttle_change_over(m->words, m->seeds, m->seeds_len, m->head, m->counters,
                                m->counters_len, w->counters, w->counters_len, m->ticks,
                                m->ticks_len, m->rows, m->rows_len, m->threads, m->threads_len);
}

static uint32_t make_wide_call(struct wide *w, const struct call *c)
{
    struct lent *m = &w->m;
#define STATE                                                                                      \
    m->words, m->seeds, m->seeds_len, m->head, w->counters, w->counters_len, m->ticks,             \
        m->ticks_len, m->rows, m->rows_len, m->threads, m->threads_len
    switch (c->kind) {
    case REQUEST:
        return throttle_wide_request(STATE, c->tick, c->bank, c->thread, c->row, m->out);
    case DONE: return throttle_wide_done(STATE, c->tick, c->bank, c->thread);
    case READING: return throttle_wide_index(STATE, c->tick, c->bank, c->thread, m->index);
    default: return throttle_wide_setup(STATE);
    }
#undef STATE
}

/* The new counters hold these numbers, and the cells behind them the mark. */
static int holds(const struct wide *w, const uint16_t *counters)
{
    for (size_t i = 0; i < w->counters_len; i++)
        if (w->counters[i] != (i < w->counters_len - BEHIND ? counters[i] : MARK))
            return 0;
    return 1;
}

/* All new counters hold the mark. */
static int untouched(const struct wide *w)
{
    for (size_t i = 0; i < w->counters_len; i++)
        if (w->counters[i] != MARK)
            return 0;
    return 1;
}

/* Both states are the same, counters as numbers. */
static int alike(const struct lent *old, const struct wide *w)
{
    return holds(w, old->counters) &&
           memcmp(old->head, w->m.head, THROTTLE_HEAD_CELLS * sizeof *old->head) == 0 &&
           memcmp(old->ticks, w->m.ticks, old->ticks_len * sizeof *old->ticks) == 0 &&
           memcmp(old->rows, w->m.rows, old->rows_len * sizeof *old->rows) == 0 &&
           memcmp(old->threads, w->m.threads, old->threads_len * sizeof *old->threads) == 0;
}

/* The change-over is refused with this number, and nothing changes. */
static int refused(struct wide *w, const struct lent *before, uint32_t number)
{
    return change(w) == number && untouched(w) && same(&w->m, before);
}

/* Refusals 1 to 5 and 16, with memory that 7 would refuse and a length that 6 would. */
static void refused_settings(struct wide *w, const struct lent *before)
{
    static const struct {
        unsigned field;
        uint64_t value;
        uint32_t number;
    } cases[] = {{0, 4003, 1}, {1, 501, 2}, {4, 4, 3},  {4, 2002, 3},          {2, 0, 1},
                 {5, 52, 5},   {9, 2, 1},   {7, 5, 16}, {3, THROTTLE_MOST_N + 1, 1}};
    size_t kept_len = w->m.rows_len;
    for (size_t i = 0; i < sizeof cases / sizeof *cases; i++) {
        w->m.words[cases[i].field] = cases[i].value;
        CHECK(refused(w, before, cases[i].number));
        w->m.rows_len = 0;
        CHECK(refused(w, before, cases[i].number));
        w->m.rows_len = kept_len;
        throttle_words(&TEN, w->m.words);
    }
    for (unsigned field = 0; field < THROTTLE_SETTING_WORDS; field++) {
        w->m.words[field] += UINT64_C(1) << 32;
        CHECK(refused(w, before, THROTTLE_OUT_OF_RANGE));
        throttle_words(&TEN, w->m.words);
    }
    w->m.seeds_len = 63;
    CHECK(refused(w, before, THROTTLE_OUT_OF_RANGE));
    w->m.seeds_len = 64;
    w->m.seeds[63] = 1024;
    CHECK(refused(w, before, THROTTLE_OUT_OF_RANGE));
    throttle_house_seeds(w->m.seeds);
}

/* Each of the five lengths one short, also where 7 would refuse the memory. */
static void refused_lengths(struct wide *w, const struct lent *before)
{
    size_t *lengths[] = {&w->m.counters_len, &w->counters_len, &w->m.ticks_len, &w->m.rows_len,
                         &w->m.threads_len};
    w->counters_len -= BEHIND;
    for (size_t i = 0; i < sizeof lengths / sizeof *lengths; i++) {
        *lengths[i] -= 1;
        CHECK(refused(w, before, THROTTLE_SHORT_BUFFER));
        *lengths[i] += 1;
    }
    w->counters_len += BEHIND;
}

/* Each way to be unsound: a place past the end, ticks after the last, a rise in the history. */
static void refused_memory(const struct lent *old)
{
    static const struct {
        size_t place; /* in the head, and from 22 on in the history */
        uint64_t cell;
    } cases[] = {{1, 52},        {1, UINT64_MAX}, {2, FIRST + 2},  {4, UINT64_MAX},
                 {18, FIRST + 2}, {21, FIRST + 2}, {22, FIRST + 2}, {73, FIRST + 2}, {23, 1}};
    for (size_t i = 0; i < sizeof cases / sizeof *cases; i++) {
        struct wide w = widen(old, &TEN);
        size_t place = cases[i].place;
        *(place < 22 ? &w.m.head[place] : &w.m.ticks[place - 22]) = cases[i].cell;
        struct lent before = copy(&w.m, &TEN);
        CHECK(refused(&w, &before, THROTTLE_BAD_MEMORY));
        refused_settings(&w, &before);
        refused_lengths(&w, &before);
        give_back(&before);
        give_back_wide(&w);
    }
}

/* A state of the old width with two activations. */
static struct lent two_activations(void)
{
    struct lent m = lend(&TEN);
    CHECK(setup(&m) == 0);
    CHECK(request(&m, FIRST - 9, 1, 3, 0xFADE) == 0 && m.out[0] == THROTTLE_OPENED);
    CHECK(request(&m, FIRST, 2, 4, 0xBEEF) == 0 && m.out[0] == THROTTLE_OPENED);
    return m;
}

static void refusals(void)
{
    struct lent old = two_activations();
    struct wide w = widen(&old, &TEN);
    refused_settings(&w, &old);
    refused_lengths(&w, &old);
    refused_memory(&old);
    CHECK(change(&w) == 0 && holds(&w, old.counters) && same(&w.m, &old));
    give_back_wide(&w);
    give_back(&old);
}

/* Settings of the new width alone: it sets them up, and a change-over is refused. */
static void old_limits(void)
{
    static const struct {
        uint32_t number;
        struct throttle_setting s;
    } cases[] = {{1, {1 << 30, 1, 65535, 32769, 65535, 1 << 24, 1, 1, 1, 0}},
                 {1, {1 << 30, 1, 65535, 1 << 20, 65535, 1 << 24, 1, 1, 1, 0}},
                 {4, {1 << 20, 1, 1, 2, 1025, 2000, 4, 1, 1, 0}},
                 {4, {1 << 20, 1, 1, 2, 8192, 2000, 4, 1, 1, 0}}};
    const struct call setting_up = {.kind = SETUP};
    for (size_t i = 0; i < sizeof cases / sizeof *cases; i++) {
        struct lent m = lend(&cases[i].s);
        memset(m.head, 0, THROTTLE_HEAD_CELLS * sizeof *m.head);
        memset(m.counters, 0, m.counters_len * sizeof *m.counters);
        memset(m.ticks, 0, m.ticks_len * sizeof *m.ticks);
        memset(m.rows, 0, m.rows_len * sizeof *m.rows);
        memset(m.threads, 0, m.threads_len * sizeof *m.threads);
        struct wide w = widen(&m, &cases[i].s);
        CHECK(refused(&w, &m, cases[i].number));
        CHECK(make_wide_call(&w, &setting_up) == 0 && holds(&w, m.counters) && same(&w.m, &m));
        give_back_wide(&w);
        give_back(&m);
    }
}

/*
 * Every number that a counter of the old width can hold, in each bank and filter.
 * The head cell of a bank that the setting does not have is not looked at.
 */
static void every_number(void)
{
    struct lent old = two_activations();
    old.head[2 + TEN.banks] = UINT64_MAX;
    for (uint32_t first = 0; first < 65536; first += 1024) {
        for (size_t i = 0; i < old.counters_len; i++)
            old.counters[i] = (uint16_t)(first + i + 7 * (i / 1024));
        struct wide w = widen(&old, &TEN);
        CHECK(change(&w) == 0 && holds(&w, old.counters) && same(&w.m, &old));
        give_back_wide(&w);
    }
    give_back(&old);
}

/* Other contents that 7 lets pass: counters above N, index counters above D, other rows. */
static void scramble(struct lent *m, uint64_t *x)
{
    uint64_t n = m->words[3], d = m->words[5] - n;
    for (size_t i = 0; i < m->counters_len; i++)
        m->counters[i] = (uint16_t)(next_random(x) % 8 == 0 ? *x >> 20 : (*x >> 20) % (n + 2));
    for (size_t i = 0; i < m->threads_len; i++)
        m->threads[i] = (uint32_t)((next_random(x) >> 20) % (i % 3 == 2 ? 3 : d + 2));
    for (size_t i = 0; i < m->rows_len; i++)
        m->rows[i] = (uint32_t)(next_random(x) >> 20) % (4 * 65536);
    for (size_t i = 2; i < THROTTLE_HEAD_CELLS; i++)
        m->head[i] = next_random(x) % 2 == 0 ? m->head[0] + 1 : 0;
}

static struct tally tally;

/* Makes so many calls on both states, and compares. */
static void go_on(struct lent *old, struct wide *w, const struct throttle_setting *s,
                  uint64_t count, uint64_t *x)
{
    for (uint64_t k = 0; k < count; k++) {
        struct call c = next_call(s, old->head[0], x);
        uint32_t number = make_call(old, &c);
        int same_reply = make_wide_call(w, &c) == number &&
                         memcmp(old->out, w->m.out, THROTTLE_REQUEST_OUT * 8) == 0 &&
                         memcmp(old->index, w->m.index, THROTTLE_INDEX_OUT * 8) == 0;
        CHECK(same_reply && noted(&tally, &c, number, old->out));
        CHECK(k % 64 != 0 || alike(old, w));
    }
    CHECK(alike(old, w));
}

/*
 * Calls of the old width, with change-overs between them that are refused; then a
 * change-over that is not, and the same calls at both widths. The new width from
 * set-up on goes with the old one too.
 */
static void same_run(struct throttle_setting s, uint64_t before, uint64_t after, int scrambled)
{
    const struct call setting_up = {.kind = SETUP};
    uint64_t x = 88172645463325252u + before;
    struct lent old = lend(&s);
    memset(old.out, 0, THROTTLE_REQUEST_OUT * sizeof *old.out);
    memset(old.index, 0, THROTTLE_INDEX_OUT * sizeof *old.index);
    CHECK(setup(&old) == 0);
    struct wide w = widen(&old, &s);
    CHECK(make_wide_call(&w, &setting_up) == 0);
    for (uint64_t k = 0; k < before; k += 50) {
        go_on(&old, &w, &s, 50, &x);
        struct wide attempt = widen(&old, &s);
        attempt.counters_len = 0;
        CHECK(change(&attempt) == THROTTLE_SHORT_BUFFER && same(&attempt.m, &old));
        give_back_wide(&attempt);
    }
    give_back_wide(&w);
    if (scrambled)
        scramble(&old, &x);
    w = widen(&old, &s);
    memcpy(w.m.out, old.out, THROTTLE_REQUEST_OUT * sizeof *old.out);
    memcpy(w.m.index, old.index, THROTTLE_INDEX_OUT * sizeof *old.index);
    CHECK(change(&w) == 0 && alike(&old, &w) && same(&w.m, &old));
    go_on(&old, &w, &s, after, &x);
    give_back_wide(&w);
    give_back(&old);
}

static void same_runs(void)
{
    static const struct throttle_setting runs[] = {
        {40, 1, 4, 2, 6, 10, 4, 1, 1, 0},
        {40, 1, 4, 2, 6, 10, 4, 4, 1, 0},
        {400, 3, 16, 4, 32, 40, 4, 3, 4, 0},
        {4000, 1, 1, 2, 1024, 100, 4, 5, 32, 0}, /* H 4,096 */
    };
    for (size_t k = 0; k < sizeof runs / sizeof *runs; k++)
        for (int scrambled = 0; scrambled < 2; scrambled++) {
            same_run(runs[k], 0, 500, scrambled);
            same_run(runs[k], 50, 500, scrambled);
            same_run(runs[k], 1000, 500, scrambled);
        }
    same_run(S, 3000, 3000, 0);
    all_noted(&tally);
}

int main(void)
{
    refusals();
    old_limits();
    every_number();
    same_runs();
    return result("change-over");
}
