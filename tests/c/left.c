/*
 * Openings left, the third word of a request's out: for an opened answer N less
 * the row's estimate with the activation counted, never below 0; 0 for every
 * other answer. A refusal leaves out as it was, and the words around out are
 * never written. At either width, see lent.h.
 */
#include "calls.h"

static const struct throttle_setting S = {40, 1, 4, 2, 6, 10, 4, 1, 1, THROTTLE_PROFILE_LARGE};

/* E = 200, H = 20, B = 9 + floor((399 - 8)/20) = 28 */
static const struct throttle_setting FOUR = {
    .w = 400, .trc = 1, .tfaw = 4, .n = 4, .td = 20, .l = 40, .q = 200, .banks = 2, .threads = 2};

/* The words before and behind out, and what they and out hold before a call. */
enum { AROUND = 4 };
static const uint64_t MARK = UINT64_C(0xA5C3B1D2E4F60789);

/* What a request gave. */
struct given {
    uint32_t number;
    uint64_t out[THROTTLE_REQUEST_OUT];
};

/* A counter of a row: the one that a function names in a filter of a bank. */
static counter_cell *counter(struct lent *m, size_t bank, size_t filter, size_t function,
                             uint16_t row)
{
    size_t place = 0;
    for (unsigned i = 0; i < 16; i++)
        if (row >> i & 1)
            place ^= m->seeds[16 * function + i];
    return m->counters + bank * 2048 + filter * 1024 + place;
}

/* What is left by the row's four counters in the filter of the tick's epoch. */
static uint64_t left_by_counters(struct lent *m, uint64_t tick, size_t bank, uint16_t row)
{
    uint64_t least = UINT64_MAX, n = m->words[3];
    for (size_t f = 0; f < 4; f++) {
        counter_cell x = *counter(m, bank, tick / (m->words[0] / 2) % 2, f, row);
        least = x < least ? x : least;
    }
    return least < n ? n - least : 0;
}

/* Makes the call with words around out; the third word is that of the counters after it, or 0. */
static struct given ask(struct lent *m, uint64_t tick, uint64_t bank, uint64_t thread, uint16_t row)
{
    uint64_t words[AROUND + THROTTLE_REQUEST_OUT + AROUND];
    struct given g;
    const size_t end = sizeof words / sizeof *words;
    for (size_t i = 0; i < end; i++)
        words[i] = MARK;
    g.number = CALL(request)(m->words, m->seeds, m->seeds_len, m->head, m->counters,
                             m->counters_len, m->ticks, m->ticks_len, m->rows, m->rows_len,
                             m->threads, m->threads_len, tick, bank, thread, row, words + AROUND);
    for (size_t i = 0; i < AROUND; i++)
        CHECK(words[i] == MARK && words[end - 1 - i] == MARK);
    memcpy(g.out, words + AROUND, sizeof g.out);
    if (g.number == 0)
        CHECK(g.out[2] == (g.out[0] == THROTTLE_OPENED ? left_by_counters(m, tick, bank, row) : 0));
    return g;
}

/* A request of thread 0 that is opened with so many left, and reported done. */
static int opens(struct lent *m, uint64_t tick, uint64_t bank, uint16_t row, uint64_t left)
{
    struct given g = ask(m, tick, bank, 0, row);
    return g.number == 0 && g.out[0] == THROTTLE_OPENED && g.out[1] == 0 && g.out[2] == left &&
           done(m, tick, bank, 0) == 0;
}

/* A request of thread 0 with another answer: none is left. */
static int held(struct lent *m, uint64_t tick, uint64_t bank, uint16_t row, uint64_t answer,
                uint64_t wait)
{
    struct given g = ask(m, tick, bank, 0, row);
    return g.number == 0 && g.out[0] == answer && g.out[1] == wait && g.out[2] == 0;
}

/* A request that is refused with this number: out is as before. */
static int refused(struct lent *m, uint32_t number, uint64_t tick, uint64_t bank, uint64_t thread)
{
    struct given g = ask(m, tick, bank, thread, 5);
    return g.number == number && g.out[0] == MARK && g.out[1] == MARK && g.out[2] == MARK;
}

/* An index reading writes its three words and none around them. */
static int reads(struct lent *m, uint64_t tick, uint64_t c, uint64_t d, uint64_t quota)
{
    uint64_t words[AROUND + THROTTLE_INDEX_OUT + AROUND], *out = words + AROUND;
    const size_t end = sizeof words / sizeof *words;
    for (size_t i = 0; i < end; i++)
        words[i] = MARK;
    uint32_t number = CALL(index)(m->words, m->seeds, m->seeds_len, m->head, m->counters,
                                  m->counters_len, m->ticks, m->ticks_len, m->rows, m->rows_len,
                                  m->threads, m->threads_len, tick, 0, 0, out);
    for (size_t i = 0; i < AROUND; i++)
        CHECK(words[i] == MARK && words[end - 1 - i] == MARK);
    return number == 0 && out[0] == c && out[1] == d && out[2] == quota;
}

/* The sample run of row 5 under setting S, with no done: opened, waits, quota and refusals. */
static void samples(void)
{
    struct lent m = lend(&S);
    CHECK(setup(&m) == 0);
    static const struct {
        uint64_t tick, answer, wait, left;
    } run[] = {{0, THROTTLE_OPENED, 0, 1},     {1, THROTTLE_OPENED, 0, 0},
               {2, THROTTLE_WAIT_ROW, 7, 0},   {7, THROTTLE_OPENED, 0, 0},
               {7, THROTTLE_WAIT_BANK, 13, 0}, {8, THROTTLE_WAIT_ROW, 13, 0},
               {13, THROTTLE_OPENED, 0, 0},    {14, THROTTLE_QUOTA, 0, 0}};
    for (size_t i = 0; i < sizeof run / sizeof *run; i++) {
        struct given g = ask(&m, run[i].tick, 0, 0, 5);
        CHECK(g.number == 0 && g.out[0] == run[i].answer && g.out[1] == run[i].wait);
        CHECK(g.out[2] == run[i].left);
        CHECK(run[i].tick == 0 || refused(&m, THROTTLE_BAD_TICK, run[i].tick - 1, 0, 0));
    }
    CHECK(held(&m, 14, 0, 9, THROTTLE_QUOTA, 0));
    CHECK(reads(&m, 14, 2, 8, 3));
    give_back(&m);
}

/* Waits for bank and rank of a row that was never activated: nothing is said of it. */
static void waits_of_a_fresh_row(void)
{
    struct lent m = lend(&FOUR);
    CHECK(setup(&m) == 0);
    CHECK(opens(&m, 10, 0, 5, 3) && opens(&m, 10, 1, 5, 3));
    CHECK(held(&m, 10, 0, 9, THROTTLE_WAIT_BANK, 11));
    CHECK(opens(&m, 11, 0, 5, 2) && opens(&m, 11, 1, 5, 2));
    CHECK(held(&m, 12, 0, 9, THROTTLE_WAIT_RANK, 14));
    CHECK(opens(&m, 14, 0, 9, 3));
    give_back(&m);
}

/* Every refusal of a request. */
static void refusals(void)
{
    static const struct {
        size_t field;
        uint64_t value;
        uint32_t number;
    } settings[] = {{0, 401, THROTTLE_OUT_OF_RANGE}, {1, 50, THROTTLE_SHORT_WINDOW},
                    {4, 201, THROTTLE_BAD_DELAY},    {4, 0, THROTTLE_OUT_OF_RANGE},
                    {5, 27, THROTTLE_ABOVE_LIMIT}};
    struct lent m = lend(&FOUR);
    CHECK(setup(&m) == 0 && opens(&m, 7, 0, 5, 3));
    for (size_t i = 0; i < sizeof settings / sizeof *settings; i++) {
        m.words[settings[i].field] = settings[i].value;
        CHECK(refused(&m, settings[i].number, 8, 0, 0));
        throttle_words(&FOUR, m.words);
    }
    m.words[0] = 1 << 20, m.words[4] = MOST_HISTORY + 1;
    CHECK(refused(&m, THROTTLE_LONG_HISTORY, 8, 0, 0));
    throttle_words(&FOUR, m.words);
    m.counters_len--;
    CHECK(refused(&m, THROTTLE_SHORT_BUFFER, 8, 0, 0));
    m.counters_len++;
    m.head[1] += 20;
    CHECK(refused(&m, THROTTLE_BAD_MEMORY, 8, 0, 0));
    m.head[1] -= 20;
    CHECK(refused(&m, THROTTLE_OUTSIDE_SETTING, 8, 2, 0));
    CHECK(refused(&m, THROTTLE_OUTSIDE_SETTING, 8, 0, 2));
    CHECK(refused(&m, THROTTLE_BAD_TICK, 6, 0, 0));
    CHECK(refused(&m, THROTTLE_BAD_TICK, UINT64_C(1) << 62, 0, 0));
    CHECK(opens(&m, 8, 0, 5, 2));
    give_back(&m);
}

/* One bank with this N, which may be the greatest. */
static struct throttle_setting with_n(uint64_t n)
{
    return (struct throttle_setting){1 << 30, 1, 65535, n, 65535, 1 << 24,
                                     1,       1, 1,     THROTTLE_PROFILE_LARGE};
}

/*
 * The first request after set-up leaves N - 1, whatever the row, and each one
 * after it 1 less. Row 0 has four equal places, and its activation counts once.
 */
static void down_from_n(uint64_t n, uint16_t row)
{
    const struct throttle_setting s = with_n(n);
    struct lent m = lend(&s);
    CHECK(setup(&m) == 0);
    for (uint64_t i = 0; i < n && i < 1000; i++)
        CHECK(opens(&m, i * 65535, 0, row, n - 1 - i));
    give_back(&m);
}

/* All seeds 0: all rows of a bank share a counter, and each activation leaves the others 1 less. */
static void rows_that_share_all(void)
{
    struct lent m = lend(&FOUR);
    memset(m.seeds, 0, m.seeds_len * sizeof *m.seeds);
    CHECK(setup(&m) == 0);
    CHECK(opens(&m, 0, 0, 1, 3));
    CHECK(opens(&m, 1, 0, 2, 2));
    CHECK(opens(&m, 2, 0, 1, 1));
    CHECK(opens(&m, 3, 0, 65535, 0));
    CHECK(opens(&m, 4, 0, 9, 0));
    CHECK(held(&m, 5, 0, 1, THROTTLE_WAIT_ROW, 22));
    CHECK(opens(&m, 5, 1, 1, 3));
    CHECK(opens(&m, 22, 0, 1, 0));
    give_back(&m);
}

/*
 * Rows 402, 526 and 28,913 have four of their counters in common with row 4,660
 * under the house seeds: one, one and two. Without one of the three rows nothing
 * of row 4,660 is used up; with all of them it is, before it was activated once.
 */
static void rows_that_share_some(void)
{
    struct lent m = lend(&FOUR);
    for (uint64_t times = 0; times <= 4; times++) {
        CHECK(setup(&m) == 0);
        for (uint64_t i = 0; i < times; i++)
            CHECK(opens(&m, 2 * i, 0, 402, 3 - i) && opens(&m, 2 * i + 1, 0, 28913, 3 - i));
        struct lent without = copy(&m, &FOUR);
        CHECK(opens(&without, 50, 0, 4660, 3));
        give_back(&without);
        for (uint64_t i = 0; i < times; i++)
            CHECK(opens(&m, 40 + i, 0, 526, 3 - i));
        CHECK(opens(&m, 50, 0, 4660, times < 3 ? 3 - times : 0));
    }
    give_back(&m);
}

/* Lends row 5's counters in bank 1: these cells in the filter, and one for all in the other. */
static void lend_counters(struct lent *m, size_t filter, const counter_cell cells[4],
                          counter_cell other)
{
    for (size_t f = 0; f < 4; f++) {
        *counter(m, 1, filter, f, 5) = cells[f];
        *counter(m, 1, 1 - filter, f, 5) = other;
    }
}

/*
 * Lent counters with any contents: the least of the four in the tested filter
 * is what counts, and the activation raises it by 1 if it is below N.
 */
static void lent_counters(void)
{
    static const struct {
        counter_cell cells[4];
        uint64_t left;
    } cases[] = {{{0, 0, 0, 0}, 3},
                 {{0, FULL, FULL, FULL}, 3},
                 {{4, 3, 2, 1}, 2},
                 {{65535, 4, 5, 2}, 1},
                 {{3, 3, 3, 3}, 0},
                 {{9, 3, 9, 9}, 0},
                 {{4, 4, 4, 4}, 0},
                 {{5, 6, 7, 8}, 0},
                 {{4, FULL, 4, 65535}, 0},
                 {{32768, 32768, 32768, 32768}, 0},
                 {{FULL, FULL, FULL, FULL}, 0}};
    struct lent m = lend(&FOUR);
    for (size_t i = 0; i < sizeof cases / sizeof *cases; i++)
        for (size_t k = 0; k < 4; k++) {
            size_t filter = k % 2;
            CHECK(setup(&m) == 0);
            lend_counters(&m, filter, cases[i].cells, k < 2 ? 0 : FULL);
            CHECK(opens(&m, 100 + 200 * filter, 1, 5, cases[i].left));
            for (size_t f = 0; f < 4; f++)
                CHECK(*counter(&m, 1, filter, f, 5) == cases[i].cells[f] + (cases[i].cells[f] < 4));
        }
    give_back(&m);
}

/* The greatest N, and counters around it and around 2^16. A row that has reached it is held. */
static void large_counters(void)
{
    static const counter_cell cells[] = {65534, 65535, MOST_N - 2, MOST_N - 1, MOST_N, FULL};
    const struct throttle_setting s = with_n(MOST_N);
    struct lent m = lend(&s);
    for (size_t i = 0; i < sizeof cells / sizeof *cells; i++) {
        uint64_t after = (uint64_t)cells[i] + (cells[i] < MOST_N);
        CHECK(setup(&m) == 0);
        for (size_t k = 0; k < m.counters_len; k++)
            m.counters[k] = cells[i];
        CHECK(opens(&m, 0, 0, 5, after < MOST_N ? MOST_N - after : 0));
        for (size_t f = 0; f < 4; f++)
            CHECK(*counter(&m, 0, 0, f, 5) == after && *counter(&m, 0, 1, f, 5) == after);
        CHECK(after < MOST_N ? opens(&m, 2, 0, 5, MOST_N - after - 1)
                             : held(&m, 2, 0, 5, THROTTLE_WAIT_ROW, s.td));
    }
    give_back(&m);
}

/* In a new epoch the other filter is tested: it counts from the beginning of the epoch before. */
static void turns(void)
{
    struct lent m = lend(&FOUR);
    CHECK(setup(&m) == 0);
    CHECK(opens(&m, 150, 0, 5, 3) && opens(&m, 198, 0, 5, 2) && opens(&m, 199, 0, 5, 1));
    CHECK(opens(&m, 200, 0, 5, 0));
    CHECK(held(&m, 201, 0, 5, THROTTLE_WAIT_ROW, 220));
    CHECK(opens(&m, 399, 0, 5, 0));
    CHECK(opens(&m, 400, 0, 5, 1));
    CHECK(opens(&m, 599, 0, 5, 0));
    CHECK(reads(&m, 799, 0, 36, 200));
    CHECK(opens(&m, 800, 0, 5, 3));
    CHECK(opens(&m, 801, 0, 5, 2));
    CHECK(opens(&m, 1200, 0, 5, 3));
    give_back(&m);

    m = lend(&S);
    CHECK(setup(&m) == 0);
    CHECK(opens(&m, 18, 0, 5, 1) && opens(&m, 19, 0, 5, 0) && opens(&m, 37, 0, 5, 0));
    CHECK(held(&m, 38, 0, 5, THROTTLE_WAIT_ROW, 40));
    CHECK(opens(&m, 40, 0, 5, 0));
    CHECK(opens(&m, 80, 0, 5, 1));
    give_back(&m);
}

/*
 * Many requests of few rows with few counters, some of them lent anew: ask
 * compares every answer. Each answer and each number of openings left occurs.
 */
static void many(void)
{
    struct throttle_setting s = FOUR;
    uint64_t x = 88172645463325252u, tick = 0, answers[5] = {0}, lefts[4] = {0};
    s.q = 3;
    struct lent m = lend(&s);
    for (size_t i = 0; i < m.seeds_len; i++)
        m.seeds[i] %= 8;
    CHECK(setup(&m) == 0);
    for (size_t i = 0; i < 20000; i++) {
        uint64_t bank = next_random(&x) % 2, thread = next_random(&x) % 2;
        tick += next_random(&x) % 200 == 0 ? x % 500 : x % 2;
        if (next_random(&x) % 16 == 0)
            m.counters[bank * 2048 + x / 16 % 2 * 1024 + x / 32 % 8] = (counter_cell)(x / 256 % 6);
        struct given g = ask(&m, tick, bank, thread, (uint16_t)(next_random(&x) % 20));
        CHECK(g.number == 0);
        if (g.number != 0 || g.out[0] > 4 || g.out[2] > 3)
            break;
        answers[g.out[0]]++;
        if (g.out[0] == THROTTLE_OPENED)
            lefts[g.out[2]]++;
        if (next_random(&x) % 2 == 0) {
            uint32_t number = done(&m, tick, bank, thread);
            CHECK(number == 0 || number == THROTTLE_NONE_IN_FLIGHT);
        }
    }
    for (size_t i = 0; i < 5; i++)
        CHECK(answers[i] > 100);
    for (size_t i = 0; i < 4; i++)
        CHECK(lefts[i] > 100);
    give_back(&m);
}

int main(void)
{
    samples();
    waits_of_a_fresh_row();
    refusals();
    down_from_n(1, 5);
    down_from_n(2, 0);
    down_from_n(300, 0);
    down_from_n(300, 4660);
    down_from_n(MOST_N, 65535);
    rows_that_share_all();
    rows_that_share_some();
    lent_counters();
    large_counters();
    turns();
    many();
    return result("left" OF_WIDTH);
}
