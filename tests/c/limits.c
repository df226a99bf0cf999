/*
 * Which settings are accepted: the limits of N and H at either width (see
 * lent.h), and the settings of docs/hardware-guide.md. The longest history is
 * written around its end.
 */
#include "check.h"
#include "lent.h"

/* Whether the calls are those of the old width. */
enum { NARROW = MOST_N == 32768 };
_Static_assert(MOST_N == (NARROW ? 32768 : 1 << 20), "the greatest N");
_Static_assert(MOST_HISTORY == (NARROW ? 4096 : 32768), "the longest history");

/* Large numbers but for N and tRC; a short delay with so many places. */
#define LARGE(n, trc) {1 << 30, trc, 65535, n, 65535, 1 << 24, 1, 1, 1, 0}
#define DELAY(td, tfaw) {1 << 20, 1, tfaw, 2, td, 2000, 4, 1, 1, 0}

/* Settings with the number that every call gives; 0 means answered. */
static const struct {
    uint32_t number;
    struct throttle_setting s;
} cases[] = {
    {0, LARGE(32768, 1)},
    {NARROW ? 1 : 0, LARGE(32769, 1)},
    {NARROW ? 1 : 0, LARGE(65536, 1)},
    {0, LARGE(MOST_N, 1)},
    {1, LARGE(MOST_N + 1, 1)},
    {1, LARGE(2 * MOST_N, 1)},
    {1, LARGE((UINT64_C(1) << 32) + 1, 1)},
    {1, LARGE(0, 1)},
    /* 2 x N x tRC is at most W - 1; with the greatest N it can be 2^32 and more */
    {0, LARGE(32768, 16383)},
    {2, LARGE(32768, 16384)},
    {NARROW ? 1 : 0, LARGE(1 << 20, 511)},
    {NARROW ? 1 : 2, LARGE(1 << 20, 512)},
    {NARROW ? 1 : 2, LARGE(1 << 20, 2048)},
    {NARROW ? 1 : 2, LARGE(1 << 20, 2049)},
    {NARROW ? 1 : 2, LARGE(1 << 20, 65535)},
    {0, DELAY(1024, 1)},                     /* H 4,096 */
    {NARROW ? 4 : 0, DELAY(1025, 1)},        /* H 4,100 */
    {0, DELAY(MOST_HISTORY / 4, 1)},
    {4, DELAY(MOST_HISTORY / 4 + 1, 1)},
    {0, DELAY(MOST_HISTORY / 4 * 3 - 2, 3)}, /* rounded up to the longest */
    {0, DELAY(MOST_HISTORY / 4 * 3, 3)},
    {4, DELAY(MOST_HISTORY / 4 * 3 + 1, 3)},
};

/* Each call gives the number; where that is 0, the first request is opened. */
static void each_case(void)
{
    for (size_t i = 0; i < sizeof cases / sizeof *cases; i++) {
        uint32_t number = cases[i].number;
        struct lent m = lend(&cases[i].s);
        CHECK(setup(&m) == number);
        CHECK(request(&m, 7, 0, 0, 5) == number);
        CHECK(number != 0 || (m.out[0] == THROTTLE_OPENED && m.out[2] == cases[i].s.n - 1));
        CHECK(reading(&m, 7, 0, 0) == number);
        CHECK(number != 0 || (m.index[0] == 0 && m.index[1] == cases[i].s.l - cases[i].s.n));
        CHECK(done(&m, 7, 0, 0) == number);
        give_back(&m);
    }
}

/* The last place of the longest history, then the first one, with ticks that must not fall. */
static void around_the_end(void)
{
    static const struct throttle_setting s = DELAY(MOST_HISTORY / 4, 1);
    struct lent m = lend(&s);
    CHECK(setup(&m) == 0 && m.ticks_len == MOST_HISTORY);
    m.head[1] = MOST_HISTORY;
    CHECK(request(&m, 7, 0, 0, 5) == THROTTLE_BAD_MEMORY);
    m.head[1] = MOST_HISTORY - 1;
    CHECK(request(&m, 7, 0, 0, 5) == 0 && m.out[0] == THROTTLE_OPENED);
    CHECK(m.ticks[MOST_HISTORY - 1] == 8 && m.rows[MOST_HISTORY - 1] == 5 && m.head[1] == 0);
    CHECK(request(&m, 9, 0, 0, 5) == 0 && m.out[0] == THROTTLE_OPENED);
    CHECK(m.ticks[0] == 10 && m.rows[0] == 5 && m.head[1] == 1);
    CHECK(request(&m, 11, 0, 0, 5) == 0 && m.out[0] == THROTTLE_WAIT_ROW);
    CHECK(m.out[1] == 9 + s.td);
    m.ticks[0] = 7;
    CHECK(request(&m, 11, 0, 0, 5) == THROTTLE_BAD_MEMORY);
    m.ticks[0] = 8;
    CHECK(request(&m, 11, 0, 0, 5) == 0 && m.out[1] == 7 + s.td);
    m.ticks[MOST_HISTORY - 1] = 0, m.ticks[MOST_HISTORY - 2] = 1;
    CHECK(request(&m, 11, 0, 0, 5) == THROTTLE_BAD_MEMORY);
    give_back(&m);
}

/* The delays of the paper's formula in docs/hardware-guide.md, with H and the bound B for each N. */
static void published(void)
{
    static const struct {
        uint64_t td, history, n, bound;
    } rows[] = {
        {31065, 888, 8192, 24528},  {31065, 888, 4096, 16384},  {30800, 880, 4096, 16455},
        {62315, 1784, 4096, 12276}, {62315, 1784, 2048, 8192},  {124815, 3568, 2048, 6141},
        {124815, 3568, 1024, 4096}, {15440, 444, 8192, 32768},  {249815, 7140, 512, 2048},
        {499815, 14284, 256, 1024}, {999815, 28568, 128, 512},
    };
    for (size_t i = 0; i < sizeof rows / sizeof *rows; i++) {
        struct throttle_setting s = {256000000, 185, 140, rows[i].n, rows[i].td, rows[i].bound,
                                     64,        16,  8,   THROTTLE_PROFILE_LARGE};
        CHECK(throttle_history_cells(&s) == rows[i].history);
        int too_long = rows[i].history > MOST_HISTORY;
        struct lent m = lend(&s);
        CHECK(setup(&m) == (too_long ? THROTTLE_LONG_HISTORY : THROTTLE_ANSWERED));
        m.words[5]--;
        CHECK(setup(&m) == (too_long ? THROTTLE_LONG_HISTORY : THROTTLE_ABOVE_LIMIT));
        give_back(&m);
    }
}

int main(void)
{
    each_case();
    around_the_end();
    published();
    return result("limits" OF_WIDTH);
}
