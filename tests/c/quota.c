/*
 * The quota rule of request and done: how quotas are rounded, and in flight as
 * the thread's total over the banks of the setting. At either width, see lent.h.
 */
#include "check.h"
#include "lent.h"

static const struct throttle_setting S = {40, 1, 4, 2, 6, 10, 4, 1, 1, THROTTLE_PROFILE_LARGE};

/* Two banks and two threads, of which each may have one request in flight. */
static const struct throttle_setting TWO = {40, 1, 4, 2, 6, 10, 1, 2, 2, THROTTLE_PROFILE_LARGE};

/* A request of row 5 that is answered so, with wait tick 0. */
static int answers(struct lent *m, uint64_t tick, uint64_t bank, uint64_t thread, uint64_t answer)
{
    return request(m, tick, bank, thread, 5) == 0 && m->out[0] == answer && m->out[1] == 0;
}

/* The cell of a thread's requests in flight in a bank. */
static uint32_t *flying(struct lent *m, size_t bank, size_t thread)
{
    return m->threads + (bank * m->words[8] + thread) * 3 + 2;
}

/*
 * Quotas with their Q, D and c, at and around exact halves, which go to the even
 * number. A request is held by the quota with as many in flight, not with one less.
 */
static void quotas(void)
{
    static const struct {
        uint64_t quota, q, d;
        uint32_t c;
    } cases[] = {{0, 1, 8, 4},  {2, 3, 8, 4}, {2, 4, 8, 3}, {4, 4, 8, 1},
                 {4, 5, 10, 1}, {4, 4, 9, 1}, {4, 4, 8, 0}, {3, 4, 10, 2},
                 {0, 4, 8, 99}, {0, 4, 8, 8}, {128, 255, 16777214, 8388607}};
    struct lent m = lend(&S);
    for (size_t i = 0; i < sizeof cases / sizeof *cases; i++) {
        m.words[5] = cases[i].d + S.n;
        m.words[6] = cases[i].q;
        CHECK(setup(&m) == 0);
        m.threads[0] = cases[i].c;
        CHECK(reading(&m, 0, 0, 0) == 0 && m.index[2] == cases[i].quota);
        m.threads[2] = (uint32_t)cases[i].quota;
        CHECK(answers(&m, 0, 0, 0, THROTTLE_QUOTA));
        m.threads[2]--;
        CHECK(cases[i].quota == 0 || answers(&m, 0, 0, 0, THROTTLE_OPENED));
    }
    give_back(&m);
}

/* A request in flight in one bank holds one of the other bank until it is done. */
static void two_banks(void)
{
    struct lent m = lend(&TWO);
    CHECK(setup(&m) == 0);
    CHECK(answers(&m, 0, 0, 0, THROTTLE_OPENED));
    CHECK(answers(&m, 1, 1, 0, THROTTLE_QUOTA));
    CHECK(answers(&m, 1, 1, 1, THROTTLE_OPENED));
    CHECK(*flying(&m, 0, 0) == 1 && *flying(&m, 1, 0) == 0 && *flying(&m, 1, 1) == 1);
    CHECK(done(&m, 2, 0, 0) == 0 && *flying(&m, 0, 0) == 0);
    CHECK(answers(&m, 2, 1, 0, THROTTLE_OPENED));
    CHECK(answers(&m, 3, 0, 0, THROTTLE_QUOTA));
    CHECK(answers(&m, 3, 0, 1, THROTTLE_QUOTA));
    CHECK(done(&m, 3, 1, 1) == 0 && *flying(&m, 1, 0) == 1 && *flying(&m, 1, 1) == 0);
    CHECK(answers(&m, 3, 0, 1, THROTTLE_OPENED));
    give_back(&m);
}

/* A done in a bank with none of the thread's requests is refused although it has one elsewhere. */
static void none_in_this_bank(void)
{
    static const uint64_t later[] = {0, 1, 19, 20, 40, 1000};
    struct lent m = lend(&TWO);
    CHECK(setup(&m) == 0);
    CHECK(answers(&m, 0, 0, 0, THROTTLE_OPENED));
    struct lent before = copy(&m, &TWO);
    for (size_t i = 0; i < sizeof later / sizeof *later; i++) {
        CHECK(done(&m, later[i], 1, 0) == THROTTLE_NONE_IN_FLIGHT && same(&m, &before));
        CHECK(done(&m, later[i], 0, 1) == THROTTLE_NONE_IN_FLIGHT && same(&m, &before));
    }
    CHECK(done(&m, 0, 0, 0) == 0);
    CHECK(done(&m, 0, 0, 0) == THROTTLE_NONE_IN_FLIGHT);
    give_back(&before);
    give_back(&m);
}

/* Quotas of 2 and 4 by the counters of banks 0 and 1, with two requests in flight. */
static void quota_of_the_named_bank(void)
{
    struct lent m = lend(&TWO);
    m.words[6] = 4;
    CHECK(setup(&m) == 0);
    flying(&m, 0, 0)[-2] = 4;
    *flying(&m, 0, 0) = *flying(&m, 1, 0) = 1;
    CHECK(reading(&m, 0, 0, 0) == 0 && m.index[0] == 4 && m.index[1] == 8 && m.index[2] == 2);
    CHECK(reading(&m, 0, 1, 0) == 0 && m.index[0] == 0 && m.index[1] == 8 && m.index[2] == 4);
    CHECK(answers(&m, 0, 0, 0, THROTTLE_QUOTA));
    CHECK(answers(&m, 0, 1, 0, THROTTLE_OPENED));
    give_back(&m);
}

/* Counts that sum to 2^32 or more: quota, and nothing but the clock moves. */
static void wide_sums(uint64_t banks, uint32_t first, uint32_t others)
{
    struct throttle_setting s = TWO;
    s.banks = banks;
    s.q = 255;
    struct lent m = lend(&s);
    CHECK(setup(&m) == 0);
    for (size_t bank = 0; bank < banks; bank++)
        *flying(&m, bank, 1) = bank == 0 ? first : others;
    struct lent before = copy(&m, &s);
    for (uint64_t bank = 0; bank < banks; bank++) {
        CHECK(answers(&m, bank, bank, 1, THROTTLE_QUOTA));
        before.head[0] = bank;
        CHECK(same(&m, &before));
    }
    CHECK(done(&m, banks, banks - 1, 1) == 0 && *flying(&m, banks - 1, 1) == others - 1);
    CHECK(answers(&m, banks, 0, 0, THROTTLE_OPENED));
    give_back(&before);
    give_back(&m);
}

/* Counts of a bank outside the setting, in a buffer that is longer than needed. */
static void bank_outside_the_setting(void)
{
    struct lent m = lend(&TWO);
    m.words[7] = 1;
    CHECK(setup(&m) == 0);
    *flying(&m, 1, 0) = 1;
    CHECK(answers(&m, 0, 0, 0, THROTTLE_OPENED));
    CHECK(answers(&m, 1, 0, 0, THROTTLE_QUOTA));
    CHECK(done(&m, 1, 0, 0) == 0 && *flying(&m, 1, 0) == 1);
    m.words[7] = 2;
    m.threads[6] = m.threads[7] = 0;
    CHECK(answers(&m, 1, 0, 0, THROTTLE_QUOTA));
    give_back(&m);
}

int main(void)
{
    quotas();
    two_banks();
    none_in_this_bank();
    quota_of_the_named_bank();
    wide_sums(2, UINT32_MAX, 1);
    wide_sums(2, 1, UINT32_MAX);
    wide_sums(2, UINT32_C(1) << 31, UINT32_C(1) << 31);
    wide_sums(16, UINT32_C(1) << 28, UINT32_C(1) << 28);
    wide_sums(16, UINT32_MAX, UINT32_MAX);
    bank_outside_the_setting();
    return result("quota" OF_WIDTH);
}
