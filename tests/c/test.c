/*
 * Makes the four calls of a width (see lent.h) and those of the inline functions:
 * the types, the sizes, the seeds, names and rows, the sample runs of the
 * specification, every refusal of every call, and the order and width of the
 * arguments by values that differ in each of them.
 */
#include "check.h"
#include "lent.h"

#define BUFFERS                                                                                    \
    const uint64_t *, const uint16_t *, size_t, uint64_t *, counter_cell *, size_t, uint64_t *,    \
        size_t, uint32_t *, size_t, uint32_t *, size_t

typedef uint32_t setup_type(BUFFERS);
typedef uint32_t request_type(BUFFERS, uint64_t, uint64_t, uint64_t, uint16_t, uint64_t *);
typedef uint32_t done_type(BUFFERS, uint64_t, uint64_t, uint64_t);
typedef uint32_t index_type(BUFFERS, uint64_t, uint64_t, uint64_t, uint64_t *);

_Static_assert(_Generic(&CALL(setup), setup_type *: 1, default: 0), "type of set-up");
_Static_assert(_Generic(&CALL(request), request_type *: 1, default: 0), "type of request");
_Static_assert(_Generic(&CALL(done), done_type *: 1, default: 0), "type of done");
_Static_assert(_Generic(&CALL(index), index_type *: 1, default: 0), "type of index");
_Static_assert(sizeof(struct throttle_setting) == THROTTLE_SETTING_WORDS * sizeof(uint64_t),
               "a word for each field");
_Static_assert(THROTTLE_SETTING_WORDS == 10 && THROTTLE_HEAD_CELLS == 22, "what is given");
_Static_assert(THROTTLE_REQUEST_OUT == 3 && THROTTLE_INDEX_OUT == 3, "what is given back");

static const struct throttle_setting S = {40, 1, 4, 2, 6, 10, 4, 1, 1, THROTTLE_PROFILE_LARGE};

/* Ten numbers that differ. B = 9 + floor((4,001 - 40)/90) = 53, H = 4 x ceil(90/7) = 52 */
static const struct throttle_setting TEN = {
    .w = 4002, .trc = 5, .tfaw = 7, .n = 4, .td = 90, .l = 60, .q = 11, .banks = 3, .threads = 6,
    .profile = THROTTLE_PROFILE_SMALL};

static const uint64_t FIRST = (UINT64_C(1) << 40) + 17;
static const uint64_t LIMIT = UINT64_C(1) << 62;
static const uint64_t WIDE = UINT64_C(1) << 32;

/* A request that is answered so. */
static int answers(struct lent *m, uint64_t tick, uint64_t answer, uint64_t wait)
{
    return request(m, tick, 0, 0, 5) == 0 && m->out[0] == answer && m->out[1] == wait;
}

static int opened_and_done(struct lent *m, uint64_t tick)
{
    return answers(m, tick, THROTTLE_OPENED, 0) && done(m, tick, 0, 0) == 0;
}

/* The sizes and the order of the words. */
static void sizes(void)
{
    uint64_t words[THROTTLE_SETTING_WORDS];
    CHECK(throttle_counter_cells(&TEN) == 3 * 2048);
    CHECK(throttle_history_cells(&TEN) == 52);
    CHECK(throttle_thread_cells(&TEN) == 3 * 6 * 3);
    CHECK(throttle_history_cells(&S) == 8);
    CHECK(throttle_words(&TEN, words) == words);
    CHECK(memcmp(words, &TEN, sizeof words) == 0);
    const struct throttle_setting unnamed = {.w = 40, .threads = 1};
    CHECK(throttle_words(&unnamed, words)[8] == 1 && words[9] == THROTTLE_PROFILE_LARGE);
    struct throttle_setting none = {0};
    CHECK(throttle_counter_cells(&none) == 0);
    CHECK(throttle_history_cells(&none) == 0);
    CHECK(throttle_thread_cells(&none) == 0);
}

/* The house seeds: some of them, and the places of row 3 that the specification names. */
static void house_seeds(void)
{
    static const struct {
        size_t at;
        uint16_t seed;
    } some[] = {{0, 37},   {1, 148},  {15, 256}, {16, 248}, {17, 448},
                {31, 778}, {32, 459}, {47, 276}, {48, 670}, {63, 798}};
    uint16_t seeds[THROTTLE_SEEDS];
    throttle_house_seeds(seeds);
    for (size_t i = 0; i < sizeof some / sizeof *some; i++)
        CHECK(seeds[some[i].at] == some[i].seed);
    CHECK((seeds[0] ^ seeds[1]) == 177 && (seeds[16] ^ seeds[17]) == 312);
    for (size_t i = 0; i < THROTTLE_SEEDS; i++)
        CHECK(seeds[i] < 1024);
}

/* Every number has a name, no two the same one, and "unknown" is that of all the others. */
static void names(void)
{
    for (uint32_t i = 0; i < 24; i++) {
        int named = i < 14 || i == THROTTLE_ABOVE_PROFILE || i == 18 || i == 20 || i == 21;
        CHECK(named == (strcmp(throttle_refusal_name(i), "unknown") != 0));
        for (uint32_t k = 0; named && k < i; k++)
            CHECK(strcmp(throttle_refusal_name(i), throttle_refusal_name(k)) != 0);
    }
    CHECK(strcmp(throttle_refusal_name(THROTTLE_ANSWERED), "answered") == 0);
    CHECK(strcmp(throttle_refusal_name(THROTTLE_NONE_IN_FLIGHT), "none in flight") == 0);
    CHECK(strcmp(throttle_refusal_name(UINT32_MAX), "unknown") == 0);
    CHECK(strcmp(throttle_answer_name(THROTTLE_OPENED), "opened") == 0);
    CHECK(strcmp(throttle_answer_name(THROTTLE_WAIT_BANK), "wait for bank") == 0);
    CHECK(strcmp(throttle_answer_name(THROTTLE_WAIT_RANK), "wait for rank") == 0);
    CHECK(strcmp(throttle_answer_name(THROTTLE_WAIT_ROW), "wait for row") == 0);
    CHECK(strcmp(throttle_answer_name(THROTTLE_QUOTA), "quota") == 0);
    CHECK(strcmp(throttle_answer_name(5), "unknown") == 0);
    CHECK(strcmp(throttle_answer_name(WIDE), "unknown") == 0);
    CHECK(strcmp(throttle_answer_name(UINT64_MAX), "unknown") == 0);
}

/* A row of 16 bits is taken as it is, and a wider number is not cut. */
static void checked_rows(void)
{
    static const uint64_t wider[] = {65536, 65541, UINT64_C(1) << 32, UINT64_MAX};
    uint16_t row = 77;
    CHECK(throttle_row(0, &row) == THROTTLE_ANSWERED && row == 0);
    CHECK(throttle_row(0xBEEF, &row) == THROTTLE_ANSWERED && row == 0xBEEF);
    CHECK(throttle_row(65535, &row) == THROTTLE_ANSWERED && row == 65535);
    for (size_t i = 0; i < sizeof wider / sizeof *wider; i++)
        CHECK(throttle_row(wider[i], &row) == THROTTLE_OUTSIDE_SETTING && row == 65535);
}

/* The sample runs of the specification on setting S. */
static void samples(void)
{
    struct lent m = lend(&S);
    CHECK(setup(&m) == 0);
    CHECK(done(&m, 0, 0, 0) == THROTTLE_NONE_IN_FLIGHT);
    CHECK(answers(&m, 0, THROTTLE_OPENED, 0));
    CHECK(answers(&m, 1, THROTTLE_OPENED, 0));
    CHECK(answers(&m, 2, THROTTLE_WAIT_ROW, 7));
    CHECK(answers(&m, 7, THROTTLE_OPENED, 0));
    CHECK(answers(&m, 8, THROTTLE_WAIT_ROW, 13));
    CHECK(reading(&m, 8, 0, 0) == 0);
    CHECK(m.index[0] == 1 && m.index[1] == 8 && m.index[2] == 4);
    CHECK(request(&m, 7, 0, 0, 5) == THROTTLE_BAD_TICK);

    CHECK(setup(&m) == 0);
    CHECK(opened_and_done(&m, 18) && opened_and_done(&m, 19) && opened_and_done(&m, 37));
    CHECK(answers(&m, 38, THROTTLE_WAIT_ROW, 40));

    CHECK(setup(&m) == 0);
    CHECK(opened_and_done(&m, 18) && opened_and_done(&m, 19));
    CHECK(answers(&m, 21, THROTTLE_WAIT_ROW, 25));

    CHECK(setup(&m) == 0);
    CHECK(answers(&m, 6, THROTTLE_OPENED, 0));
    CHECK(request(&m, 5, 0, 0, 5) == THROTTLE_BAD_TICK);
    CHECK(answers(&m, 6, THROTTLE_WAIT_BANK, 7));
    for (uint16_t row = 1; row < 4; row++)
        CHECK(request(&m, 6 + row, 0, 0, row) == 0 && m.out[0] == THROTTLE_OPENED);
    CHECK(done(&m, 9, 0, 0) == 0);
    CHECK(request(&m, 9, 0, 0, 9) == 0 && m.out[0] == THROTTLE_WAIT_BANK && m.out[1] == 10);
    give_back(&m);
}

/* Four activations in three banks, then the rank's rule. */
static void rank_rule(void)
{
    struct lent m = lend(&TEN);
    CHECK(setup(&m) == 0);
    for (uint64_t bank = 0; bank < 3; bank++)
        CHECK(request(&m, 100, bank, 1, 8) == 0 && m.out[0] == THROTTLE_OPENED);
    CHECK(request(&m, 105, 0, 1, 8) == 0 && m.out[0] == THROTTLE_OPENED);
    CHECK(request(&m, 106, 1, 1, 8) == 0 && m.out[0] == THROTTLE_WAIT_RANK && m.out[1] == 107);
    give_back(&m);
}

/* Activates row 0xBEEF of bank 2 for thread 4 and looks at every cell. */
static void order_of_arguments(void)
{
    struct lent m = lend(&TEN);
    const size_t cell = (2 * 6 + 4) * 3;
    CHECK(setup(&m) == 0);
    CHECK(request(&m, FIRST, 2, 4, 0xBEEF) == 0);
    CHECK(m.out[0] == THROTTLE_OPENED && m.out[1] == 0 && m.out[2] == 3);
    for (size_t i = 0; i < THROTTLE_HEAD_CELLS; i++) {
        uint64_t expected = i == 0 ? FIRST : i == 1 ? 1 : i == 4 || i == 18 ? FIRST + 1 : 0;
        CHECK(m.head[i] == expected);
    }
    for (size_t i = 0; i < m.ticks_len; i++) {
        CHECK(m.ticks[i] == (i == 0 ? FIRST + 1 : 0));
        CHECK(m.rows[i] == (i == 0 ? 2u * 65536 + 0xBEEF : 0));
    }
    for (size_t i = 0; i < m.threads_len; i++)
        CHECK(m.threads[i] == (i == cell + 2));

    m.threads[cell] = m.threads[cell + 1] = 28;
    CHECK(reading(&m, FIRST + 1, 2, 4) == 0);
    CHECK(m.index[0] == 28 && m.index[1] == 56 && m.index[2] == 6);
    CHECK(request(&m, FIRST + 2, 2, 4, 0xBEEF) == 0 && m.out[0] == THROTTLE_WAIT_BANK);
    CHECK(m.out[1] == FIRST + 5);
    CHECK(done(&m, FIRST + 3, 4, 2) == THROTTLE_OUTSIDE_SETTING);
    CHECK(done(&m, FIRST + 3, 2, 4) == 0 && m.threads[cell + 2] == 0);
    CHECK(m.head[0] == FIRST + 3);
    give_back(&m);
}

/* The four counters of a row, in bank 2 and both filters, and no other. */
static void order_of_seeds(void)
{
    struct lent m = lend(&TEN);
    uint16_t place[4] = {0};
    for (unsigned f = 0; f < 4; f++)
        for (unsigned i = 0; i < 16; i++)
            if (0xBEEF >> i & 1)
                place[f] ^= m.seeds[16 * f + i];
    CHECK(setup(&m) == 0);
    CHECK(request(&m, FIRST, 2, 4, 0xBEEF) == 0);
    for (size_t i = 0; i < m.counters_len; i++) {
        size_t in_filter = i % 1024;
        int hit = in_filter == place[0] || in_filter == place[1] || in_filter == place[2] ||
                  in_filter == place[3];
        CHECK(m.counters[i] == (i >= 2 * 2048 && hit));
    }
    give_back(&m);
}

/* All words of both outs become 77. */
static void mark_outs(struct lent *m)
{
    for (size_t i = 0; i < THROTTLE_REQUEST_OUT; i++)
        m->out[i] = 77;
    for (size_t i = 0; i < THROTTLE_INDEX_OUT; i++)
        m->index[i] = 77;
}

/* They are 77 still. */
static int outs_kept(const struct lent *m)
{
    int kept = 1;
    for (size_t i = 0; i < THROTTLE_REQUEST_OUT; i++)
        kept &= m->out[i] == 77;
    for (size_t i = 0; i < THROTTLE_INDEX_OUT; i++)
        kept &= m->index[i] == 77;
    return kept;
}

/* Request, done and index are refused with this number and change nothing. */
static int refused(struct lent *m, uint32_t number, uint64_t tick, uint64_t bank, uint64_t thread)
{
    struct lent before = copy(m, &TEN);
    mark_outs(m);
    int all = request(m, tick, bank, thread, 9) == number &&
              done(m, tick, bank, thread) == number && reading(m, tick, bank, thread) == number;
    int kept = same(m, &before) && outs_kept(m);
    give_back(&before);
    return all && kept;
}

/* Refusals 1 to 5 and 16, by set-up and by the other calls. */
static void refused_settings(struct lent *m)
{
    static const struct {
        unsigned field;
        uint64_t value;
        uint32_t number;
    } cases[] = {{0, 4003, 1}, {1, 501, 2}, {4, 4, 3}, {4, 2002, 3},
                 {2, 0, 1},    {5, 52, 5},  {9, 2, 1}, {7, 5, 16}};
    for (size_t i = 0; i < sizeof cases / sizeof *cases; i++) {
        uint64_t kept = m->words[cases[i].field];
        m->words[cases[i].field] = cases[i].value;
        CHECK(setup(m) == cases[i].number);
        CHECK(refused(m, cases[i].number, FIRST, 2, 4));
        m->words[cases[i].field] = kept;
    }
    m->words[0] = 1 << 20, m->words[4] = MOST_HISTORY / 4 * 7 + 1;
    CHECK(setup(m) == THROTTLE_LONG_HISTORY && refused(m, THROTTLE_LONG_HISTORY, FIRST, 2, 4));
    throttle_words(&TEN, m->words);
    for (unsigned field = 0; field < THROTTLE_SETTING_WORDS; field++) {
        m->words[field] += WIDE;
        CHECK(setup(m) == THROTTLE_OUT_OF_RANGE);
        CHECK(refused(m, THROTTLE_OUT_OF_RANGE, FIRST, 2, 4));
        m->words[field] -= WIDE;
    }
}

/* Seeds of another count or out of range. */
static void refused_seeds(struct lent *m)
{
    m->seeds_len = 63;
    CHECK(setup(m) == THROTTLE_OUT_OF_RANGE && refused(m, THROTTLE_OUT_OF_RANGE, FIRST, 2, 4));
    m->seeds_len = 64;
    m->seeds[63] = 1024;
    CHECK(setup(m) == THROTTLE_OUT_OF_RANGE && refused(m, THROTTLE_OUT_OF_RANGE, FIRST, 2, 4));
    throttle_house_seeds(m->seeds);
}

/* Each of the four lengths one short. */
static void refused_lengths(struct lent *m)
{
    size_t *lengths[] = {&m->counters_len, &m->ticks_len, &m->rows_len, &m->threads_len};
    for (unsigned i = 0; i < 4; i++) {
        *lengths[i] -= 1;
        CHECK(setup(m) == THROTTLE_SHORT_BUFFER && refused(m, THROTTLE_SHORT_BUFFER, FIRST, 2, 4));
        *lengths[i] += 1;
    }
}

/* Every refusal of every call, each argument cut to no fewer than 64 bits. */
static void refusals(void)
{
    struct lent m = lend(&TEN);
    CHECK(setup(&m) == 0);
    CHECK(request(&m, FIRST, 2, 4, 0xBEEF) == 0);
    refused_settings(&m);
    refused_seeds(&m);
    refused_lengths(&m);
    m.head[1] = 52;
    CHECK(refused(&m, THROTTLE_BAD_MEMORY, FIRST, 9, 9));
    m.head[1] = 1;
    CHECK(refused(&m, THROTTLE_OUTSIDE_SETTING, 0, 3, 4));
    CHECK(refused(&m, THROTTLE_OUTSIDE_SETTING, 0, 2, 6));
    CHECK(refused(&m, THROTTLE_OUTSIDE_SETTING, FIRST, WIDE + 2, 4));
    CHECK(refused(&m, THROTTLE_OUTSIDE_SETTING, FIRST, 2, WIDE + 4));
    CHECK(refused(&m, THROTTLE_BAD_TICK, FIRST - 1, 2, 4));
    CHECK(refused(&m, THROTTLE_BAD_TICK, LIMIT, 2, 4));
    CHECK(refused(&m, THROTTLE_BAD_TICK, UINT64_MAX, 2, 4));
    CHECK(done(&m, FIRST, 1, 4) == THROTTLE_NONE_IN_FLIGHT);
    CHECK(m.head[0] == FIRST);
    CHECK(request(&m, LIMIT - 1, 2, 4, 9) == 0 && m.out[0] == THROTTLE_OPENED);
    CHECK(request(&m, LIMIT - 1, 2, 4, 9) == 0 && m.out[1] == LIMIT + 4);
    give_back(&m);
}

/*
 * Buffers three cells longer: the rest is not initialised, so that a memory
 * checker sees a decision that depends on it.
 */
static void longer_buffers(void)
{
    struct throttle_setting wide = TEN;
    wide.td += 7;
    struct lent m = lend(&wide);
    m.counters = realloc(m.counters, (m.counters_len += 3) * sizeof *m.counters);
    m.threads = realloc(m.threads, (m.threads_len += 3) * 4);
    if (!m.counters || !m.threads)
        abort();
    throttle_words(&TEN, m.words);
    CHECK(setup(&m) == 0);
    for (uint64_t tick = FIRST; tick < FIRST + 3 * 4002; tick += 3) {
        uint64_t bank = tick % 3, thread = tick % 5;
        CHECK(request(&m, tick, bank, thread, tick % 2 * 65535) == 0);
        if (m.out[0] == THROTTLE_OPENED)
            CHECK(done(&m, tick, bank, thread) == 0);
    }
    CHECK(reading(&m, FIRST + 4 * 4002, 2, 4) == 0 && m.index[0] == 0 && m.index[2] == 11);
    give_back(&m);
}

int main(void)
{
    sizes();
    house_seeds();
    names();
    checked_rows();
    samples();
    rank_rule();
    order_of_arguments();
    order_of_seeds();
    refusals();
    longer_buffers();
    return result("c" OF_WIDTH);
}
