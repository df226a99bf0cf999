/*
 * throttle_fit_probes: offsets worked out by hand, every offset, lists that do not
 * fit, and the refusals in their order, which leave out as it was; the helpers of the
 * header. The lists are heap blocks of exactly their lengths, so that a memory checker
 * sees an access outside, and out lies between guards.
 */
#include "check.h"
#include "throttle_probes.h"

#include <stdlib.h>
#include <string.h>

_Static_assert(THROTTLE_SHORT_BUFFER == 6 && THROTTLE_BAD_PROBES == 18, "the numbers of the refusals");
_Static_assert(THROTTLE_PROBES_MOST_JITTER == 1000 && THROTTLE_PROBES_OUT == 2, "the greatest jitter, and the words of out");

enum { GUARDS = 4, MOST = 8, MANY = 3000 };
static const uint64_t guard = UINT64_C(0xA5C396E17B2D4F18), before = UINT64_C(0x1111222233334444);
static const uint64_t late = UINT64_C(1) << 62;

/* A list as it is lent; its buffers hold the first cells of ticks and rows. */
struct list {
    uint64_t ticks[MOST];
    uint32_t rows[MOST];
    size_t ticks_len, rows_len;
    uint64_t count;
};

/* A heap block that holds a copy, of one byte where there is nothing to hold. */
static void *copied(const void *cells, size_t bytes)
{
    void *block = malloc(bytes ? bytes : 1);
    if (!block)
        abort();
    memcpy(block, cells, bytes);
    return block;
}

/* Are the guards around out as they were? */
static int is_guarded(const uint64_t cells[2 * GUARDS + THROTTLE_PROBES_OUT])
{
    int good = 1;
    for (size_t k = 0; k < GUARDS; k++)
        good &= cells[k] == guard && cells[GUARDS + THROTTLE_PROBES_OUT + k] == guard;
    return good;
}

/* Makes the call on copies, which must stay as they are; the number, and out. */
static uint32_t ask(const struct list lists[2], uint64_t jitter, uint64_t out[THROTTLE_PROBES_OUT])
{
    uint64_t *ticks[2], cells[2 * GUARDS + THROTTLE_PROBES_OUT];
    uint32_t *rows[2];
    for (size_t k = 0; k < 2; k++) {
        ticks[k] = copied(lists[k].ticks, lists[k].ticks_len * sizeof *ticks[k]);
        rows[k] = copied(lists[k].rows, lists[k].rows_len * sizeof *rows[k]);
    }
    for (size_t k = 0; k < sizeof cells / sizeof *cells; k++)
        cells[k] = guard;
    cells[GUARDS] = before, cells[GUARDS + 1] = before + 1;
    uint32_t number = throttle_fit_probes(ticks[0], lists[0].ticks_len, rows[0], lists[0].rows_len, lists[0].count,
                                          ticks[1], lists[1].ticks_len, rows[1], lists[1].rows_len, lists[1].count,
                                          jitter, cells + GUARDS);
    CHECK(is_guarded(cells));
    memcpy(out, cells + GUARDS, THROTTLE_PROBES_OUT * sizeof *out);
    for (size_t k = 0; k < 2; k++) {
        CHECK(memcmp(ticks[k], lists[k].ticks, lists[k].ticks_len * sizeof *ticks[k]) == 0);
        CHECK(memcmp(rows[k], lists[k].rows, lists[k].rows_len * sizeof *rows[k]) == 0);
        free(ticks[k]);
        free(rows[k]);
    }
    return number;
}

/* They fit with d. */
static void fits(const struct list lists[2], uint64_t jitter, int64_t d)
{
    uint64_t out[THROTTLE_PROBES_OUT];
    CHECK(ask(lists, jitter, out) == THROTTLE_ANSWERED);
    CHECK(out[0] == 1 && out[1] == (uint64_t)d && throttle_probes_offset(out) == d);
}

/* They do not fit. */
static void differ(const struct list lists[2], uint64_t jitter)
{
    uint64_t out[THROTTLE_PROBES_OUT];
    CHECK(ask(lists, jitter, out) == THROTTLE_ANSWERED);
    CHECK(out[0] == 0 && out[1] == 0 && throttle_probes_offset(out) == 0);
}

/* They are refused, and so are they exchanged. */
static void refused(uint32_t number, const struct list lists[2], uint64_t jitter)
{
    struct list exchanged[2] = {lists[1], lists[0]};
    uint64_t out[THROTTLE_PROBES_OUT];
    CHECK(ask(lists, jitter, out) == number);
    CHECK(out[0] == before && out[1] == before + 1);
    CHECK(ask(exchanged, jitter, out) == number);
    CHECK(out[0] == before && out[1] == before + 1);
}

/* Pairs with the same banks and rows and these differences; nothing lies behind the counts. */
static void pair(struct list lists[2], size_t many, const int64_t *differences)
{
    memset(lists, 0, 2 * sizeof *lists);
    for (size_t k = 0; k < 2; k++)
        lists[k].ticks_len = lists[k].rows_len = lists[k].count = many;
    for (size_t i = 0; i < many; i++) {
        lists[0].ticks[i] = 5000 + 7 * i;
        lists[1].ticks[i] = lists[0].ticks[i] + (uint64_t)differences[i];
        lists[0].rows[i] = lists[1].rows[i] = throttle_probes_row((uint16_t)(15 - i), (uint16_t)(65535 - i));
    }
}

/* Differences with the offset, or NONE where there is none. */
enum { NONE = 2000 };
static const struct {
    size_t many;
    int64_t differences[3];
    uint64_t jitter;
    int64_t d;
} cases[] = {
    {0, {0}, 0, -1000},
    {0, {0}, 1000, -1000},
    {1, {5}, 0, 5},
    {1, {-5}, 3, -8},
    {3, {4, 9, 7}, 3, 6},
    {3, {4, 10, 7}, 3, 7},
    {3, {4, 11, 7}, 3, NONE},
    {3, {7, 4, 11}, 3, NONE},
    {2, {1, -1}, 0, NONE},
    {2, {1, -1}, 1, 0},
    {1, {1000}, 0, 1000},
    {1, {1001}, 0, NONE},
    {1, {1001}, 1, 1000},
    {1, {2000}, 1000, 1000},
    {1, {2001}, 1000, NONE},
    {1, {-1000}, 0, -1000},
    {1, {-1001}, 0, NONE},
    {1, {-1001}, 1, -1000},
    {1, {-2000}, 1000, -1000},
    {1, {-2001}, 1000, NONE},
    {2, {-2000, 0}, 1000, -1000},
    {2, {-2000, 1}, 1000, NONE},
    {2, {2000, 0}, 1000, 1000},
    {2, {2000, -1}, 1000, NONE},
    {2, {-1500, -1000}, 600, -1000},
    {1, {INT64_C(1) << 32}, 1000, NONE},
    {1, {INT64_C(1) << 61}, 1000, NONE},
};

static void each_case(void)
{
    for (size_t k = 0; k < sizeof cases / sizeof *cases; k++) {
        struct list lists[2];
        pair(lists, cases[k].many, cases[k].differences);
        if (cases[k].d == NONE)
            differ(lists, cases[k].jitter);
        else
            fits(lists, cases[k].jitter, cases[k].d);
    }
}

/* Every offset from -1,000 to 1,000 is given, and is read from the word that stands for it. */
static void each_offset(void)
{
    for (int64_t d = -1000; d <= 1000; d++) {
        int64_t differences[2] = {d, d};
        struct list lists[2];
        pair(lists, 2, differences);
        fits(lists, 0, d);
        uint64_t word[THROTTLE_PROBES_OUT] = {1, d < 0 ? UINT64_MAX - (uint64_t)(-d) + 1 : (uint64_t)d};
        CHECK(throttle_probes_offset(word) == d);
    }
    static const int64_t far[] = {INT64_MIN, INT64_MIN + 1, INT64_MAX};
    for (size_t k = 0; k < sizeof far / sizeof *far; k++) {
        uint64_t word[THROTTLE_PROBES_OUT] = {1, (uint64_t)far[k]};
        CHECK(throttle_probes_offset(word) == far[k]);
    }
}

/* The word of a bank and a row: all 32 bits are of use. */
static void each_row(void)
{
    CHECK(throttle_probes_row(0, 0) == 0);
    CHECK(throttle_probes_row(0, 5) == 5);
    CHECK(throttle_probes_row(0, 65535) == 65535);
    CHECK(throttle_probes_row(1, 0) == 65536);
    CHECK(throttle_probes_row(15, 65535) == 1048575);
    CHECK(throttle_probes_row(32768, 1) == UINT32_C(2147483649));
    CHECK(throttle_probes_row(65535, 65535) == UINT32_MAX);
    static const int64_t differences[3] = {3, 3, 3};
    for (unsigned bit = 0; bit < 32; bit++)
        for (size_t place = 0; place < 3; place++) {
            struct list lists[2];
            pair(lists, 3, differences);
            lists[0].rows[place] ^= UINT32_C(1) << bit;
            differ(lists, 5);
            lists[1].rows[place] ^= UINT32_C(1) << bit;
            fits(lists, 5, -2);
        }
}

/* Lists of other lengths do not fit; what lies behind the counts plays no part. */
static void each_length(void)
{
    static const int64_t differences[5] = {3, 3, 3, 3, 3};
    struct list lists[2];
    for (uint64_t first = 0; first <= 5; first++)
        for (uint64_t second = 0; second <= 5; second++) {
            pair(lists, 5, differences);
            lists[0].count = first, lists[1].count = second;
            /* behind the shorter list a record that would fit */
            if (first != second)
                differ(lists, 5);
            /* behind both: other rows, and ticks that are refused in a list */
            for (uint64_t k = first; k < 5; k++)
                lists[0].ticks[k] = UINT64_MAX - k, lists[0].rows[k] = 77;
            for (uint64_t k = second; k < 5; k++)
                lists[1].ticks[k] = late, lists[1].rows[k] = 78;
            if (first != second)
                differ(lists, 5);
            else
                fits(lists, 5, first == 0 ? -1000 : -2);
        }
}

/* A count above the length of its ticks or of its rows; it stands before 18. */
static void too_short(void)
{
    static const int64_t differences[3] = {3, 3, 3};
    static const uint64_t counts[] = {4, UINT64_C(1) << 32, (UINT64_C(1) << 32) + 3, UINT64_C(1) << 63, UINT64_MAX};
    struct list lists[2];
    for (uint64_t jitter = 1000; jitter <= 1001; jitter++)
        for (uint64_t tick = late - 1; tick <= late; tick++) {
            pair(lists, 3, differences);
            lists[0].ticks[0] = tick;
            lists[0].ticks_len = 2, refused(THROTTLE_SHORT_BUFFER, lists, jitter);
            lists[0].ticks_len = 3, lists[0].rows_len = 2, refused(THROTTLE_SHORT_BUFFER, lists, jitter);
            lists[0].ticks_len = lists[0].rows_len = 0, refused(THROTTLE_SHORT_BUFFER, lists, jitter);
            lists[0].ticks_len = lists[0].rows_len = 3;
            for (size_t k = 0; k < sizeof counts / sizeof *counts; k++)
                lists[0].count = counts[k], refused(THROTTLE_SHORT_BUFFER, lists, jitter);
        }
    pair(lists, 0, differences);
    lists[0].count = 1, refused(THROTTLE_SHORT_BUFFER, lists, 0);
}

/* Ticks of 2^62 or more at each place, with a partner or without, and jitters above 1,000; before any verdict. */
static void too_great(void)
{
    static const int64_t differences[4] = {3, 3, 3, 3};
    static const uint64_t ticks[] = {UINT64_C(1) << 62, (UINT64_C(1) << 62) + 1, UINT64_C(1) << 63, UINT64_MAX};
    static const uint64_t jitters[] = {1001, 1002, UINT64_C(1) << 32, (UINT64_C(1) << 32) + 5, UINT64_MAX};
    struct list lists[2];
    for (uint64_t second = 0; second <= 4; second++) {
        for (size_t place = 0; place < 4; place++)
            for (size_t k = 0; k < sizeof ticks / sizeof *ticks; k++) {
                pair(lists, 4, differences);
                lists[1].count = second;
                lists[0].ticks[place] = ticks[k], refused(THROTTLE_BAD_PROBES, lists, 5);
                lists[0].rows[0] ^= 1, refused(THROTTLE_BAD_PROBES, lists, 5);
            }
        pair(lists, 4, differences);
        lists[1].count = second;
        for (size_t k = 0; k < sizeof jitters / sizeof *jitters; k++)
            refused(THROTTLE_BAD_PROBES, lists, jitters[k]);
    }
    pair(lists, 0, differences);
    refused(THROTTLE_BAD_PROBES, lists, 1001);
    /* the last ticks that are taken */
    pair(lists, 1, differences);
    lists[0].ticks[0] = late - 4, lists[1].ticks[0] = late - 1;
    fits(lists, 0, 3);
    lists[0].ticks[0] = 0;
    differ(lists, THROTTLE_PROBES_MOST_JITTER);
}

/* Thousands of pairs with differences from -900 to -860: 20 fits just, and 19 does not. Then the last pair is one further. */
static void many_pairs(void)
{
    uint64_t *ticks = malloc(2 * MANY * sizeof *ticks), *second = ticks + MANY, out[THROTTLE_PROBES_OUT] = {7, 7};
    uint32_t *rows = malloc(2 * MANY * sizeof *rows), *again = rows + MANY;
    if (!ticks || !rows)
        abort();
    for (size_t i = 0; i < MANY; i++) {
        ticks[i] = 1000000 + 50 * i;
        second[i] = ticks[i] - 900 + i % 41;
        rows[i] = again[i] = (uint32_t)(i * 40503u);
    }
    CHECK(throttle_fit_probes(ticks, MANY, rows, MANY, MANY, second, MANY, again, MANY, MANY, 20, out) == 0);
    CHECK(out[0] == 1 && throttle_probes_offset(out) == -880);
    CHECK(throttle_fit_probes(ticks, MANY, rows, MANY, MANY, second, MANY, again, MANY, MANY, 19, out) == 0);
    CHECK(out[0] == 0 && out[1] == 0);
    second[MANY - 1] = ticks[MANY - 1] - 859;
    CHECK(throttle_fit_probes(ticks, MANY, rows, MANY, MANY, second, MANY, again, MANY, MANY, 20, out) == 0);
    CHECK(out[0] == 0 && out[1] == 0);
    CHECK(throttle_fit_probes(ticks, MANY, rows, MANY, MANY - 1, second, MANY, again, MANY, MANY - 1, 20, out) == 0);
    CHECK(out[0] == 1 && throttle_probes_offset(out) == -880);
    free(ticks);
    free(rows);
}

int main(void)
{
    each_case();
    each_offset();
    each_row();
    each_length();
    too_short();
    too_great();
    many_pairs();
    return result("probes");
}
