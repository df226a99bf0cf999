/*
 * throttle_span_bound: bounds worked out by hand, the greatest numbers, and the
 * refusals in their order, which leave out as it was. Setting and out are heap
 * blocks of exactly their length, so that a memory checker sees an access outside,
 * and once more cells between guards.
 */
#include "check.h"
#include "throttle.h"
#include "throttle_plan.h"

#include <stdlib.h>
#include <string.h>

enum { GUARDS = 4 };
static const uint64_t guard = UINT64_C(0xA5C396E17B2D4F18), before = UINT64_C(0x1111222233334444);

/* W 40, tRC 1, tFAW 4, N 2, tD 6, L 10, one bank; and BlockHammer's timing with N 4,096. */
static const struct throttle_setting s = {40, 1, 4, 2, 6, 10, 4, 1, 1, THROTTLE_PROFILE_LARGE};
static const struct throttle_setting table_one = {256000000, 185, 140, 4096, 31065, 16384, 64, 16, 8, THROTTLE_PROFILE_LARGE};
/* N, tRC and H at their greatest together. */
static const struct throttle_setting most = {1 << 30, 511, 65535, 1 << 20, 536862720, 2097153, 255, 16, 32, THROTTLE_PROFILE_LARGE};

/* Makes the call on heap blocks, and on cells between guards; the number, and out in *bound. */
static uint32_t ask(const struct throttle_setting *setting, uint64_t x, uint64_t *bound)
{
    uint64_t *words = malloc(THROTTLE_SETTING_WORDS * sizeof *words), *out = malloc(THROTTLE_SPAN_OUT * sizeof *out);
    uint64_t cells[2 * GUARDS + THROTTLE_SPAN_OUT], copy[THROTTLE_SETTING_WORDS];
    if (!words || !out)
        abort();
    throttle_words(setting, words);
    memcpy(copy, words, sizeof copy);
    for (size_t k = 0; k < sizeof cells / sizeof *cells; k++)
        cells[k] = guard;
    out[0] = cells[GUARDS] = before;
    uint32_t number = throttle_span_bound(words, x, out);
    CHECK(throttle_span_bound(words, x, cells + GUARDS) == number);
    CHECK(memcmp(words, copy, sizeof copy) == 0);
    CHECK(cells[GUARDS] == out[0]);
    for (size_t k = 0; k < sizeof cells / sizeof *cells; k++)
        CHECK(k == GUARDS || cells[k] == guard);
    *bound = out[0];
    free(words);
    free(out);
    return number;
}

/* The bounds of accepted settings. */
static void each_bound(void)
{
    static const struct {
        const struct throttle_setting *setting;
        uint64_t x, bound;
    } cases[] = {
        {&s, 1, 1},   {&s, 2, 2},   {&s, 3, 3},   {&s, 5, 3},   {&s, 19, 5},  {&s, 20, 5},  {&s, 21, 6},
        {&s, 22, 7},  {&s, 40, 10}, {&s, 41, 11}, {&s, 60, 14}, {&s, 61, 14}, {&s, 62, 16},
        {&s, UINT64_MAX, UINT64_C(3843071682022823255)},
        {&table_one, 1, 1},
        {&table_one, 185, 1},
        {&table_one, 186, 2},
        {&table_one, 757760, 4096},
        {&table_one, 757761, 4097},
        {&table_one, 128000001, 8193},
        {&table_one, 128000002, 12264},
        {&table_one, 256000000, 16384},
        {&table_one, UINT64_MAX, UINT64_C(887201396613024)},
        {&most, 1 << 29, 1048577},
        {&most, (1 << 29) + 2, 1050629}, /* the second form, after an epoch */
        {&most, 1 << 30, 2097153},
        {&most, UINT64_C(1) << 32, 5242884},
        {&most, UINT64_C(1) << 63, UINT64_C(9007207862632706)},
        {&most, UINT64_MAX, UINT64_C(18014415724216836)},
    };
    for (size_t k = 0; k < sizeof cases / sizeof *cases; k++) {
        uint64_t bound;
        CHECK(ask(cases[k].setting, cases[k].x, &bound) == THROTTLE_ANSWERED);
        CHECK(bound == cases[k].bound);
    }
}

/* A setting is refused with this number for every span but 0, and with 1 for that. */
static void refused(uint32_t number, const struct throttle_setting *setting)
{
    static const uint64_t spans[] = {1, 2, 40, UINT64_C(1) << 32, UINT64_MAX};
    uint64_t bound;
    for (size_t k = 0; k < sizeof spans / sizeof *spans; k++) {
        CHECK(ask(setting, spans[k], &bound) == number);
        CHECK(bound == before);
    }
    CHECK(ask(setting, 0, &bound) == THROTTLE_OUT_OF_RANGE);
    CHECK(bound == before);
}

/* S with fields changed: each refusal, and two at once, of which the first is given. */
static void each_refusal(void)
{
    struct throttle_setting t = s;
    uint64_t bound;
    CHECK(ask(&s, 0, &bound) == THROTTLE_OUT_OF_RANGE && bound == before);
    t.q = 0, refused(THROTTLE_OUT_OF_RANGE, &t);
    t = s, t.w = 41, refused(THROTTLE_OUT_OF_RANGE, &t);
    t = s, t.td = 0, t.l = 1, refused(THROTTLE_OUT_OF_RANGE, &t);
    t = s, t.profile = 2, refused(THROTTLE_OUT_OF_RANGE, &t);
    t = most, t.n = (1 << 20) + 1, refused(THROTTLE_OUT_OF_RANGE, &t);
    t = s, t.n = 20, t.td = 21, t.l = 1, refused(THROTTLE_SHORT_WINDOW, &t);
    t = s, t.td = 21, t.l = 1, refused(THROTTLE_BAD_DELAY, &t);
    t = s, t.trc = 7, refused(THROTTLE_BAD_DELAY, &t);
    t = s, t.w = 40000, t.tfaw = 1, t.td = 8193, t.l = 1, refused(THROTTLE_LONG_HISTORY, &t);
    t = s, t.l = 9, t.banks = 5, t.profile = THROTTLE_PROFILE_SMALL, refused(THROTTLE_ABOVE_LIMIT, &t);
    t = s, t.banks = 5, t.profile = THROTTLE_PROFILE_SMALL, refused(THROTTLE_ABOVE_PROFILE, &t);
}

int main(void)
{
    each_bound();
    each_refusal();
    return result("span");
}
