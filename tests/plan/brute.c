/*
 * throttle_delays and throttle_wide_delays against brute force: the refusals of
 * documents 01 and 02 about a setting, written out one by one, are tried on every
 * delay from 1 on. A delay above W is above W/2 and has B = 2N + 1, so trying up
 * to W + 1 settles what every longer delay in range gets.
 *
 * SMALL_BANKS and SMALL_PLACES are the limits of the small profile, WIDE_THRESHOLD
 * and WIDE_PLACES those of the 32-bit counters. tests/plan/run also gives others,
 * with which a setting has to be found that gets another answer.
 */
#include <inttypes.h>
#include <stdio.h>
#include <stdlib.h>
#include <string.h>

#include "throttle.h"
#include "throttle_plan.h"

#ifndef SMALL_BANKS
#define SMALL_BANKS 4
#endif
#ifndef SMALL_PLACES
#define SMALL_PLACES 1024
#endif
#ifndef WIDE_THRESHOLD
#define WIDE_THRESHOLD 1048576
#endif
#ifndef WIDE_PLACES
#define WIDE_PLACES 32768
#endif

/* A width of the counters: the call that is tested, and the limits of N and H. */
struct width {
    const char *call;
    uint32_t (*delays)(const uint64_t *setting, uint64_t *out);
    uint64_t threshold, places;
};
static const struct width narrow = {"throttle_delays", throttle_delays, 32768, 4096};
static const struct width wide = {"throttle_wide_delays", throttle_wide_delays, WIDE_THRESHOLD, WIDE_PLACES};

/* The one that is being tested. */
static const struct width *width = &narrow;

static const uint64_t most_delay = 1u << 29;
static uint64_t tried, by_code[THROTTLE_ABOVE_PROFILE + 1];

static int between(uint64_t low, uint64_t high, uint64_t x) { return low <= x && x <= high; }

static uint64_t bound(const struct throttle_setting *s)
{
    uint64_t used = 2 * s->n * s->trc;
    uint64_t rest = s->w - 1 > used ? s->w - 1 - used : 0;
    return 2 * s->n + 1 + rest / s->td;
}

/* Refusals 1 to 5 and 16 in their order. */
static uint32_t refusal(const struct throttle_setting *s)
{
    if (!between(2, 1u << 30, s->w) || s->w % 2 != 0 || !between(1, 65535, s->trc) ||
        !between(1, 65535, s->tfaw) || !between(1, width->threshold, s->n) || !between(1, most_delay, s->td) ||
        !between(1, 1u << 24, s->l) || !between(1, 255, s->q) || !between(1, 16, s->banks) ||
        !between(1, 32, s->threads) || s->profile > 1)
        return 1;
    uint64_t places = 4 * ((s->td + s->tfaw - 1) / s->tfaw);
    if (s->w - 1 < 2 * s->n * s->trc) return 2;
    if (s->td < s->trc || s->td > s->w / 2) return 3;
    if (places > width->places) return 4;
    if (bound(s) > s->l) return 5;
    if (s->profile == 1 && (s->banks > SMALL_BANKS || places > SMALL_PLACES)) return 16;
    return 0;
}

static void fail(const struct throttle_setting *s, const char *what, uint64_t got, uint64_t wanted)
{
    printf("plan: %s, W %" PRIu64 " tRC %" PRIu64 " tFAW %" PRIu64 " N %" PRIu64 " L %" PRIu64
           " banks %" PRIu64 " profile %" PRIu64 ": %s is %" PRIu64 ", by brute force %" PRIu64 "\n",
           width->call, s->w, s->trc, s->tfaw, s->n, s->l, s->banks, s->profile, what, got, wanted);
    exit(1);
}

static void same(const struct throttle_setting *s, const char *what, uint64_t got, uint64_t wanted)
{
    if (got != wanted) fail(s, what, got, wanted);
}

/*
 * What trying every delay gives: the accepted ones, the refusal of delay 1, and
 * that of the smallest delay with B <= L, or 5 if there is none.
 */
struct found {
    uint64_t accepted, least, greatest;
    uint32_t first, smallest;
};

static struct found search(struct throttle_setting s)
{
    struct found f = {0, 0, 0, 0, 5};
    int has_smallest = 0;
    for (s.td = 1; s.td <= s.w + 1 && s.td <= most_delay; s.td++) {
        uint32_t r = refusal(&s);
        if (s.td == 1) f.first = r;
        if (r == 0) {
            if (f.accepted == 0) f.least = s.td;
            f.greatest = s.td;
            f.accepted++;
        }
        if (!has_smallest && bound(&s) <= s.l) {
            has_smallest = 1;
            f.smallest = r;
        }
    }
    return f;
}

/* The number for s by what was found: 16 if no delay is accepted, and with the large profile one is. */
static uint32_t number(struct throttle_setting s, const struct found *f)
{
    if (f->accepted > 0) return 0;
    if (f->first == 1 || f->first == 2) return f->first;
    if (s.profile == 1) {
        s.profile = 0;
        if (search(s).accepted > 0) return 16;
    }
    return f->smallest;
}

/* Compares the answer for s with what trying every delay gives. */
static void try_setting(struct throttle_setting s)
{
    uint64_t words[THROTTLE_SETTING_WORDS], out[THROTTLE_DELAYS_OUT] = {111, 222};
    uint32_t code = width->delays(throttle_words(&s, words), out);
    struct found f = search(s);
    uint32_t wanted = number(s, &f);
    same(&s, "the code", code, wanted);
    if (wanted == 0) {
        same(&s, "the number of accepted delays", out[1] - out[0] + 1, f.accepted);
        same(&s, "the least delay", out[0], f.least);
        same(&s, "the greatest delay", out[1], f.greatest);
    } else {
        same(&s, "out[0] of a refusal", out[0], 111);
        same(&s, "out[1] of a refusal", out[1], 222);
    }
    tried++;
    by_code[wanted]++;
}

/* One setting, its answer given. */
static void expect(struct throttle_setting s, uint32_t code, uint64_t least, uint64_t greatest)
{
    uint64_t words[THROTTLE_SETTING_WORDS], out[THROTTLE_DELAYS_OUT] = {0, 0};
    same(&s, "the code", width->delays(throttle_words(&s, words), out), code);
    same(&s, "the least delay", out[0], least);
    same(&s, "the greatest delay", out[1], greatest);
}

static struct throttle_setting large(uint64_t w, uint64_t trc, uint64_t tfaw, uint64_t n, uint64_t l)
{
    struct throttle_setting s = {w, trc, tfaw, n, 0, l, 4, 16, 8, THROTTLE_PROFILE_LARGE};
    return s;
}

/* The same on the small card, with so many banks. */
static struct throttle_setting small(struct throttle_setting s, uint64_t banks)
{
    s.banks = banks;
    s.profile = THROTTLE_PROFILE_SMALL;
    return s;
}

/* The answers of both widths. */
static void expect_both(struct throttle_setting s, uint32_t code, uint64_t least, uint64_t greatest)
{
    width = &narrow;
    expect(s, code, least, greatest);
    width = &wide;
    expect(s, code, least, greatest);
}

/* Document 01: tD 31,065 is the least for N 4,096 and L 16,384, and 31,064 is refused with 5. */
static void document_cases(void)
{
    struct throttle_setting s = large(256000000, 185, 140, 4096, 16384);
    width = &narrow;
    expect(s, 0, 31065, 143360);
    s.td = 31065;
    same(&s, "the refusal of 31,065", refusal(&s), 0);
    s.td = 31064;
    same(&s, "the refusal of 31,064", refusal(&s), 5);
    expect(large(256000000, 185, 140, 512, 2048), 4, 0, 0);
    expect_both(large(256000000, 185, 140, 8192, 16384), 5, 0, 0);
    expect_both(large(40, 1, 4, 2, 10), 0, 6, 20);
    /* the smallest delay with B <= L is above 2^29 */
    expect_both(large(1u << 30, 1, 1, 1, 3), 5, 0, 0);
}

/* Document 02, a: weaker chips, with histories up to 32,768 places; 1,146,880 is 8,192 x tFAW. N up to 2^20. */
static void weak_chip_cases(void)
{
    width = &wide;
    expect(large(256000000, 185, 140, 4096, 16384), 0, 31065, 1146880);
    expect(large(256000000, 185, 140, 512, 2048), 0, 249815, 1146880);
    expect(large(256000000, 185, 140, 256, 1024), 0, 499815, 1146880);
    expect(large(256000000, 185, 140, 400, 1024), 0, 1142197, 1146880);
    expect(large(256000000, 185, 140, 401, 1024), 4, 0, 0);
    expect(large(1u << 30, 1, 4, 1u << 20, 1u << 24), 0, 73, 32768);
    expect(large(1u << 30, 1, 4, (1u << 20) + 1, 1u << 24), 1, 0, 0);
    width = &narrow;
    expect(large(256000000, 185, 140, 256, 1024), 4, 0, 0);
    expect(large(1u << 30, 1, 4, 1u << 20, 1u << 24), 1, 0, 0);
}

/* The small card under the same timing; 35,840 is 256 x tFAW. But for 4 the width plays no part. */
static void small_card_cases(void)
{
    struct throttle_setting s = large(256000000, 185, 140, 4096, 16384);
    expect_both(small(s, 4), 0, 31065, 35840);
    expect_both(small(s, 1), 0, 31065, 35840);
    expect_both(small(s, 5), 16, 0, 0);
    expect_both(small(large(256000000, 185, 140, 8192, 16384), 5), 5, 0, 0);
    expect_both(small(large(40, 1, 4, 2, 10), 1), 0, 6, 20);
    /* the least limit that the small card can keep, and the one below it */
    expect_both(small(large(256000000, 185, 140, 1, 7145), 4), 0, 35840, 35840);
    expect_both(small(large(256000000, 185, 140, 1, 7144), 4), 16, 0, 0);
    expect_both(small(large(256000000, 185, 140, 2, 7145), 4), 16, 0, 0);
    width = &narrow;
    expect(small(large(256000000, 185, 140, 512, 2048), 5), 4, 0, 0);
    width = &wide;
    expect(small(large(256000000, 185, 140, 512, 2048), 4), 16, 0, 0);
}

/* Each field other than the delay below and above its range. */
static void bounds(void)
{
    static const uint64_t low[THROTTLE_SETTING_WORDS] = {2, 1, 1, 1, 0, 1, 1, 1, 1, 0};
    const uint64_t high[THROTTLE_SETTING_WORDS] = {1u << 30, 65535, 65535, width->threshold, 0, 1u << 24, 255, 16, 32, 1};
    for (int i = 0; i < THROTTLE_SETTING_WORDS; i++) {
        if (i == 4) continue;
        const uint64_t wrong[] = {low[i] - 1, high[i] + 1, high[i] + 2, low[i] + (UINT64_C(1) << 32), UINT64_MAX};
        for (size_t k = 0; k < sizeof wrong / sizeof *wrong; k++) {
            uint64_t words[THROTTLE_SETTING_WORDS] = {2000, 1, 4, 2, 0, 16, 4, 4, 8, 0};
            uint64_t out[THROTTLE_DELAYS_OUT] = {111, 222};
            words[i] = wrong[k];
            struct throttle_setting s = large(words[0], words[1], words[2], words[3], words[5]);
            same(&s, "the code of a field out of range", width->delays(words, out), 1);
            same(&s, "out[0] of a refusal", out[0], 111);
            same(&s, "out[1] of a refusal", out[1], 222);
        }
    }
}

/* N at its limit: in range it has no room in the window, and above it is out of range. */
static void last_thresholds(void)
{
    for (uint64_t n = width->threshold - 1; n <= width->threshold + 2; n++) try_setting(large(2000, 1, 4, n, 16));
}

/* N around the limit of the 16-bit counters, in windows that have room for little more than two bursts. */
static void large_thresholds(void)
{
    for (uint64_t n = 32766; n <= 32770; n++)
        for (uint64_t room = 0; room <= 20; room += 5)
            for (uint64_t l = 2 * n; l <= 2 * n + 4; l++) try_setting(large(2 * n + 2 * room, 1, 3, n, l));
}

/* Windows of up to 26 ticks, under each profile. */
static void short_windows(void)
{
    for (uint64_t w = 1; w <= 26; w++)
        for (uint64_t trc = 0; trc <= 6; trc++)
            for (uint64_t tfaw = 0; tfaw <= 2; tfaw++)
                for (uint64_t n = 0; n <= 6; n++)
                    for (uint64_t l = 0; l <= 20; l++) {
                        struct throttle_setting s = large(w, trc, tfaw, n, l);
                        try_setting(s);
                        try_setting(small(s, 4));
                        try_setting(small(s, 5));
                    }
}

/*
 * Longer windows, of up to 2 x epoch ticks, where the limits of the history count; every second setting has the
 * small profile.
 */
static void longer_windows(int count, uint64_t epoch)
{
    uint64_t x = 1;
    for (int i = 0; i < count; i++) {
        uint64_t r[6];
        for (int k = 0; k < 6; k++) {
            x = x * 6364136223846793005u + 1442695040888963407u;
            r[k] = x >> 33;
        }
        uint64_t trc = r[1] % 8 == 0 ? 1000 + r[1] % 100 : 1 + r[1] % 40;
        struct throttle_setting s =
            large(2 + 2 * (r[0] % epoch), trc, 1 + r[2] % 3, 1 + r[3] % 12, 1 + r[4] % 60);
        try_setting(i % 2 == 0 ? s : small(s, 1 + r[5] % 5));
    }
}

/* What was tried at this width; every number that can be given is among the answers. */
static int report(void)
{
    static const uint32_t codes[] = {1, 2, 3, 4, 5, 16};
    int all = by_code[0] > 0;
    printf("plan: %s: %" PRIu64 " settings agree with brute force; accepted %" PRIu64, width->call, tried, by_code[0]);
    for (size_t k = 0; k < sizeof codes / sizeof *codes; k++) {
        printf(", refused with %" PRIu32 " %" PRIu64, codes[k], by_code[codes[k]]);
        all = all && by_code[codes[k]] > 0;
    }
    printf("\n");
    return all;
}

/* Small settings at one width: short windows, and so many longer ones. A longer history shows in longer epochs only. */
static int try_all(const struct width *w, int count, uint64_t epoch)
{
    width = w;
    tried = 0;
    memset(by_code, 0, sizeof by_code);
    bounds();
    last_thresholds();
    large_thresholds();
    short_windows();
    longer_windows(count, epoch);
    return report();
}

int main(void)
{
    document_cases();
    weak_chip_cases();
    small_card_cases();
    int all = try_all(&narrow, 20000, 6000);
    return try_all(&wide, 4000, 25000) && all ? 0 : 1;
}
