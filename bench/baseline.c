/*
 * The throttle's four calls in plain C, for comparison in the benchmark, at
 * either width. It makes the same tests as the library in every call and writes
 * the same cells, for any contents of the memory. See baseline.h for the names.
 */
#include "baseline.h"
#include "baseline_filter.h"
#include "baseline_hash.h"
#include "baseline_history.h"

#include <string.h>

#ifndef BASE_PREFIX
#define BASE_PREFIX base
#endif

BASE_DECLARE(BASE_PREFIX);

enum { FILTER = 1024, BANK_COUNTERS = 2 * FILTER, BANK_HEAD = 2, RANK_HEAD = 18, IN_FLIGHT = 2 };

/* An accepted setting and what follows from it. */
struct rules {
    uint64_t epoch; /* E */
    uint64_t trc;
    uint64_t tfaw;
    uint64_t td;
    uint32_t n;
    uint32_t scale; /* D */
    uint32_t q;
    uint32_t banks;
    uint32_t threads;
    uint32_t history; /* H */
};

static int within(uint64_t x, uint64_t low, uint64_t high)
{
    return x >= low && x <= high;
}

static int fields_in_range(const uint64_t s[THROTTLE_SETTING_WORDS])
{
    return within(s[0], 2, 1u << 30) && s[0] % 2 == 0 && within(s[1], 1, 65535) &&
           within(s[2], 1, 65535) && within(s[3], 1, BASE_MOST_N) && within(s[4], 1, 1u << 29) &&
           within(s[5], 1, 1u << 24) && within(s[6], 1, 255) && within(s[7], 1, 16) &&
           within(s[8], 1, 32) && s[9] <= THROTTLE_PROFILE_SMALL;
}

/* 1,023 is ten bits, so no seed is above it where their union is not. */
static int seeds_in_range(const uint16_t *seeds, size_t len)
{
    uint16_t all = 0;
    if (len != 64)
        return 0;
    for (size_t i = 0; i < 64; i++)
        all |= seeds[i];
    return all <= 1023;
}

/* The setting has the small profile and is above it. */
static int above_profile(const uint64_t s[THROTTLE_SETTING_WORDS], uint32_t history)
{
    return s[9] == THROTTLE_PROFILE_SMALL &&
           (s[7] > THROTTLE_SMALL_BANKS || history > THROTTLE_SMALL_HISTORY_CELLS);
}

/* Refusals 1 to 5 and 16; r is filled in where there is none. Numbers in range fit 32 bits. */
static uint32_t setting_refusal(const uint64_t s[THROTTLE_SETTING_WORDS], const uint16_t *seeds,
                                size_t seeds_len, struct rules *r)
{
    if (!fields_in_range(s) || !seeds_in_range(seeds, seeds_len))
        return 1;
    uint32_t w = (uint32_t)s[0], trc = (uint32_t)s[1], tfaw = (uint32_t)s[2];
    uint32_t n = (uint32_t)s[3], td = (uint32_t)s[4], l = (uint32_t)s[5];
    uint64_t burst = 2 * (uint64_t)n * trc;
    if (w - 1 < burst)
        return 2;
    if (td < trc || td > w / 2)
        return 3;
    uint32_t history = 4 * ((td + tfaw - 1) / tfaw);
    if (history > BASE_MOST_HISTORY)
        return 4;
    if (2 * n + 1 + (w - 1 - (uint32_t)burst) / td > l)
        return 5;
    if (above_profile(s, history))
        return 16;
    r->epoch = w / 2;
    r->trc = trc;
    r->tfaw = tfaw;
    r->td = td;
    r->n = n;
    r->scale = l - n;
    r->q = (uint32_t)s[6];
    r->banks = (uint32_t)s[7];
    r->threads = (uint32_t)s[8];
    r->history = history;
    return 0;
}

static int too_short(const struct rules *r, size_t counters_len, size_t ticks_len, size_t rows_len,
                     size_t threads_len)
{
    return counters_len < (size_t)r->banks * BANK_COUNTERS || ticks_len < r->history ||
           rows_len < r->history || threads_len < (size_t)r->banks * r->threads * 3;
}

/* The n stored ticks from x on and their distances to the tick after the last, or-ed. */
static uint64_t distances(const uint64_t *x, size_t n, uint64_t last)
{
    uint64_t bits = 0;
    for (size_t i = 0; i < n; i++)
        bits |= x[i] | (last + 1 - x[i]);
    return bits;
}

/*
 * Refusal 7. Where the last tick, the stored ticks of banks and rank and their
 * distances are below 2^62, none of these is after the last; else they are
 * compared.
 */
static int memory_unsound(const struct rules *r, const uint64_t head[THROTTLE_HEAD_CELLS],
                          const uint64_t *ticks)
{
    uint64_t last = head[0];
    if (head[1] >= r->history)
        return 1;
    uint64_t bits = last | distances(head + BANK_HEAD, r->banks, last) |
                    distances(head + RANK_HEAD, 4, last);
    if (bits >> 62 != 0 && (any_after(head + BANK_HEAD, r->banks, last) ||
                            any_after(head + RANK_HEAD, 4, last)))
        return 1;
    return history_unsound(ticks, r->history, head[1], last);
}

/* Refusals 1 to 9 and 16 of a call with a tick, a bank and a thread. */
static uint32_t call_refusal(BASE_STATE, uint64_t tick, uint64_t bank, uint64_t thread,
                             struct rules *r)
{
    uint32_t refused = setting_refusal(setting, seeds, seeds_len, r);
    (void)counters, (void)rows, (void)threads;
    if (refused != 0)
        return refused;
    if (too_short(r, counters_len, ticks_len, rows_len, threads_len))
        return 6;
    if (memory_unsound(r, head, ticks))
        return 7;
    if (bank >= r->banks || thread >= r->threads)
        return 8;
    if (tick < head[0] || tick >> 62 != 0)
        return 9;
    return 0;
}

/* Clears a filter and the index counters of its number, in all banks. */
static void clear_filter(const struct rules *r, base_counter *counters, uint32_t *threads,
                         size_t filter)
{
    for (size_t b = 0; b < r->banks; b++)
        memset(counters + b * BANK_COUNTERS + filter * FILTER, 0, FILTER * sizeof *counters);
    for (size_t i = 0; i < (size_t)r->banks * r->threads; i++)
        threads[3 * i + filter] = 0;
}

/* Clears both filters and all index counters. */
static void clear_filters(const struct rules *r, base_counter *counters, uint32_t *threads)
{
    memset(counters, 0, (size_t)r->banks * BANK_COUNTERS * sizeof *counters);
    for (size_t i = 0; i < (size_t)r->banks * r->threads; i++)
        threads[3 * i] = threads[3 * i + 1] = 0;
}

/* Moves the clock to the tick, clears what its epoch asks for, and returns that epoch. */
static uint64_t move_clock(const struct rules *r, uint64_t head[THROTTLE_HEAD_CELLS],
                           base_counter *counters, uint32_t *threads, uint64_t tick)
{
    uint64_t old = head[0] / r->epoch, now = old;
    head[0] = tick;
    if (tick - old * r->epoch >= r->epoch) {
        now = tick / r->epoch;
        if (now - old >= 2)
            clear_filters(r, counters, threads);
        else
            clear_filter(r, counters, threads, old % 2);
    }
    return now;
}

/*
 * The tick at which the row's newest activation is tD ticks old, or 0 if none
 * is under tD ticks old. Newest first; the ticks never rise that way, so the
 * first one that is too old ends the search, and so does an empty place.
 */
static uint64_t free_tick(const struct rules *r, const uint64_t head[THROTTLE_HEAD_CELLS],
                          const uint64_t *ticks, const uint32_t *rows, uint32_t word)
{
    uint64_t now = head[0] + 1, old = now > r->td ? now - r->td : 0;
    size_t place = head[1];
    for (size_t i = place; i-- > 0;) {
        if (ticks[i] <= old)
            return 0;
        if (rows[i] == word)
            return ticks[i] - 1 + r->td;
    }
    for (size_t i = r->history; i-- > place;) {
        if (ticks[i] <= old)
            return 0;
        if (rows[i] == word)
            return ticks[i] - 1 + r->td;
    }
    return 0;
}

/*
 * The least tick at which bank, rank and row rules pass; ready is the least for
 * bank and rank alone, black and black_next tell whether the row is
 * blacklisted in this epoch and in the next. A row is free before the epoch
 * after the next begins, since tD is at most an epoch.
 */
static uint64_t wait_tick(const struct rules *r, const uint64_t head[THROTTLE_HEAD_CELLS],
                          const uint64_t *ticks, const uint32_t *rows, uint32_t word,
                          uint64_t epoch, uint64_t ready, int black, int black_next)
{
    uint64_t turn = (epoch + 1) * r->epoch;
    if (ready < turn ? !black : !black_next)
        return ready;
    uint64_t free = free_tick(r, head, ticks, rows, word);
    if (free <= ready)
        return ready;
    return ready < turn && !black_next && turn < free ? turn : free;
}

/*
 * Q x (D - min(c, D)) / D to the nearest whole number, an exact half to the
 * even one. The product is below 2^32. The number below it is raised by 1 if
 * twice the rest is above D, or equal to D where that number is odd.
 */
static uint32_t quota(const struct rules *r, uint32_t c)
{
    if (c >= r->scale)
        return 0;
    uint32_t share = r->q * (r->scale - c), below = share / r->scale;
    uint32_t twice = 2 * (share - below * r->scale);
    return below + ((twice > r->scale) | ((twice == r->scale) & below));
}

/* The thread's requests in flight in all banks; 64 bits hold the sum of any cells. */
static uint64_t in_flight(const struct rules *r, const uint32_t *threads, size_t thread)
{
    const uint32_t *cell = threads + thread * 3 + IN_FLIGHT;
    size_t step = (size_t)r->threads * 3;
    uint64_t sum = 0;
#pragma GCC unroll 8
    for (uint32_t b = 0; b < r->banks; b++, cell += step)
        sum += *cell;
    return sum;
}

/*
 * Writes an activation to head, history, filters and thread counters. Returns
 * the openings left of the row by its counters in the active filter.
 */
static uint64_t activate(const struct rules *r, uint64_t head[THROTTLE_HEAD_CELLS],
                         base_counter *bank_counters, size_t active, uint64_t *ticks,
                         uint32_t *rows, uint32_t *cell, uint32_t word, const uint16_t places[4],
                         int black)
{
    uint64_t stored = head[0] + 1;
    size_t place = head[1];
    ticks[place] = stored;
    rows[place] = word;
    head[1] = place + 1 == r->history ? 0 : place + 1;
    head[BANK_HEAD + (word >> 16)] = stored;
    for (size_t k = 3; k > 0; k--)
        head[RANK_HEAD + k] = head[RANK_HEAD + k - 1];
    head[RANK_HEAD] = stored;
    uint32_t first = count_row(bank_counters, places, r->n);
    uint32_t second = count_row(bank_counters + FILTER, places, r->n);
    cell[IN_FLIGHT]++;
    if (black) {
        cell[0] += cell[0] < r->scale;
        cell[1] += cell[1] < r->scale;
    }
    uint32_t counted = active == 0 ? first : second;
    return counted < r->n ? r->n - counted : 0;
}

/* The tick from which a stored tick no longer holds a request back, or 0 for none. */
static uint64_t later(uint64_t stored, uint64_t gap)
{
    return stored == 0 ? 0 : stored - 1 + gap;
}

uint32_t BASE_NAME(BASE_PREFIX, setup)(BASE_STATE)
{
    struct rules r;
    uint32_t refused = setting_refusal(setting, seeds, seeds_len, &r);
    if (refused != 0)
        return refused;
    if (too_short(&r, counters_len, ticks_len, rows_len, threads_len))
        return 6;
    memset(head, 0, THROTTLE_HEAD_CELLS * sizeof *head);
    memset(counters, 0, (size_t)r.banks * BANK_COUNTERS * sizeof *counters);
    memset(ticks, 0, r.history * sizeof *ticks);
    memset(rows, 0, r.history * sizeof *rows);
    memset(threads, 0, (size_t)r.banks * r.threads * 3 * sizeof *threads);
    return 0;
}

uint32_t BASE_NAME(BASE_PREFIX, request)(BASE_STATE, uint64_t tick, uint64_t bank, uint64_t thread,
                                         uint16_t row,
                                         uint64_t out[THROTTLE_LEAST THROTTLE_REQUEST_OUT])
{
    struct rules r;
    uint16_t places[4];
    uint32_t refused = call_refusal(BASE_GIVEN, tick, bank, thread, &r);
    if (refused != 0)
        return refused;
    uint64_t epoch = move_clock(&r, head, counters, threads, tick);
    size_t active = epoch % 2;
    uint32_t *cell = threads + (bank * r.threads + thread) * 3;
    if (in_flight(&r, threads, thread) >= quota(&r, cell[active])) {
        out[0] = 4;
        out[1] = 0;
        out[2] = 0;
        return 0;
    }
    uint32_t word = (uint32_t)bank << 16 | row;
    base_counter *filters = counters + bank * BANK_COUNTERS;
    hash(seeds, row, places);
    int black = estimate(filters + active * FILTER, places) >= r.n;
    int black_next = estimate(filters + (1 - active) * FILTER, places) >= r.n;
    uint64_t bank_free = later(head[BANK_HEAD + bank], r.trc);
    uint64_t rank_free = later(head[RANK_HEAD + 3], r.tfaw);
    uint64_t ready = bank_free > rank_free ? bank_free : rank_free;
    if (ready < tick)
        ready = tick;
    uint64_t u = wait_tick(&r, head, ticks, rows, word, epoch, ready, black, black_next);
    out[0] = bank_free > tick ? 1 : rank_free > tick ? 2 : u > tick ? 3 : 0;
    out[1] = u > tick ? u : 0;
    out[2] = 0;
    if (u == tick)
        out[2] = activate(&r, head, filters, active, ticks, rows, cell, word, places, black);
    return 0;
}

uint32_t BASE_NAME(BASE_PREFIX, done)(BASE_STATE, uint64_t tick, uint64_t bank, uint64_t thread)
{
    struct rules r;
    uint32_t refused = call_refusal(BASE_GIVEN, tick, bank, thread, &r);
    if (refused != 0)
        return refused;
    uint32_t *flying = threads + (bank * r.threads + thread) * 3 + IN_FLIGHT;
    if (*flying == 0)
        return 10;
    move_clock(&r, head, counters, threads, tick);
    *flying -= 1;
    return 0;
}

uint32_t BASE_NAME(BASE_PREFIX, index)(BASE_STATE, uint64_t tick, uint64_t bank, uint64_t thread,
                                       uint64_t out[THROTTLE_LEAST THROTTLE_INDEX_OUT])
{
    struct rules r;
    uint32_t refused = call_refusal(BASE_GIVEN, tick, bank, thread, &r);
    if (refused != 0)
        return refused;
    uint64_t epoch = move_clock(&r, head, counters, threads, tick);
    uint32_t c = threads[(bank * r.threads + thread) * 3 + epoch % 2];
    out[0] = c;
    out[1] = r.scale;
    out[2] = quota(&r, c);
    return 0;
}
