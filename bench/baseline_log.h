/*
 * What the plain C checker and the plain C that cuts a log down share: a log's
 * blocks, and its records run through the model of baseline.c. Whoever includes
 * it owns the model's memory, so setting and memory are tested once, at block 0,
 * and not for each record.
 */
#ifndef BASELINE_LOG_H
#define BASELINE_LOG_H

#include "baseline.c"
#include "log_bytes.h"

enum { LOGGED = 2 }; /* words of out that a log has: answer and wait tick */

static struct rules rules;
static uint16_t seeds[THROTTLE_SEEDS];
static uint64_t head[THROTTLE_HEAD_CELLS];
static uint16_t counters[THROTTLE_MOST_COUNTER_CELLS];
static uint64_t ticks[THROTTLE_MOST_HISTORY_CELLS];
static uint32_t rows[THROTTLE_MOST_HISTORY_CELLS];
static uint32_t threads[THROTTLE_MOST_THREAD_CELLS];

static uint16_t load16(const uint8_t *p)
{
    return (uint16_t)(p[0] | p[1] << 8);
}

static uint32_t load32(const uint8_t *p)
{
    return load16(p) | (uint32_t)load16(p + 2) << 16;
}

static uint64_t load64(const uint8_t *p)
{
    return load32(p) | (uint64_t)load32(p + 4) << 32;
}

/* The two sums at bytes 508 to 511 are those of the bytes before. */
static int checked(const uint8_t block[BLOCK])
{
    uint32_t plain = 0, weighted = 0;
    for (uint32_t i = 0; i < SUMS; i++) {
        plain += block[i];
        weighted += (i + 1) * block[i];
    }
    return load16(block + SUMS) == plain % MODULUS &&
           load16(block + SUMS + 2) == weighted % MODULUS;
}

/* The bytes from a place to the sums are zero. */
static int zeros_from(const uint8_t block[BLOCK], size_t from)
{
    uint8_t all = 0;
    for (size_t i = from; i < SUMS; i++)
        all |= block[i];
    return all == 0;
}

/* The body of a later block: 1 to 20 records, each in its bounds, and zeros. */
static int records_laid_out(const uint8_t block[BLOCK])
{
    size_t count = block[4];
    int ok = 1;
    if (count < 1 || count > RECORDS)
        return 0;
    for (const uint8_t *p = block + BODY; p < block + BODY + count * RECORD; p += RECORD)
        ok &= (p[20] <= 1) & (p[21] <= 4) & (load16(p + 22) == 0);
    return ok && zeros_from(block, BODY + count * RECORD);
}

/* Refusals 12 and 13 of a whole block of this number; the one before it has so many records. */
static uint32_t block_refusal(const uint8_t block[BLOCK], uint64_t number, uint32_t before)
{
    if (!checked(block))
        return 12;
    if (load32(block) != number || block[5] != 0 || load16(block + 6) != 0)
        return 13;
    if (number == 0)
        return block[4] == 0 && block[MARK_AT] <= 1 && zeros_from(block, MARK_AT + 1) ? 0 : 13;
    if (number > 1 && before < RECORDS)
        return 13;
    return records_laid_out(block) ? 0 : 13;
}

/* Block 0: the setting and the seeds. The model's memory is still all zeros, as after set-up. */
static uint32_t start(const uint8_t block[BLOCK])
{
    uint64_t setting[THROTTLE_SETTING_WORDS];
    for (size_t k = 0; k < NUMBERS; k++)
        setting[k] = load32(block + BODY + 4 * k);
    setting[NUMBERS] = block[MARK_AT];
    for (size_t k = 0; k < THROTTLE_SEEDS; k++)
        seeds[k] = load16(block + SEEDS_AT + 2 * k);
    return setting_refusal(setting, seeds, THROTTLE_SEEDS, &rules);
}

/* A request that is not refused: its answer and wait tick; moves the clock and may activate. */
static void decide(uint64_t tick, size_t bank, size_t thread, uint16_t row, uint64_t out[LOGGED])
{
    uint16_t places[4];
    uint32_t *cell = threads + (bank * rules.threads + thread) * 3;
    uint64_t epoch = move_clock(&rules, head, counters, threads, tick);
    size_t active = epoch % 2;
    out[0] = 4;
    out[1] = 0;
    if (in_flight(&rules, threads, thread) >= quota(&rules, cell[active]))
        return;
    uint32_t word = (uint32_t)bank << 16 | row;
    uint16_t *filters = counters + bank * BANK_COUNTERS;
    hash(seeds, row, places);
    int black = estimate(filters + active * FILTER, places) >= rules.n;
    int black_next = estimate(filters + (1 - active) * FILTER, places) >= rules.n;
    uint64_t bank_free = later(head[BANK_HEAD + bank], rules.trc);
    uint64_t rank_free = later(head[RANK_HEAD + 3], rules.tfaw);
    uint64_t ready = bank_free > rank_free ? bank_free : rank_free;
    if (ready < tick)
        ready = tick;
    uint64_t u = wait_tick(&rules, head, ticks, rows, word, epoch, ready, black, black_next);
    out[0] = bank_free > tick ? 1 : rank_free > tick ? 2 : u > tick ? 3 : 0;
    out[1] = u > tick ? u : 0;
    if (u == tick)
        activate(&rules, head, filters, active, ticks, rows, cell, word, places, black);
}

/* Refusals 8 to 10 of a record's call, or 0 and the model's answer and wait tick. */
static uint32_t run_record(const uint8_t *record, uint64_t out[LOGGED])
{
    uint64_t tick = load64(record);
    size_t bank = record[18], thread = record[19];
    if (bank >= rules.banks || thread >= rules.threads)
        return 8;
    if (tick < head[0] || tick >> 62 != 0)
        return 9;
    if (record[20] == 0) {
        decide(tick, bank, thread, load16(record + 16), out);
        return 0;
    }
    uint32_t *flying = threads + (bank * rules.threads + thread) * 3 + IN_FLIGHT;
    if (*flying == 0)
        return 10;
    move_clock(&rules, head, counters, threads, tick);
    *flying -= 1;
    out[0] = 0;
    out[1] = 0;
    return 0;
}

#endif
