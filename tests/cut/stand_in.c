/*
 * throttle_cut_down in plain C, in place of the archive, over the calls of
 * libthrottle.a. The variable FAULT of the environment names a fault that is
 * planted in it; without one it is right. tests/cut/run sees that each fault is
 * noticed. If there is a variable ANSWER, its two numbers are what the call
 * returns and writes, whatever the log.
 */
#include "throttle_cut_down.h"

#include <inttypes.h>
#include <stdio.h>

/* The faults, by name. tests/cut/selections.py takes them from here. */
#define FAULTS(X)                                                                             \
    X(bits_from_63_down) X(bits_from_1) X(one_pass) X(from_last_to_first) X(last_left_out)    \
    X(first_not_tried) X(refusal_differs) X(wait_ignored) X(answer_ignored)                   \
    X(claims_of_dones_ignored) X(state_goes_on) X(dones_stay) X(seeds_of_the_house)           \
    X(all_kept) X(later_blocks_not_looked_at) X(sums_not_looked_at) X(layout_not_looked_at)   \
    X(many_before_blocks) X(at_most_63) X(at_most_65) X(agreeing_kept) X(refused_kept)        \
    X(empty_is_21) X(setting_is_13)

#include "../planted.h"

enum { BLOCK = 512, BODY = 8, SUMS = 508, RECORD = 24, MARK = 172, MODULUS = 65521 };

static uint64_t setting[THROTTLE_SETTING_WORDS];
static uint16_t seeds[THROTTLE_SEEDS];
static uint64_t head[THROTTLE_HEAD_CELLS], ticks[THROTTLE_MOST_HISTORY_CELLS];
static uint16_t counters[THROTTLE_MOST_COUNTER_CELLS];
static uint32_t rows[THROTTLE_MOST_HISTORY_CELLS], threads[THROTTLE_MOST_THREAD_CELLS];

#define STATE                                                                                  \
    setting, seeds, THROTTLE_SEEDS, head, counters, THROTTLE_MOST_COUNTER_CELLS, ticks,        \
        THROTTLE_MOST_HISTORY_CELLS, rows, THROTTLE_MOST_HISTORY_CELLS, threads,               \
        THROTTLE_MOST_THREAD_CELLS

static uint64_t load(const uint8_t *p, int bytes)
{
    return bytes == 0 ? 0 : p[0] | load(p + 1, bytes - 1) << 8;
}

static bool sums_are_right(const uint8_t *block)
{
    uint64_t plain = 0, weighted = 0;
    for (uint64_t i = 0; i < SUMS; i++) {
        plain += block[i];
        weighted += (i + 1) * block[i];
    }
    return load(block + SUMS, 2) == plain % MODULUS && load(block + SUMS + 2, 2) == weighted % MODULUS;
}

static bool are_zero(const uint8_t *block, size_t from, size_t to)
{
    for (size_t i = from; i < to; i++)
        if (block[i] != 0)
            return false;
    return true;
}

/* The block is laid out as it has to be; before is the count of records of the one before it. */
static bool is_laid_out(const uint8_t *block, size_t number, uint8_t before)
{
    uint8_t count = block[4];
    if (load(block, 4) != number || !are_zero(block, 5, BODY))
        return false;
    if (number == 0)
        return count == 0 && block[MARK] <= 1 && are_zero(block, MARK + 1, SUMS);
    if (count < 1 || count > 20 || (number > 1 && before < 20))
        return false;
    for (const uint8_t *r = block + BODY; r < block + BODY + RECORD * count; r += RECORD)
        if (r[20] > 1 || r[21] > 4 || r[22] != 0 || r[23] != 0)
            return false;
    return are_zero(block, BODY + RECORD * (size_t)count, SUMS);
}

/* The setting and the seeds of block 0, and set-up's number. */
static uint32_t begin(const uint8_t *block)
{
    for (size_t i = 0; i < 9; i++)
        setting[i] = load(block + BODY + 4 * i, 4);
    setting[9] = block[MARK];
    for (size_t i = 0; i < THROTTLE_SEEDS; i++)
        seeds[i] = (uint16_t)load(block + 44 + 2 * i, 2);
    uint32_t code = throttle_setup(STATE);
    if (is_planted(seeds_of_the_house))
        throttle_house_seeds(seeds);
    return code != 0 && is_planted(setting_is_13) ? 13 : code;
}

/* Records, one after the other, of which up to 64 are needed. */
static const uint8_t *records[80];
static size_t count;

static void note_records(const uint8_t *block)
{
    for (size_t i = 0; i < block[4]; i++, count++)
        if (count < 80)
            records[count] = block + BODY + RECORD * i;
}

static uint32_t check_blocks(const uint8_t *log, size_t length)
{
    count = 0;
    for (size_t number = 0; number == 0 || number * BLOCK < length; number++) {
        const uint8_t *block = log + number * BLOCK;
        if (is_planted(many_before_blocks) && count > 64)
            return 20;
        if (number > 1 && is_planted(later_blocks_not_looked_at))
            return 0;
        if (length - number * BLOCK < BLOCK)
            return length == 0 && is_planted(empty_is_21) ? 21 : 11;
        if (!sums_are_right(block) && !is_planted(sums_not_looked_at))
            return 12;
        uint8_t before = number > 0 ? block[4 - BLOCK] : 0;
        if (!is_laid_out(block, number, before) && !is_planted(layout_not_looked_at))
            return 13;
        uint32_t code = number == 0 ? begin(block) : 0;
        if (code != 0)
            return code;
        if (number > 0)
            note_records(block);
    }
    return 0;
}

/* Whether a record that was not refused differs; out is what the rules say. */
static bool is_unlike(const uint8_t *r, const uint64_t out[THROTTLE_REQUEST_OUT])
{
    if (r[20] == 1 && is_planted(claims_of_dones_ignored))
        return false;
    return (r[21] != out[0] && !is_planted(answer_ignored)) ||
           (load(r + 8, 8) != out[1] && !is_planted(wait_ignored));
}

/* Asks the model about a record. */
static uint32_t ask(const uint8_t *r, uint64_t out[THROTTLE_REQUEST_OUT])
{
    if (r[20] == 1)
        return throttle_done(STATE, load(r, 8), r[18], r[19]);
    return throttle_request(STATE, load(r, 8), r[18], r[19], (uint16_t)load(r + 16, 2), out);
}

/* Whether a selection differs, by its first event. */
static bool differs(uint64_t mask)
{
    if (!is_planted(state_goes_on) && throttle_setup(STATE) != 0)
        abort();
    for (size_t i = 0; i < count; i++) {
        uint64_t out[THROTTLE_REQUEST_OUT] = {0};
        if ((mask >> i & 1) == 0)
            continue;
        if (ask(records[i], out) != 0)
            return is_planted(refusal_differs);
        if (is_unlike(records[i], out))
            return true;
    }
    return false;
}

static uint64_t one_pass_over(uint64_t mask)
{
    for (size_t k = 0; k < count; k++) {
        size_t i = is_planted(from_last_to_first) ? count - 1 - k : k;
        uint64_t bit = UINT64_C(1) << i;
        if ((i == 0 && is_planted(first_not_tried)) ||
            (records[i][20] == 1 && is_planted(dones_stay)))
            continue;
        if ((mask & bit) != 0 && differs(mask & ~bit))
            mask &= ~bit;
    }
    return mask;
}

static uint64_t select_records(uint64_t mask)
{
    uint64_t before = 0;
    while (mask != before && !is_planted(all_kept)) {
        before = mask;
        mask = one_pass_over(mask);
        if (is_planted(one_pass))
            break;
    }
    if (is_planted(last_left_out))
        for (size_t i = count; i-- > 0;)
            if ((mask >> i & 1) != 0)
                return mask & ~(UINT64_C(1) << i);
    return mask;
}

/* The bits in the order that a fault gives them. */
static uint64_t in_order(uint64_t mask)
{
    uint64_t other = 0;
    if (is_planted(bits_from_1))
        return mask << 1 | mask >> 63;
    if (!is_planted(bits_from_63_down))
        return mask;
    for (int i = 0; i < 64; i++)
        other |= (mask >> i & 1) << (63 - i);
    return other;
}

uint32_t throttle_cut_down(const uint8_t *log, size_t log_len,
                           uint64_t out[THROTTLE_LEAST THROTTLE_CUT_OUT])
{
    const char *answer = getenv("ANSWER");
    uint32_t code;
    if (answer != NULL && sscanf(answer, "%" SCNu32 "%" SCNu64, &code, &out[0]) == 2)
        return code;
    plant();
    code = check_blocks(log, log_len);
    if (code != 0)
        return code;
    size_t most = 64u - is_planted(at_most_63) + is_planted(at_most_65);
    if (count > most)
        return 20;
    uint64_t all = count >= 64 ? UINT64_MAX : (UINT64_C(1) << count) - 1;
    if (!differs(all) && !(is_planted(agreeing_kept) && count > 0) && !is_planted(refused_kept))
        return 21;
    out[0] = in_order(select_records(all));
    return 0;
}
