/*
 * The baseline of the benchmark of throttle_cut_down: the same call in plain C,
 * with the same refusals and by the same steps. Each selection is run from a new
 * set-up, which clears the used parts of the memory.
 */
#include "cut_plain.h"

#include "baseline_log.h"

CUT_DECLARE(BASE_PREFIX);

static const uint8_t *records[THROTTLE_CUT_RECORDS];
static struct cut_work work;

/* Notes the records of a block, of which the first 64 are needed; returns how many there are by now. */
static uint64_t note_records(const uint8_t block[BLOCK], uint64_t count)
{
    for (uint64_t i = 0; i < block[4]; i++, count++)
        if (count < THROTTLE_CUT_RECORDS)
            records[count] = block + BODY + RECORD * i;
    return count;
}

/* The first refusal of the blocks, or 0 and how many records they have. */
static uint32_t check_blocks(const uint8_t *log, size_t log_len, uint64_t *count)
{
    uint32_t before = 0;
    *count = 0;
    for (uint64_t number = 0; number == 0 || number * BLOCK < log_len; number++) {
        const uint8_t *block = log + number * BLOCK;
        if (log_len - number * BLOCK < BLOCK)
            return 11;
        uint32_t code = block_refusal(block, number, before);
        if (code == 0 && number == 0)
            code = start(block);
        if (code != 0)
            return code;
        if (number > 0)
            *count = note_records(block, *count);
        before = block[4];
    }
    return 0;
}

static void clear_state(void)
{
    memset(head, 0, sizeof head);
    memset(counters, 0, rules.banks * BANK_COUNTERS * sizeof *counters);
    memset(ticks, 0, rules.history * sizeof *ticks);
    memset(rows, 0, rules.history * sizeof *rows);
    memset(threads, 0, (size_t)rules.banks * rules.threads * 3 * sizeof *threads);
}

/* Whether the selection differs: its first event is no refusal. */
static int differs(uint64_t mask)
{
    uint64_t out[LOGGED];
    clear_state();
    work.runs++;
    for (; mask != 0; mask &= mask - 1) {
        const uint8_t *record = records[__builtin_ctzll(mask)];
        work.records++;
        if (run_record(record, out) != 0)
            return 0;
        if (out[0] != record[21] || out[1] != load64(record + 8))
            return 1;
    }
    return 0;
}

uint32_t BASE_NAME(BASE_PREFIX, cut_down)(const uint8_t *log, size_t log_len,
                                          uint64_t out[THROTTLE_LEAST THROTTLE_CUT_OUT])
{
    uint64_t count, before = 0;
    uint32_t code = check_blocks(log, log_len, &count);
    work = (struct cut_work){0, 0};
    if (code != 0)
        return code;
    if (count > THROTTLE_CUT_RECORDS)
        return THROTTLE_MANY_RECORDS;
    uint64_t mask = count == 64 ? UINT64_MAX : (UINT64_C(1) << count) - 1;
    if (!differs(mask))
        return THROTTLE_NO_DIFFERENCE;
    while (mask != before) {
        before = mask;
        for (uint64_t left = mask; left != 0; left &= left - 1) {
            uint64_t fewer = mask & ~(left & (~left + 1));
            mask = differs(fewer) ? fewer : mask;
        }
    }
    out[0] = mask;
    return 0;
}

struct cut_work BASE_NAME(BASE_PREFIX, cut_work)(void)
{
    return work;
}
