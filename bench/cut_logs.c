/* Makes the logs on which throttle_cut_down is measured. See cut_logs.h. */
#include "cut_logs.h"

#include "log_bytes.h"

#include <string.h>

enum { REQUEST, DONE, QUOTA = 4 };

const char *const cut_kinds[CUT_KINDS] = {
    [ONE_STAYS] = "one stays",
    [ALL_STAY] = "all stay",
    [THREE_PASSES] = "three passes",
};

struct throttle_setting cut_setting(uint64_t banks, uint64_t history)
{
    return (struct throttle_setting){.w = CUT_FAR, .trc = 1, .tfaw = 4, .n = 8, .td = history,
                                     .l = 2000, .q = 63, .banks = banks, .threads = 2 * banks};
}

struct cut_log cut_log_of(size_t kind, const struct throttle_setting *setting, uint64_t gap)
{
    struct cut_log log = {.setting = *setting};
    for (size_t i = 0; i < THROTTLE_CUT_RECORDS; i++)
        log.records[i] = (struct cut_record){gap, (uint16_t)(i * 257), (uint8_t)(i % setting->banks),
                                             0, REQUEST, 0};
    if (kind == ONE_STAYS) {
        log.records[THROTTLE_CUT_RECORDS - 1].answer = QUOTA;
        log.setting.q = 255;
    }
    if (kind == THREE_PASSES) {
        for (uint8_t k = 0; k < 4; k++) {
            log.records[k].thread = k / 2;
            log.records[k].bank = 0;
            log.records[k].kind = k % 2;
        }
        log.setting.q = 59;
    }
    return log;
}

static void write_setting(const struct cut_log *log, uint8_t block[BLOCK])
{
    uint64_t words[THROTTLE_SETTING_WORDS];
    uint16_t seeds[THROTTLE_SEEDS];
    throttle_house_seeds(seeds);
    store_start(block, throttle_words(&log->setting, words), seeds);
}

size_t write_cut_log(const struct cut_log *log, uint8_t bytes[CUT_LOG_BYTES])
{
    uint64_t tick = 0;
    memset(bytes, 0, CUT_LOG_BYTES);
    write_setting(log, bytes);
    for (size_t i = 0; i < THROTTLE_CUT_RECORDS; i++) {
        const struct cut_record *r = &log->records[i];
        uint8_t *block = bytes + BLOCK * (1 + i / RECORDS), *p = block + BODY + RECORD * (i % RECORDS);
        tick += r->gap;
        store(p, tick, 8);
        store(p + 16, r->row, 2);
        p[18] = r->bank;
        p[19] = r->thread;
        p[20] = r->kind;
        p[21] = r->answer;
        if (i % RECORDS == RECORDS - 1 || i == THROTTLE_CUT_RECORDS - 1)
            seal(block, 1 + i / RECORDS, i % RECORDS + 1);
    }
    return CUT_LOG_BYTES;
}

void change_cut_log(struct cut_log *log, uint64_t (*next)(void))
{
    struct cut_record *r = &log->records[next() % THROTTLE_CUT_RECORDS];
    switch (next() % 7) {
    case 0: r->kind ^= 1; break;
    case 1: r->answer = next() % 4 == 0 ? (uint8_t)(next() % 5) : 0; break;
    case 2: r->thread = (uint8_t)(next() % 3 % log->setting.threads); break;
    case 3: r->bank = (uint8_t)(next() % 3 % log->setting.banks); break;
    case 4: r->row = (uint16_t)(next() % 4); break;
    case 5: r->gap = next() % 4 == 0 ? 0 : CUT_FAR; break;
    default: {
        struct cut_record *other = &log->records[next() % THROTTLE_CUT_RECORDS], kept = *r;
        *r = *other;
        *other = kept;
    }
    }
    if (next() % 16 == 0)
        log->setting.q = 1 + next() % 63;
}
