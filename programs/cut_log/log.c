/* Takes a log from its bytes. See log.h; docs/log-format.md describes the format. */
#include "log.h"
#include "stop.h"

enum {
    BODY = 8,
    RECORD = 24,
    NUMBERS = 9, /* words of the setting that block 0 has in 32 bits: all but the profile mark */
    SEEDS_AT = BODY + NUMBERS * 4,
    MARK_AT = SEEDS_AT + THROTTLE_SEEDS * 2
};

/* A number of so many bytes, the least first. */
static uint64_t load(const uint8_t *p, size_t bytes)
{
    uint64_t x = 0;
    for (size_t i = bytes; i > 0; i--)
        x = x << 8 | p[i - 1];
    return x;
}

uint64_t count_records(const uint8_t *bytes, size_t length)
{
    uint64_t count = 0;
    for (size_t at = THROTTLE_LOG_BLOCK; at + THROTTLE_LOG_BLOCK <= length; at += THROTTLE_LOG_BLOCK)
        count += bytes[at + 4];
    return count;
}

static void decode_setting(struct log *log, const uint8_t *block)
{
    for (size_t i = 0; i < NUMBERS; i++)
        log->setting[i] = load(block + BODY + 4 * i, 4);
    log->setting[NUMBERS] = block[MARK_AT];
    for (size_t i = 0; i < THROTTLE_SEEDS; i++)
        log->seeds[i] = (uint16_t)load(block + SEEDS_AT + 2 * i, 2);
}

static struct record decode_record(const uint8_t *p, unsigned block, unsigned place)
{
    return (struct record){
        .tick = load(p, 8),
        .wait = load(p + 8, 8),
        .row = (uint16_t)load(p + 16, 2),
        .bank = p[18],
        .thread = p[19],
        .kind = p[20],
        .answer = p[21],
        .block = block,
        .place = place,
    };
}

void decode_log(struct log *log, const uint8_t *bytes, size_t length)
{
    size_t blocks = length / THROTTLE_LOG_BLOCK;
    if (blocks == 0 || count_records(bytes, length) > THROTTLE_CUT_RECORDS)
        stop("throttle_cut_down took a log that it has to refuse");
    decode_setting(log, bytes);
    log->count = 0;
    for (unsigned block = 1; block < blocks; block++) {
        const uint8_t *start = bytes + (size_t)block * THROTTLE_LOG_BLOCK;
        for (unsigned place = 1; place <= start[4]; place++)
            log->records[log->count++] =
                decode_record(start + BODY + (place - 1) * RECORD, block, place);
    }
}
