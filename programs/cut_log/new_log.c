/* Makes a log of the kept records, with the calls of liblog.a. See new_log.h. */
#include "new_log.h"
#include "stop.h"

#include <inttypes.h>

static void must(uint32_t code, const char *call)
{
    if (code != 0)
        stop("%s refused with %" PRIu32, call, code);
}

size_t encode_new_log(uint8_t bytes[NEW_LOG_BYTES], const struct log *log,
                      const struct selection *kept)
{
    uint8_t *block = bytes;
    must(throttle_log_start(log->setting, log->seeds, THROTTLE_SEEDS, block), "throttle_log_start");
    for (unsigned i = 0; i < kept->count; i++) {
        const struct record *r = &kept->records[i];
        unsigned place = i % THROTTLE_LOG_RECORDS;
        if (place == 0)
            block += THROTTLE_LOG_BLOCK;
        must(throttle_log_record(block, place, r->tick, r->wait, r->row, r->bank, r->thread,
                                 r->kind, r->answer),
             "throttle_log_record");
        if (place + 1 == THROTTLE_LOG_RECORDS || i + 1 == kept->count)
            must(throttle_log_seal(block, 1 + i / THROTTLE_LOG_RECORDS, place + 1),
                 "throttle_log_seal");
    }
    return (size_t)(block - bytes) + THROTTLE_LOG_BLOCK;
}
