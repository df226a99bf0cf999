/*
 * Writes logs of the throttle's decisions, a block of 512 bytes at a time, for
 * the program check_log. docs/log-format.md describes the format, with a whole
 * program. Link with liblog.a (x86-64), beside libthrottle.a or alone; it
 * needs nothing beyond the C library.
 *
 * Each call returns 0, or the number of a refusal and then leaves the block as
 * it was.
 */
#ifndef THROTTLE_LOG_H
#define THROTTLE_LOG_H

#include "throttle.h"

#include <stddef.h>
#include <stdint.h>

#ifdef __cplusplus
extern "C" {
#endif

enum {
    THROTTLE_LOG_BLOCK = 512,   /* bytes of a block */
    THROTTLE_LOG_RECORDS = 20   /* records of a full block */
};

/*
 * Writes block 0: the setting, of which it takes the ten words (throttle_words
 * of throttle.h), and the seeds. The last word, the profile mark, goes to byte
 * 172. Whether the setting is accepted is not tested.
 *   1  a field of more than 32 bits, a profile mark above 1, or other than 64 seeds
 */
THROTTLE_CHECKED
uint32_t throttle_log_start(const uint64_t setting[THROTTLE_LEAST THROTTLE_SETTING_WORDS],
                            const uint16_t *seeds, size_t seeds_len,
                            uint8_t block[THROTTLE_LEAST THROTTLE_LOG_BLOCK]);

/*
 * Puts a record at a place from 0 to 19. kind is 0 for a request and 1 for a
 * done; answer and wait are those of the request, and 0 for a done.
 *  13  a place above 19, a bank or thread above 255, a kind above 1, an answer above 4
 */
THROTTLE_CHECKED
uint32_t throttle_log_record(uint8_t block[THROTTLE_LEAST THROTTLE_LOG_BLOCK], uint64_t place,
                             uint64_t tick, uint64_t wait, uint16_t row, uint64_t bank,
                             uint64_t thread, uint64_t kind, uint64_t answer);

/*
 * Finishes a block of count records: its number, its count, zeros after the
 * records, and both sums. Only the last block may have fewer than 20 records.
 *  13  a number of 0 or of more than 32 bits, a count that is not 1 to 20
 */
THROTTLE_CHECKED
uint32_t throttle_log_seal(uint8_t block[THROTTLE_LEAST THROTTLE_LOG_BLOCK], uint64_t number,
                           uint64_t count);

#ifdef __cplusplus
}
#endif

#endif
