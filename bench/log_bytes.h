/* A log's bytes, for the programs that write logs to measure, and for the plain C that reads them. */
#ifndef LOG_BYTES_H
#define LOG_BYTES_H

#include "throttle.h"

#include <stddef.h>
#include <stdint.h>

enum {
    BLOCK = 512,
    BODY = 8,
    SUMS = 508,
    MODULUS = 65521,
    RECORD = 24,
    RECORDS = 20,
    NUMBERS = 9, /* words of the setting that block 0 has in 32 bits: all but the profile mark */
    SEEDS_AT = BODY + NUMBERS * 4,
    MARK_AT = SEEDS_AT + THROTTLE_SEEDS * 2
};

/* Stores a number of n bytes, the lowest first. */
static inline void store(uint8_t *p, uint64_t x, size_t n)
{
    for (size_t i = 0; i < n; i++)
        p[i] = (uint8_t)(x >> 8 * i);
}

/* Completes a block with its number, its record count and the sums. */
static inline void seal(uint8_t block[BLOCK], uint64_t number, size_t count)
{
    uint32_t plain = 0, weighted = 0;
    store(block, number, 4);
    store(block + 4, count, 1);
    for (uint32_t i = 0; i < SUMS; i++) {
        plain += block[i];
        weighted += (i + 1) * block[i];
    }
    store(block + SUMS, plain % MODULUS, 2);
    store(block + SUMS + 2, weighted % MODULUS, 2);
}

/* Block 0, in bytes that are 0 before. */
static inline void store_start(uint8_t block[BLOCK], const uint64_t setting[THROTTLE_SETTING_WORDS],
                               const uint16_t seeds[THROTTLE_SEEDS])
{
    for (size_t k = 0; k < NUMBERS; k++)
        store(block + BODY + 4 * k, setting[k], 4);
    for (size_t k = 0; k < THROTTLE_SEEDS; k++)
        store(block + SEEDS_AT + 2 * k, seeds[k], 2);
    store(block + MARK_AT, setting[NUMBERS], 1);
    seal(block, 0, 0);
}

#endif
