/*
 * The baseline's hash by itself, of all rows of a list. Compiled once for each
 * processor; see baseline.h for the names.
 */
#include "baseline.h"
#include "baseline_hash.h"

BASE_DECLARE_HASH(BASE_PREFIX);

uint64_t BASE_NAME(BASE_PREFIX, hash)(const uint16_t seeds[THROTTLE_LEAST THROTTLE_SEEDS],
                                      const uint16_t *rows, size_t n)
{
    uint64_t all = 0;
    for (size_t i = 0; i < n; i++) {
        uint16_t places[4];
        hash(seeds, rows[i], places);
        for (size_t f = 0; f < 4; f++)
            all ^= (uint64_t)places[f] << 16 * f;
    }
    return all;
}
