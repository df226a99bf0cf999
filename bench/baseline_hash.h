/* The baseline's hash of a row. */
#ifndef BASELINE_HASH_H
#define BASELINE_HASH_H

#include <stddef.h>
#include <stdint.h>

static const uint16_t row_bits[16] = {
    1u << 0, 1u << 1, 1u << 2,  1u << 3,  1u << 4,  1u << 5,  1u << 6,  1u << 7,
    1u << 8, 1u << 9, 1u << 10, 1u << 11, 1u << 12, 1u << 13, 1u << 14, 1u << 15,
};

/* One H3 hash function: the seeds of the row's set bits. */
static uint16_t hash_function(const uint16_t seeds[16], const uint16_t set[16])
{
    uint16_t x = 0;
    for (size_t i = 0; i < 16; i++)
        x ^= seeds[i] & set[i];
    return x;
}

/* The row's four places in a filter. A loop over the functions is ten times slower with gcc 12. */
static void hash(const uint16_t seeds[64], uint16_t row, uint16_t places[4])
{
    uint16_t set[16];
    for (size_t i = 0; i < 16; i++)
        set[i] = (row & row_bits[i]) != 0 ? 0xffff : 0;
    places[0] = hash_function(seeds, set);
    places[1] = hash_function(seeds + 16, set);
    places[2] = hash_function(seeds + 32, set);
    places[3] = hash_function(seeds + 48, set);
}

#endif
