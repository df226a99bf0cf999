/*
 * Requests for a row that is wider than 16 bits, which C cuts: gcc and clang warn of each with -Wconversion alone.
 */
#include "throttle.h"

#define BEFORE const uint64_t *setting, const uint16_t *seeds, uint64_t *head
#define BEHIND uint64_t *ticks, uint32_t *rows, uint32_t *threads, uint32_t row, uint64_t *out
#define STATE setting, seeds, THROTTLE_SEEDS, head, counters, 2048, ticks, 8, rows, 8, threads, 3

uint32_t ask(BEFORE, uint16_t *counters, BEHIND);
uint32_t ask_wide(BEFORE, uint32_t *counters, BEHIND);

uint32_t ask(BEFORE, uint16_t *counters, BEHIND)
{
    return throttle_request(STATE, 0, 0, 0, row, out);
}

uint32_t ask_wide(BEFORE, uint32_t *counters, BEHIND)
{
    return throttle_wide_request(STATE, 0, 0, 0, row, out);
}
