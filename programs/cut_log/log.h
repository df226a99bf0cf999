/* What a log says: its setting, its seeds and its records, taken from its bytes. */
#ifndef LOG_H
#define LOG_H

#include "throttle_cut_down.h"
#include "throttle_log.h"

/* The kinds of records; a request's answers are THROTTLE_OPENED and so on. */
enum { REQUEST = 0, DONE = 1 };

/* A record, and where it stands: the block, from 0, and the place in it, from 1. */
struct record {
    uint64_t tick, wait;
    uint16_t row;
    uint8_t bank, thread, kind, answer;
    unsigned block, place;
};

/* A sound log of at most 64 records: one for which throttle_cut_down returned 0. */
struct log {
    uint64_t setting[THROTTLE_SETTING_WORDS];
    uint16_t seeds[THROTTLE_SEEDS];
    struct record records[THROTTLE_CUT_RECORDS];
    unsigned count;
};

/* How many records the whole blocks say that they have. */
uint64_t count_records(const uint8_t *bytes, size_t length);

/* Takes a log from its bytes. */
void decode_log(struct log *log, const uint8_t *bytes, size_t length);

#endif
