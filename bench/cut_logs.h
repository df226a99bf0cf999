/* The logs on which throttle_cut_down is measured. */
#ifndef CUT_LOGS_H
#define CUT_LOGS_H

#include "cut_plain.h"

enum { CUT_LOG_BYTES = 5 * 512 };

/* Ticks from record to record: within an epoch, and so many that both filters are cleared. */
enum { CUT_NEAR = 8, CUT_FAR = 8192 };

/* The tick of a record is that of the one before and the gap. Wait ticks are 0. */
struct cut_record {
    uint64_t gap;
    uint16_t row;
    uint8_t bank, thread, kind, answer;
};

struct cut_log {
    struct throttle_setting setting;
    struct cut_record records[THROTTLE_CUT_RECORDS];
};

/* A setting with so many banks, twice as many threads, and H of 8 or 4,096. */
struct throttle_setting cut_setting(uint64_t banks, uint64_t history);

/*
 * 64 records, each gap ticks after the one before, that differ. Of openings, the
 * last of which claims the quota: it alone stays. Of openings of a thread, one
 * more than its Q: all stay. The last with an opening and a done of it in each of
 * two threads before, which takes three passes.
 */
enum { ONE_STAYS, ALL_STAY, THREE_PASSES, CUT_KINDS };
extern const char *const cut_kinds[CUT_KINDS];
struct cut_log cut_log_of(size_t kind, const struct throttle_setting *setting, uint64_t gap);

/* The bytes of a log under the house seeds; returns how many there are. */
size_t write_cut_log(const struct cut_log *log, uint8_t bytes[CUT_LOG_BYTES]);

/* Changes a record, exchanges two, or changes Q, by numbers that next gives. */
void change_cut_log(struct cut_log *log, uint64_t (*next)(void));

#endif
