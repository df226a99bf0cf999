/* Takes the kept records and asks the library about them. See selection.h. */
#include "selection.h"
#include "stop.h"

#include <inttypes.h>

/* The memory that the throttle works on, enough for every setting that a log may have. */
static uint64_t head[THROTTLE_HEAD_CELLS], ticks[THROTTLE_MOST_HISTORY_CELLS];
static uint16_t counters[THROTTLE_MOST_COUNTER_CELLS];
static uint32_t rows[THROTTLE_MOST_HISTORY_CELLS], threads[THROTTLE_MOST_THREAD_CELLS];

#define MEMORY                                                                                   \
    head, counters, THROTTLE_MOST_COUNTER_CELLS, ticks, THROTTLE_MOST_HISTORY_CELLS, rows,       \
        THROTTLE_MOST_HISTORY_CELLS, threads, THROTTLE_MOST_THREAD_CELLS

int is_same(const struct record *record, const struct reply *reply)
{
    return record->answer == reply->answer && record->wait == reply->wait;
}

static void take(struct selection *kept, const struct log *log, uint64_t mask)
{
    kept->count = 0;
    for (unsigned i = 0; i < log->count; i++)
        if (throttle_cut_keeps(mask, i))
            kept->records[kept->count++] = log->records[i];
    if (kept->count == 0 || (log->count < THROTTLE_CUT_RECORDS && mask >> log->count != 0))
        stop("throttle_cut_down keeps no record, or one that the log does not have");
}

static struct reply ask(const struct log *log, const struct record *r)
{
    uint64_t out[THROTTLE_REQUEST_OUT] = {0};
    uint32_t code;
    if (r->kind == REQUEST)
        code = throttle_request(log->setting, log->seeds, THROTTLE_SEEDS, MEMORY, r->tick, r->bank,
                                r->thread, r->row, out);
    else
        code = throttle_done(log->setting, log->seeds, THROTTLE_SEEDS, MEMORY, r->tick, r->bank,
                             r->thread);
    if (code != 0)
        stop("throttle_cut_down took or kept a record that is refused with %" PRIu32
             " (block %u place %u)",
             code, r->block, r->place);
    return (struct reply){out[0], out[1]};
}

static void set_up(const struct log *log)
{
    uint32_t code = throttle_setup(log->setting, log->seeds, THROTTLE_SEEDS, MEMORY);
    if (code != 0)
        stop("throttle_cut_down took a setting that is refused with %" PRIu32, code);
}

void select_records(struct selection *kept, const struct log *log, uint64_t mask)
{
    take(kept, log, mask);
    set_up(log);
    for (unsigned i = 0; i < kept->count; i++) {
        kept->replies[i] = ask(log, &kept->records[i]);
        if (is_same(&kept->records[i], &kept->replies[i]) == (i + 1 == kept->count))
            stop("throttle_cut_down keeps records of which not the last alone differs");
    }
}

struct record first_difference(const struct log *log, struct reply *reply)
{
    set_up(log);
    for (unsigned i = 0; i < log->count; i++) {
        *reply = ask(log, &log->records[i]);
        if (!is_same(&log->records[i], reply))
            return log->records[i];
    }
    stop("throttle_cut_down took a log that does not differ");
}
