/* The records that are kept of a log, each with what the rules say of it. */
#ifndef SELECTION_H
#define SELECTION_H

#include "log.h"

/* What the rules say: the answer and the wait tick, both 0 of a done. */
struct reply {
    uint64_t answer, wait;
};

struct selection {
    struct record records[THROTTLE_CUT_RECORDS];
    struct reply replies[THROTTLE_CUT_RECORDS];
    unsigned count; /* at least 1 */
};

int is_same(const struct record *record, const struct reply *reply);

/*
 * Takes the records whose bits are set in the mask, in their order, and runs
 * them from set-up through the calls of libthrottle.a, under the log's setting
 * and seeds. The last one has to differ from the reply and no other: a mask of
 * which that is not so ends the program.
 */
void select_records(struct selection *kept, const struct log *log, uint64_t mask);

/* The first record of the whole log that differs, with what the rules say of it there. */
struct record first_difference(const struct log *log, struct reply *reply);

#endif
