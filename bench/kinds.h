/*
 * A list of calls in which each kind of call can be timed apart: batches of
 * calls of one kind, again and again. No epoch turns in it.
 */
#ifndef KINDS_H
#define KINDS_H

#include "harness.h"

/*
 * The classes of pieces.
 *   ROW_WAIT   requests for a blacklisted row that has to wait for tD; bank and
 *              rank are free, and the row is one of the newest four in the history
 *   BANK_WAIT  requests for rows that are not blacklisted, in banks that have to
 *              wait for tRC
 *   OPENED     requests for such rows that are opened
 *   FINISHED   dones
 *   READING    index readings
 *   ASIDE      what lies between; its times are not shown
 */
enum { ROW_WAIT, BANK_WAIT, OPENED, FINISHED, READING, SHOWN, ASIDE = SHOWN, KINDS };

extern const char *const kind_names[SHOWN];

/* Makes the list of a shape and measures it. */
void measure_kinds(const struct shape *s, size_t rounds, struct times times[KINDS]);

#endif
