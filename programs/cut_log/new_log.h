/* The kept records as a log of their own. */
#ifndef NEW_LOG_H
#define NEW_LOG_H

#include "selection.h"

enum {
    /* Block 0, and as many as 64 records need. */
    NEW_LOG_BLOCKS = 1 + (THROTTLE_CUT_RECORDS + THROTTLE_LOG_RECORDS - 1) / THROTTLE_LOG_RECORDS,
    NEW_LOG_BYTES = NEW_LOG_BLOCKS * THROTTLE_LOG_BLOCK
};

/*
 * Writes block 0, with the setting and the seeds of the log, and the records in
 * blocks of 20, the last one of what is left. Returns how many bytes that are.
 */
size_t encode_new_log(uint8_t bytes[NEW_LOG_BYTES], const struct log *log,
                      const struct selection *kept);

#endif
