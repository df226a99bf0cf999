/* First steps with the throttle: one row, asked for again and again under a tiny setting. */
#include "throttle.h"

#include <inttypes.h>
#include <stdio.h>

static uint64_t setting[THROTTLE_SETTING_WORDS];
static uint16_t seeds[THROTTLE_SEEDS];
static uint64_t head[THROTTLE_HEAD_CELLS];
static uint16_t counters[THROTTLE_MOST_COUNTER_CELLS];
static uint64_t ticks[THROTTLE_MOST_HISTORY_CELLS];
static uint32_t rows[THROTTLE_MOST_HISTORY_CELLS];
static uint32_t threads[THROTTLE_MOST_THREAD_CELLS];

/* what every call is given first */
#define STATE                                                                           \
    setting, seeds, THROTTLE_SEEDS, head, counters, THROTTLE_MOST_COUNTER_CELLS, ticks, \
        THROTTLE_MOST_HISTORY_CELLS, rows, THROTTLE_MOST_HISTORY_CELLS, threads,        \
        THROTTLE_MOST_THREAD_CELLS

static void request(uint64_t tick)
{
    uint64_t out[THROTTLE_REQUEST_OUT];
    uint32_t code = throttle_request(STATE, tick, 0, 0, 5, out);
    printf("request at %" PRIu64 ": ", tick);
    if (code != THROTTLE_ANSWERED)
        printf("refused with %" PRIu32 ", %s\n", code, throttle_refusal_name(code));
    else if (out[0] == THROTTLE_OPENED)
        printf("%s, %" PRIu64 " left\n", throttle_answer_name(out[0]), out[2]);
    else if (out[1] != 0)
        printf("%s until %" PRIu64 "\n", throttle_answer_name(out[0]), out[1]);
    else
        printf("%s\n", throttle_answer_name(out[0]));
}

static void read_index(uint64_t tick)
{
    uint64_t out[THROTTLE_INDEX_OUT];
    if (throttle_index(STATE, tick, 0, 0, out) == THROTTLE_ANSWERED)
        printf("index at %" PRIu64 ": c %" PRIu64 ", D %" PRIu64 ", quota %" PRIu64 "\n", tick, out[0],
               out[1], out[2]);
}

static void finish(uint64_t tick)
{
    uint32_t code = throttle_done(STATE, tick, 0, 0);
    printf("done at %" PRIu64 ": %s\n", tick, throttle_refusal_name(code));
}

int main(void)
{
    struct throttle_setting s = {
        .w = 40,
        .trc = 1,
        .tfaw = 4,
        .n = 2,
        .td = 6,
        .l = 10,
        .q = 4,
        .banks = 1,
        .threads = 1,
        .profile = THROTTLE_PROFILE_LARGE,
    };
    throttle_house_seeds(seeds); /* for a product: random numbers from 0 to 1,023 */
    throttle_words(&s, setting);
    uint32_t code = throttle_setup(STATE);
    printf("set-up: %s\n", throttle_refusal_name(code));
    if (code != THROTTLE_ANSWERED)
        return 1;
    request(0);
    request(1);
    request(2);
    request(7);
    request(8);
    read_index(8);
    request(13);
    request(14);
    read_index(14);
    finish(14);
    finish(14);
    request(14);
    request(5);
    return 0;
}
