/*
 * Arrays that the calls are lent without a length. With -DSHORT=NAME the one of
 * that name has an element less than the header asks for, as the nine words that
 * a setting had before version 3, or the two that a request of version 1 wrote:
 * gcc and clang warn of it.
 */
#include "throttle.h"
#include "throttle_cut_down.h"
#include "throttle_log.h"
#include "throttle_plan.h"
#include "throttle_probes.h"

/* The settings of the calls and the words that throttle_words writes, then the other arrays. */
enum {
    NONE,
    SETUP_SETTING,
    REQUEST_SETTING,
    DONE_SETTING,
    INDEX_SETTING,
    WIDE_SETUP_SETTING,
    WIDE_REQUEST_SETTING,
    WIDE_DONE_SETTING,
    WIDE_INDEX_SETTING,
    CHANGE_SETTING,
    LOG_SETTING,
    PLAN_SETTING,
    WIDE_PLAN_SETTING,
    SPAN_SETTING,
    WORDS,
    HEAD,
    WIDE_HEAD,
    CHANGE_HEAD,
    REQUEST_OUT,
    INDEX_OUT,
    WIDE_REQUEST_OUT,
    WIDE_INDEX_OUT,
    DELAYS_OUT,
    WIDE_DELAYS_OUT,
    SPAN_OUT,
    PROBES_OUT,
    OFFSET_OUT,
    CUT_OUT,
    BLOCK
};
#ifndef SHORT
#define SHORT NONE
#endif
#define LENGTH(name, cells) ((cells) - (SHORT == (name)))

static uint64_t setup_setting[LENGTH(SETUP_SETTING, THROTTLE_SETTING_WORDS)];
static uint64_t request_setting[LENGTH(REQUEST_SETTING, THROTTLE_SETTING_WORDS)];
static uint64_t done_setting[LENGTH(DONE_SETTING, THROTTLE_SETTING_WORDS)];
static uint64_t index_setting[LENGTH(INDEX_SETTING, THROTTLE_SETTING_WORDS)];
static uint64_t wide_setup_setting[LENGTH(WIDE_SETUP_SETTING, THROTTLE_SETTING_WORDS)];
static uint64_t wide_request_setting[LENGTH(WIDE_REQUEST_SETTING, THROTTLE_SETTING_WORDS)];
static uint64_t wide_done_setting[LENGTH(WIDE_DONE_SETTING, THROTTLE_SETTING_WORDS)];
static uint64_t wide_index_setting[LENGTH(WIDE_INDEX_SETTING, THROTTLE_SETTING_WORDS)];
static uint64_t change_setting[LENGTH(CHANGE_SETTING, THROTTLE_SETTING_WORDS)];
static uint64_t log_setting[LENGTH(LOG_SETTING, THROTTLE_SETTING_WORDS)];
static uint64_t plan_setting[LENGTH(PLAN_SETTING, THROTTLE_SETTING_WORDS)];
static uint64_t wide_plan_setting[LENGTH(WIDE_PLAN_SETTING, THROTTLE_SETTING_WORDS)];
static uint64_t span_setting[LENGTH(SPAN_SETTING, THROTTLE_SETTING_WORDS)];
static uint64_t words[LENGTH(WORDS, THROTTLE_SETTING_WORDS)];
static uint64_t head[LENGTH(HEAD, THROTTLE_HEAD_CELLS)];
static uint64_t wide_head[LENGTH(WIDE_HEAD, THROTTLE_HEAD_CELLS)];
static uint64_t change_head[LENGTH(CHANGE_HEAD, THROTTLE_HEAD_CELLS)];
static uint64_t request_out[LENGTH(REQUEST_OUT, THROTTLE_REQUEST_OUT)];
static uint64_t index_out[LENGTH(INDEX_OUT, THROTTLE_INDEX_OUT)];
static uint64_t wide_request_out[LENGTH(WIDE_REQUEST_OUT, THROTTLE_REQUEST_OUT)];
static uint64_t wide_index_out[LENGTH(WIDE_INDEX_OUT, THROTTLE_INDEX_OUT)];
static uint64_t delays_out[LENGTH(DELAYS_OUT, THROTTLE_DELAYS_OUT)];
static uint64_t wide_delays_out[LENGTH(WIDE_DELAYS_OUT, THROTTLE_DELAYS_OUT)];
static uint64_t span_out[LENGTH(SPAN_OUT, THROTTLE_SPAN_OUT)];
static uint64_t probes_out[LENGTH(PROBES_OUT, THROTTLE_PROBES_OUT)];
static uint64_t offset_out[LENGTH(OFFSET_OUT, THROTTLE_PROBES_OUT)];
static uint64_t cut_out[LENGTH(CUT_OUT, THROTTLE_CUT_OUT)];
static uint8_t block[LENGTH(BLOCK, THROTTLE_LOG_BLOCK)];

static uint16_t seeds[THROTTLE_SEEDS], counters[2048];
static uint64_t ticks[8];
static uint32_t rows[8], threads[3], wide_counters[2048];
static const uint8_t log_bytes[THROTTLE_LOG_BLOCK];

#define BEHIND ticks, 8, rows, 8, threads, 3
#define STATE(setting) setting, seeds, THROTTLE_SEEDS, head, counters, 2048, BEHIND
#define WIDE_STATE(setting) setting, seeds, THROTTLE_SEEDS, wide_head, wide_counters, 2048, BEHIND
#define OLD_STATE \
    change_setting, seeds, THROTTLE_SEEDS, change_head, counters, 2048, wide_counters, 2048, BEHIND
#define RECORDS ticks, 8, rows, 8, 8

uint32_t call_all(const struct throttle_setting *s);

uint32_t call_all(const struct throttle_setting *s)
{
    throttle_words(s, words);
    return throttle_setup(STATE(setup_setting)) + throttle_request(STATE(request_setting), 0, 0, 0, 5, request_out) +
           throttle_done(STATE(done_setting), 0, 0, 0) + throttle_index(STATE(index_setting), 0, 0, 0, index_out) +
           throttle_wide_setup(WIDE_STATE(wide_setup_setting)) +
           throttle_wide_request(WIDE_STATE(wide_request_setting), 0, 0, 0, 5, wide_request_out) +
           throttle_wide_done(WIDE_STATE(wide_done_setting), 0, 0, 0) +
           throttle_wide_index(WIDE_STATE(wide_index_setting), 0, 0, 0, wide_index_out) +
           throttle_change_over(OLD_STATE) + throttle_log_start(log_setting, seeds, THROTTLE_SEEDS, block) +
           throttle_delays(plan_setting, delays_out) + throttle_wide_delays(wide_plan_setting, wide_delays_out) +
           throttle_span_bound(span_setting, 40, span_out) + throttle_fit_probes(RECORDS, RECORDS, 0, probes_out) +
           (throttle_probes_offset(offset_out) < 0) + throttle_cut_down(log_bytes, sizeof log_bytes, cut_out);
}
