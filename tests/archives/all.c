/*
 * Every archive of the project in one program: the planner, the throttle and
 * the log writer are called with one setting, under both profiles, and what they
 * give is compared with what the specification says of it; the fit of two probes;
 * the cut-down log; and the hashing of rows, which bench/run alone uses, by both of
 * its ways. The argument is the path of samples/sample.log, whose first block is what
 * the log writer must write under the large profile.
 */
#include "throttle.h"
#include "throttle_cut_down.h"
#include "throttle_log.h"
#include "throttle_plan.h"
#include "throttle_probes.h"

#include <stdio.h>
#include <string.h>

static int failed;

static void check(int good, const char *what)
{
    if (!good) {
        printf("archives: %s\n", what);
        failed = 1;
    }
}

/* The first block of the log in that file. */
static int first_block(const char *name, uint8_t block[THROTTLE_LOG_BLOCK])
{
    FILE *file = fopen(name, "rb");
    if (file == NULL)
        return 0;
    size_t got = fread(block, THROTTLE_LOG_BLOCK, 1, file);
    fclose(file);
    return got == 1;
}

static const struct throttle_setting s = {
    .w = 40, .trc = 1, .tfaw = 4, .n = 2, .td = 1, .l = 10, .q = 4, .banks = 1, .threads = 1};
static uint64_t setting[THROTTLE_SETTING_WORDS];
static uint16_t seeds[THROTTLE_SEEDS];

/* A chip with the limit 1,024: 1,024 x 140 ticks are too short for its delay, 8,192 x 140 are not. */
static void check_weak_chip(void)
{
    static const struct throttle_setting weak = {
        .w = 256000000, .trc = 185, .tfaw = 140, .n = 256, .td = 1, .l = 1024, .q = 64, .banks = 16, .threads = 8};
    uint64_t words[THROTTLE_SETTING_WORDS], delays[THROTTLE_DELAYS_OUT] = {0, 0};
    throttle_words(&weak, words);
    check(throttle_delays(words, delays) == THROTTLE_LONG_HISTORY, "throttle_delays has delays for the limit 1,024");
    check(delays[0] == 0 && delays[1] == 0, "a refused throttle_delays writes to out");
    check(throttle_wide_delays(words, delays) == 0, "throttle_wide_delays refuses the limit 1,024");
    check(delays[0] == 499815 && delays[1] == 1146880, "throttle_wide_delays does not answer 499815 and 1146880");
}

/* B = 5 + floor(35/tD) is at most 10 from tD = 6 on; W/2 is 20, and the small profile allows 256 x 4 ticks. */
static void check_planner(void)
{
    uint64_t delays[THROTTLE_DELAYS_OUT] = {0, 0};
    throttle_words(&s, setting);
    for (uint64_t mark = THROTTLE_PROFILE_LARGE; mark <= THROTTLE_PROFILE_SMALL; mark++) {
        setting[THROTTLE_SETTING_WORDS - 1] = mark;
        check(throttle_delays(setting, delays) == 0, "throttle_delays refuses the setting");
        check(delays[0] == 6 && delays[1] == 20, "throttle_delays does not answer 6 and 20");
        delays[0] = delays[1] = 0;
        check(throttle_wide_delays(setting, delays) == 0, "throttle_wide_delays refuses the setting");
        check(delays[0] == 6 && delays[1] == 20, "throttle_wide_delays does not answer 6 and 20");
    }
    setting[7] = THROTTLE_SMALL_BANKS + 1;
    check(throttle_delays(setting, delays) == THROTTLE_ABOVE_PROFILE, "throttle_delays has delays for five banks");
    check(delays[0] == 6 && delays[1] == 20, "a refused throttle_delays writes to out");
    throttle_words(&s, setting);
    setting[4] = delays[0];
}

/* With the delay 6 the bound of W ticks is B = 10; a tick has one activation; five small banks and 0 ticks are refused. */
static void check_spans(void)
{
    uint64_t bound[THROTTLE_SPAN_OUT] = {7};
    check(throttle_span_bound(setting, s.w, bound) == 0 && bound[0] == 10, "throttle_span_bound does not answer 10 for W");
    check(throttle_span_bound(setting, 1, bound) == 0 && bound[0] == 1, "throttle_span_bound does not answer 1 for a tick");
    check(throttle_span_bound(setting, UINT64_MAX, bound) == 0 && bound[0] == UINT64_C(3843071682022823255),
          "throttle_span_bound does not answer the bound of 2^64 - 1 ticks");
    bound[0] = 7;
    check(throttle_span_bound(setting, 0, bound) == THROTTLE_OUT_OF_RANGE, "throttle_span_bound takes 0 ticks");
    setting[7] = THROTTLE_SMALL_BANKS + 1;
    setting[THROTTLE_SETTING_WORDS - 1] = THROTTLE_PROFILE_SMALL;
    check(throttle_span_bound(setting, s.w, bound) == THROTTLE_ABOVE_PROFILE, "throttle_span_bound takes five small banks");
    check(bound[0] == 7, "a refused throttle_span_bound writes to out");
    setting[7] = s.banks;
    setting[THROTTLE_SETTING_WORDS - 1] = THROTTLE_PROFILE_LARGE;
}

/* The first request under this mark is opened. */
static void check_throttle(uint64_t mark)
{
    static uint64_t head[THROTTLE_HEAD_CELLS], ticks[8];
    static uint16_t counters[2048];
    static uint32_t rows[8], threads[3];
    uint64_t answer[THROTTLE_REQUEST_OUT] = {9, 9, 9};
    setting[THROTTLE_SETTING_WORDS - 1] = mark;
    check(throttle_setup(setting, seeds, THROTTLE_SEEDS, head, counters, 2048, ticks, 8, rows, 8, threads, 3) == 0,
          "throttle_setup refuses the setting");
    check(throttle_request(setting, seeds, THROTTLE_SEEDS, head, counters, 2048, ticks, 8, rows, 8, threads, 3, 0, 0, 0, 5,
                           answer) == THROTTLE_ANSWERED,
          "throttle_request refuses the first request");
    check(answer[0] == THROTTLE_OPENED && answer[1] == 0 && answer[2] == 1,
          "throttle_request does not open the first row with 1 left");
}

/* Adds to a sum of a block. */
static void add_to_sum(uint8_t *sum, uint32_t more)
{
    uint32_t x = (sum[0] + 256u * sum[1] + more) % 65521;
    sum[0] = (uint8_t)x;
    sum[1] = (uint8_t)(x >> 8);
}

/*
 * Block 0 under each mark: the sample's under the large profile, and the same
 * with 1 in byte 172 and the sums of that under the small one. Any other mark is
 * refused and leaves the block.
 */
static void check_log(const uint8_t sample[THROTTLE_LOG_BLOCK])
{
    static const uint64_t wrong[] = {2, 3, 255, 256, UINT64_C(1) << 32, (UINT64_C(1) << 32) + 1, UINT64_MAX};
    uint8_t written[THROTTLE_LOG_BLOCK] = {0}, wanted[THROTTLE_LOG_BLOCK];
    memcpy(wanted, sample, sizeof wanted);
    setting[THROTTLE_SETTING_WORDS - 1] = THROTTLE_PROFILE_LARGE;
    check(throttle_log_start(setting, seeds, THROTTLE_SEEDS, written) == 0, "throttle_log_start refuses the setting");
    check(memcmp(written, wanted, sizeof written) == 0, "throttle_log_start does not write the sample's first block");
    setting[THROTTLE_SETTING_WORDS - 1] = THROTTLE_PROFILE_SMALL;
    wanted[172] = 1;
    add_to_sum(wanted + 508, 1);
    add_to_sum(wanted + 510, 173);
    check(throttle_log_start(setting, seeds, THROTTLE_SEEDS, written) == 0, "throttle_log_start refuses the small profile");
    check(memcmp(written, wanted, sizeof written) == 0, "throttle_log_start does not write the mark at byte 172");
    for (size_t k = 0; k < sizeof wrong / sizeof *wrong; k++) {
        setting[THROTTLE_SETTING_WORDS - 1] = wrong[k];
        check(throttle_log_start(setting, seeds, THROTTLE_SEEDS, written) == THROTTLE_OUT_OF_RANGE,
              "throttle_log_start takes a mark above 1");
        check(memcmp(written, wanted, sizeof written) == 0, "a refused throttle_log_start writes to the block");
    }
}

/* Differences of -998, -1,000 and -999 ticks: jitter 1 leaves the offset -999 alone, 0 leaves none. Refusal 6 stands before 18. */
static void check_probes(void)
{
    uint64_t first[] = {5000, 5007, 5011}, second[] = {4002, 4007, 4012}, out[THROTTLE_PROBES_OUT] = {7, 7};
    uint32_t rows[] = {5, throttle_probes_row(1, 5), throttle_probes_row(15, 65535)}, others[3];
    memcpy(others, rows, sizeof others);
    check(throttle_fit_probes(first, 3, rows, 3, 3, second, 3, others, 3, 3, 1, out) == 0 && out[0] == 1 &&
              throttle_probes_offset(out) == -999,
          "throttle_fit_probes does not answer -999");
    check(throttle_fit_probes(first, 3, rows, 3, 3, second, 3, others, 3, 3, 0, out) == 0 && out[0] == 0 && out[1] == 0,
          "throttle_fit_probes has an offset without jitter");
    check(throttle_fit_probes(first, 3, rows, 3, 0, second, 3, others, 3, 0, 0, out) == 0 && out[0] == 1 &&
              throttle_probes_offset(out) == -1000,
          "throttle_fit_probes does not answer -1000 for two empty lists");
    out[0] = out[1] = 7;
    check(throttle_fit_probes(first, 3, rows, 3, 3, second, 3, others, 3, 3, THROTTLE_PROBES_MOST_JITTER + 1, out) ==
              THROTTLE_BAD_PROBES,
          "throttle_fit_probes takes a jitter of 1,001");
    check(throttle_fit_probes(first, 3, rows, 3, 3, second, 3, others, 2, 3, THROTTLE_PROBES_MOST_JITTER + 1, out) ==
              THROTTLE_SHORT_BUFFER,
          "throttle_fit_probes takes a count above its rows");
    check(out[0] == 7 && out[1] == 7, "a refused throttle_fit_probes writes to out");
}

/* A log of the log writer's: row 2 opened at 3, its done at 8, and the same row at 16, which the quota is said to hold. */
static void check_cut_down(const uint8_t sample[THROTTLE_LOG_BLOCK])
{
    static uint8_t log[2 * THROTTLE_LOG_BLOCK];
    uint8_t *records = log + THROTTLE_LOG_BLOCK;
    uint64_t out[THROTTLE_CUT_OUT] = {7};
    memcpy(log, sample, THROTTLE_LOG_BLOCK);
    check(throttle_log_record(records, 0, 3, 0, 2, 0, 0, 0, THROTTLE_OPENED) == 0 &&
              throttle_log_record(records, 1, 8, 0, 0, 0, 0, 1, 0) == 0 && throttle_log_seal(records, 1, 2) == 0,
          "the log writer refuses two records");
    check(throttle_cut_down(log, sizeof log, out) == THROTTLE_NO_DIFFERENCE && out[0] == 7,
          "throttle_cut_down cuts down a log that agrees");
    check(throttle_log_record(records, 2, 16, 0, 2, 0, 0, 0, THROTTLE_QUOTA) == 0 && throttle_log_seal(records, 1, 3) == 0,
          "the log writer refuses the third record");
    check(throttle_cut_down(log, sizeof log, out) == 0 && out[0] == 4 && throttle_cut_keeps(out[0], 2),
          "throttle_cut_down does not keep the third record alone");
    check(throttle_cut_down(log, sizeof log - 1, out) == 11 && out[0] == 4, "throttle_cut_down takes a log that is cut off");
}

/* The benchmark's archive has no header: the exclusive or of the hashes of all rows, function f's 16 f bits up. */
uint64_t hash_rows(const uint16_t *seeds, size_t seeds_length, const uint16_t *rows, size_t rows_length, uint32_t table);

/* The seed rule, with the row's bits one by one. */
static uint64_t hashes(uint16_t row)
{
    uint64_t word = 0;
    for (unsigned f = 0; f < 4; f++)
        for (unsigned bit = 0; bit < 16; bit++)
            if (row >> bit & 1)
                word ^= (uint64_t)seeds[16 * f + bit] << 16 * f;
    return word;
}

/* Rows one by one and together, by the seed rule and by the table; seeds out of range give 0. */
static void check_hashes(void)
{
    uint64_t all = 0;
    uint16_t rows[300];
    for (unsigned k = 0; k < 300; k++) {
        rows[k] = (uint16_t)(k * 40503u + 1);
        for (uint32_t table = 0; table < 2; table++)
            check(hash_rows(seeds, THROTTLE_SEEDS, &rows[k], 1, table) == hashes(rows[k]), "hash_rows differs from the seed rule");
        all ^= hashes(rows[k]);
    }
    for (uint32_t table = 0; table < 2; table++) {
        check(hash_rows(seeds, THROTTLE_SEEDS, rows, 300, table) == all, "hash_rows leaves out a row");
        check(hash_rows(seeds, THROTTLE_SEEDS - 1, rows, 1, table) == 0, "hash_rows takes 63 seeds");
    }
}

int main(int count, char **arguments)
{
    uint8_t sample[THROTTLE_LOG_BLOCK] = {0};
    throttle_house_seeds(seeds);
    check(count == 2 && first_block(arguments[1], sample), "the sample log cannot be read");
    check_planner();
    check_spans();
    check_weak_chip();
    check_throttle(THROTTLE_PROFILE_LARGE);
    check_throttle(THROTTLE_PROFILE_SMALL);
    check_log(sample);
    check_probes();
    check_cut_down(sample);
    check_hashes();
    return failed;
}
