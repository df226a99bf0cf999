// The headers as a C++ program includes them.
#include "throttle_wide.h"
#include "throttle.h"
#include "throttle_cut_down.h"
#include "throttle_log.h"
#include "throttle_plan.h"
#include "throttle_probes.h"

const char *version();
const char *version()
{
    uint16_t seeds[THROTTLE_SEEDS];
    throttle_house_seeds(seeds);
    return seeds[0] == 37 ? THROTTLE_VERSION : throttle_refusal_name(THROTTLE_OUT_OF_RANGE);
}

// The planner's calls, with the arrays that the header names.
bool planned(const uint64_t (&setting)[THROTTLE_SETTING_WORDS]);
bool planned(const uint64_t (&setting)[THROTTLE_SETTING_WORDS])
{
    uint64_t delays[THROTTLE_DELAYS_OUT], bound[THROTTLE_SPAN_OUT];
    return throttle_delays(setting, delays) == 0 && throttle_wide_delays(setting, delays) == 0 &&
           throttle_span_bound(setting, setting[0], bound) == 0;
}

// The probes' call and what the header has beside it; lists of one record.
bool fitted(uint16_t bank, uint16_t row, int64_t d);
bool fitted(uint16_t bank, uint16_t row, int64_t d)
{
    const uint64_t first = 5000, second = 4000;
    const uint32_t word = throttle_probes_row(bank, row);
    uint64_t out[THROTTLE_PROBES_OUT];
    return throttle_fit_probes(&first, 1, &word, 1, 1, &second, 1, &word, 1, 1, THROTTLE_PROBES_MOST_JITTER, out) == 0 &&
           throttle_probes_offset(out) == d;
}

// The call that cuts a log down; does the first record stay?
bool kept(const uint8_t *log, size_t length);
bool kept(const uint8_t *log, size_t length)
{
    uint64_t out[THROTTLE_CUT_OUT];
    return throttle_cut_down(log, length, out) == 0 && throttle_cut_keeps(out[0], 0);
}
