/*
 * For planners: which delays tD a setting of the throttle is accepted with, at
 * each width of the filter counters, and how often a row can be activated in a
 * span of ticks. The setting is that of throttle.h. Link with libplan.a
 * (x86-64), alone or beside libthrottle.a; it needs nothing beyond the C
 * library.
 */
#ifndef THROTTLE_PLAN_H
#define THROTTLE_PLAN_H

#include "throttle.h"

#include <stdint.h>

#ifdef __cplusplus
extern "C" {
#endif

enum { THROTTLE_DELAYS_OUT = 2, THROTTLE_SPAN_OUT = 1 };

/*
 * For the calls with 16-bit counters. The setting as ten words (throttle_words
 * of throttle.h); its delay, word 4, plays no part, and neither do the seeds.
 *
 * Returns 0 and writes the least and the greatest delay to out. Exactly the
 * delays from out[0] to out[1] are accepted, under the profile that the setting
 * names. Where none is, out is left as it was, and the number of a refusal is
 * returned:
 *   1  a field other than the delay is out of its range, whatever the delay
 *   2  W - 1 < 2 * N * tRC, whatever the delay
 *   3  the smallest delay with B <= L is below tRC or above W/2
 *   4  the smallest delay with B <= L needs more than 4,096 history cells
 *   5  B > L with every delay from 1 to 2^29
 *  16  some delay is accepted under the large profile, and none under the small
 *      one, which the setting names; also where the smallest delay with B <= L
 *      is below tRC
 */
THROTTLE_CHECKED
uint32_t throttle_delays(const uint64_t setting[THROTTLE_LEAST THROTTLE_SETTING_WORDS],
                         uint64_t out[THROTTLE_LEAST THROTTLE_DELAYS_OUT]);

/*
 * The same for the calls with 32-bit counters: N is from 1 to 2^20, and 4 says
 * that the smallest delay with B <= L needs more than 32,768 history cells.
 * Where throttle_delays gives a least and a greatest delay, this gives the same
 * least one, and a greatest one that is the same or longer.
 */
THROTTLE_CHECKED
uint32_t throttle_wide_delays(const uint64_t setting[THROTTLE_LEAST THROTTLE_SETTING_WORDS],
                              uint64_t out[THROTTLE_LEAST THROTTLE_DELAYS_OUT]);

/*
 * The most activations of a row in any x successive ticks, under this setting:
 * the setting as ten words, its delay included; the seeds play no part. With
 * E = W/2, m = ceil((x - 1)/E) + 1 and F = N * ceil(m/2), it is
 *   F + 1 + floor((x - 1 - F * tRC)/tD)   if x - 1 >= F * tRC
 *   1 + floor((x - 1)/tRC)                otherwise
 * After a set-up with this setting that returned 0, no list of calls opens a row
 * more often, at either width, with any seeds, refused calls and a change-over
 * included; that some list reaches it is not claimed. With x = W it is B.
 *
 * Returns 0 and writes the bound to out[0]. Otherwise out is left as it was, and
 * the number of a refusal is returned: 1 where x is 0; else the setting's own,
 * 1 to 5 or 16, at the limits of the calls with 32-bit counters. What the calls
 * with 16-bit counters accept, these accept too.
 */
THROTTLE_CHECKED
uint32_t throttle_span_bound(const uint64_t setting[THROTTLE_LEAST THROTTLE_SETTING_WORDS], uint64_t x,
                             uint64_t out[THROTTLE_LEAST THROTTLE_SPAN_OUT]);

#ifdef __cplusplus
}
#endif

#endif
