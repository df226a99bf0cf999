/* How often a row can be activated where its refresh comes late: the bound for one to four windows. */
#include "throttle_plan.h"

#include <inttypes.h>
#include <stdio.h>

int main(void)
{
    struct throttle_setting s = {.w = 256000000, .trc = 185, .tfaw = 140, .n = 4096, .td = 31065,
                                 .l = 16384, .q = 64, .banks = 16, .threads = 8};
    uint64_t setting[THROTTLE_SETTING_WORDS];
    throttle_words(&s, setting);
    for (uint64_t windows = 1; windows <= 4; windows++) {
        uint64_t out[THROTTLE_SPAN_OUT];
        uint32_t code = throttle_span_bound(setting, windows * s.w, out);
        if (code != THROTTLE_ANSWERED) {
            printf("refused with %" PRIu32 ", %s\n", code, throttle_refusal_name(code));
            return 1;
        }
        printf("%" PRIu64 " x W: at most %" PRIu64 " activations\n", windows, out[0]);
    }
    return 0;
}
