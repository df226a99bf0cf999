/* What is said of a log that throttle_cut_down refuses. */
#ifndef REFUSALS_H
#define REFUSALS_H

#include "input.h"

/* Says on standard error why the log is refused, for a number that the call can return other than 0. */
void say_refusal(const struct input *in, uint32_t number);

#endif
