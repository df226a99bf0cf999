/* The seeds under which the benchmark measures. */
#ifndef SEEDS_H
#define SEEDS_H

#include "throttle.h"

/*
 *   HOUSE_SEEDS   the house seeds
 *   OTHER_SEEDS   random ones, of which the first is another than the house's
 *   LAST_DIFFERS  the house seeds but for the last one
 */
enum { HOUSE_SEEDS, OTHER_SEEDS, LAST_DIFFERS, SEEDINGS };

extern const char *const seeds_names[SEEDINGS];

void make_seeds(size_t which, uint16_t seeds[THROTTLE_LEAST THROTTLE_SEEDS]);

#endif
