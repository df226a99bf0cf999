/* The seeds under which the benchmark measures. See seeds.h. */
#include "seeds.h"

const char *const seeds_names[SEEDINGS] = {
    [HOUSE_SEEDS] = "house seeds",
    [OTHER_SEEDS] = "other seeds",
    [LAST_DIFFERS] = "last seed differs",
};

/* The upper ten bits of a linear congruential generator. */
static void random_seeds(uint16_t seeds[THROTTLE_SEEDS])
{
    uint64_t x = 88172645463325252u;
    for (size_t i = 0; i < THROTTLE_SEEDS; i++) {
        x = x * 6364136223846793005u + 1442695040888963407u;
        seeds[i] = (uint16_t)(x >> 54);
    }
}

void make_seeds(size_t which, uint16_t seeds[THROTTLE_LEAST THROTTLE_SEEDS])
{
    throttle_house_seeds(seeds);
    uint16_t first = seeds[0];
    if (which == OTHER_SEEDS) {
        random_seeds(seeds);
        seeds[0] = first ^ 512;
    } else if (which == LAST_DIFFERS) {
        seeds[THROTTLE_SEEDS - 1] ^= 512;
    }
}
