/*
 * The baseline's test of the history, in two forms: differences of neighbours
 * or-ed (the default), or neighbours compared (with BASE_COMPARES defined).
 * Both give the same result. Which is faster depends on the processor that the
 * compiler may use and on the length of the history.
 *
 * Place is the oldest one, which is the next to be written, and is below h. A
 * stored tick is the tick plus one, 0 means none.
 */
#ifndef BASELINE_HISTORY_H
#define BASELINE_HISTORY_H

#include <stddef.h>
#include <stdint.h>

/* A stored tick is after the last tick. */
static inline int after(uint64_t stored, uint64_t last)
{
    return stored != 0 && stored - 1 > last;
}

/* One of the n stored ticks from x on is after the last tick. */
static inline int any_after(const uint64_t *x, size_t n, uint64_t last)
{
    for (size_t i = 0; i < n; i++)
        if (after(x[i], last))
            return 1;
    return 0;
}

#ifdef BASE_COMPARES

/* Not 0 where one of the n cells from x on is above the cell after it. */
static inline uint64_t falls(const uint64_t *x, size_t n)
{
    uint64_t bits = 0;
    for (size_t i = 0; i < n; i++)
        bits |= x[i] > x[i + 1] ? UINT64_MAX : 0;
    return bits;
}

/* A stored tick is above the one after it, read from the oldest place on, around the ring. */
static inline int history_falls(const uint64_t *ticks, size_t h, size_t place)
{
    size_t young = place == 0 ? 0 : place - 1;
    if (place != 0 && ticks[h - 1] > ticks[0])
        return 1;
    return (falls(ticks + place, h - 1 - place) | falls(ticks, young)) != 0;
}

#else

/*
 * The differences of the n cells from x on to the cells after them, or-ed. Both
 * halves are gone through at once, so that fewer steps wait for one another.
 */
static inline uint64_t differences(const uint64_t *x, size_t n)
{
    const uint64_t *y = x + n / 2;
    uint64_t bits = n % 2 != 0 ? x[n] - x[n - 1] : 0;
#pragma GCC unroll 4
    for (size_t i = 0; i < n / 2; i++)
        bits |= (x[i + 1] - x[i]) | (y[i + 1] - y[i]);
    return bits;
}

/* One of the n cells from x on is above the cell after it. */
static inline int falls(const uint64_t *x, size_t n)
{
    for (size_t i = 0; i < n; i++)
        if (x[i] > x[i + 1])
            return 1;
    return 0;
}

/*
 * A stored tick is above the one after it, read from the oldest place on,
 * around the ring. Where the oldest is below 2^62 and up to 2^15 differences
 * are below 2^48, no sum of them wraps, so no tick falls; else they are
 * compared.
 */
static inline int history_falls(const uint64_t *ticks, size_t h, size_t place)
{
    size_t young = place == 0 ? 0 : place - 1;
    uint64_t bits = differences(ticks + place, h - 1 - place) | differences(ticks, young);
    if (place != 0)
        bits |= ticks[0] - ticks[h - 1];
    if (bits >> 48 == 0 && ticks[place] >> 62 == 0)
        return 0;
    return falls(ticks + place, h - 1 - place) || (place != 0 && ticks[h - 1] > ticks[0]) ||
           falls(ticks, young);
}

#endif

/*
 * The history is unsound: a stored tick is above the one after it, or the
 * newest is after the last tick. If neither is so, no tick is after the last.
 */
static inline int history_unsound(const uint64_t *ticks, size_t h, size_t place, uint64_t last)
{
    uint64_t newest = ticks[(place == 0 ? h : place) - 1];
    return after(newest, last) || history_falls(ticks, h, place);
}

#endif
