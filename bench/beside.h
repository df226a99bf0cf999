/*
 * What the benchmarks of one call share: the library beside three builds of the
 * same call in plain C, all in one process, whose times are taken by turns.
 */
#ifndef BESIDE_H
#define BESIDE_H

#include <stddef.h>
#include <stdint.h>

enum { LIBRARY, O2, O3, NATIVE, BUILDS };
enum { MOST_ROUNDS = 1000 };

/* How a pair of numbers is printed, the best and the median: their widths, and digits after the point. */
struct columns {
    int best, median, digits;
};

/* Says what is wrong and ends the program. */
_Noreturn void fail(const char *what);

/* A whole number up to most, or ends the program with this text. */
size_t number_of(const char *word, unsigned long most, const char *wrong);

uint64_t next_random(void);
double nanoseconds(void);

/*
 * Takes the times of so many rounds, in each of which every build has a turn. A
 * first round is not counted: a part of the data may then be in a cache, from
 * what was measured before, and the build that comes first would have the use of it.
 */
void take_times(size_t rounds, double (*time_build)(size_t build));

/* A build's best time of the rounds. */
double best_time(size_t build);

/* Of the rounds, each build's times and the library's ratios to the others. */
void print_times(const struct columns *times, const struct columns *ratios);

/* Two lines of heading over these, each after what the caller has printed. */
void print_builds(const struct columns *times, const struct columns *ratios);
void print_columns(const struct columns *times, const struct columns *ratios);

#endif
