/*
 * What the parts of the benchmark share: the library, four builds of the plain
 * C baseline and, if the program is linked with one, a former library side by
 * side, lists of calls that all of them answer, and the replay of a list with
 * its times. All calls are of one width, that of baseline.h.
 *
 * A list is made once. Each of its calls is answered by all builds, whose
 * answers and memory are compared. The replay starts from a copied state, the
 * builds take turns, and the answers and the memory are compared again. The
 * list is divided into pieces; the shortest time of each piece counts.
 */
#ifndef HARNESS_H
#define HARNESS_H

#include "baseline.h"
#include "throttle.h"

/*
 * The library comes first; then each processor with both forms of the test of
 * the history; and last the former library, if there is one.
 */
enum { LIBRARY, O3_DIFFERENCES, O3_COMPARES, NATIVE_DIFFERENCES, NATIVE_COMPARES, FORMER, BUILDS };

enum { MOST_CALLS = 262144, MOST_PIECES = 256, MOST_CLASSES = 8 };

/* The words of the longest out. */
enum {
    MOST_OUT = THROTTLE_REQUEST_OUT > THROTTLE_INDEX_OUT ? THROTTLE_REQUEST_OUT : THROTTLE_INDEX_OUT
};

enum kind { REQUEST, DONE, INDEX, SETUP };

/* A call of a list. */
struct call {
    uint64_t tick;
    uint16_t row;
    uint8_t bank;
    uint8_t thread;
    uint8_t kind;
};

/* What a call gave back. */
struct reply {
    uint64_t code;
    uint64_t out[MOST_OUT];
};

/* The fields in which the settings of the measurements differ. */
struct shape {
    uint64_t td;
    uint64_t l;
    uint64_t q;
    uint64_t banks;
    uint64_t threads;
};

/* Nanoseconds a call of each build; 0 for a former library where there is none. */
struct times {
    double ns[BUILDS];
};

/* The setting in use, as words. */
extern const uint64_t *setting;

_Noreturn void fail(const char *what);
uint64_t next_random(uint64_t *x);
double nanoseconds(void);

/* Whether there is a former library. */
int has_former(void);

/* The seeds for the settings that are taken from now on, see seeds.h; at first the house seeds. */
void take_seeds(size_t which);

/* Takes the setting of this shape, and sets all memories up with it. */
void take_shape(const struct shape *s);

/* The same call on all builds, outside the list; they must answer it, and alike. */
void call_all(const struct call *c, struct reply *r);

/* An empty list that starts from the present state. */
void start_list(void);

/* The same as call_all, and the call is added to the list. */
void add_call(const struct call *c, struct reply *r);

/* The calls since the last piece become a piece of this class. */
void end_piece(size_t class);

/*
 * Replays the list and gives the times of the calls of each class. A build
 * answers span pieces, then the next one answers them.
 */
void measure(size_t rounds, size_t span, struct times *classes);

/* Keeps the lesser of the n times of this pass and those of the passes before. */
void keep_least(size_t pass, struct times *least, const struct times *now, size_t n);

/*
 * The heading of a table and a line of it: the better form of the baseline for
 * each processor, and the former library if there is one.
 */
void print_heading(const char *what);
void print_times(const char *name, const struct times *t);

/* The better form of the baseline for the library's processor, and for the present one. */
double best_o3(const struct times *t);
double best_native(const struct times *t);

#endif
