/*
 * Measures throttle_cut_down beside three builds of the same call in plain C
 * (cut_plain.c), all in one process and on the same logs, by turns.
 *
 *   cut STEPS ROUNDS
 *
 * The last log is the one for which a search of so many steps found the most
 * records to be judged, under two settings. All builds must answer alike, in
 * every round and on logs of the search.
 */
#include "beside.h"
#include "cut_logs.h"

#include <inttypes.h>
#include <stdio.h>

CUT_DECLARE(o2);
CUT_DECLARE(o3);
CUT_DECLARE(native);

/* Every so many logs of the search are given to all builds. */
enum { SAME_EVERY = 16 };

static const struct columns times = {8, 8, 0}, ratios = {6, 6, 2};

typedef uint32_t cut_call(const uint8_t *, size_t, uint64_t[THROTTLE_LEAST THROTTLE_CUT_OUT]);

static cut_call *const builds[BUILDS] = {
    [LIBRARY] = throttle_cut_down,
    [O2] = o2_cut_down,
    [O3] = o3_cut_down,
    [NATIVE] = native_cut_down,
};

/* What a call gave back. */
struct answer {
    uint32_t code;
    uint64_t mask;
};

static uint8_t bytes[CUT_LOG_BYTES];
static size_t length, rounds;
/* What all builds answer to the log that is measured. */
static struct answer measured;

/* The word of out holds a pattern that shows where it is not written. */
static struct answer ask(size_t build)
{
    uint64_t out[THROTTLE_CUT_OUT] = {UINT64_C(0x5a5a5a5a5a5a5a5a)};
    uint32_t code = builds[build](bytes, length, out);
    return (struct answer){code, out[0]};
}

static void must_be(struct answer a, struct answer wanted)
{
    if (a.code != wanted.code || a.mask != wanted.mask)
        fail("an answer is another than it must be");
}

/* Takes a log, which all builds must answer alike, and says what work it was; none if it is refused. */
static struct cut_work take(const struct cut_log *log, int compare)
{
    length = write_cut_log(log, bytes);
    struct answer wanted = ask(O3);
    struct cut_work work = o3_cut_work();
    for (size_t b = 0; compare && b < BUILDS; b++)
        must_be(ask(b), wanted);
    return wanted.code == 0 ? work : (struct cut_work){0, 0};
}

/*
 * A log that gives the most records to judge of those that steps of change lead
 * to, from each kind. Its setting is one in which a run takes little time; a
 * greater one of the same Q leaves its records what they are.
 */
static struct cut_log search(size_t steps)
{
    struct throttle_setting setting = cut_setting(2, 8);
    struct cut_log best = cut_log_of(ALL_STAY, &setting, CUT_FAR);
    uint64_t most = 0;
    for (size_t kind = 0; kind < CUT_KINDS; kind++) {
        struct cut_log now = cut_log_of(kind, &setting, CUT_FAR);
        uint64_t reached = take(&now, 1).records;
        for (size_t i = 0; i < steps; i++) {
            struct cut_log other = now;
            do
                change_cut_log(&other, next_random);
            while (next_random() % 3 == 0);
            uint64_t found = take(&other, i % SAME_EVERY == 0).records;
            if (found >= reached) {
                reached = found;
                now = other;
            }
        }
        if (reached > most) {
            most = reached;
            best = now;
        }
    }
    return best;
}

/* Microseconds of a build. */
static double time_build(size_t build)
{
    double begin = nanoseconds();
    must_be(ask(build), measured);
    return (nanoseconds() - begin) / 1e3;
}

/* How many bits are set. */
static unsigned ones(uint64_t x)
{
    unsigned n = 0;
    for (; x != 0; x &= x - 1)
        n++;
    return n;
}

/* Measures a log and prints a line. */
static void measure(const char *kind, const struct cut_log *log, const char *gap)
{
    struct cut_work work = take(log, 1);
    measured = ask(LIBRARY);
    if (measured.code != 0)
        fail("a log that is measured is refused");
    take_times(rounds, time_build);
    printf("%-13s %5" PRIu64 " %5zu %-5s %4u %5" PRIu64 " %7" PRIu64, kind, log->setting.banks,
           throttle_history_cells(&log->setting), gap, ones(measured.mask), work.runs, work.records);
    print_times(&times, &ratios);
    printf(" %8.2f\n", best_time(LIBRARY) / (double)work.runs);
    fflush(stdout);
}

static void print_heading(void)
{
    printf("%-50s", "");
    print_builds(&times, &ratios);
    printf("\n%-13s %5s %5s %-5s %4s %5s %7s", "log", "banks", "H", "gap", "kept", "runs", "records");
    print_columns(&times, &ratios);
    printf(" %8s\n", "a run");
}

/* Each kind, with 1 and 16 banks, a short and a long history, in one epoch and with a turn at each record. */
static void measure_kinds(void)
{
    static const uint64_t banks[] = {1, 16}, histories[] = {8, 4096};
    for (size_t kind = 0; kind < CUT_KINDS; kind++)
        for (size_t b = 0; b < 2; b++)
            for (size_t h = 0; h < 2; h++) {
                struct throttle_setting setting = cut_setting(banks[b], histories[h]);
                struct cut_log log = cut_log_of(kind, &setting, CUT_NEAR);
                measure(cut_kinds[kind], &log, "near");
                log = cut_log_of(kind, &setting, CUT_FAR);
                measure(cut_kinds[kind], &log, "far");
            }
}

int main(int argc, char **argv)
{
    if (argc != 3)
        fail("STEPS and ROUNDS are needed");
    static const char wrong[] = "STEPS and ROUNDS must be whole numbers, ROUNDS at most 1000";
    size_t steps = number_of(argv[1], 100000000, wrong);
    rounds = number_of(argv[2], MOST_ROUNDS, wrong);
    if (rounds == 0)
        fail("a round is needed");
    print_heading();
    measure_kinds();
    struct cut_log found = search(steps);
    uint64_t q = found.setting.q;
    measure("found", &found, "far");
    found.setting = cut_setting(16, 4096);
    found.setting.q = q;
    measure("found", &found, "far");
    return 0;
}
