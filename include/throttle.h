/*
 * The throttle: a model of one rank of DRAM in which no row is activated more
 * than L times in any W successive ticks (the BlockHammer design). A simulator
 * asks before it activates a row; the answer is "activate it now", "not before
 * tick u" or "the thread has its quota in flight".
 *
 * The calls work on plain numbers and on memory of the caller. The library
 * keeps no state of its own: it has no variables, allocates nothing and does no
 * input or output. Several states may be used from several threads at once; two
 * calls on the same state must not run at the same time. The setting and the
 * seeds are only read and may be shared by all states.
 *
 * The steps of a program:
 *   1. fill in a struct throttle_setting and 64 seeds,
 *   2. lend a head and four buffers (see "Memory" below),
 *   3. throttle_setup once,
 *   4. throttle_request for each activation, throttle_done for each one that
 *      is finished, throttle_index to look at a thread's standing.
 * Every call gets the same setting, seeds and memory. A tick is never smaller
 * than that of the call before. docs/c-interface.md has a worked example.
 *
 * These calls have filter counters of 16 bits. throttle_wide.h, which is included
 * at the end, has them with counters of 32 bits, for a larger N and a longer
 * history; it says which width to choose.
 *
 * Link with libthrottle.a (x86-64); it needs nothing beyond the C library.
 */
#ifndef THROTTLE_H
#define THROTTLE_H

#include "throttle_checked.h"
#include "throttle_version.h"

#include <stddef.h>
#include <stdint.h>

#ifdef __cplusplus
extern "C" {
#endif

/*
 * The setting
 *
 * Ticks may be of any length; the figures of the documents are in quarter
 * nanoseconds. A value outside its range is refused with 1, it is never cut.
 */
struct throttle_setting {
    uint64_t w;       /* refresh window W: even, 2 to 2^30; an epoch E is W/2 */
    uint64_t trc;     /* least gap of activations in one bank: 1 to 65,535 */
    uint64_t tfaw;    /* at most four activations of the rank in any tFAW ticks: 1 to 65,535 */
    uint64_t n;       /* blacklisting threshold N: 1 to 32,768, at the new width to 2^20 */
    uint64_t td;      /* delay tD of a blacklisted row: 1 to 2^29 */
    uint64_t l;       /* most activations L of a row in W ticks: 1 to 2^24 */
    uint64_t q;       /* most requests Q in flight for a thread, over all banks: 1 to 255, as many
                         as the controller may have of one thread */
    uint64_t banks;   /* 1 to 16, each of 65,536 rows */
    uint64_t threads; /* 1 to 32 */
    uint64_t profile; /* 0 or 1: THROTTLE_PROFILE_LARGE or THROTTLE_PROFILE_SMALL */
};

/*
 * The profile names the card. The small card's controller has at most 4 banks
 * and 1,024 history places, and a setting above that is refused with 16 where
 * the profile is the small one. It changes nothing else: a setting that is
 * accepted under the small profile is accepted under the large one, with the
 * same answers. An initialiser that leaves the field out, with names or without,
 * makes it 0, the large profile; a program that sets the fields one by one has
 * to set this one too.
 */
enum {
    THROTTLE_PROFILE_LARGE = 0,
    THROTTLE_PROFILE_SMALL = 1,
    /* the most banks and cells that an accepted setting of the small profile uses */
    THROTTLE_SMALL_BANKS = 4,
    THROTTLE_SMALL_COUNTER_CELLS = 8192,
    THROTTLE_SMALL_HISTORY_CELLS = 1024,
    THROTTLE_SMALL_THREAD_CELLS = 384
};

/*
 * Lengths of the arrays that a program lends. Setting, head and out have no
 * length argument, so the library cannot test them: write these names and not
 * the numbers, which can grow where THROTTLE_VERSION_MAJOR does.
 *
 * Before version 3 the setting had nine words, now it has ten; in version 1 a
 * request wrote two words to out, now it writes three. A program that was
 * compiled with an older header must be compiled again, and one that lends
 * arrays of nine or two words must be changed: the tenth word would be read
 * past the end of its setting, the third written past the end of its out. gcc
 * and clang warn of a short array in C where they see its length
 * (THROTTLE_LEAST), and in C++ they do not.
 */
enum {
    THROTTLE_SETTING_WORDS = 10,
    THROTTLE_SEEDS = 64,     /* 16 for each of four hash functions, each 0 to 1,023 */
    THROTTLE_HEAD_CELLS = 22,
    THROTTLE_REQUEST_OUT = 3,
    THROTTLE_INDEX_OUT = 3,
    /* the greatest N, and the most cells that an accepted setting uses */
    THROTTLE_MOST_N = 32768,
    THROTTLE_MOST_COUNTER_CELLS = 32768,
    THROTTLE_MOST_HISTORY_CELLS = 4096,
    THROTTLE_MOST_THREAD_CELLS = 1536
};

/*
 * The calls take the setting as ten words in the order of the struct. This
 * writes them and returns words. Do it once, and again after a change of s.
 */
static inline const uint64_t *throttle_words(const struct throttle_setting *s,
                                             uint64_t words[THROTTLE_LEAST THROTTLE_SETTING_WORDS])
{
    words[0] = s->w;
    words[1] = s->trc;
    words[2] = s->tfaw;
    words[3] = s->n;
    words[4] = s->td;
    words[5] = s->l;
    words[6] = s->q;
    words[7] = s->banks;
    words[8] = s->threads;
    words[9] = s->profile;
    return words;
}

/*
 * The seeds of the examples and tests: function f, bit i of the row:
 * (37(i+1)^2 + 211f + 89if) mod 1,024. Anyone can read them here, and an
 * attacker who knows the seeds can make rows collide: choose rows that raise
 * the counters of another thread's row, so that it is blacklisted and waits.
 * The limit L holds with any seeds. For a product take random seeds, each from
 * 0 to 1,023, and keep them secret.
 */
static inline void throttle_house_seeds(uint16_t seeds[THROTTLE_LEAST THROTTLE_SEEDS])
{
    for (unsigned f = 0; f < 4; f++)
        for (unsigned i = 0; i < 16; i++)
            seeds[16 * f + i] = (uint16_t)((37 * (i + 1) * (i + 1) + 211 * f + 89 * i * f) % 1024);
}

/*
 * Memory
 *
 *   head      64 bits  22 cells
 *   counters  16 bits  throttle_counter_cells   two counting Bloom filters of each bank
 *   ticks     64 bits  throttle_history_cells   history buffer: when
 *   rows      32 bits  throttle_history_cells   history buffer: which row
 *   threads   32 bits  throttle_thread_cells    three counters of each thread in each bank
 *
 * A length counts cells, not bytes. A buffer may be longer than needed: the
 * cells after the used part are neither read nor written. A pointer is never
 * null, also with length 0, and is aligned for its cells.
 *
 * No byte of one buffer may lie in another, in the head, in out, in the
 * setting or in the seeds. If one does, nothing is promised.
 *
 * What is kept of a row: an activation adds 1 to each distinct counter of the
 * row's four places in both filters of its bank, up to N. Epoch e = tick / E
 * tests filter e mod 2; a row is blacklisted if its four counters there have
 * reached N. If it is so when it is activated, both index counters of the
 * thread in the bank gain 1, up to D = L - N.
 *
 * The cells, for programs that look at them or save a state:
 *   head[0]         last tick
 *   head[1]         next history place
 *   head[2 + bank]  stored tick of the bank's last activation
 *   head[18 + age]  stored ticks of the rank's last four, newest first
 *   counters[bank * 2048 + filter * 1024 + place]
 *   ticks[place]    stored tick of an activation
 *   rows[place]     bank * 65,536 + row of that activation
 *   threads[(bank * number of threads + thread) * 3 + k]
 *                   k 0 and 1: index counters of filter 0 and 1, k 2: in flight
 *                   in that bank
 * A stored tick is the tick plus one, 0 means none. The last tick is stored as
 * it is. Copying all five copies the state; the copy goes on by itself.
 */

/* Cells of counters, banks x 2,048; 0 if the number of banks is out of range. */
static inline size_t throttle_counter_cells(const struct throttle_setting *s)
{
    if (s->banks < 1 || s->banks > 16)
        return 0;
    return (size_t)s->banks * 2048;
}

/*
 * Cells of ticks and of rows, H = 4 x ceil(tD / tFAW); 0 if tD or tFAW is out
 * of range. More than 4,096 cells, at the new width 32,768, are refused with 4,
 * and with 16 more than 1,024 under the small profile.
 */
static inline size_t throttle_history_cells(const struct throttle_setting *s)
{
    if (s->tfaw < 1 || s->tfaw > 65535 || s->td < 1 || s->td > 536870912)
        return 0;
    return (size_t)(4 * ((s->td + s->tfaw - 1) / s->tfaw));
}

/* Cells of threads, banks x threads x 3; 0 if one of the two is out of range. */
static inline size_t throttle_thread_cells(const struct throttle_setting *s)
{
    if (s->banks < 1 || s->banks > 16 || s->threads < 1 || s->threads > 32)
        return 0;
    return (size_t)(s->banks * s->threads * 3);
}

/*
 * Return values
 *
 * 0 means answered, any other number is a refusal. A refused call changes
 * nothing: head, buffers and out are as before, and the clock has not moved.
 * So out still holds the answer of an earlier call: look at the number first.
 * Compilers that can warn where it is not looked at do so (THROTTLE_CHECKED).
 * The tests are made in the order of the numbers, 16 after 5 and before 6, and
 * the first that fails is returned. 1 to 5 and 16 concern the setting and are
 * tested in every call; beside them set-up tests 6, request and index 6 to 9,
 * done 6 to 10.
 */
enum throttle_refusal {
    THROTTLE_ANSWERED = 0,
    THROTTLE_OUT_OF_RANGE = 1,     /* a field or seed out of range, W odd, a profile above 1, or
                                      not 64 seeds */
    THROTTLE_SHORT_WINDOW = 2,     /* W - 1 < 2 x N x tRC */
    THROTTLE_BAD_DELAY = 3,        /* tD below tRC or above E */
    THROTTLE_LONG_HISTORY = 4,     /* H above 4,096, at the new width above 32,768 */
    THROTTLE_ABOVE_LIMIT = 5,      /* B > L, with B = 2N + 1 + floor((W - 1 - 2 x N x tRC) / tD) */
    THROTTLE_ABOVE_PROFILE = 16,   /* the small profile, and more than 4 banks or H above 1,024 */
    THROTTLE_SHORT_BUFFER = 6,     /* a buffer has fewer cells than the setting uses */
    THROTTLE_BAD_MEMORY = 7,       /* next history place of H or more, a stored tick after the
                                      last tick, or stored history ticks that rise anywhere
                                      when read from the newest place back */
    THROTTLE_OUTSIDE_SETTING = 8,  /* bank or thread not below the setting's number of them;
                                      of throttle_row: a row above 65,535 */
    THROTTLE_BAD_TICK = 9,         /* tick before the last one, or 2^62 or more */
    THROTTLE_NONE_IN_FLIGHT = 10   /* done, and the thread has none in flight in this bank */
};

/*
 * A state made by throttle_setup and changed only by these calls, with the
 * same setting and buffers, is never refused with 6 or 7. Memory with any
 * other contents that passes the test of 7 is worked on as it is found.
 */

/* The answer to a request, out[0]: the first rule that fails of quota, bank, rank and row. */
enum throttle_answer {
    THROTTLE_OPENED = 0,    /* the row is activated at this tick */
    THROTTLE_WAIT_BANK = 1, /* under tRC ticks since the bank's last activation */
    THROTTLE_WAIT_RANK = 2, /* under tFAW ticks since the rank's fourth last activation */
    THROTTLE_WAIT_ROW = 3,  /* the row is blacklisted and was activated under tD ticks ago */
    THROTTLE_QUOTA = 4      /* the thread's total in flight is not below its quota in this bank */
};

/* Both in a few words, for messages; "unknown" for any other number. 11 to 13 are of logs. */
static inline const char *throttle_refusal_name(uint32_t number)
{
    switch (number) {
    case THROTTLE_ANSWERED: return "answered";
    case THROTTLE_OUT_OF_RANGE: return "setting or seeds out of range";
    case THROTTLE_SHORT_WINDOW: return "window too short for N";
    case THROTTLE_BAD_DELAY: return "delay below tRC or above W/2";
    case THROTTLE_LONG_HISTORY: return "history too long";
    case THROTTLE_ABOVE_LIMIT: return "bound B above limit L";
    case THROTTLE_ABOVE_PROFILE: return "setting above the small profile";
    case THROTTLE_SHORT_BUFFER: return "buffer too short";
    case THROTTLE_BAD_MEMORY: return "bad memory contents";
    case THROTTLE_OUTSIDE_SETTING: return "bank, thread or row outside the setting";
    case THROTTLE_BAD_TICK: return "tick before the last one or too large";
    case THROTTLE_NONE_IN_FLIGHT: return "none in flight";
    case 11: return "input ends within a block";
    case 12: return "sum of a block is wrong";
    case 13: return "against the log format";
    case 18: return "jitter or tick of a probe too large"; /* throttle_probes.h */
    case 20: return "more than 64 records"; /* 20, 21: throttle_cut_down.h */
    case 21: return "records that do not differ";
    default: return "unknown";
    }
}

static inline const char *throttle_answer_name(uint64_t answer)
{
    switch (answer) {
    case THROTTLE_OPENED: return "opened";
    case THROTTLE_WAIT_BANK: return "wait for bank";
    case THROTTLE_WAIT_RANK: return "wait for rank";
    case THROTTLE_WAIT_ROW: return "wait for row";
    case THROTTLE_QUOTA: return "quota";
    default: return "unknown";
    }
}

/*
 * A request takes a row of 16 bits, and C cuts a wider number to its lowest 16
 * bits before the call: 65,541 becomes row 5. This takes the number as it is
 * and writes it to out if it is a row; otherwise it returns
 * THROTTLE_OUTSIDE_SETTING and leaves out as it was. The compiler's option
 * -Wconversion finds a wider number that is handed to a request.
 */
THROTTLE_CHECKED
static inline uint32_t throttle_row(uint64_t number, uint16_t *out)
{
    if (number > 65535)
        return THROTTLE_OUTSIDE_SETTING;
    *out = (uint16_t)number;
    return THROTTLE_ANSWERED;
}

/*
 * Set-up: clears the head and the used parts of the buffers, whatever they
 * hold. Last tick and next history place are then 0.
 *
 * seeds: function by function, 16 each, that of bit 0 of the row first.
 */
THROTTLE_CHECKED
uint32_t throttle_setup(const uint64_t setting[THROTTLE_LEAST THROTTLE_SETTING_WORDS],
                        const uint16_t *seeds, size_t seeds_len,
                        uint64_t head[THROTTLE_LEAST THROTTLE_HEAD_CELLS],
                        uint16_t *counters, size_t counters_len,
                        uint64_t *ticks, size_t ticks_len, uint32_t *rows, size_t rows_len,
                        uint32_t *threads, size_t threads_len);

/*
 * Asks to activate a row at a tick. out[0] is the answer, out[1] the wait tick,
 * out[2] the openings left.
 *
 * 1, 2 and 3: out[1] is the least tick at which the rules of bank, rank and
 * row would all pass if no call came between; it is greater than tick. Ask
 * again then; the answer may be another wait if other requests were opened
 * in between, or quota. out[2] is 0.
 *
 * 4: out[1] and out[2] are 0. In flight is the thread's total over all banks,
 * the quota is that of the named one. There is no tick to wait for: ask again
 * after a done of this thread in any bank, or in the next epoch.
 *
 * 0: out[1] is 0. The activation is counted, stands in the history and is in
 * flight until throttle_done. Nothing else adds to the state; a wait or a
 * quota answer only moves the clock. out[2] is N less the row's estimate with
 * this activation counted, or 0 if the estimate is above N. The estimate is the
 * least of the row's four counters in the filter that the tick's epoch tests.
 *
 * Openings left say how far the row is from being blacklisted, and promise
 * nothing about the next request. 0 left is not yet held: the row rule holds a
 * blacklisted row only within tD ticks of its last activation. Other rows that
 * share its counters can use the openings up. The turn of an epoch can raise
 * them again, since the other filter is tested then.
 *
 * Every answered call moves the clock: the last tick becomes its tick. On
 * entering a new epoch (tick / E) the filter counters and index counters that
 * the old epoch tested are cleared, in all banks; if two or more epochs have
 * passed, all of them. In flight is not cleared.
 */
THROTTLE_CHECKED
uint32_t throttle_request(const uint64_t setting[THROTTLE_LEAST THROTTLE_SETTING_WORDS],
                          const uint16_t *seeds, size_t seeds_len,
                          uint64_t head[THROTTLE_LEAST THROTTLE_HEAD_CELLS],
                          uint16_t *counters, size_t counters_len,
                          uint64_t *ticks, size_t ticks_len, uint32_t *rows, size_t rows_len,
                          uint32_t *threads, size_t threads_len,
                          uint64_t tick, uint64_t bank, uint64_t thread, uint16_t row,
                          uint64_t out[THROTTLE_LEAST THROTTLE_REQUEST_OUT]);

/*
 * Reports that one of the thread's activations in the bank is finished: moves
 * the clock and takes 1 from in flight, of the bank and so of the thread's
 * total. It is refused with 10 if that bank has none, whatever the total.
 */
THROTTLE_CHECKED
uint32_t throttle_done(const uint64_t setting[THROTTLE_LEAST THROTTLE_SETTING_WORDS],
                       const uint16_t *seeds, size_t seeds_len,
                       uint64_t head[THROTTLE_LEAST THROTTLE_HEAD_CELLS],
                       uint16_t *counters, size_t counters_len,
                       uint64_t *ticks, size_t ticks_len, uint32_t *rows, size_t rows_len,
                       uint32_t *threads, size_t threads_len,
                       uint64_t tick, uint64_t bank, uint64_t thread);

/*
 * Reads the RowHammer likelihood index of a thread in a bank, c/D, and moves
 * the clock: out[0] is c, the activations of blacklisted rows counted in the
 * counter under test, out[1] is D = L - N, at which c stops, out[2] is the
 * quota, Q x (D - min(c, D)) / D to the nearest whole number, an exact half to
 * the even one.
 */
THROTTLE_CHECKED
uint32_t throttle_index(const uint64_t setting[THROTTLE_LEAST THROTTLE_SETTING_WORDS],
                        const uint16_t *seeds, size_t seeds_len,
                        uint64_t head[THROTTLE_LEAST THROTTLE_HEAD_CELLS],
                        uint16_t *counters, size_t counters_len,
                        uint64_t *ticks, size_t ticks_len, uint32_t *rows, size_t rows_len,
                        uint32_t *threads, size_t threads_len,
                        uint64_t tick, uint64_t bank, uint64_t thread,
                        uint64_t out[THROTTLE_LEAST THROTTLE_INDEX_OUT]);

#ifdef __cplusplus
}
#endif

#include "throttle_wide.h"

#endif
