/*
 * Writes a faithful log to standard output: make_log KIND SEEDS RECORDS
 *   random         eight threads activate random rows
 *   hammered       four threads activate two rows each by turns, as fast as
 *                  they may, and four activate random rows
 *   hammered-4096  the same with a delay for which H is 4,096
 * SEEDS is house or other.
 * A controller loop makes requests and dones, baseline.c decides. A request
 * that has to wait is asked again at its wait tick, but after POLL ticks at the
 * latest. The same arguments always give the same log.
 */
#include "baseline.h"
#include "log_bytes.h"
#include "seeds.h"
#include "throttle.h"

#include <inttypes.h>
#include <stdio.h>
#include <stdlib.h>
#include <string.h>

BASE_DECLARE(base);

enum { THREADS = 8, SERVICE = 200, POLL = 1000, FLIGHTS = 1024, ANSWERS = 5 };
enum { REQUEST, DONE };

struct kind {
    const char *name;
    uint64_t td;
    size_t hammering; /* the number of threads that hammer */
};

static const struct kind kinds[] = {
    {"random", 31065, 0},
    {"hammered", 31065, 4},
    {"hammered-4096", 143360, 4},
};

/* A record of the log. */
struct record {
    uint64_t tick;
    uint64_t out[THROTTLE_REQUEST_OUT]; /* of which answer and wait tick are written */
    uint16_t row;
    uint8_t bank;
    uint8_t thread;
    uint8_t kind;
};

/* A thread's next request and when it is asked. */
struct thread {
    uint64_t ready;
    uint8_t bank;
    uint16_t row;
};

/* The controller loop: threads, and activations in flight in the order in which they end. */
struct loop {
    struct thread threads[THREADS];
    struct record flights[FLIGHTS];
    size_t first, last;
    size_t turn;      /* the thread that comes first among equals */
    size_t hammering; /* threads below this number hammer */
    uint64_t now;
    uint64_t random;
};

static uint64_t words[THROTTLE_SETTING_WORDS];
static const uint64_t *setting;
static uint16_t seeds[THROTTLE_SEEDS];
static uint64_t head[THROTTLE_HEAD_CELLS];
static uint16_t counters[THROTTLE_MOST_COUNTER_CELLS];
static uint64_t ticks[THROTTLE_MOST_HISTORY_CELLS];
static uint32_t rows[THROTTLE_MOST_HISTORY_CELLS];
static uint32_t threads[THROTTLE_MOST_THREAD_CELLS];

static const size_t seeds_len = THROTTLE_SEEDS;
static const size_t counters_len = THROTTLE_MOST_COUNTER_CELLS;
static const size_t ticks_len = THROTTLE_MOST_HISTORY_CELLS;
static const size_t rows_len = THROTTLE_MOST_HISTORY_CELLS;
static const size_t threads_len = THROTTLE_MOST_THREAD_CELLS;

static void fail(const char *what)
{
    fprintf(stderr, "make_log: %s\n", what);
    exit(1);
}

static uint64_t next_random(uint64_t *x)
{
    *x ^= *x << 13;
    *x ^= *x >> 7;
    *x ^= *x << 17;
    return *x;
}

/* The setting and the seeds; set-up of the model's memory. */
static void start_model(const struct kind *kind, size_t seeding)
{
    struct throttle_setting s = {
        .w = 256000000,
        .trc = 185,
        .tfaw = 140,
        .n = 8192,
        .td = kind->td,
        .l = 24528,
        .q = 64,
        .banks = 16,
        .threads = THREADS,
    };
    setting = throttle_words(&s, words);
    make_seeds(seeding, seeds);
    if (base_setup(BASE_GIVEN) != 0)
        fail("the setting is refused");
}

/* The thread's next request: a hammering one has a bank of its own and two rows by turns. */
static void next_request(struct loop *l, size_t i)
{
    struct thread *t = &l->threads[i];
    if (i < l->hammering) {
        t->bank = (uint8_t)i;
        t->row ^= 2;
        t->ready = l->now + setting[1];
    } else {
        uint64_t x = next_random(&l->random);
        t->bank = x % 16;
        t->row = (uint16_t)(x >> 16);
        t->ready = l->now + (x >> 40) % 512;
    }
}

/* The log begins 20,000,000 ticks before the end of an epoch, so that it has an epoch turn. */
static void start_loop(struct loop *l, size_t hammering)
{
    memset(l, 0, sizeof *l);
    l->hammering = hammering;
    l->now = setting[0] / 2 - 20000000;
    l->random = 88172645463325252u;
    for (size_t i = 0; i < THREADS; i++) {
        l->threads[i].row = 4660;
        next_request(l, i);
    }
}

/* The next call: an activation's end if it is due, else the earliest request. */
static struct record choose(const struct loop *l)
{
    size_t best = l->turn % THREADS;
    for (size_t k = 1; k < THREADS; k++) {
        size_t i = (l->turn + k) % THREADS;
        if (l->threads[i].ready < l->threads[best].ready)
            best = i;
    }
    const struct thread *t = &l->threads[best];
    struct record c = {
        t->ready < l->now ? l->now : t->ready, {0}, t->row, t->bank, (uint8_t)best, REQUEST};
    const struct record *flight = &l->flights[l->first % FLIGHTS];
    if (l->first != l->last && flight->tick <= c.tick)
        return *flight;
    return c;
}

/* The model's answer to the call. */
static void decide(struct record *c)
{
    uint32_t refused;
    if (c->kind == REQUEST)
        refused = base_request(BASE_GIVEN, c->tick, c->bank, c->thread, c->row, c->out);
    else
        refused = base_done(BASE_GIVEN, c->tick, c->bank, c->thread);
    if (refused != 0)
        fail("a call is refused");
}

/* What the controller does with the answer. */
static void follow(struct loop *l, const struct record *c)
{
    struct thread *t = &l->threads[c->thread];
    l->now = c->tick;
    if (c->kind == DONE) {
        l->first++;
    } else if (c->out[0] == THROTTLE_OPENED) {
        if (l->last - l->first == FLIGHTS)
            fail("too many in flight");
        l->flights[l->last++ % FLIGHTS] =
            (struct record){c->tick + SERVICE, {0}, 0, c->bank, c->thread, DONE};
        l->turn = c->thread + 1u;
        next_request(l, c->thread);
    } else if (c->out[0] != THROTTLE_QUOTA && c->out[1] < c->tick + POLL) {
        t->ready = c->out[1];
    } else {
        t->ready = c->tick + POLL;
    }
}

static void write_block(const uint8_t block[BLOCK])
{
    if (fwrite(block, 1, BLOCK, stdout) != BLOCK)
        fail("the log cannot be written");
}

/* Block 0. */
static void write_start(void)
{
    uint8_t block[BLOCK] = {0};
    store_start(block, setting, seeds);
    write_block(block);
}

static void store_record(uint8_t *p, const struct record *c)
{
    store(p, c->tick, 8);
    store(p + 8, c->out[1], 8);
    store(p + 16, c->row, 2);
    store(p + 18, c->bank, 1);
    store(p + 19, c->thread, 1);
    store(p + 20, c->kind, 1);
    store(p + 21, c->out[0], 1);
}

/* Writes the whole log; answers counts the requests by their answer. */
static void write_log(struct loop *l, uint64_t records, uint64_t answers[ANSWERS])
{
    uint64_t number = 1;
    write_start();
    for (uint64_t left = records; left > 0; number++) {
        uint8_t block[BLOCK] = {0};
        size_t count = left < RECORDS ? left : RECORDS;
        for (size_t k = 0; k < count; k++) {
            struct record c = choose(l);
            decide(&c);
            follow(l, &c);
            store_record(block + BODY + k * RECORD, &c);
            if (c.kind == REQUEST)
                answers[c.out[0]]++;
        }
        seal(block, number, count);
        write_block(block);
        left -= count;
    }
}

/* The seeds of this name; SEEDINGS if there are none. */
static size_t find_seeds(const char *name)
{
    if (strcmp(name, "house") == 0)
        return HOUSE_SEEDS;
    return strcmp(name, "other") == 0 ? OTHER_SEEDS : SEEDINGS;
}

int main(int argc, char **argv)
{
    static struct loop l;
    const struct kind *kind = NULL;
    uint64_t answers[ANSWERS] = {0}, records = argc == 4 ? strtoull(argv[3], NULL, 10) : 0;
    size_t seeding = argc == 4 ? find_seeds(argv[2]) : SEEDINGS;
    for (size_t i = 0; argc == 4 && i < sizeof kinds / sizeof *kinds; i++)
        if (strcmp(argv[1], kinds[i].name) == 0)
            kind = &kinds[i];
    if (kind == NULL || seeding == SEEDINGS || records == 0)
        fail("usage: make_log random|hammered|hammered-4096 house|other RECORDS");
    start_model(kind, seeding);
    start_loop(&l, kind->hammering);
    write_log(&l, records, answers);
    if (fflush(stdout) != 0)
        fail("the log cannot be written");
    fprintf(stderr,
            "%s, %s seeds: requests opened %" PRIu64 ", bank %" PRIu64 ", rank %" PRIu64
            ", row %" PRIu64 ", quota %" PRIu64 ", to tick %" PRIu64 "\n",
            kind->name, argv[2], answers[0], answers[1], answers[2], answers[3], answers[4], l.now);
    return 0;
}
