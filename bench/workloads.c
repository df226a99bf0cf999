/*
 * Mixed traffic. For each workload a controller loop makes the list of calls:
 * requests follow the answers (a wait is asked again at its wait tick), every
 * activation is reported done, and now and then an index is read.
 */
#include "harness.h"
#include "parts.h"

#include <stdio.h>
#include <string.h>

enum { CALLS = MOST_CALLS, PIECE = 2048, ROUNDS = 9, SERVICE = 200, FLIGHTS = 1024 };

struct workload {
    const char *name;
    /* the delay; the other fields are the same for all */
    uint64_t td;
    /* thread 0 activates two rows of bank 0 by turns, as fast as it may; else all threads
       activate random rows */
    int hammering;
};

/* The last is of the new width alone. */
enum { WORKLOADS = BASE_MOST_HISTORY < 32768 ? 3 : 4 };

static const struct workload workloads[] = {
    {"random rows, H 888", 31065, 0},
    {"two rows hammered, H 888", 31065, 1},
    {"two rows hammered, H 4096", 143360, 1},
    {"two rows hammered, H 32768", 1146880, 1},
};

/* A thread of the controller loop: its next request and when it is asked. */
struct thread {
    uint64_t ready;
    uint64_t bank;
    uint16_t row;
    int active;
};

/* The controller loop: threads, and activations in flight in the order in which they end. */
struct loop {
    struct thread threads[8];
    struct call flights[FLIGHTS];
    size_t first, last;
    size_t turn; /* the thread that comes first among equals */
    uint64_t now;
    uint64_t random;
};

/* The thread's next request. */
static void next_request(struct loop *l, size_t i, int hammering)
{
    struct thread *t = &l->threads[i];
    if (hammering) {
        t->row ^= 2;
        t->ready = l->now + setting[1];
    } else {
        uint64_t x = next_random(&l->random);
        t->bank = x % 16;
        t->row = (uint16_t)(x >> 16);
        t->ready = l->now + (x >> 40) % 512;
    }
}

static void start_loop(struct loop *l, const struct workload *w)
{
    memset(l, 0, sizeof *l);
    l->random = 88172645463325252u;
    for (size_t i = 0; i < 8; i++) {
        l->threads[i].active = i == 0 || !w->hammering;
        l->threads[i].row = 4660;
        next_request(l, i, w->hammering);
    }
}

/* The next call: an activation's end if it is due, else the earliest request or index reading. */
static struct call choose(const struct loop *l, size_t made)
{
    size_t best = 8;
    for (size_t k = 0; k < 8; k++) {
        size_t i = (l->turn + k) % 8;
        if (l->threads[i].active && (best == 8 || l->threads[i].ready < l->threads[best].ready))
            best = i;
    }
    const struct thread *t = &l->threads[best];
    struct call c = {t->ready < l->now ? l->now : t->ready, t->row, (uint8_t)t->bank, (uint8_t)best,
                     REQUEST};
    const struct call *flight = &l->flights[l->first % FLIGHTS];
    if (l->first != l->last && flight->tick <= c.tick)
        return *flight;
    if (made % 64 == 63) {
        c.tick = l->now;
        c.kind = INDEX;
    }
    return c;
}

/* What the controller does with the reply. */
static void follow(struct loop *l, const struct workload *w, const struct call *c,
                   const struct reply *r)
{
    struct thread *t = &l->threads[c->thread];
    l->now = c->tick;
    if (c->kind == DONE)
        l->first++;
    if (c->kind != REQUEST)
        return;
    if (r->out[0] == THROTTLE_OPENED) {
        if (l->last - l->first == FLIGHTS)
            fail("too many in flight");
        l->flights[l->last++ % FLIGHTS] =
            (struct call){c->tick + SERVICE, c->row, c->bank, c->thread, DONE};
        l->turn = c->thread + 1u;
        next_request(l, c->thread, w->hammering);
    } else if (r->out[0] == THROTTLE_QUOTA) {
        uint64_t epoch = setting[0] / 2;
        t->ready = l->first != l->last ? l->flights[l->first % FLIGHTS].tick
                                       : (c->tick / epoch + 1) * epoch;
    } else {
        t->ready = r->out[1];
    }
}

/* Makes the list of calls and prints what it holds. */
static void make_list(const struct workload *w)
{
    static struct loop l;
    struct shape shape = {w->td, 24528, 64, 16, 8};
    unsigned long answers[5] = {0}, kinds[3] = {0};
    take_shape(&shape);
    start_list();
    start_loop(&l, w);
    for (size_t i = 0; i < CALLS; i++) {
        struct reply r;
        struct call c = choose(&l, i);
        add_call(&c, &r);
        follow(&l, w, &c, &r);
        kinds[c.kind]++;
        if (c.kind == REQUEST)
            answers[r.out[0]]++;
        if (i % PIECE == PIECE - 1)
            end_piece(0);
    }
    printf("%s: %lu requests (opened %lu, bank %lu, rank %lu, row %lu, quota %lu), %lu dones, %lu "
           "index readings, to tick %lu\n",
           w->name, kinds[REQUEST], answers[THROTTLE_OPENED], answers[THROTTLE_WAIT_BANK],
           answers[THROTTLE_WAIT_RANK], answers[THROTTLE_WAIT_ROW], answers[THROTTLE_QUOTA],
           kinds[DONE], kinds[INDEX], (unsigned long)l.now);
}

void run_workloads(void)
{
    struct times times[WORKLOADS];
    for (size_t i = 0; i < WORKLOADS; i++) {
        make_list(&workloads[i]);
        measure(ROUNDS, 1, &times[i]);
    }
    printf("\nWorkloads: 16 banks, 8 threads, %d calls; nanoseconds a call, best of %d\n\n", CALLS,
           ROUNDS);
    print_heading("workload");
    for (size_t i = 0; i < WORKLOADS; i++)
        print_times(workloads[i].name, &times[i]);
    printf("\n");
}
