/* Calls made at random, on lent memory, and a count of what they gave. */
#ifndef CALLS_H
#define CALLS_H

#include "check.h"
#include "lent.h"

/* A call of a run; each kind has its arguments. */
struct call {
    enum { REQUEST, DONE, READING, SETUP } kind;
    uint64_t tick, bank, thread;
    uint16_t row;
};

/* How often each answer and each number was given. */
struct tally {
    uint64_t answers[THROTTLE_QUOTA + 1], numbers[THROTTLE_NONE_IN_FLIGHT + 1];
};

static inline uint64_t next_random(uint64_t *x)
{
    *x ^= *x << 13;
    *x ^= *x >> 7;
    *x ^= *x << 17;
    return *x;
}

/* A call after this tick, now and then before it, or with a bank or thread outside the setting. */
static inline struct call next_call(const struct throttle_setting *s, uint64_t tick, uint64_t *x)
{
    uint64_t kind = next_random(x) % 500, step = next_random(x) % 90;
    struct call c;
    c.kind = kind < 300 ? REQUEST : kind < 460 ? DONE : kind < 499 ? READING : SETUP;
    c.tick = tick;
    c.bank = next_random(x) % s->banks;
    c.thread = next_random(x) % s->threads;
    c.row = (uint16_t)(next_random(x) % 3);
    if (step == 0)
        c.tick += next_random(x) % (s->w + 2);
    else if (step == 1 && tick > 0)
        c.tick -= 1;
    else if (step > 60)
        c.tick += next_random(x) % (s->trc + 2);
    if (next_random(x) % 64 == 0)
        c.bank = s->banks;
    if (next_random(x) % 64 == 0)
        c.thread = s->threads;
    return c;
}

static inline uint32_t make_call(struct lent *m, const struct call *c)
{
    switch (c->kind) {
    case REQUEST: return request(m, c->tick, c->bank, c->thread, c->row);
    case DONE: return done(m, c->tick, c->bank, c->thread);
    case READING: return reading(m, c->tick, c->bank, c->thread);
    default: return setup(m);
    }
}

/* Notes what a call gave; whether it can have given it. */
static inline int noted(struct tally *t, const struct call *c, uint32_t number, const uint64_t *out)
{
    if (number > THROTTLE_NONE_IN_FLIGHT || out[0] > THROTTLE_QUOTA)
        return 0;
    t->numbers[number]++;
    if (c->kind == REQUEST && number == 0)
        t->answers[out[0]]++;
    return 1;
}

/* Every answer, and every refusal that next_call can bring about, was given. */
static inline void all_noted(const struct tally *t)
{
    for (size_t k = 0; k <= THROTTLE_QUOTA; k++)
        CHECK(t->answers[k] > 20);
    CHECK(t->numbers[THROTTLE_ANSWERED] > 4000 && t->numbers[THROTTLE_NONE_IN_FLIGHT] > 20);
    CHECK(t->numbers[THROTTLE_OUTSIDE_SETTING] > 20 && t->numbers[THROTTLE_BAD_TICK] > 20);
}

#endif
