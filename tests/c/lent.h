/*
 * Memory lent to the throttle: every buffer, the setting, the seeds and out
 * have a heap block of their own of exactly the stated length, so that a memory
 * checker sees an access outside.
 */
#ifndef LENT_H
#define LENT_H

#include "throttle.h"

#include <stdlib.h>
#include <string.h>

/*
 * The width: with NEW_WIDTH defined the calls are those of the new width, else
 * those of the old. The name of a call, the counters' type and greatest number,
 * the limits, and what the name of a test ends with.
 */
#ifdef NEW_WIDTH
#define CALL(name) throttle_wide_##name
#define FULL UINT32_MAX
#define OF_WIDTH ", new width"
typedef uint32_t counter_cell;
enum { MOST_N = THROTTLE_WIDE_MOST_N, MOST_HISTORY = THROTTLE_WIDE_MOST_HISTORY_CELLS };
#else
#define CALL(name) throttle_##name
#define FULL UINT16_MAX
#define OF_WIDTH ""
typedef uint16_t counter_cell;
enum { MOST_N = THROTTLE_MOST_N, MOST_HISTORY = THROTTLE_MOST_HISTORY_CELLS };
#endif

struct lent {
    uint64_t *words;
    uint16_t *seeds;
    size_t seeds_len;
    uint64_t *head;
    counter_cell *counters;
    size_t counters_len;
    uint64_t *ticks;
    size_t ticks_len;
    uint32_t *rows;
    size_t rows_len;
    uint32_t *threads;
    size_t threads_len;
    uint64_t *out;   /* of a request */
    uint64_t *index; /* out of an index reading */
};

/* A heap block that is not initialised. */
static inline void *block(size_t cells, size_t size)
{
    void *memory = malloc(cells * size);
    if (!memory)
        abort();
    return memory;
}

/* Memory as long as the setting uses, not initialised, with the house seeds. */
static inline struct lent lend(const struct throttle_setting *s)
{
    struct lent m;
    m.words = block(THROTTLE_SETTING_WORDS, 8);
    throttle_words(s, m.words);
    m.seeds_len = THROTTLE_SEEDS;
    m.seeds = block(THROTTLE_SEEDS, 2);
    throttle_house_seeds(m.seeds);
    m.head = block(THROTTLE_HEAD_CELLS, 8);
    m.counters_len = throttle_counter_cells(s);
    m.counters = block(m.counters_len, sizeof *m.counters);
    m.ticks_len = m.rows_len = throttle_history_cells(s);
    m.ticks = block(m.ticks_len, 8);
    m.rows = block(m.rows_len, 4);
    m.threads_len = throttle_thread_cells(s);
    m.threads = block(m.threads_len, 4);
    m.out = block(THROTTLE_REQUEST_OUT, 8);
    m.index = block(THROTTLE_INDEX_OUT, 8);
    return m;
}

static inline void give_back(struct lent *m)
{
    free(m->words);
    free(m->seeds);
    free(m->head);
    free(m->counters);
    free(m->ticks);
    free(m->rows);
    free(m->threads);
    free(m->out);
    free(m->index);
}

/* A copy of the state, in memory as long as the setting uses. */
static inline struct lent copy(const struct lent *m, const struct throttle_setting *s)
{
    struct lent c = lend(s);
    memcpy(c.head, m->head, THROTTLE_HEAD_CELLS * 8);
    memcpy(c.counters, m->counters, c.counters_len * sizeof *c.counters);
    memcpy(c.ticks, m->ticks, c.ticks_len * 8);
    memcpy(c.rows, m->rows, c.rows_len * 4);
    memcpy(c.threads, m->threads, c.threads_len * 4);
    return c;
}

/* The state is that of the copy. */
static inline int same(const struct lent *m, const struct lent *c)
{
    return memcmp(m->head, c->head, THROTTLE_HEAD_CELLS * 8) == 0 &&
           memcmp(m->counters, c->counters, c->counters_len * sizeof *c->counters) == 0 &&
           memcmp(m->ticks, c->ticks, c->ticks_len * 8) == 0 &&
           memcmp(m->rows, c->rows, c->rows_len * 4) == 0 &&
           memcmp(m->threads, c->threads, c->threads_len * 4) == 0;
}

static inline uint32_t setup(struct lent *m)
{
    return CALL(setup)(m->words, m->seeds, m->seeds_len, m->head, m->counters, m->counters_len,
                       m->ticks, m->ticks_len, m->rows, m->rows_len, m->threads, m->threads_len);
}

static inline uint32_t request(struct lent *m, uint64_t tick, uint64_t bank, uint64_t thread,
                               uint16_t row)
{
    return CALL(request)(m->words, m->seeds, m->seeds_len, m->head, m->counters, m->counters_len,
                         m->ticks, m->ticks_len, m->rows, m->rows_len, m->threads, m->threads_len,
                         tick, bank, thread, row, m->out);
}

static inline uint32_t done(struct lent *m, uint64_t tick, uint64_t bank, uint64_t thread)
{
    return CALL(done)(m->words, m->seeds, m->seeds_len, m->head, m->counters, m->counters_len,
                      m->ticks, m->ticks_len, m->rows, m->rows_len, m->threads, m->threads_len,
                      tick, bank, thread);
}

static inline uint32_t reading(struct lent *m, uint64_t tick, uint64_t bank, uint64_t thread)
{
    return CALL(index)(m->words, m->seeds, m->seeds_len, m->head, m->counters, m->counters_len,
                       m->ticks, m->ticks_len, m->rows, m->rows_len, m->threads, m->threads_len,
                       tick, bank, thread, m->index);
}

#endif
