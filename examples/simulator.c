/*
 * A small trace-driven memory controller over the throttle.
 *
 *   simulator              a trace of its own: one thread hammers two rows of a
 *                          bank, three others activate random rows
 *   simulator FILE         the trace in FILE, - for standard input; a line has
 *                          tick, thread, bank and row (example: sample.trace)
 *   simulator --published  the published BlockHammer setting under the limit
 *                          that it does keep, with one row activated as often
 *                          as the rules allow
 *
 * Each thread's requests are made in the order of the trace, none before its
 * tick and none before tRC ticks after the thread's last activation. A request
 * that has to wait is made again at the tick that the throttle names. An
 * activation takes SERVICE ticks and is then reported done. At the end the
 * program prints how often each answer came, the most activations of one row in
 * any W ticks beside the limit L, and how many openings that row had left when it
 * was first held, that is, had to wait for the row rule.
 */
#include "throttle.h"

#include <errno.h>
#include <inttypes.h>
#include <stdio.h>
#include <stdlib.h>
#include <string.h>

enum { SERVICE = 200, MOST_THREADS = 32, ROWS = 16 * 65536 };

/* A request of the trace; next is the place of the same thread's next one. */
struct entry {
    uint64_t tick;
    uint64_t thread;
    uint64_t bank;
    uint16_t row;
    size_t next;
};

struct trace {
    struct entry *entries;
    size_t len, room;
};

/* An activation: when, and bank x 65,536 + row. */
struct activation {
    uint64_t tick;
    uint64_t thread;
    uint32_t row;
};

/* The state of the throttle and all that a call is given. */
struct rank {
    struct throttle_setting setting;
    uint64_t words[THROTTLE_SETTING_WORDS];
    uint16_t seeds[THROTTLE_SEEDS];
    uint64_t head[THROTTLE_HEAD_CELLS];
    uint16_t *counters;
    uint64_t *ticks;
    uint32_t *rows;
    uint32_t *threads;
    size_t counter_cells, history_cells, thread_cells;
};

#define STATE(r)                                                                          \
    (r)->words, (r)->seeds, THROTTLE_SEEDS, (r)->head, (r)->counters, (r)->counter_cells, \
        (r)->ticks, (r)->history_cells, (r)->rows, (r)->history_cells, (r)->threads,      \
        (r)->thread_cells

/*
 * The controller: each thread's next request and when it is made; the thread
 * that comes first among equals; all activations, of which those from done on
 * are in flight. Of each row, by bank x 65,536 + row: the openings left at its
 * last activation before it was first held, and the tick at which it was held,
 * plus one, 0 for never.
 */
struct controller {
    struct rank rank;
    size_t next[MOST_THREADS];
    uint64_t ready[MOST_THREADS];
    size_t turn;
    struct activation *opened;
    size_t opens, done;
    uint64_t now;
    uint64_t answers[5];
    uint64_t left[ROWS], held[ROWS];
};

static void stop(const char *what)
{
    fprintf(stderr, "simulator: %s\n", what);
    exit(2);
}

static void stop_refused(const char *call, uint32_t code)
{
    fprintf(stderr, "simulator: %s refused with %" PRIu32 ", %s\n", call, code,
            throttle_refusal_name(code));
    exit(2);
}

static void *room(size_t cells, size_t size)
{
    void *p = calloc(cells == 0 ? 1 : cells, size);
    if (p == NULL)
        stop("out of memory");
    return p;
}

/* Lends the memory that the setting asks for and sets it up; returns the refusal, or 0. */
static uint32_t start_rank(struct rank *r, const struct throttle_setting *s)
{
    r->setting = *s;
    throttle_words(s, r->words);
    throttle_house_seeds(r->seeds);
    r->counter_cells = throttle_counter_cells(s);
    r->history_cells = throttle_history_cells(s);
    r->thread_cells = throttle_thread_cells(s);
    r->counters = room(r->counter_cells, sizeof *r->counters);
    r->ticks = room(r->history_cells, sizeof *r->ticks);
    r->rows = room(r->history_cells, sizeof *r->rows);
    r->threads = room(r->thread_cells, sizeof *r->threads);
    return throttle_setup(STATE(r));
}

static void end_rank(struct rank *r)
{
    free(r->counters);
    free(r->ticks);
    free(r->rows);
    free(r->threads);
}

static void add(struct trace *t, uint64_t tick, uint64_t thread, uint64_t bank, uint16_t row)
{
    if (t->len == t->room) {
        t->room = t->room == 0 ? 1024 : 2 * t->room;
        t->entries = realloc(t->entries, t->room * sizeof *t->entries);
        if (t->entries == NULL)
            stop("out of memory");
    }
    t->entries[t->len++] = (struct entry){tick, thread, bank, row, 0};
}

/* Reads a decimal number up to most; moves at past it. */
static int number(char **at, uint64_t most, uint64_t *x)
{
    *at += strspn(*at, " \t");
    if (**at < '0' || **at > '9')
        return 0;
    errno = 0;
    *x = strtoull(*at, at, 10);
    return errno == 0 && *x <= most;
}

static void read_trace(struct trace *t, const char *name, uint64_t threads)
{
    char line[256];
    size_t n = 0;
    FILE *f = strcmp(name, "-") == 0 ? stdin : fopen(name, "r");
    if (f == NULL)
        stop("the trace can't be opened");
    while (fgets(line, sizeof line, f) != NULL) {
        char *at = line;
        uint64_t tick, thread, bank, given;
        uint16_t row;
        n++;
        if (line[strspn(line, " \t\r\n")] == '\0' || line[0] == '#')
            continue;
        if (!number(&at, UINT64_MAX, &tick) || !number(&at, threads - 1, &thread) ||
            !number(&at, UINT64_MAX, &bank) || !number(&at, UINT64_MAX, &given) ||
            throttle_row(given, &row) != THROTTLE_ANSWERED ||
            at[strspn(at, " \t\r\n")] != '\0') {
            fprintf(stderr, "simulator: line %zu is not tick, thread, bank and row\n", n);
            exit(2);
        }
        add(t, tick, thread, bank, row);
    }
    if (ferror(f))
        stop("the trace can't be read");
    if (f != stdin)
        fclose(f);
}

/*
 * Thread 0 hammers the rows on both sides of row 4,661 of bank 0; threads 1 to
 * 3 each activate a random row every 20,000 ticks.
 */
static void hammer_trace(struct trace *t)
{
    uint64_t x = 88172645463325252u;
    for (uint16_t i = 0; i < 60000; i++)
        add(t, 0, 0, 0, i % 2 == 0 ? 4660 : 4662);
    for (uint64_t i = 0; i < 60000; i++) {
        x ^= x << 13;
        x ^= x >> 7;
        x ^= x << 17;
        add(t, i / 3 * 20000, 1 + i % 3, x % 16, (uint16_t)(x >> 16));
    }
}

/*
 * N activations of a row, tRC ticks apart, that end with the last tick of the
 * third epoch, then one after the other as early as allowed.
 */
static void published_trace(struct trace *t, const struct throttle_setting *s)
{
    uint64_t end = s->w / 2 * 3 - 1;
    for (uint64_t i = 0; i < s->n; i++)
        add(t, end - (s->n - 1 - i) * s->trc, 0, 0, 4660);
    for (uint64_t i = 0; i < 2 * s->n; i++)
        add(t, 0, 0, 0, 4660);
}

/* Lines up each thread's requests. */
static void line_up(struct controller *c, const struct trace *t)
{
    for (size_t h = 0; h < MOST_THREADS; h++)
        c->next[h] = t->len;
    for (size_t i = t->len; i-- > 0;) {
        struct entry *e = &t->entries[i];
        e->next = c->next[e->thread];
        c->next[e->thread] = i;
        c->ready[e->thread] = e->tick;
    }
    c->opened = room(t->len, sizeof *c->opened);
}

/*
 * When a thread whose quota is used up asks again: when one of its activations
 * is done, in whichever bank, or in the next epoch.
 */
static uint64_t after_quota(const struct controller *c, size_t thread)
{
    uint64_t epoch = c->rank.setting.w / 2;
    uint64_t turn = (c->now / epoch + 1) * epoch;
    for (size_t i = c->done; i < c->opens; i++)
        if (c->opened[i].thread == thread)
            return c->opened[i].tick + SERVICE < turn ? c->opened[i].tick + SERVICE : turn;
    return turn;
}

/* Notes the openings left of a row that was not held yet, or that it is held now. */
static void note_answer(struct controller *c, uint32_t row, const uint64_t *out)
{
    if (c->held[row] == 0 && out[0] == THROTTLE_OPENED)
        c->left[row] = out[2];
    else if (c->held[row] == 0 && out[0] == THROTTLE_WAIT_ROW)
        c->held[row] = c->now + 1;
}

/* Makes the thread's next request and does as the throttle says. */
static void make_request(struct controller *c, const struct trace *t, size_t thread)
{
    const struct entry *e = &t->entries[c->next[thread]];
    uint64_t out[THROTTLE_REQUEST_OUT];
    if (c->now < c->ready[thread])
        c->now = c->ready[thread];
    uint32_t code = throttle_request(STATE(&c->rank), c->now, e->bank, e->thread, e->row, out);
    if (code != THROTTLE_ANSWERED)
        stop_refused("request", code);
    uint32_t row = (uint32_t)e->bank << 16 | e->row;
    note_answer(c, row, out);
    c->answers[out[0]]++;
    if (out[0] == THROTTLE_OPENED) {
        c->opened[c->opens++] = (struct activation){c->now, e->thread, row};
        c->next[thread] = e->next;
        c->turn = thread + 1;
        c->ready[thread] = c->now + c->rank.setting.trc;
        if (e->next < t->len && c->ready[thread] < t->entries[e->next].tick)
            c->ready[thread] = t->entries[e->next].tick;
    } else if (out[0] == THROTTLE_QUOTA) {
        c->ready[thread] = after_quota(c, thread);
    } else {
        c->ready[thread] = out[1];
    }
}

/* Reports the oldest activation in flight as done. */
static void report_done(struct controller *c)
{
    const struct activation *a = &c->opened[c->done];
    c->now = a->tick + SERVICE;
    uint32_t code = throttle_done(STATE(&c->rank), c->now, a->row >> 16, a->thread);
    if (code != THROTTLE_ANSWERED)
        stop_refused("done", code);
    c->done++;
}

/* Takes what comes next until nothing is left: an activation that ends, or the earliest request. */
static void run(struct controller *c, const struct trace *t)
{
    for (;;) {
        size_t first = MOST_THREADS;
        for (size_t k = 0; k < MOST_THREADS; k++) {
            size_t h = (c->turn + k) % MOST_THREADS;
            if (c->next[h] < t->len && (first == MOST_THREADS || c->ready[h] < c->ready[first]))
                first = h;
        }
        if (c->done < c->opens &&
            (first == MOST_THREADS || c->opened[c->done].tick + SERVICE <= c->ready[first]))
            report_done(c);
        else if (first < MOST_THREADS)
            make_request(c, t, first);
        else
            return;
    }
}

static int by_row_then_tick(const void *x, const void *y)
{
    const struct activation *a = x, *b = y;
    if (a->row != b->row)
        return a->row < b->row ? -1 : 1;
    return a->tick < b->tick ? -1 : a->tick > b->tick;
}

static void report_row(const struct controller *c, uint32_t row)
{
    if (c->held[row] == 0)
        printf("that row was never held; openings left: %" PRIu64 "\n", c->left[row]);
    else
        printf("that row was first held at tick %" PRIu64 "; openings left: %" PRIu64 "\n",
               c->held[row] - 1, c->left[row]);
}

static void report(struct controller *c)
{
    const struct throttle_setting *s = &c->rank.setting;
    size_t most = 0, begin = 0, last = 0;
    for (size_t i = 0; i < 5; i++)
        printf("%-14s %" PRIu64 "\n", throttle_answer_name(i), c->answers[i]);
    printf("%-14s %zu\n%-14s %" PRIu64 "\n", "done", c->done, "last tick", c->now);
    qsort(c->opened, c->opens, sizeof *c->opened, by_row_then_tick);
    for (size_t i = 0; i < c->opens; i++) {
        while (c->opened[begin].row != c->opened[i].row ||
               c->opened[i].tick - c->opened[begin].tick >= s->w)
            begin++;
        if (i + 1 - begin > most) {
            most = i + 1 - begin;
            last = i;
        }
    }
    if (most > 0) {
        uint32_t row = c->opened[last].row;
        printf("most activations of a row in %" PRIu64 " ticks: %zu (bank %" PRIu32 ", row %" PRIu32
               "), limit L: %" PRIu64 "\n",
               s->w, most, row >> 16, row & 65535, s->l);
        report_row(c, row);
    }
    if (most > s->l)
        stop("the limit is exceeded");
}

int main(int argc, char **argv)
{
    static struct controller c;
    struct trace t = {NULL, 0, 0};
    struct throttle_setting s = {
        .w = 256000000,
        .trc = 185,
        .tfaw = 140,
        .n = 4096,
        .td = 31065,
        .l = 16384,
        .q = 64,
        .banks = 16,
        .threads = 8,
    };
    if (argc > 2)
        stop("usage: simulator [FILE | --published]");
    if (argc == 2 && strcmp(argv[1], "--published") == 0) {
        s.n = 8192;
        printf("N 8192, tD 31065, L 16384 (published): set-up refused with %" PRIu32 "\n",
               start_rank(&c.rank, &s));
        end_rank(&c.rank);
        s.l = 24528;
        printf("N 8192, tD 31065, L 24528:\n");
        published_trace(&t, &s);
    } else if (argc == 2) {
        read_trace(&t, argv[1], s.threads);
    } else {
        hammer_trace(&t);
    }
    uint32_t code = start_rank(&c.rank, &s);
    if (code != THROTTLE_ANSWERED)
        stop_refused("set-up", code);
    line_up(&c, &t);
    run(&c, &t);
    report(&c);
    end_rank(&c.rank);
    free(c.opened);
    free(t.entries);
    return 0;
}
