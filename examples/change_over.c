/*
 * A simulation that is saved at the old width and goes on at the new one.
 *
 *   change_over FILE
 *
 * Makes some calls with 16-bit counters and saves the state to FILE. Reads it
 * back, changes over to 32-bit counters, and makes the same further calls on both
 * states: on the one that stayed at the old width, and on the one that was saved.
 * Then sets up a setting that only the new width accepts.
 *
 * FILE has the ten words of the setting, the 64 seeds, the 22 cells of the head,
 * then counters, ticks, rows and threads, each with as many cells as the setting
 * uses; all as they lie in memory, one after the other.
 */
#include "throttle.h"

#include <inttypes.h>
#include <stdio.h>
#include <stdlib.h>
#include <string.h>

enum { ROW = 4660, TEXT = 64 };

/* All that the calls are given at either width, as long as any setting uses. */
struct state {
    struct throttle_setting setting;
    uint64_t words[THROTTLE_SETTING_WORDS];
    uint16_t seeds[THROTTLE_SEEDS];
    uint64_t head[THROTTLE_HEAD_CELLS];
    uint16_t old_counters[THROTTLE_MOST_COUNTER_CELLS];
    uint32_t counters[THROTTLE_MOST_COUNTER_CELLS];
    uint64_t ticks[THROTTLE_WIDE_MOST_HISTORY_CELLS];
    uint32_t rows[THROTTLE_WIDE_MOST_HISTORY_CELLS];
    uint32_t threads[THROTTLE_MOST_THREAD_CELLS];
};

/* What a call is given before its counters, and behind them. */
#define BEFORE(s) (s)->words, (s)->seeds, THROTTLE_SEEDS, (s)->head
#define BEHIND(s)                                             \
    (s)->ticks, THROTTLE_WIDE_MOST_HISTORY_CELLS, (s)->rows,  \
        THROTTLE_WIDE_MOST_HISTORY_CELLS, (s)->threads, THROTTLE_MOST_THREAD_CELLS
#define OLD_COUNTERS(s) (s)->old_counters, THROTTLE_MOST_COUNTER_CELLS
#define COUNTERS(s) (s)->counters, THROTTLE_MOST_COUNTER_CELLS

/* The first arguments of the calls of the old width, and of the new one. */
#define OLD(s) BEFORE(s), OLD_COUNTERS(s), BEHIND(s)
#define NEW(s) BEFORE(s), COUNTERS(s), BEHIND(s)

/* A call: a request for ROW, a done or an index reading, of bank 0 and thread 0. */
struct step {
    enum { REQUEST, DONE, INDEX } kind;
    uint64_t tick;
};

static const char *const step_names[] = {[REQUEST] = "request", [DONE] = "done", [INDEX] = "index"};

static void stop(const char *what)
{
    fprintf(stderr, "change_over: %s\n", what);
    exit(2);
}

static void stop_refused(const char *call, uint32_t code)
{
    fprintf(stderr, "change_over: %s refused with %" PRIu32 ", %s\n", call, code,
            throttle_refusal_name(code));
    exit(2);
}

static void print_code(const char *call, uint32_t code)
{
    if (code == THROTTLE_ANSWERED)
        printf("%s: answered\n", call);
    else
        printf("%s: refused with %" PRIu32 ", %s\n", call, code, throttle_refusal_name(code));
}

static void start(struct state *s, const struct throttle_setting *setting)
{
    s->setting = *setting;
    throttle_words(setting, s->words);
    throttle_house_seeds(s->seeds);
}

/* A part of the file: memory, and its bytes. */
struct part {
    void *memory;
    size_t bytes;
};

/* The first three parts are as long under any setting. */
enum { FIXED = 3, PARTS = 7 };

static void list_parts(struct state *s, struct part parts[PARTS])
{
    size_t history = throttle_history_cells(&s->setting);
    parts[0] = (struct part){s->words, sizeof s->words};
    parts[1] = (struct part){s->seeds, sizeof s->seeds};
    parts[2] = (struct part){s->head, sizeof s->head};
    parts[3] = (struct part){s->old_counters,
                             throttle_counter_cells(&s->setting) * sizeof *s->old_counters};
    parts[4] = (struct part){s->ticks, history * sizeof *s->ticks};
    parts[5] = (struct part){s->rows, history * sizeof *s->rows};
    parts[6] = (struct part){s->threads, throttle_thread_cells(&s->setting) * sizeof *s->threads};
}

/* Writes a state of the old width, and returns its bytes. */
static size_t save(struct state *s, const char *name)
{
    struct part parts[PARTS];
    size_t bytes = 0;
    FILE *f = fopen(name, "wb");
    if (f == NULL)
        stop("the file can't be made");
    list_parts(s, parts);
    for (size_t i = 0; i < PARTS; i++) {
        if (fwrite(parts[i].memory, 1, parts[i].bytes, f) != parts[i].bytes)
            stop("the file can't be written");
        bytes += parts[i].bytes;
    }
    if (fclose(f) != 0)
        stop("the file can't be written");
    return bytes;
}

static void read_parts(FILE *f, const struct part *parts, size_t n)
{
    for (size_t i = 0; i < n; i++)
        if (fread(parts[i].memory, 1, parts[i].bytes, f) != parts[i].bytes)
            stop("the file is too short, or can't be read");
}

/* Reads a state of the old width. Whether it is sound, the change-over tests. */
static void load(struct state *s, const char *name)
{
    struct part parts[PARTS];
    const uint64_t *w = s->words;
    FILE *f = fopen(name, "rb");
    if (f == NULL)
        stop("the file can't be opened");
    list_parts(s, parts);
    read_parts(f, parts, FIXED);
    s->setting = (struct throttle_setting){w[0], w[1], w[2], w[3], w[4],
                                           w[5], w[6], w[7], w[8], w[9]};
    if (throttle_history_cells(&s->setting) > THROTTLE_MOST_HISTORY_CELLS)
        stop("the file is not of the old width: its history is too long");
    list_parts(s, parts);
    read_parts(f, parts + FIXED, PARTS - FIXED);
    if (fgetc(f) != EOF)
        stop("the file is too long");
    fclose(f);
}

/* What a call gave, in words. */
static void describe(char text[TEXT], const struct step *step, uint32_t code, const uint64_t *out)
{
    if (code != THROTTLE_ANSWERED)
        snprintf(text, TEXT, "refused with %" PRIu32, code);
    else if (step->kind == DONE)
        snprintf(text, TEXT, "answered");
    else if (step->kind == INDEX)
        snprintf(text, TEXT, "c %" PRIu64 ", D %" PRIu64 ", quota %" PRIu64, out[0], out[1],
                 out[2]);
    else if (out[0] == THROTTLE_OPENED)
        snprintf(text, TEXT, "opened, %" PRIu64 " left", out[2]);
    else if (out[0] == THROTTLE_QUOTA)
        snprintf(text, TEXT, "quota");
    else
        snprintf(text, TEXT, "%s until %" PRIu64, throttle_answer_name(out[0]), out[1]);
}

static void call_old(struct state *s, const struct step *step, char text[TEXT])
{
    uint64_t asked[THROTTLE_REQUEST_OUT], index[THROTTLE_INDEX_OUT];
    if (step->kind == REQUEST)
        describe(text, step, throttle_request(OLD(s), step->tick, 0, 0, ROW, asked), asked);
    else if (step->kind == INDEX)
        describe(text, step, throttle_index(OLD(s), step->tick, 0, 0, index), index);
    else
        describe(text, step, throttle_done(OLD(s), step->tick, 0, 0), NULL);
}

static void call_new(struct state *s, const struct step *step, char text[TEXT])
{
    uint64_t asked[THROTTLE_REQUEST_OUT], index[THROTTLE_INDEX_OUT];
    if (step->kind == REQUEST)
        describe(text, step, throttle_wide_request(NEW(s), step->tick, 0, 0, ROW, asked), asked);
    else if (step->kind == INDEX)
        describe(text, step, throttle_wide_index(NEW(s), step->tick, 0, 0, index), index);
    else
        describe(text, step, throttle_wide_done(NEW(s), step->tick, 0, 0), NULL);
}

static void print_call(const struct step *step)
{
    char name[TEXT];
    snprintf(name, sizeof name, "%s at %" PRIu64 ":", step_names[step->kind], step->tick);
    printf("%-19s", name);
}

/* The calls up to the change-over, and those after it, with epochs that turn. */
static const struct step first[] = {{REQUEST, 0}, {REQUEST, 1}, {REQUEST, 2}, {REQUEST, 7}};
static const struct step further[] = {{REQUEST, 7},  {REQUEST, 8}, {INDEX, 8},  {REQUEST, 13},
                                      {REQUEST, 14}, {DONE, 14},   {DONE, 14},  {REQUEST, 14},
                                      {REQUEST, 40}, {INDEX, 80},  {REQUEST, 79}};

/* The old width alone, then the change-over of what was saved, then both side by side. */
static void change_over(const char *name)
{
    static struct state stays, taken;
    const struct throttle_setting tiny = {.w = 40, .trc = 1, .tfaw = 4, .n = 2, .td = 6, .l = 10,
                                          .q = 4, .banks = 1, .threads = 1};
    char text[TEXT], other[TEXT];
    start(&stays, &tiny);
    uint32_t code = throttle_setup(OLD(&stays));
    if (code != THROTTLE_ANSWERED)
        stop_refused("set-up", code);
    for (size_t i = 0; i < sizeof first / sizeof *first; i++) {
        call_old(&stays, &first[i], text);
        print_call(&first[i]);
        printf("%s\n", text);
    }
    printf("saved: %zu bytes\n", save(&stays, name));
    load(&taken, name);
    code = throttle_change_over(BEFORE(&taken), OLD_COUNTERS(&taken), COUNTERS(&taken),
                                BEHIND(&taken));
    if (code != THROTTLE_ANSWERED)
        stop_refused("change-over", code);
    printf("changed over\n%-19s%-24s%s\n", "", "16 bits", "32 bits");
    for (size_t i = 0; i < sizeof further / sizeof *further; i++) {
        call_old(&stays, &further[i], text);
        call_new(&taken, &further[i], other);
        print_call(&further[i]);
        printf("%-24s%s\n", text, other);
        if (strcmp(text, other) != 0)
            stop("the widths give different answers");
    }
}

/*
 * A chip with a low limit: a setting that the old width refuses, and so does the
 * change-over. One row is activated N times, as fast as tRC allows, and then held.
 */
static void weak_chip(void)
{
    static struct state s;
    const struct throttle_setting weak = {.w = 256000000, .trc = 185, .tfaw = 140, .n = 250,
                                          .td = 511815, .l = 1000, .q = 64, .banks = 16,
                                          .threads = 8};
    char text[TEXT];
    struct step step = {REQUEST, 0};
    start(&s, &weak);
    printf("L %" PRIu64 ", N %" PRIu64 ", tD %" PRIu64 ": %zu history places\n", weak.l, weak.n,
           weak.td, throttle_history_cells(&weak));
    print_code("set-up, 16 bits", throttle_setup(OLD(&s)));
    print_code("change-over", throttle_change_over(BEFORE(&s), OLD_COUNTERS(&s), COUNTERS(&s),
                                                   BEHIND(&s)));
    uint32_t code = throttle_wide_setup(NEW(&s));
    print_code("set-up, 32 bits", code);
    if (code != THROTTLE_ANSWERED)
        exit(2);
    for (uint64_t i = 0; i <= weak.n; i++, step.tick += weak.trc) {
        call_new(&s, &step, text);
        if (i == 0 || i + 1 >= weak.n) {
            print_call(&step);
            printf("%s\n", text);
        }
        code = i < weak.n ? throttle_wide_done(NEW(&s), step.tick, 0, 0) : THROTTLE_ANSWERED;
        if (code != THROTTLE_ANSWERED)
            stop_refused("done", code);
    }
}

int main(int argc, char **argv)
{
    if (argc != 2)
        stop("usage: change_over FILE");
    change_over(argv[1]);
    weak_chip();
    return 0;
}
