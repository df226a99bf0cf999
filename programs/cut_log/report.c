/* Prints the kept records in words. See report.h. */
#include "report.h"

#include <inttypes.h>
#include <stdio.h>
#include <string.h>

static const char *answer_word(uint8_t kind, uint64_t answer)
{
    static const char *const words[] = {"opened", "bank", "rank", "row", "quota"};
    return kind == DONE && answer == 0 ? "done" : words[answer];
}

/* An answer with its wait tick, also where there is none to wait for and it is not 0. */
static void print_claim(uint8_t kind, uint64_t answer, uint64_t wait)
{
    printf("%s", answer_word(kind, answer));
    if ((answer >= THROTTLE_WAIT_BANK && answer <= THROTTLE_WAIT_ROW) || wait != 0)
        printf(", wait until %" PRIu64, wait);
}

static void print_place(const struct record *r)
{
    printf("block %u place %u", r->block, r->place);
}

/* What the log says of a record, and what the rules say. */
static void print_both(const struct record *r, const struct reply *reply)
{
    printf(": the log says ");
    print_claim(r->kind, r->answer, r->wait);
    if (is_same(r, reply)) {
        printf("; the rules agree\n");
        return;
    }
    printf("; the rules say ");
    print_claim(r->kind, reply->answer, reply->wait);
    printf("\n");
}

static void print_record(const struct record *r, const struct reply *reply)
{
    print_place(r);
    printf(": %s at tick %" PRIu64 ", thread %u, bank %u", r->kind == DONE ? "done" : "request",
           r->tick, r->thread, r->bank);
    if (r->kind == REQUEST)
        printf(", row %u", r->row);
    print_both(r, reply);
}

/* The seeds, where they are not the house seeds: a line for each function. */
static void print_seeds(const uint16_t seeds[THROTTLE_SEEDS])
{
    for (unsigned i = 0; i < THROTTLE_SEEDS; i++) {
        if (i % 16 == 0)
            printf("seeds of function %u:", i / 16);
        printf(" %u%s", seeds[i], i % 16 == 15 ? "\n" : "");
    }
}

static void print_setting(const struct log *log)
{
    static const char *const names[] = {"W", "tRC", "tFAW", "N",     "tD",
                                        "L", "Q",   "banks", "threads"};
    uint16_t house[THROTTLE_SEEDS];
    printf("setting: ");
    for (size_t i = 0; i < sizeof names / sizeof *names; i++)
        printf("%s %" PRIu64 ", ", names[i], log->setting[i]);
    printf("%s profile, ", log->setting[9] == THROTTLE_PROFILE_SMALL ? "small" : "large");
    throttle_house_seeds(house);
    if (memcmp(house, log->seeds, sizeof house) == 0) {
        printf("house seeds\n");
        return;
    }
    printf("other seeds\n");
    print_seeds(log->seeds);
}

/* In what the last record differs. */
static void print_difference(const struct record *r, const struct reply *reply)
{
    const char *and = "";
    print_place(r);
    printf(" differs in its ");
    if (r->answer != reply->answer) {
        printf("answer: the log has %s, the rules have %s", answer_word(r->kind, r->answer),
               answer_word(r->kind, reply->answer));
        and = "; in its ";
    }
    if (r->wait != reply->wait)
        printf("%swait tick: the log has %" PRIu64 ", the rules have %" PRIu64, and, r->wait,
               reply->wait);
    printf("\n");
}

void print_report(const struct log *log, const struct selection *kept)
{
    unsigned last = kept->count - 1;
    struct reply reply;
    struct record first = first_difference(log, &reply);
    printf("kept %u of %u record%s, none of which can be left out; run from set-up, the last one "
           "differs from the rules\n",
           kept->count, log->count, log->count == 1 ? "" : "s");
    print_setting(log);
    for (unsigned i = 0; i < kept->count; i++)
        print_record(&kept->records[i], &kept->replies[i]);
    print_difference(&kept->records[last], &kept->replies[last]);
    printf("the whole log differs first at ");
    print_place(&first);
    print_both(&first, &reply);
}
