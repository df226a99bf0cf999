/*
 * throttle_cut_down: logs whose selection is worked out by hand, of up to 64 records that
 * all stay, and the refusals in their order, which leave out as it was; the helper of the
 * header. The log is a heap block of exactly its length, so that a memory checker sees an
 * access outside, out lies between guards, and the calls are made by a thread with the
 * stack that the header asks for.
 */
#include "check.h"
#include "throttle_cut_down.h"
#include "throttle_log.h"

#include <pthread.h>
#include <stdlib.h>
#include <string.h>

_Static_assert(THROTTLE_MANY_RECORDS == 20 && THROTTLE_NO_DIFFERENCE == 21, "the numbers of the refusals");
_Static_assert(THROTTLE_CUT_RECORDS == 64 && THROTTLE_CUT_OUT == 1, "the most records, and the words of out");

enum { GUARDS = 4, MOST = 100, CUT = 11, SUM = 12, FORMAT = 13 };
static const uint64_t guard = UINT64_C(0xA5C396E17B2D4F18), before = UINT64_C(0x1111222233334444);

/* A record as the log has it; its bank and thread are 0. */
struct record {
    uint64_t tick, wait, kind, answer;
    uint16_t row;
};

/* A log as it is lent; its bytes are the first of the blocks. */
struct log {
    uint8_t blocks[1 + (MOST + 19) / 20][THROTTLE_LOG_BLOCK];
    size_t length;
};

/* Setting S of the sample runs, and one in which no row is held before its 65th activation. */
static const struct throttle_setting s = {
    .w = 40, .trc = 1, .tfaw = 4, .n = 2, .td = 6, .l = 10, .q = 4, .banks = 1, .threads = 1};
static const struct throttle_setting wide = {
    .w = 4000, .trc = 1, .tfaw = 1, .n = 64, .td = 4, .l = 1100, .q = 255, .banks = 1, .threads = 1};

/* The log of a setting and these records. */
static void make(struct log *log, const struct throttle_setting *setting, size_t many, const struct record *records)
{
    uint64_t words[THROTTLE_SETTING_WORDS];
    uint16_t seeds[THROTTLE_SEEDS];
    memset(log, 0, sizeof *log);
    throttle_house_seeds(seeds);
    CHECK(throttle_log_start(throttle_words(setting, words), seeds, THROTTLE_SEEDS, log->blocks[0]) == 0);
    for (size_t i = 0; i < many; i++) {
        const struct record *r = &records[i];
        CHECK(throttle_log_record(log->blocks[1 + i / THROTTLE_LOG_RECORDS], i % THROTTLE_LOG_RECORDS, r->tick, r->wait,
                                  r->row, 0, 0, r->kind, r->answer) == 0);
    }
    size_t blocks = (many + THROTTLE_LOG_RECORDS - 1) / THROTTLE_LOG_RECORDS;
    for (size_t k = 1; k <= blocks; k++)
        CHECK(throttle_log_seal(log->blocks[k], k, k < blocks ? 20 : many - 20 * (blocks - 1)) == 0);
    log->length = (1 + blocks) * THROTTLE_LOG_BLOCK;
}

/* What the thread is given, and what it gives. */
struct call {
    const uint8_t *log;
    size_t length;
    uint64_t *out;
    uint32_t number;
};

static void *call(void *arguments)
{
    struct call *c = arguments;
    c->number = throttle_cut_down(c->log, c->length, c->out);
    return NULL;
}

/* Makes the call in a thread with the stack that the header asks for. */
static uint32_t in_thread(struct call *c)
{
    pthread_attr_t attributes;
    pthread_t thread;
    if (pthread_attr_init(&attributes) || pthread_attr_setstacksize(&attributes, THROTTLE_CUT_STACK) ||
        pthread_create(&thread, &attributes, call, c) || pthread_join(thread, NULL))
        abort();
    pthread_attr_destroy(&attributes);
    return c->number;
}

/* Makes the call on a copy, which must stay as it is; the number, and out. */
static uint32_t ask(const struct log *log, uint64_t *out)
{
    uint64_t cells[2 * GUARDS + THROTTLE_CUT_OUT];
    uint8_t *copy = malloc(log->length ? log->length : 1);
    if (!copy)
        abort();
    memcpy(copy, log->blocks, log->length);
    for (size_t k = 0; k < sizeof cells / sizeof *cells; k++)
        cells[k] = k == GUARDS ? before : guard;
    struct call c = {copy, log->length, cells + GUARDS, 99};
    uint32_t number = in_thread(&c);
    CHECK(memcmp(copy, log->blocks, log->length) == 0);
    for (size_t k = 0; k < sizeof cells / sizeof *cells; k++)
        CHECK(k == GUARDS || cells[k] == guard);
    *out = cells[GUARDS];
    free(copy);
    return number;
}

/* These records stay. */
static void stays(const struct log *log, uint64_t mask)
{
    uint64_t out;
    CHECK(ask(log, &out) == THROTTLE_ANSWERED && out == mask);
}

/* The log is refused. */
static void refused(const struct log *log, uint32_t number)
{
    uint64_t out;
    CHECK(ask(log, &out) == number && out == before);
}

/* Changes a byte of a block, with its sums written anew or not. */
static void tamper(struct log *log, size_t block, size_t place, uint8_t byte, int sealed)
{
    uint8_t *bytes = log->blocks[block];
    uint32_t plain = 0, weighted = 0;
    bytes[place] = byte;
    for (size_t k = 0; sealed && k < THROTTLE_LOG_BLOCK - 4; k++) {
        plain = (plain + bytes[k]) % 65521;
        weighted = (weighted + (uint32_t)(k + 1) * bytes[k]) % 65521;
    }
    if (sealed) {
        bytes[508] = (uint8_t)plain, bytes[509] = (uint8_t)(plain >> 8);
        bytes[510] = (uint8_t)weighted, bytes[511] = (uint8_t)(weighted >> 8);
    }
}

/* Requests of rows 0, 1, .. that are opened, one in each tick. */
static void opened(struct record records[MOST])
{
    for (size_t i = 0; i < MOST; i++)
        records[i] = (struct record){.tick = i, .row = (uint16_t)i};
}

/* The quota holds the last of Q + 1 requests, and none without any other of them: all stay. */
static void by_quota(void)
{
    static const uint64_t quotas[] = {1, 2, 3, 18, 19, 20, 31, 32, 39, 40, 62, 63};
    static struct record records[MOST];
    struct log log;
    opened(records);
    for (size_t k = 0; k < sizeof quotas / sizeof *quotas; k++) {
        struct throttle_setting setting = wide;
        setting.q = quotas[k];
        make(&log, &setting, quotas[k] + 1, records);
        stays(&log, UINT64_MAX >> (63 - quotas[k]));
    }
}

/* The example: done needs its request, and the last record differs alone. With a quota of 1 it agrees without the done. */
static void by_hand(void)
{
    struct record three[] = {{.tick = 3, .row = 2}, {.tick = 8, .kind = 1}, {.tick = 16, .row = 2, .answer = THROTTLE_QUOTA}};
    struct throttle_setting one = s;
    struct log log;
    make(&log, &s, 3, three);
    stays(&log, 4);
    one.q = 1;
    make(&log, &one, 3, three);
    stays(&log, 7);
    /* a done with a wait tick needs its request */
    three[1].wait = 9;
    make(&log, &s, 2, three);
    stays(&log, 3);
    /* row 5 at 0, 1 and 2, where it waits until 7 */
    struct record row[] = {{.row = 5}, {.tick = 1, .row = 5}, {.tick = 2, .row = 5}};
    make(&log, &s, 3, row);
    stays(&log, 7);
    row[2].answer = THROTTLE_WAIT_ROW, row[2].wait = 7;
    make(&log, &s, 3, row);
    refused(&log, THROTTLE_NO_DIFFERENCE);
    row[2].wait = 8;
    make(&log, &s, 3, row);
    stays(&log, 4);
}

/* 65 records and more; then records that agree, none, and a refusal before the difference. */
static void by_count(void)
{
    static struct record records[MOST];
    struct log log;
    opened(records);
    records[63].answer = THROTTLE_QUOTA;
    make(&log, &wide, 64, records);
    stays(&log, UINT64_C(1) << 63);
    make(&log, &wide, 63, records);
    refused(&log, THROTTLE_NO_DIFFERENCE);
    for (size_t many = 65; many <= MOST; many += 5) {
        make(&log, &wide, many, records);
        refused(&log, THROTTLE_MANY_RECORDS);
    }
    make(&log, &wide, 0, records);
    refused(&log, THROTTLE_NO_DIFFERENCE);
    records[63].answer = THROTTLE_OPENED;
    make(&log, &wide, 65, records);
    refused(&log, THROTTLE_MANY_RECORDS);
    records[1].answer = THROTTLE_QUOTA;
    records[0].kind = 1; /* refused with 10 */
    make(&log, &wide, 2, records);
    refused(&log, THROTTLE_NO_DIFFERENCE);
    records[0].kind = 0;
    records[0].tick = UINT64_C(1) << 62; /* refused with 9 */
    make(&log, &wide, 2, records);
    refused(&log, THROTTLE_NO_DIFFERENCE);
}

/* The blocks in order, all of them, although record 0 differs. */
static void by_block(void)
{
    static struct record records[MOST];
    struct log log, bad;
    opened(records);
    records[0].answer = THROTTLE_QUOTA;
    make(&log, &wide, 85, records);
    for (size_t k = 0; k <= 5; k++) {
        bad = log, bad.length = THROTTLE_LOG_BLOCK * k + (k == 0 ? 0 : 1);
        refused(&bad, CUT);
        bad = log, tamper(&bad, k, 5, 1, 0);
        refused(&bad, SUM);
        tamper(&bad, k, 5, 1, 1);
        refused(&bad, FORMAT);
        if (k > 0)
            tamper(&bad, k - 1, 509, 255, 0), refused(&bad, SUM);
    }
    refused(&log, THROTTLE_MANY_RECORDS);
}

/* The setting after block 0 and before block 1, at the limits of 16-bit counters. */
static void by_setting(void)
{
    static struct record records[MOST];
    struct throttle_setting high = s;
    struct log log;
    opened(records);
    records[0].answer = THROTTLE_QUOTA;
    high.l = 9; /* B is 10 */
    make(&log, &high, 65, records);
    refused(&log, THROTTLE_ABOVE_LIMIT);
    tamper(&log, 1, 5, 1, 0), refused(&log, THROTTLE_ABOVE_LIMIT);
    tamper(&log, 0, 5, 1, 1), refused(&log, FORMAT);
    high = s, high.banks = 5, high.profile = THROTTLE_PROFILE_SMALL;
    make(&log, &high, 1, records);
    refused(&log, THROTTLE_ABOVE_PROFILE);
    high = wide, high.w = 1 << 20, high.n = THROTTLE_MOST_N, high.l = 1 << 24;
    make(&log, &high, 1, records);
    stays(&log, 1);
    high.n++;
    make(&log, &high, 1, records);
    refused(&log, THROTTLE_OUT_OF_RANGE);
    high = wide, high.w = 40000, high.n = 2, high.td = 1024;
    make(&log, &high, 1, records);
    stays(&log, 1);
    high.td++;
    make(&log, &high, 1, records);
    refused(&log, THROTTLE_LONG_HISTORY);
}

static void helper(void)
{
    for (unsigned i = 0; i < 70; i++) {
        CHECK(throttle_cut_keeps(0, i) == 0);
        CHECK(throttle_cut_keeps(UINT64_MAX, i) == (i < 64));
        CHECK(throttle_cut_keeps(UINT64_C(1) << 63 | 5, i) == (i == 0 || i == 2 || i == 63));
    }
    CHECK(throttle_cut_keeps(UINT64_MAX, 1u << 31) == 0);
}

int main(void)
{
    by_quota();
    by_hand();
    by_count();
    by_block();
    by_setting();
    helper();
    return result("cut down");
}
