/*
 * A log checker in plain C, to compare the program check_log with: reads a
 * log from standard input, a block of 512 bytes at a time, and prints the same
 * report. Its model is that of baseline.c.
 */
#define _POSIX_C_SOURCE 200809L
#include "baseline_log.h"

#include <errno.h>
#include <inttypes.h>
#include <stdio.h>
#include <unistd.h>

/* How far the log is judged. */
struct progress {
    uint64_t blocks; /* whole blocks before the present one */
    uint64_t records;
    uint64_t opened;
    uint32_t before; /* records of the block before the present one */
};

/* What a block leads to; a refusal's number otherwise. */
enum { SOUND = 0, DIFFERS = 255 };

/* Fills the block; fewer bytes are the end of the input, -1 is a read that failed. */
static ssize_t read_block(uint8_t block[BLOCK])
{
    size_t got = 0;
    while (got < BLOCK) {
        ssize_t n = read(STDIN_FILENO, block + got, BLOCK - got);
        if (n < 0 && errno == EINTR)
            continue;
        if (n < 0)
            return -1;
        if (n == 0)
            break;
        got += (size_t)n;
    }
    return (ssize_t)got;
}

/* Judges the records of a sound block up to the first event; place gets that record's, from 1. */
static uint32_t judge_records(const uint8_t block[BLOCK], struct progress *p, uint32_t *place)
{
    const uint8_t *record = block + BODY;
    uint64_t out[LOGGED];
    for (*place = 1; *place <= block[4]; ++*place, record += RECORD) {
        uint32_t refused = run_record(record, out);
        if (refused != 0)
            return refused;
        p->records++;
        p->opened += record[20] == 0 && out[0] == 0;
        if (out[0] != record[21] || out[1] != load64(record + 8))
            return DIFFERS;
    }
    return SOUND;
}

static uint32_t judge_block(const uint8_t block[BLOCK], struct progress *p, uint32_t *place)
{
    uint32_t event = block_refusal(block, p->blocks, p->before);
    if (event != SOUND)
        return event;
    event = p->blocks == 0 ? start(block) : judge_records(block, p, place);
    p->before = block[4];
    return event;
}

static void print_counts(const struct progress *p)
{
    printf("records %" PRIu64 "\nopened %" PRIu64 "\n", p->records, p->opened);
}

/* Reads and judges block after block up to the first event, and prints it. */
static void check(void)
{
    uint8_t block[BLOCK] = {0};
    struct progress p = {0, 0, 0, 0};
    uint32_t event = SOUND, place = 0;
    for (;; p.blocks++) {
        ssize_t got = read_block(block);
        if (got == 0 && p.blocks > 0)
            break;
        event = got == BLOCK ? judge_block(block, &p, &place) : 11;
        if (event != SOUND)
            break;
    }
    if (event != SOUND && event != DIFFERS) {
        printf("refused %" PRIu32 " %" PRIu64 "\n", event, p.blocks);
        return;
    }
    print_counts(&p);
    if (event == DIFFERS)
        printf("differs %" PRIu64 " %" PRIu32 "\n", p.blocks, place);
    else
        printf("agrees\n");
}

int main(void)
{
    check();
    return fflush(stdout) == 0 ? 0 : 1;
}
