/*
 * Cuts a log that differs from the rules down to records that still do, such
 * that none of them can be left out, and prints these in words.
 *
 *   cut_log NAME [NEW]
 *
 * The command cut-log starts it, with the log on standard input. NAME is what
 * messages call the log, NEW the file that gets the kept records as a log.
 * Which records are kept is the answer of throttle_cut_down (selection.c asks
 * the library what the rules say of them). docs/cut-log.md describes what is
 * printed, and the statuses.
 */
#include "input.h"
#include "new_log.h"
#include "output.h"
#include "refusals.h"
#include "report.h"
#include "stop.h"

#include <stdio.h>
#include <stdlib.h>
#include <string.h>

/* Writes the kept records as a log, whose block 0 is that of the old one. */
static void write_new_log(const char *name, const struct input *in, const struct log *log,
                          const struct selection *kept)
{
    static uint8_t bytes[NEW_LOG_BYTES];
    size_t length = encode_new_log(bytes, log, kept);
    if (memcmp(bytes, in->bytes, THROTTLE_LOG_BLOCK) != 0)
        stop("throttle_log_start wrote another block 0 than the log has");
    write_file(name, bytes, length);
}

int main(int argc, char **argv)
{
    static struct input in;
    static struct log log;
    static struct selection kept;
    uint64_t out[THROTTLE_CUT_OUT] = {0};
    if (argc > 0)
        program = argv[0];
    if (argc != 2 && argc != 3)
        stop("it takes the log's name, and that of a new log or nothing");
    read_input(&in, argv[1]);
    uint32_t number = throttle_cut_down(in.bytes, in.length, out);
    if (number != 0) {
        say_refusal(&in, number);
        free(in.bytes);
        return REFUSED;
    }
    decode_log(&log, in.bytes, in.length);
    select_records(&kept, &log, out[0]);
    if (argc == 3)
        write_new_log(argv[2], &in, &log, &kept);
    free(in.bytes);
    print_report(&log, &kept);
    if (fflush(stdout) != 0 || ferror(stdout))
        stop("standard output cannot be written");
    return CUT_DOWN;
}
