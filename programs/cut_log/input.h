/* The bytes of the log, all of them, from standard input. */
#ifndef INPUT_H
#define INPUT_H

#include <stddef.h>
#include <stdint.h>

/*
 * The longest log that is read, in MiB: about 2.6 million records. A longer one
 * cannot be cut down, but every block is looked at before its records are
 * counted, so that the bytes are all held at once.
 */
enum { MOST_MEBIBYTES = 64 };

struct input {
    const char *name; /* as messages call it */
    uint8_t *bytes;   /* never null */
    size_t length;
};

/*
 * Reads to the end. Where that cannot be done, or the log is longer than
 * MOST_MEBIBYTES, or there is no memory, it says so and ends the program.
 */
void read_input(struct input *in, const char *name);

#endif
