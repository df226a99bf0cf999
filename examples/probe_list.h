/* The recording of a probe, from a text file with an activation a line: tick, bank and row. */
#ifndef PROBE_LIST_H
#define PROBE_LIST_H

#include <stddef.h>
#include <stdint.h>

/* Of each activation the tick, the row as throttle_probes_row makes it, and its line. */
struct probe_list {
    const char *name;
    uint64_t *ticks;
    uint32_t *rows;
    uint64_t *lines;
    size_t count, room;
};

/*
 * Reads a file, or standard input if its name is -. If it cannot be read or a
 * line is wrong, it says so on standard error, under the program's name, and ends
 * the program with this status. No pointer of the list is null, also if it is
 * empty.
 */
void read_probe_list(struct probe_list *l, const char *name, const char *program, int status);

void free_probe_list(struct probe_list *l);

#endif
