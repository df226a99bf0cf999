/* A file that is written whole or not at all. */
#ifndef OUTPUT_H
#define OUTPUT_H

#include <stddef.h>
#include <stdint.h>

/*
 * Writes the bytes to the file of this name. A regular file is replaced once a
 * new one is complete, and is else left as it was; anything else that has the
 * name, as a device or a pipe, is written to. Where it cannot be written, it
 * says so and ends the program.
 */
void write_file(const char *name, const uint8_t *bytes, size_t length);

#endif
