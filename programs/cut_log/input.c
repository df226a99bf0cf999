/* Reads the log. See input.h. */
#include "input.h"
#include "stop.h"

#include <errno.h>
#include <stdio.h>
#include <stdlib.h>
#include <string.h>

static const size_t first_room = 65536, most = (size_t)MOST_MEBIBYTES << 20;

/* Doubles the room for the bytes, which are as many as it holds; leaves it if there are no more. */
static size_t make_room(struct input *in, size_t room)
{
    if (room == most) {
        if (getchar() == EOF)
            return room;
        stop("%s: longer than %d MiB, and is not read", in->name, MOST_MEBIBYTES);
    }
    room = room == 0 ? first_room : 2 * room;
    uint8_t *longer = realloc(in->bytes, room);
    if (longer == NULL)
        stop("%s: out of memory after %zu bytes", in->name, in->length);
    in->bytes = longer;
    return room;
}

void read_input(struct input *in, const char *name)
{
    size_t room = 0;
    *in = (struct input){name, NULL, 0};
    errno = 0;
    do {
        if (in->length == room)
            room = make_room(in, room);
        in->length += fread(in->bytes + in->length, 1, room - in->length, stdin);
        if (ferror(stdin))
            stop("%s: cannot be read: %s", name, errno != 0 ? strerror(errno) : "an error");
    } while (!feof(stdin));
}
