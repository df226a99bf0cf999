/* Reads the recording of a probe. See probe_list.h; docs/probes.md describes the files. */
#include "probe_list.h"
#include "throttle_probes.h"

#include <errno.h>
#include <inttypes.h>
#include <stdio.h>
#include <stdlib.h>
#include <string.h>

enum {
    FIELDS = 3,           /* tick, bank and row */
    LONGEST_LINE = 65535, /* bytes, the line's end not counted */
    SHOWN = 30            /* bytes of a word that a message shows */
};

/*
 * A file that is being read. The bytes from at to end are read and not used yet;
 * line is the number of the line that was taken last.
 */
struct input {
    const char *name, *program;
    int status;
    FILE *file;
    int has_ended;
    uint64_t line;
    size_t at, end;
    char bytes[LONGEST_LINE + 1];
};

/* A line, or a word of it. */
struct text {
    const char *bytes;
    size_t length;
};

static _Noreturn void stop_at_file(const struct input *in, const char *what)
{
    fprintf(stderr, "%s: %s: %s\n", in->program, in->name, what);
    exit(in->status);
}

static _Noreturn void stop_at_line(const struct input *in, const char *what)
{
    fprintf(stderr, "%s: %s:%" PRIu64 ": %s\n", in->program, in->name, in->line, what);
    exit(in->status);
}

/* Shows the word too, with a question mark for each byte that is not printable ASCII. */
static _Noreturn void stop_at_word(const struct input *in, const char *field, struct text word,
                                   const char *what)
{
    size_t length = word.length < SHOWN ? word.length : SHOWN;
    fprintf(stderr, "%s: %s:%" PRIu64 ": the %s \"", in->program, in->name, in->line, field);
    for (size_t i = 0; i < length; i++)
        fputc(word.bytes[i] >= ' ' && word.bytes[i] <= '~' ? word.bytes[i] : '?', stderr);
    fprintf(stderr, "%s\" %s\n", length < word.length ? ".." : "", what);
    exit(in->status);
}

/* Reads on behind the bytes that are not used yet, as far as there is room for a line. */
static void read_on(struct input *in)
{
    memmove(in->bytes, in->bytes + in->at, in->end - in->at);
    in->end -= in->at;
    in->at = 0;
    size_t room = sizeof in->bytes - in->end;
    if (room == 0) {
        in->line++;
        stop_at_line(in, "the line is longer than 65535 bytes");
    }
    errno = 0;
    size_t got = fread(in->bytes + in->end, 1, room, in->file);
    if (ferror(in->file))
        stop_at_file(in, errno != 0 ? strerror(errno) : "it cannot be read");
    in->has_ended = got < room;
    in->end += got;
}

/* The end of the next line among the bytes that are read, or null. */
static const char *line_end(const struct input *in)
{
    return memchr(in->bytes + in->at, '\n', in->end - in->at);
}

/* Gives the next line without its end, if there is one. The last line may lack its end. */
static int next_line(struct input *in, struct text *line)
{
    const char *end = line_end(in);
    while (end == NULL && !in->has_ended) {
        read_on(in);
        end = line_end(in);
    }
    if (end == NULL && in->at == in->end)
        return 0;
    line->bytes = in->bytes + in->at;
    line->length = end != NULL ? (size_t)(end - line->bytes) : in->end - in->at;
    in->at += line->length + (end != NULL);
    in->line++;
    return 1;
}

/*
 * Leaves out what is no part of the words: the mark with which some programs
 * begin a UTF-8 file, the carriage return at the end of a line, and the comment.
 * Any other carriage return is an error, in a comment too: a file whose lines end
 * with carriage returns alone would otherwise be one line, and all of it a comment
 * if it began with one.
 */
static void leave_out_rest(const struct input *in, struct text *line)
{
    if (in->line == 1 && line->length >= 3 && memcmp(line->bytes, "\xEF\xBB\xBF", 3) == 0) {
        line->bytes += 3;
        line->length -= 3;
    }
    if (line->length > 0 && line->bytes[line->length - 1] == '\r')
        line->length--;
    if (memchr(line->bytes, '\0', line->length) != NULL)
        stop_at_line(in, "a NUL byte: this is no text");
    if (memchr(line->bytes, '\r', line->length) != NULL)
        stop_at_line(in, "a carriage return within the line");
    const char *comment = memchr(line->bytes, '#', line->length);
    if (comment != NULL)
        line->length = (size_t)(comment - line->bytes);
}

static int is_blank(char c)
{
    return c == ' ' || c == '\t';
}

/* How many words a line has; the first of them are kept. */
static size_t split(struct text line, struct text words[FIELDS])
{
    size_t found = 0, i = 0;
    for (;;) {
        while (i < line.length && is_blank(line.bytes[i]))
            i++;
        if (i == line.length)
            return found;
        size_t begin = i;
        while (i < line.length && !is_blank(line.bytes[i]))
            i++;
        if (found < FIELDS)
            words[found] = (struct text){line.bytes + begin, i - begin};
        found++;
    }
}

/* The number that the word of a field is. */
static uint64_t number(const struct input *in, size_t field, struct text word)
{
    static const char *const names[FIELDS] = {"tick", "bank", "row"};
    static const uint64_t most[FIELDS] = {(UINT64_C(1) << 62) - 1, UINT16_MAX, UINT16_MAX};
    static const char *const too_large[FIELDS] = {"is 2^62 or more (refusal 18)", "is above 65535",
                                                  "is above 65535"};
    uint64_t x = 0;
    int is_in_range = 1;
    for (size_t i = 0; i < word.length; i++) {
        if (word.bytes[i] < '0' || word.bytes[i] > '9')
            stop_at_word(in, names[field], word, "is not a whole decimal number");
        uint64_t digit = (uint64_t)(word.bytes[i] - '0');
        is_in_range = is_in_range && x <= (most[field] - digit) / 10;
        x = is_in_range ? 10 * x + digit : x;
    }
    if (!is_in_range)
        stop_at_word(in, names[field], word, too_large[field]);
    return x;
}

static void *lengthen(const struct probe_list *l, const struct input *in, void *cells, size_t size)
{
    void *longer = l->room <= SIZE_MAX / size ? realloc(cells, l->room * size) : NULL;
    if (longer == NULL) {
        fprintf(stderr, "%s: %s: out of memory after %zu activations\n", in->program, in->name,
                l->count);
        exit(in->status);
    }
    return longer;
}

/* Doubles the room, or makes it SIZE_MAX, which lengthen does not allow. */
static void make_room(struct probe_list *l, const struct input *in)
{
    l->room = l->room == 0 ? 1024 : l->room <= SIZE_MAX / 2 ? 2 * l->room : SIZE_MAX;
    l->ticks = lengthen(l, in, l->ticks, sizeof *l->ticks);
    l->rows = lengthen(l, in, l->rows, sizeof *l->rows);
    l->lines = lengthen(l, in, l->lines, sizeof *l->lines);
}

/* Takes the activation of a line, if it has one. */
static void take_line(struct probe_list *l, const struct input *in, struct text line)
{
    struct text words[FIELDS];
    uint64_t numbers[FIELDS] = {0};
    leave_out_rest(in, &line);
    size_t found = split(line, words);
    if (found == 0)
        return;
    for (size_t i = 0; i < found && i < FIELDS; i++)
        numbers[i] = number(in, i, words[i]);
    if (found < FIELDS)
        stop_at_line(in, found == 1 ? "the bank and the row are missing" : "the row is missing");
    if (found > FIELDS)
        stop_at_line(in, "more words than tick, bank and row");
    if (l->count == l->room)
        make_room(l, in);
    l->ticks[l->count] = numbers[0];
    l->rows[l->count] = throttle_probes_row((uint16_t)numbers[1], (uint16_t)numbers[2]);
    l->lines[l->count] = in->line;
    l->count++;
}

void read_probe_list(struct probe_list *l, const char *name, const char *program, int status)
{
    static struct input in;
    struct text line;
    int is_standard = strcmp(name, "-") == 0;
    in.name = is_standard ? "standard input" : name;
    in.program = program;
    in.status = status;
    in.file = is_standard ? stdin : fopen(name, "rb");
    in.has_ended = 0;
    in.line = 0;
    in.at = in.end = 0;
    if (in.file == NULL)
        stop_at_file(&in, strerror(errno));
    *l = (struct probe_list){.name = in.name};
    make_room(l, &in);
    while (next_line(&in, &line))
        take_line(l, &in, line);
    if (!is_standard)
        fclose(in.file);
}

void free_probe_list(struct probe_list *l)
{
    free(l->ticks);
    free(l->rows);
    free(l->lines);
}
