/*
 * Whether the recordings of two probes on one channel fit, and by how many ticks
 * the probes' clocks differ.
 *
 *   fit_probes [--jitter=J] FIRST SECOND
 *
 * The verdict is that of throttle_fit_probes. This program reads the two files
 * (probe_list.c) and, if they do not fit, looks for what can be shown of the
 * reason. docs/probes.md describes the files and what is printed.
 */
#include "probe_list.h"
#include "throttle_probes.h"

#include <inttypes.h>
#include <stdio.h>
#include <stdlib.h>
#include <string.h>

/* The statuses that the program ends with. */
enum { FITS = 0, DOES_NOT_FIT = 1, WRONG_CALL = 2, NOT_DONE = 3 };

/* An offset d is from -1,000 to 1,000. */
enum { MOST_OFFSET = 1000 };

/* The name that the program was called by. */
static const char *program = "fit_probes";

/* What the command line asks for. */
struct call {
    int64_t jitter;
    const char *files[2];
    size_t operands;
};

/* Both recordings, and the jitter. */
struct probes {
    struct probe_list first, second;
    int64_t jitter;
};

static _Noreturn void stop(const char *what)
{
    fprintf(stderr, "%s: %s\n", program, what);
    exit(NOT_DONE);
}

/* Ends the program, whose output must have been written. */
static _Noreturn void finish(int status)
{
    if (fflush(stdout) != 0 || ferror(stdout))
        stop("standard output cannot be written");
    exit(status);
}

static const char usage[] = "[--jitter=J] FIRST SECOND";

static _Noreturn void stop_wrong_call(const char *what, const char *word)
{
    fprintf(stderr, "%s: %s%s\nusage: %s %s\n", program, what, word, program, usage);
    exit(WRONG_CALL);
}

static const char help[] =
    "Two probes recorded the activations of one channel, and their clocks differ by an\n"
    "unknown constant d, from -1000 to 1000 ticks. Prints 'fits D' with the least d such that\n"
    "each pair of activations, one of each file in recorded order, has the same bank and row\n"
    "and second tick minus first tick within J of d. Else prints 'does not fit' and why.\n"
    "\n"
    "A file has an activation a line: tick (below 2^62), bank and row (0 to 65535), whole\n"
    "decimal numbers with blanks or tabs between them and no commas. Empty lines do not count,\n"
    "nor does what follows a #. One of the files can be -, which is standard input.\n"
    "docs/probes.md has examples.\n"
    "\n"
    "  --jitter=J   the jitter in ticks, from 0 to 1000; 0 if it is not given. Also: --jitter J\n"
    "  --help       prints this\n"
    "  --           ends the options: what follows is a file even if it begins with -\n"
    "\n"
    "Status: 0  the lists fit\n"
    "        1  they do not fit\n"
    "        2  the call is wrong\n"
    "        3  a file cannot be read or has a wrong line, or the verdict cannot be written\n";

static _Noreturn void answer_help(void)
{
    printf("usage: %s %s\n\n%s", program, usage, help);
    finish(FITS);
}

static int64_t read_jitter(const char *word)
{
    int64_t x = 0;
    if (word == NULL || *word == '\0')
        stop_wrong_call("--jitter needs a number", "");
    for (const char *c = word; *c != '\0'; c++) {
        if (*c < '0' || *c > '9')
            stop_wrong_call("the jitter is not a whole decimal number: ", word);
        if (x <= THROTTLE_PROBES_MOST_JITTER)
            x = 10 * x + (*c - '0');
    }
    if (x > THROTTLE_PROBES_MOST_JITTER)
        stop_wrong_call("the jitter is above 1000 (refusal 18): ", word);
    return x;
}

static void take_operand(struct call *call, const char *word)
{
    if (call->operands == 2)
        stop_wrong_call("too many arguments", "");
    call->files[call->operands++] = word;
}

static struct call read_call(int argc, char **argv)
{
    struct call call = {.jitter = 0};
    int has_options = 1;
    for (int i = 1; i < argc; i++) {
        const char *word = argv[i];
        if (!has_options || word[0] != '-' || word[1] == '\0')
            take_operand(&call, word);
        else if (strcmp(word, "--") == 0)
            has_options = 0;
        else if (strcmp(word, "--help") == 0 || strcmp(word, "-h") == 0)
            answer_help();
        else if (strcmp(word, "--jitter") == 0)
            call.jitter = read_jitter(argv[++i]);
        else if (strncmp(word, "--jitter=", 9) == 0)
            call.jitter = read_jitter(word + 9);
        else
            stop_wrong_call("unknown option ", word);
    }
    if (call.operands < 2)
        stop_wrong_call("two files are needed", "");
    if (strcmp(call.files[0], "-") == 0 && strcmp(call.files[1], "-") == 0)
        stop_wrong_call("standard input can be one of the files, not both", "");
    return call;
}

static void print_lengths(const struct probes *p)
{
    size_t n = p->first.count;
    printf("%s has %zu activation%s, %s has %zu\n", p->first.name, n, n == 1 ? "" : "s",
           p->second.name, p->second.count);
}

static void print_activation(const struct probe_list *l, size_t i, const char *end)
{
    printf("%s:%" PRIu64 ": tick %" PRIu64 ", bank %" PRIu32 ", row %" PRIu32 "%s\n", l->name,
           l->lines[i], l->ticks[i], l->rows[i] >> 16, l->rows[i] & 65535, end);
}

/* Pair i has other banks or rows. */
static void print_unlike(const struct probes *p, size_t i)
{
    uint32_t unlike = p->first.rows[i] ^ p->second.rows[i];
    const char *in = unlike < 65536 ? "row" : unlike << 16 == 0 ? "bank" : "bank and row";
    printf("does not fit: pair %zu differs in its %s\n", i + 1, in);
    print_activation(&p->first, i, "");
    print_activation(&p->second, i, "");
    if (p->first.count != p->second.count)
        print_lengths(p);
}

/* All pairs have the same rows, and one list goes on. */
static void print_unpaired(const struct probes *p)
{
    int first_is_longer = p->first.count > p->second.count;
    const struct probe_list *longer = first_is_longer ? &p->first : &p->second;
    printf("does not fit: ");
    print_lengths(p);
    print_activation(longer, first_is_longer ? p->second.count : p->first.count, " has no partner");
}

/* Second tick minus first tick; both are below 2^62. */
static int64_t difference(const struct probes *p, size_t i)
{
    return (int64_t)p->second.ticks[i] - (int64_t)p->first.ticks[i];
}

static void print_difference(const struct probes *p, const char *which, size_t i)
{
    printf("%s difference %" PRId64 ", pair %zu: %s:%" PRIu64 " tick %" PRIu64 ", %s:%" PRIu64
           " tick %" PRIu64 "\n",
           which, difference(p, i), i + 1, p->first.name, p->first.lines[i], p->first.ticks[i],
           p->second.name, p->second.lines[i], p->second.ticks[i]);
}

/*
 * All pairs have the same rows, so that the ticks must be the reason: an offset
 * d would be from the greatest difference less the jitter, low, to the least one
 * plus the jitter, high.
 */
static void print_differences(const struct probes *p)
{
    size_t least_at = 0, greatest_at = 0;
    for (size_t i = 1; i < p->first.count; i++) {
        least_at = difference(p, i) < difference(p, least_at) ? i : least_at;
        greatest_at = difference(p, i) > difference(p, greatest_at) ? i : greatest_at;
    }
    int64_t least = difference(p, least_at), greatest = difference(p, greatest_at);
    int64_t low = greatest - p->jitter, high = least + p->jitter;
    if (low <= high && low <= MOST_OFFSET && high >= -MOST_OFFSET)
        stop("throttle_fit_probes says that the lists do not fit, and no reason is found");
    printf("does not fit: no d from -1000 to 1000 is within jitter %" PRId64
           " of every difference, second tick minus first tick\n",
           p->jitter);
    print_difference(p, "least", least_at);
    print_difference(p, "greatest", greatest_at);
    if (low > high)
        printf("the differences are %" PRId64 " apart, and jitter %" PRId64 " allows %" PRId64 "\n",
               greatest - least, p->jitter, 2 * p->jitter);
    if (low > MOST_OFFSET)
        printf("the greatest less the jitter is %" PRId64 ", and d is at most 1000\n", low);
    if (high < -MOST_OFFSET)
        printf("the least plus the jitter is %" PRId64 ", and d is at least -1000\n", high);
}

/* Why the lists do not fit: the first pair with other rows; else the lengths; else the ticks. */
static void explain(const struct probes *p)
{
    size_t n = p->first.count < p->second.count ? p->first.count : p->second.count, i = 0;
    while (i < n && p->first.rows[i] == p->second.rows[i])
        i++;
    if (i < n)
        print_unlike(p, i);
    else if (p->first.count != p->second.count)
        print_unpaired(p);
    else if (n > 0)
        print_differences(p);
    else
        stop("throttle_fit_probes says that two empty lists do not fit");
}

/* Prints the verdict of the call, and returns the status that belongs to it. */
static int print_verdict(const struct probes *p)
{
    const struct probe_list *a = &p->first, *b = &p->second;
    uint64_t out[THROTTLE_PROBES_OUT] = {2, 0};
    uint32_t code = throttle_fit_probes(a->ticks, a->count, a->rows, a->count, a->count, b->ticks,
                                        b->count, b->rows, b->count, b->count,
                                        (uint64_t)p->jitter, out);
    if (code != 0) {
        fprintf(stderr, "%s: throttle_fit_probes refused with %" PRIu32 "\n", program, code);
        exit(NOT_DONE);
    }
    if (out[0] > 1)
        stop("throttle_fit_probes gave no verdict");
    if (out[0] == 1)
        printf("fits %" PRId64 "\n", throttle_probes_offset(out));
    else
        explain(p);
    return out[0] == 1 ? FITS : DOES_NOT_FIT;
}

int main(int argc, char **argv)
{
    struct probes p;
    if (argc > 0)
        program = argv[0];
    struct call call = read_call(argc, argv);
    p.jitter = call.jitter;
    read_probe_list(&p.first, call.files[0], program, NOT_DONE);
    read_probe_list(&p.second, call.files[1], program, NOT_DONE);
    int status = print_verdict(&p);
    free_probe_list(&p.first);
    free_probe_list(&p.second);
    finish(status);
}
