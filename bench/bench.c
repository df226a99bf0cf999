/*
 * Measures the library against builds of the plain C baseline, all in one
 * process and of one width. Arguments name the parts to run; without any, all
 * are run.
 */
#include "harness.h"
#include "parts.h"

#include <stdio.h>
#include <string.h>

struct part {
    const char *name;
    void (*run)(void);
};

static const struct part parts[] = {
    {"fixed", run_fixed},
    {"workloads", run_workloads},
    {"growth", run_growth},
    {"history", run_history},
    {"gaps", run_gaps},
    {"turns", run_turns},
    {"seeds", run_seeds},
    {"hashing", run_hashing},
};

enum { PARTS = sizeof parts / sizeof *parts };

int main(int argc, char **argv)
{
    printf("The calls have filter counters of %zu bits.\n\n", 8 * sizeof(base_counter));
    for (int a = 1; a < argc; a++) {
        size_t p = 0;
        while (p < PARTS && strcmp(argv[a], parts[p].name) != 0)
            p++;
        if (p == PARTS) {
            fprintf(stderr, "bench: no part %s\n", argv[a]);
            return 2;
        }
        parts[p].run();
    }
    for (size_t p = 0; argc == 1 && p < PARTS; p++)
        parts[p].run();
    return 0;
}
