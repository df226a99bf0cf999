/* Checks: each is counted, and one that fails is printed with its line. */
#ifndef CHECK_H
#define CHECK_H

#include <stdio.h>

static unsigned checks, failures;

#define CHECK(condition)                                                                           \
    do {                                                                                           \
        checks++;                                                                                  \
        if (!(condition)) {                                                                        \
            failures++;                                                                            \
            printf("  line %d: %s\n", __LINE__, #condition);                                       \
        }                                                                                          \
    } while (0)

/* Prints the counts; the status of the program. */
static inline int result(const char *name)
{
    printf("%s: %u checks, %u failed\n", name, checks, failures);
    return failures != 0;
}

#endif
