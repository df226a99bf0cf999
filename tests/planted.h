/*
 * What the stand-ins for archives share. Each defines FAULTS(X), with X of every
 * fault's name, before it includes this; the variable FAULT of the environment
 * names the one that is planted.
 */
#ifndef PLANTED_H
#define PLANTED_H

#include <stdbool.h>
#include <stdlib.h>
#include <string.h>

#define AS_NUMBER(name) name,
#define AS_TEXT(name) #name,

enum fault { FAULTS(AS_NUMBER) none };

static enum fault planted;

/* Plants the fault that the environment names, if it does. */
static void plant(void)
{
    static const char *const names[] = {FAULTS(AS_TEXT)};
    const char *name = getenv("FAULT");
    planted = none;
    for (int i = 0; name != NULL && i < none; i++)
        if (strcmp(name, names[i]) == 0)
            planted = (enum fault)i;
}

static bool is_planted(enum fault fault)
{
    return planted == fault;
}

#endif
