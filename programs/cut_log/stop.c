/* How the program says what is wrong, and ends. See stop.h. */
#include "stop.h"

#include <stdarg.h>
#include <stdio.h>
#include <stdlib.h>

const char *program = "cut_log";

static void say_list(const char *format, va_list list)
{
    fprintf(stderr, "%s: ", program);
    vfprintf(stderr, format, list);
    fputc('\n', stderr);
}

void say(const char *format, ...)
{
    va_list list;
    va_start(list, format);
    say_list(format, list);
    va_end(list);
}

_Noreturn void stop(const char *format, ...)
{
    va_list list;
    va_start(list, format);
    say_list(format, list);
    va_end(list);
    exit(NOT_DONE);
}
