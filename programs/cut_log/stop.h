/* How the program says what is wrong, and ends. */
#ifndef STOP_H
#define STOP_H

/* The statuses that the program ends with. */
enum { CUT_DOWN = 0, REFUSED = 2, NOT_DONE = 3 };

/* The name that the program was called by. */
extern const char *program;

/* A line on standard error, under the program's name, made as printf does. */
#ifdef __GNUC__
__attribute__((__format__(__printf__, 1, 2)))
#endif
void say(const char *format, ...);

/* The same, and ends the program: it could not be done. */
#ifdef __GNUC__
__attribute__((__format__(__printf__, 1, 2)))
#endif
_Noreturn void stop(const char *format, ...);

#endif
