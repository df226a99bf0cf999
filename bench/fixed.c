/* The fixed part of a call: each kind by itself, with a history of 8 places. */
#include "kinds.h"
#include "parts.h"

#include <stdio.h>

enum { ROUNDS = 60 };

void run_fixed(void)
{
    static const struct shape shape = {200, 1400000, 255, 16, 8};
    struct times times[KINDS];
    measure_kinds(&shape, ROUNDS, times);
    printf("The fixed part: H 8, 16 banks, 8 threads; nanoseconds a call, best of %d\n\n", ROUNDS);
    print_heading("call");
    for (size_t k = 0; k < SHOWN; k++)
        print_times(kind_names[k], &times[k]);
    printf("\n");
}
