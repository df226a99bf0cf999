/* What an epoch's turn and a set-up cost. */
#include "harness.h"
#include "parts.h"

#include <stdio.h>

enum { STAYS, ONE, BOTH, SET_UP, CLASSES };
/* The last is of the new width alone. */
enum { BATCH = 16, CYCLES = 32, ROUNDS = 30, SHAPES = BASE_MOST_HISTORY < 32768 ? 4 : 5 };

static const struct shape shapes[] = {
    {200, 1400000, 64, 1, 8},   {200, 1400000, 64, 16, 8},   {31065, 24528, 64, 16, 8},
    {143360, 24528, 64, 16, 8}, {1146880, 24528, 64, 16, 8},
};

static const char *const shape_names[] = {
    "1 bank, H 8", "16 banks, H 8", "16 banks, H 888", "16 banks, H 4096", "16 banks, H 32768",
};

/* Index readings, each so many epochs after the one before. */
static void add_readings(uint64_t *now, uint64_t epochs, size_t class)
{
    struct reply r;
    for (size_t i = 0; i < BATCH; i++) {
        *now += epochs * (setting[0] / 2);
        struct call c = {*now, 0, 0, 0, INDEX};
        add_call(&c, &r);
    }
    end_piece(class);
}

static void add_setups(void)
{
    struct reply r;
    struct call c = {0, 0, 0, 0, SETUP};
    for (size_t i = 0; i < BATCH; i++)
        add_call(&c, &r);
    end_piece(SET_UP);
}

static void measure_turns(const struct shape *s, struct times times[CLASSES])
{
    take_shape(s);
    start_list();
    for (size_t i = 0; i < CYCLES; i++) {
        uint64_t now = 1000;
        add_setups();
        for (size_t class = STAYS; class <= BOTH; class++)
            add_readings(&now, class, class);
    }
    measure(ROUNDS, CLASSES, times);
}

void run_turns(void)
{
    static const char *const turns[3] = {"no turn", "one filter", "both filters"};
    struct times times[SHAPES][CLASSES];
    char name[64];
    for (size_t i = 0; i < SHAPES; i++)
        measure_turns(&shapes[i], times[i]);
    printf("An epoch's turn in an index reading: 8 threads; nanoseconds a call, best of %d\n\n",
           ROUNDS);
    print_heading("cleared");
    for (size_t i = 0; i < 2; i++)
        for (size_t k = STAYS; k <= BOTH; k++) {
            snprintf(name, sizeof name, "%s, %s", shape_names[i], turns[k]);
            print_times(name, &times[i][k]);
        }
    printf("\nA set-up: 8 threads; nanoseconds a call, best of %d\n\n", ROUNDS);
    print_heading("setting");
    for (size_t i = 0; i < SHAPES; i++)
        print_times(shape_names[i], &times[i][SET_UP]);
    printf("\n");
}
