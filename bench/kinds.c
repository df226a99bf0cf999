/* Each kind of call in batches. See kinds.h. */
#include "kinds.h"

enum { BATCH = 240, CYCLES = 16, MARKED_ROW = 4660, APART = 4, GAP = 200 };

const char *const kind_names[SHOWN] = {
    [ROW_WAIT] = "request, waits for row",
    [BANK_WAIT] = "request, waits for bank",
    [OPENED] = "request, opened",
    [FINISHED] = "done",
    [READING] = "index reading",
};

static uint64_t now;
static uint64_t random_state;

/* The number of marked rows: one in each bank, at most four. They get blacklisted. */
static size_t marks(const struct shape *s)
{
    return s->banks < 4 ? s->banks : 4;
}

static uint16_t random_row(void)
{
    return (uint16_t)(next_random(&random_state) >> 24);
}

static struct call marked(const struct shape *s, size_t k, uint8_t kind)
{
    return (struct call){now + APART * k, (uint16_t)(MARKED_ROW + k), (uint8_t)k,
                         (uint8_t)(k % s->threads), kind};
}

/* The i-th call of a batch goes around the banks, and with each turn to the next thread. */
static struct call spread(const struct shape *s, size_t i, uint8_t kind)
{
    return (struct call){now, random_row(), (uint8_t)(i % s->banks),
                         (uint8_t)(i / s->banks % s->threads), kind};
}

static void add_request(const struct call *c, uint64_t answer)
{
    struct reply r;
    add_call(c, &r);
    if (r.out[0] != answer)
        fail("a request of the batches has another answer than meant");
}

/* Activates the marked rows until they are blacklisted; this is not in the list. */
static void blacklist_marked(const struct shape *s)
{
    struct reply r;
    for (uint64_t i = 0; i < setting[3]; i++) {
        now += GAP;
        for (size_t k = 0; k < marks(s); k++) {
            struct call asked = marked(s, k, REQUEST), done = marked(s, k, DONE);
            call_all(&asked, &r);
            if (r.out[0] != THROTTLE_OPENED)
                fail("a marked row is not opened");
            call_all(&done, &r);
        }
    }
}

/* Opened requests, index readings, and the dones of the requests. */
static void add_opened(const struct shape *s)
{
    uint64_t step = s->banks < 4 ? setting[1] / s->banks + 1 : setting[1] / 4 + 1;
    now += GAP;
    for (size_t i = 0; i < BATCH; i++) {
        now += step;
        struct call c = spread(s, i, REQUEST);
        add_request(&c, THROTTLE_OPENED);
    }
    end_piece(OPENED);
    for (size_t kind = INDEX; kind >= DONE; kind--) {
        for (size_t i = 0; i < BATCH; i++) {
            struct reply r;
            now += 1;
            struct call c = spread(s, i, (uint8_t)kind);
            add_call(&c, &r);
        }
        end_piece(kind == INDEX ? READING : FINISHED);
    }
}

/* Activations of the marked rows, tD ticks after the last ones. */
static void add_marked(const struct shape *s)
{
    struct reply r;
    now += s->td + GAP;
    for (size_t k = 0; k < marks(s); k++) {
        struct call asked = marked(s, k, REQUEST), done = marked(s, k, DONE);
        add_request(&asked, THROTTLE_OPENED);
        add_call(&done, &r);
    }
    end_piece(ASIDE);
}

/* Requests for other rows in the banks of the marked rows, then for the marked rows. */
static void add_waiting(const struct shape *s)
{
    now += APART * marks(s);
    for (size_t i = 0; i < BATCH; i++) {
        struct call c = marked(s, i % marks(s), REQUEST);
        c.tick = now;
        c.row = random_row();
        add_request(&c, THROTTLE_WAIT_BANK);
    }
    end_piece(BANK_WAIT);
    now += setting[1] - APART;
    for (size_t i = 0; i < BATCH; i++) {
        struct call c = marked(s, i % marks(s), REQUEST);
        c.tick = now;
        add_request(&c, THROTTLE_WAIT_ROW);
    }
    end_piece(ROW_WAIT);
}

void measure_kinds(const struct shape *s, size_t rounds, struct times times[KINDS])
{
    take_shape(s);
    uint64_t epoch = setting[0] / 2;
    now = 5 * epoch + 1000;
    random_state = 88172645463325252u;
    blacklist_marked(s);
    start_list();
    for (size_t i = 0; i < CYCLES; i++) {
        add_opened(s);
        add_marked(s);
        add_waiting(s);
    }
    if (now / epoch != 5)
        fail("an epoch turns in the batches");
    measure(rounds, 6, times);
}
