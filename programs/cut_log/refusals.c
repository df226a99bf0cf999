/* Says why a log is refused. See refusals.h. */
#include "refusals.h"
#include "log.h"
#include "stop.h"

#include <inttypes.h>

enum { CUT_SHORT = 11, WRONG_SUM = 12, WRONG_LAYOUT = 13 };

/* Whether throttle_cut_down finds nothing wrong with so many blocks at the log's start. */
static int are_sound(const struct input *in, size_t blocks)
{
    uint64_t out[THROTTLE_CUT_OUT];
    uint32_t code = throttle_cut_down(in->bytes, blocks * THROTTLE_LOG_BLOCK, out);
    return code == 0 || code == THROTTLE_MANY_RECORDS || code == THROTTLE_NO_DIFFERENCE;
}

/*
 * The block that 11, 12 or 13 is about. The blocks before it are sound, and so
 * are fewer of them, at least block 0; with it they are not. If all whole blocks
 * are, it is the one that is cut.
 */
static size_t block_at_fault(const struct input *in)
{
    size_t low = 0, high = in->length / THROTTLE_LOG_BLOCK;
    while (low < high) {
        size_t middle = low + (high - low) / 2;
        if (are_sound(in, middle + 1))
            low = middle + 1;
        else
            high = middle;
    }
    return low;
}

static void say_block(const struct input *in, uint32_t number)
{
    size_t block = block_at_fault(in);
    if (number == CUT_SHORT && in->length == 0)
        say("%s: refused with 11: the log is empty", in->name);
    else if (number == CUT_SHORT)
        say("%s: refused with 11: the log ends within block %zu, of which it has %zu of 512 bytes",
            in->name, block, in->length % THROTTLE_LOG_BLOCK);
    else if (number == WRONG_SUM)
        say("%s: refused with 12: a sum of block %zu is wrong, so its bytes are not as they were "
            "written",
            in->name, block);
    else
        say("%s: refused with 13: block %zu is against the log format (docs/log-format.md)",
            in->name, block);
}

static void say_many(const struct input *in)
{
    say("%s: refused with 20: it has %" PRIu64
        " records, and at most 64 are cut down. Give a shorter log that still differs: if check-log "
        "says that this one differs in block B, and B is at most 3, that is the one of its first "
        "512 x (B + 1) bytes",
        in->name, count_records(in->bytes, in->length));
}

void say_refusal(const struct input *in, uint32_t number)
{
    switch (number) {
    case CUT_SHORT:
    case WRONG_SUM:
    case WRONG_LAYOUT:
        say_block(in, number);
        break;
    case THROTTLE_MANY_RECORDS:
        say_many(in);
        break;
    case THROTTLE_NO_DIFFERENCE:
        say("%s: refused with 21: its records do not differ from the rules, so there is nothing to "
            "cut down. check-log says whether they agree or which refusal comes first",
            in->name);
        break;
    case THROTTLE_OUT_OF_RANGE:
    case THROTTLE_SHORT_WINDOW:
    case THROTTLE_BAD_DELAY:
    case THROTTLE_LONG_HISTORY:
    case THROTTLE_ABOVE_LIMIT:
    case THROTTLE_ABOVE_PROFILE:
        say("%s: refused with %" PRIu32 ": the setting in block 0 is not accepted: %s", in->name,
            number, throttle_refusal_name(number));
        break;
    default:
        stop("throttle_cut_down refused with %" PRIu32 ", which it never does", number);
    }
}
