"""Logs against the layout: refusals 11, 12 and 13, and what comes before and after them."""

import itertools

from blocks import (BLOCK, BODY, MARK, MODULUS, RECORD, S, SUMS, block, done, house_seeds, little, log, patched,
                    place_of, record, split, start, sums, with_field)
from records import pairs

# Only a sum of at most 14 can be raised by 65,521 within 16 bits. The sums of this log's block 1 are 2 and 6.
LIGHT = log([record(0, row=0)])


def truncated(corpus, base):
    """Every length of a log of two blocks; the ends of blocks of a longer one, and bytes too many."""
    for length in range(len(base)):
        corpus.add(f"cut-{length:04}", base[:length])
    longer = log(pairs(45))
    for end in range(BLOCK, len(longer) + 1, BLOCK):
        for length in (end - 1, end, end + 1):
            corpus.add(f"cut-longer-{length}", longer[:length] if length <= len(longer) else longer + b"\0")
    for extra in (1, BODY + RECORD, BLOCK - 1):
        corpus.add(f"cut-after-{extra}", base + base[BLOCK:BLOCK + extra])


def with_sums(base, at, plain, weighted):
    """The log with these sums in the block that starts at a byte."""
    return patched(base, at + SUMS, little(plain, 2) + little(weighted, 2), seal=False)


def wrong_sums(corpus, name, base):
    for at in range(0, len(base), BLOCK):
        part = base[at:at + BLOCK]
        plain, weighted = sums(part)
        low, high = plain % MODULUS, weighted % MODULUS
        backwards = [int.from_bytes(part[place:place + 2], "big") for place in (SUMS, SUMS + 2)]
        unplaced = sum(place * byte for place, byte in enumerate(part[:SUMS])) % MODULUS
        wrong = {
            "plain-more": (low + 1, high), "plain-less": (low - 1, high), "weighted-more": (low, high + 1),
            "weighted-less": (low, high - 1), "swapped": (high, low), "zero": (0, 0), "twice": (low, low),
            "backwards": backwards, "from-place": (low, unplaced), "unreduced": (plain, weighted),
            "plain-zero": (0, high), "weighted-zero": (low, 0),
        }
        for fault, (one, two) in wrong.items():
            corpus.add(f"sum-{name}-{at // BLOCK}-{fault}", with_sums(base, at, one % 65_536, two % 65_536))


def raised_sums(corpus):
    """A sum of at most 14, raised by 65,521."""
    for fault, one, two in (("plain", 2 + MODULUS, 6), ("weighted", 2, 6 + MODULUS), ("both", 2 + MODULUS, 6 + MODULUS)):
        corpus.add(f"sum-raised-{fault}", with_sums(LIGHT, BLOCK, one, two))
    for first, second in itertools.product(range(256), repeat=2):
        base = start(S, [first, second] + house_seeds()[2:])
        plain, weighted = sums(base)
        if weighted % MODULUS <= 14:
            corpus.add("sum-small-in-block-0", base)
            corpus.add("sum-raised-in-block-0", with_sums(base, 0, plain % MODULUS, weighted % MODULUS + MODULUS))
            return
    raise ValueError("no seeds give block 0 a second sum of at most 14")


def reduced_sum(corpus):
    """A block that agrees and whose first sum is above 65,521."""
    setting, first = (1_000, 100, 4, 2, 100, 10, 4, 1, 1), 2 ** 62 - 200
    waiting = [record(first + k, row=65_535, answer=1, wait=first + 100) for k in range(1, 20)]
    base = log([record(first, row=65_535)] + waiting, setting)
    assert sums(base[BLOCK:])[0] > MODULUS
    corpus.add("sum-reduced", base)
    wrong_sums(corpus, "reduced", base)


def kept_sums(corpus, base):
    """Changes that the sums do not show, and ones that only the second sum shows."""
    for at in range(len(base)):
        three = base[at:at + 3]
        if at % BLOCK <= SUMS - 3 and max(three) < 255 and three[1] >= 2:
            corpus.add(f"sum-kept-{at}", patched(base, at, bytes((three[0] + 1, three[1] - 2, three[2] + 1)), seal=False))
        if at % BLOCK <= SUMS - 3 and max(three) < 254 and min(three[0], three[2]) >= 1:
            corpus.add(f"sum-kept-up-{at}", patched(base, at, bytes((three[0] - 1, three[1] + 2, three[2] - 1)), seal=False))
        if at % BLOCK <= SUMS - 2 and three[0] != three[1] and at % 4 == 0:
            corpus.add(f"sum-exchanged-{at}", patched(base, at, bytes((three[1], three[0])), seal=False))


def padding(corpus, base):
    """Every byte that has to be zero is 1, in block 0 and in a block of four records."""
    places = [*range(5, 8), *range(MARK + 1, SUMS), *range(BLOCK + 5, BLOCK + 8)]
    places += [place_of(k, "zeros") + i for k in range(4) for i in (0, 1)]
    places += range(place_of(4, "tick"), BLOCK + SUMS)
    for at in places:
        corpus.add(f"padding-{at:04}", patched(base, at, b"\1"))
    full = log(pairs(20))
    for at in range(BODY + 20 * RECORD, SUMS):
        corpus.add(f"padding-full-{at}", patched(full, BLOCK + at, b"\x80"))


def numbers(corpus, base):
    """Block numbers that are not the block's own, and blocks that are missing, repeated or exchanged."""
    for number in (1, 2, 256, 2 ** 16, 2 ** 24, 2 ** 32 - 1):
        corpus.add(f"number-{number}-in-block-0", patched(base, 0, little(number, 4)))
    for number in (0, 2, 257, 2 ** 16 + 1, 2 ** 24 + 1, 2 ** 31 + 1, 2 ** 32 - 1):
        corpus.add(f"number-{number}-in-block-1", patched(base, BLOCK, little(number, 4)))
    zero, one, two, three = split(log(pairs(50)))
    orders = {"exchanged": (zero, two, one, three), "missing-1": (zero, two, three), "missing-2": (zero, one, three),
              "repeated": (zero, one, one, two), "no-block-0": (one, two), "block-0-twice": (zero, zero, one)}
    for name, order in orders.items():
        corpus.add(f"number-{name}", b"".join(order))


def counts(corpus, base):
    """Record counts out of range, and ones that are not the number of records written."""
    for count in (1, 20, 21, 255):
        corpus.add(f"count-{count}-in-block-0", patched(base, 4, bytes((count,))))
    for count in (0, 1, 2, 3, 5, 19, 20, 21, 128, 255):
        corpus.add(f"count-{count}-in-block-1", patched(base, BLOCK + 4, bytes((count,))))
    corpus.add("count-0-alone", log([]) + block(1, 0, b""))
    corpus.add("count-0-after-full", log(pairs(20)) + block(2, 0, b""))
    for count in (19, 21):
        corpus.add(f"count-{count}-of-full", patched(log(pairs(40)), BLOCK + 4, bytes((count,))))


def short_blocks(corpus):
    """A block after one of fewer than 20 records; its other faults; a difference before it."""
    for size in (1, 2, 10, 19):
        base = log(pairs(size * 2), size=size)
        corpus.add(f"short-{size}", base)
        corpus.add(f"short-{size}-then-cut", base[:-1])
        corpus.add(f"short-{size}-then-sum", patched(base, 2 * BLOCK + 100, b"\7", seal=False))
        corpus.add(f"short-{size}-then-number", patched(base, 2 * BLOCK, b"\1"))
        corpus.add(f"short-{size}-differs", with_field(base, size - 1, "wait", 1))
        corpus.add(f"short-{size}-refused", with_field(base, size - 1, "bank", 1))
    later = split(log(pairs(80)))
    short = block(2, 19, later[2][BODY:BODY + 19 * RECORD])
    corpus.add("short-second", b"".join((later[0], later[1], short, later[3], later[4])))
    corpus.add("short-last", b"".join((later[0], later[1], short)))


def kinds(corpus):
    """Kinds and answers out of range, at the first and at the last place of a block."""
    base = log(pairs(40))
    for k in (0, 1, 19, 20, 39):
        for kind in (2, 3, 128, 255):
            corpus.add(f"kind-{kind}-{k}", with_field(base, k, "kind", kind))
        for answer in (5, 6, 128, 255):
            corpus.add(f"answer-{answer}-{k}", with_field(base, k, "answer", answer))


def whole_block_first(corpus):
    """A fault at the end of a block against a difference or a refusal in its first record."""
    heads = {"differs": record(0, answer=1, wait=3), "refused-8": record(0, bank=1), "refused-10": done(0)}
    tail = pairs(20)[1:]
    for name, head in heads.items():
        base = log([head] + tail)
        corpus.add(f"first-{name}", base)
        for field, value in (("kind", 2), ("answer", 5), ("zeros", 256)):
            corpus.add(f"first-{name}-then-{field}", with_field(base, 19, field, value))
        corpus.add(f"first-{name}-then-padding", patched(base, BLOCK + SUMS - 1, b"\1"))
        corpus.add(f"first-{name}-then-sum", patched(base, BLOCK + SUMS, b"\0\0", seal=False))
        corpus.add(f"first-{name}-then-block-2", base + bytes(BLOCK))
    refused = log(pairs(4), (40, 1, 4, 2, 6, 9, 4, 1, 1))
    corpus.add("setting-then-padding", patched(refused, 300, b"\1"))
    corpus.add("setting-then-sum", patched(refused, 300, b"\1", seal=False))
    corpus.add("setting-then-block-1", patched(refused, BLOCK, b"\7"))


def uniform(corpus, base):
    """Blocks of one byte throughout."""
    for count in (1, 2, 3):
        corpus.add(f"zeros-{count}", bytes(BLOCK * count))
        corpus.add(f"ones-{count}", b"\xff" * BLOCK * count)
    corpus.add("zeros-after-block-0", base[:BLOCK] + bytes(BLOCK))
    corpus.add("zeros-after-full", log(pairs(20)) + bytes(BLOCK))
    corpus.add("zeros-sealed-as-block-1", base[:BLOCK] + block(1, 20, b""))
    corpus.add("ones-sealed", patched(base[:BLOCK] + b"\xff" * BLOCK, BLOCK, b"\1\0\0\0\x14\0\0\0"))


def add_to(corpus, base):
    """Damages a log of block 0 and a block of four records."""
    truncated(corpus, base)
    wrong_sums(corpus, "four", base)
    wrong_sums(corpus, "several", log(pairs(25)))
    raised_sums(corpus)
    reduced_sum(corpus)
    kept_sums(corpus, base)
    padding(corpus, base)
    numbers(corpus, base)
    counts(corpus, base)
    short_blocks(corpus)
    kinds(corpus)
    whole_block_first(corpus)
    uniform(corpus, base)
