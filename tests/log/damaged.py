"""Random damage to faithful logs, from a fixed seed."""

import random

from blocks import BLOCK, patched, sealed, split


def flipped(numbers, log, count, seal):
    """The log with some of its bytes replaced by others."""
    for _ in range(count):
        at = numbers.randrange(len(log))
        byte = log[at] ^ numbers.choice((1, 2, 4, 8, 16, 32, 64, 128, numbers.randint(1, 255)))
        log = patched(log, at, bytes((byte,)), seal)
    return log


def rearranged(numbers, log):
    """The log with a block taken out, repeated, or exchanged with another, renumbered half of the time."""
    blocks = split(log)
    one, two = numbers.randrange(len(blocks)), numbers.randrange(len(blocks))
    change = numbers.randrange(3)
    if change == 0:
        del blocks[one]
    elif change == 1:
        blocks.insert(two, blocks[one])
    else:
        blocks[one], blocks[two] = blocks[two], blocks[one]
    if numbers.randrange(2):
        blocks = [sealed(k.to_bytes(4, "little") + part[4:]) for k, part in enumerate(blocks)]
    return b"".join(blocks)


def moved(numbers, log):
    """The log with a run of bytes of one block copied to another place of it, sums repaired."""
    first = numbers.randrange(len(log) // BLOCK) * BLOCK
    length = numbers.choice((1, 2, 8, 24))
    source, target = (first + numbers.randrange(508 - length) for _ in range(2))
    return patched(log, target, log[source:source + length])


def add_to(corpus, bases):
    numbers = random.Random(2)
    for name, log in bases.items():
        for k in range(30):
            corpus.add(f"random-{name}-one-{k}", flipped(numbers, log, 1, False))
            corpus.add(f"random-{name}-one-sealed-{k}", flipped(numbers, log, 1, True))
            corpus.add(f"random-{name}-more-sealed-{k}", flipped(numbers, log, numbers.randint(2, 6), True))
            corpus.add(f"random-{name}-moved-{k}", moved(numbers, log))
        for k in range(10):
            corpus.add(f"random-{name}-more-{k}", flipped(numbers, log, numbers.randint(2, 6), False))
            corpus.add(f"random-{name}-blocks-{k}", rearranged(numbers, log))
            corpus.add(f"random-{name}-cut-{k}", log[:numbers.randrange(len(log))])
