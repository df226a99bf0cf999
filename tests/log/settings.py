"""Logs whose setting is refused, or stands at a bound: refusals 1 to 5. The profile mark is 0 in all of them."""

import random

from blocks import S, house_seeds, log, record

NAMES = ("W", "tRC", "tFAW", "N", "tD", "L", "Q", "banks", "threads")
LEAST = (2, 1, 1, 1, 1, 1, 1, 1, 1)
GREATEST = (2 ** 30, 65_535, 65_535, 32_768, 2 ** 29, 2 ** 24, 255, 16, 32)

# Accepted settings in which several fields stand at their bounds.
BASES = {
    "S": S,
    "chip": (256_000_000, 185, 140, 4_096, 31_065, 16_384, 255, 16, 8),
    "top": (2 ** 30, 16_383, 65_535, 32_768, 67_107_840, 65_537, 255, 16, 32),
    "limit": (2 ** 30, 1, 1, 1, 65, 2 ** 24, 7, 2, 3),
    "least": (4, 1, 1, 1, 2, 3, 1, 1, 1),
}

# Both sides of the bounds of refusals 2 to 5, and settings with two faults.
PAIRS = {
    "W-36-N-2-tRC-9": (36, 9, 4, 2, 9, 100, 4, 1, 1),
    "W-38-N-2-tRC-9": (38, 9, 4, 2, 9, 100, 4, 1, 1),
    "tD-3-tRC-4": (40, 4, 4, 2, 3, 100, 4, 1, 1),
    "tD-4-tRC-4": (40, 4, 4, 2, 4, 100, 4, 1, 1),
    "tD-20-E-20": (40, 1, 4, 2, 20, 10, 4, 1, 1),
    "tD-21-E-20": (40, 1, 4, 2, 21, 10, 4, 1, 1),
    "H-4096": (4_000, 1, 1, 2, 1_024, 100, 4, 1, 1),
    "H-4100": (4_000, 1, 1, 2, 1_025, 100, 4, 1, 1),
    "H-4096-rounded": (8_000, 1, 3, 2, 3_070, 100, 4, 1, 1),
    "H-4100-rounded": (8_000, 1, 3, 2, 3_073, 100, 4, 1, 1),
    "H-above-2-31": (2 ** 30, 1, 1, 1, 2 ** 29, 100, 4, 1, 1),
    "L-10-B-10": S,
    "L-9-B-10": (40, 1, 4, 2, 6, 9, 4, 1, 1),
    "L-16384-B-16385": (256_000_000, 185, 140, 4_096, 31_064, 16_384, 4, 1, 1),
    "published": (256_000_000, 185, 140, 8_192, 31_065, 16_384, 64, 16, 8),
    "1-and-2": (36, 9, 4, 2, 9, 100, 0, 1, 1),
    "1-and-5": (40, 1, 4, 2, 6, 9, 4, 17, 1),
    "2-and-3": (36, 9, 4, 2, 8, 100, 4, 1, 1),
    "2-and-5": (36, 9, 4, 2, 9, 1, 4, 1, 1),
    "3-and-4": (2_000, 1, 1, 2, 1_025, 100, 4, 1, 1),
    "3-and-5": (40, 4, 4, 2, 3, 4, 4, 1, 1),
    "4-and-5": (4_000, 1, 1, 2, 1_025, 2, 4, 1, 1),
    "all-zero": (0,) * 9,
    "all-ones": (2 ** 32 - 1,) * 9,
}


def changed(setting, field, value):
    return setting[:field] + (value,) + setting[field + 1:]


def opened(setting, seeds=None):
    """A log of this setting with one request, which an accepted setting opens."""
    return log([record(0)], setting, seeds)


def fields(corpus):
    """Each field below, at and above its bounds, and one off its value."""
    for base, setting in BASES.items():
        for field, name in enumerate(NAMES):
            low, high, value = LEAST[field], GREATEST[field], setting[field]
            near = {0, low - 1, low, high, high + 1, value - 1, value + 1, 2 ** 32 - 1}
            for other in sorted(near - {value}):
                corpus.add(f"setting-{base}-{name}-{other}", opened(changed(setting, field, other)))


def seeds(corpus):
    """A seed at and above its bound, at the first and at the last place."""
    for place in (0, 16, 63):
        for value in (0, 1_023, 1_024, 65_535):
            words = house_seeds()
            words[place] = value
            corpus.add(f"seed-{place}-{value}", opened(S, words))
    corpus.add("seed-1024-and-short-window", opened((36, 9, 4, 2, 9, 100, 4, 1, 1), [1_024] * 64))


def mixed(corpus, numbers):
    """Two fields of an accepted setting changed."""
    for count in range(120):
        setting = numbers.choice(list(BASES.values()))
        for field in numbers.sample(range(9), 2):
            value = setting[field]
            near = (value // 2, value * 2, value - 2, value + 2, numbers.randint(LEAST[field], GREATEST[field]))
            setting = changed(setting, field, max(0, numbers.choice(near)))
        corpus.add(f"setting-mixed-{count}", opened(setting))


def add_to(corpus):
    fields(corpus)
    seeds(corpus)
    mixed(corpus, random.Random(1))
    for name, setting in PAIRS.items():
        corpus.add(f"setting-{name}", opened(setting))
