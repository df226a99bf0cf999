"""Logs with a profile mark, byte 172 of block 0, each with the report that it must get.

What is refused of block 0 is written out here from the specification. What a log of records must get is read off a
faithful log, in which every record is the rules' own answer.
"""

import random

from blocks import (BLOCK, BODY, MARK, RECORDS, S, SUMS, done, field_of, house_seeds, log, patched, record, records_of,
                    sealed, with_field)
from records import four, of_each_answer
from settings import BASES, GREATEST, LEAST, changed

AGREES = "records {}\nopened {}\nagrees\n"
# The most that the small profile has: four banks and 1,024 history places.
EDGE = (4_000, 1, 4, 2, 1_024, 10, 4, 4, 2)

# Settings around the limits of both profiles, and ones above the small profile that meet another refusal.
SETTINGS = {
    "S": S, "edge": EDGE, "banks-3": changed(S, 7, 3), "banks-4": changed(S, 7, 4), "banks-5": changed(S, 7, 5),
    "banks-16": changed(S, 7, 16), "banks-17": changed(S, 7, 17), "banks-0": changed(S, 7, 0),
    "H-1020": changed(EDGE, 4, 1_020), "H-1024": changed(EDGE, 4, 1_021), "H-1028": changed(EDGE, 4, 1_025),
    "H-4096": changed(EDGE, 2, 1), "H-4100": changed(changed(EDGE, 2, 1), 4, 1_025),
    "edge-banks-5": changed(EDGE, 7, 5), "H-1028-banks-5": changed(changed(EDGE, 7, 5), 4, 1_025),
    "1-and-16": changed(changed(EDGE, 7, 5), 6, 0), "1-odd-and-16": changed(changed(EDGE, 7, 5), 0, 4_001),
    "2-and-16": changed(changed(EDGE, 7, 5), 3, 2_000), "3-and-16": changed(changed(EDGE, 7, 5), 4, 2_001),
    "3-below-and-16": changed((4_000, 999, 4, 2, 998, 10, 4, 4, 2), 7, 5),
    "4-and-16": changed((4_000, 1, 1, 2, 1_025, 10, 4, 4, 2), 7, 5), "5-and-16": changed(changed(EDGE, 7, 5), 5, 7),
    "5-and-16-by-H": changed(changed(EDGE, 4, 1_025), 5, 7), "5-of-S": changed(S, 5, 9),
}


def number(data, at, width):
    return int.from_bytes(data[at:at + width], "little")


def setting_refusal(setting, seeds, mark):
    """The refusal of a setting with a mark of 0 or 1, 0 if it is accepted."""
    w, trc, tfaw, n, td, l, _, banks, _ = setting
    ranges = zip(LEAST, setting, GREATEST)
    if w % 2 or max(seeds) > 1_023 or not all(low <= value <= high for low, value, high in ranges):
        return 1
    if w - 1 < 2 * n * trc:
        return 2
    if td < trc or td > w // 2:
        return 3
    places = 4 * ((td + tfaw - 1) // tfaw)
    if places > 4_096:
        return 4
    if 2 * n + 1 + (w - 1 - 2 * n * trc) // td > l:
        return 5
    return 16 if mark == 1 and (banks > 4 or places > 1_024) else 0


def block_0_refusal(block):
    """The refusal that block 0 gets, 0 if it gets none."""
    if len(block) < BLOCK:
        return 11
    if block != sealed(block):
        return 12
    mark = block[MARK]
    if any(block[:BODY]) or mark > 1 or any(block[MARK + 1:SUMS]):
        return 13
    setting = [number(block, BODY + 4 * k, 4) for k in range(9)]
    seeds = [number(block, BODY + 36 + 2 * k, 2) for k in range(64)]
    return setting_refusal(setting, seeds, mark)


def add(corpus, name, data, good):
    """Adds a log that gets the report `good` if block 0 is not refused."""
    refused = block_0_refusal(data[:BLOCK])
    corpus.add(f"profile-{name}", data, f"refused {refused} 0\n" if refused else good)


def marks(corpus):
    """Every setting with marks of both profiles and of none, with one request that is opened and without any."""
    for name, setting in SETTINGS.items():
        for mark in (0, 1, 2, 3, 127, 128, 255):
            add(corpus, f"{name}-mark-{mark}", log([record(0)], setting, mark=mark), AGREES.format(1, 1))
            add(corpus, f"{name}-mark-{mark}-alone", log([], setting, mark=mark), AGREES.format(0, 0))
    for mark in range(256):
        add(corpus, f"mark-{mark}", log(four(), mark=mark), AGREES.format(4, 3))


def places(corpus):
    """Bytes next to the mark and at the end of the zeros, alone and with a setting or a mark that is refused."""
    bases = {"large": log(four()), "small": log(four(), mark=1), "above": log(four(), changed(S, 7, 5), mark=1),
             "refused": log(four(), changed(S, 5, 9), mark=1), "none": log(four(), mark=2)}
    for name, base in bases.items():
        for at in (170, 171, 173, 174, 175, 176, 340, 506, 507):
            for byte in (0, 1, 2, 4, 255):
                add(corpus, f"byte-{at}-{byte}-{name}", patched(base, at, bytes((byte,))), AGREES.format(4, 3))


def order(corpus):
    """Marks that the sums do not know, cut blocks, and damage after block 0."""
    bases = {"large": log(four()), "small": log(four(), mark=1), "above": log(four(), changed(S, 7, 5), mark=1),
             "none": log(four(), mark=2), "none-and-5": log(four(), changed(S, 5, 9), mark=2)}
    for name, base in bases.items():
        good = AGREES.format(4, 3)
        for mark in (0, 1, 2, 255):
            add(corpus, f"unsealed-{mark}-{name}", patched(base, MARK, bytes((mark,)), seal=False), good)
        for length in (0, 1, MARK, MARK + 1, 511):
            add(corpus, f"cut-{length}-{name}", base[:length], good)
        add(corpus, f"then-cut-{name}", base[:700], "refused 11 1\n")
        add(corpus, f"then-sum-{name}", patched(base, 600, b"\7", seal=False), "refused 12 1\n")
        add(corpus, f"then-count-{name}", patched(base, BLOCK + 4, b"\0"), "refused 13 1\n")


def mixed(corpus, numbers):
    """Accepted settings with one or two fields changed, under both profiles."""
    bases = [*BASES.values(), EDGE, changed(S, 7, 4)]
    for count in range(150):
        setting = numbers.choice(bases)
        for field in numbers.sample(range(9), numbers.randint(1, 2)):
            value = setting[field]
            near = (value // 2, value * 2, value - 1, value + 1, numbers.randint(LEAST[field], GREATEST[field]))
            setting = changed(setting, field, max(0, numbers.choice(near)))
        for mark in (0, 1):
            add(corpus, f"mixed-{count}-mark-{mark}", log([record(0)], setting, mark=mark), AGREES.format(1, 1))


def opened_in(data, count):
    """How many of the first records are requests that were opened, in a faithful log."""
    return sum(field_of(data, k, "kind") == field_of(data, k, "answer") == 0 for k in range(count))


def faithful(corpus, settings):
    """Faithful logs of the small profile, which are those of the large one but for the mark; some with a claim changed."""
    for name, setting in settings.items():
        large = corpus.faithful("random", 21, 90, 0, setting)
        small = corpus.faithful("random", 21, 90, 0, (*setting, 1))
        if small != patched(large, MARK, b"\1"):
            raise ValueError(f"{name}: the log of the small profile is not that of the large one with another mark")
        for mark, data in ((0, large), (1, small)):
            good = AGREES.format(records_of(data), opened_in(data, records_of(data)))
            add(corpus, f"{name}-faithful-{mark}", data, good)
            for k in of_each_answer(data, 2):
                block, place = k // RECORDS + 1, k % RECORDS + 1
                differs = f"records {k + 1}\nopened {opened_in(data, k + 1)}\ndiffers {block} {place}\n"
                wait = field_of(data, k, "wait")
                add(corpus, f"{name}-wait-{k}-{mark}", with_field(data, k, "wait", wait + 1), differs)
                refused = with_field(data, k, "bank", setting[7])
                add(corpus, f"{name}-bank-{k}-{mark}", refused, f"refused 8 {block}\n")


def above(corpus, settings):
    """Faithful logs of settings above the small profile: they agree as logs of the large one."""
    for name, setting in settings.items():
        large = corpus.faithful("random", 22, 50, 0, setting)
        good = AGREES.format(50, opened_in(large, 50))
        for mark in (0, 1, 2):
            add(corpus, f"{name}-faithful-{mark}", patched(large, MARK, bytes((mark,))), good)


def dones(corpus):
    """The small profile with four banks: openings, the quota and dones."""
    setting = (40, 1, 4, 2, 6, 10, 2, 4, 1)
    calls = [record(0, bank=3), record(1), record(2, bank=1, answer=4), done(2, bank=3), record(3, bank=2), done(3)]
    for mark in (0, 1):
        add(corpus, f"dones-{mark}", log(calls, setting, mark=mark), AGREES.format(6, 3))
        add(corpus, f"dones-none-{mark}", log(calls + [done(4)], setting, mark=mark), "refused 10 1\n")


def seeds(corpus):
    """A seed out of range comes before the profile."""
    words = house_seeds()
    words[63] = 1_024
    for name in ("S", "banks-5", "H-1028"):
        for mark in (0, 1, 2):
            data = log([record(0)], SETTINGS[name], words, mark=mark)
            add(corpus, f"seed-{name}-{mark}", data, AGREES.format(1, 1))


def add_to(corpus, small, large):
    """Adds the logs; `small` are settings that the small profile takes, `large` ones above it."""
    marks(corpus)
    places(corpus)
    order(corpus)
    seeds(corpus)
    dones(corpus)
    mixed(corpus, random.Random(3))
    faithful(corpus, {"small": S, "limits": EDGE, **small})
    above(corpus, large)
