"""The logs that the tests give to cut_log: each refusal, each answer, one record and 64, and random ones."""

import pathlib
from random import Random

from model import Log, blocks
from rules import Throttle, refusal

RANDOM = 80
S = blocks.S
# Openings that only the quota holds: as many as Q, one after the other.
ROOMY = (100_000, 1, 4, 8, 50, 3_000, 63, 4, 2)
# Four openings of the rank in 40 ticks, eight banks, two threads.
WIDE = (4_000, 3, 40, 4, 60, 100, 20, 8, 2)
SETTINGS = [S, (40, 1, 4, 2, 6, 10, 1, 1, 1), (40, 1, 4, 2, 6, 10, 4, 2, 2), (60, 2, 9, 1, 10, 9, 3, 4, 1), WIDE, (*ROOMY[:6], 12, 4, 2)]
record, done, log = blocks.record, blocks.done, blocks.log


def samples():
    """The logs of samples/ whose kept records stand beside them."""
    for path in sorted((pathlib.Path(__file__).resolve().parent.parent.parent / "samples").glob("*.cut")):
        yield path.with_suffix(".log").read_bytes()


def openings(count, q=63, **last):
    """So many openings of one thread, each in another row, of which the last has the fields given."""
    records = [record(10 * k, row=k, bank=k % 4) for k in range(count)]
    records[-1] = record(10 * (count - 1), row=count - 1, bank=(count - 1) % 4, **last)
    return log(records, (*ROOMY[:6], q, *ROOMY[7:]))


def answers():
    """Each answer that a request or a done can claim, with and without a wait tick, alone and after an opening of the bank."""
    for answer in range(5):
        for wait in (0, 7, 2 ** 64 - 1):
            yield log([record(3, answer=answer, wait=wait)])
            yield log([record(3), record(3, row=6, answer=answer, wait=wait)])
            yield log([record(3), done(4, row=65_535, answer=answer, wait=wait)])
    for wait in (7, 8):
        yield log([record(0), record(1), record(2, answer=3, wait=wait), record(7, answer=4)])


def sizes():
    """From one record to 64 that stay, blocks of 20 and their edges, and records after the one that differs."""
    for count in (1, 4, 19, 20, 21, 39, 40, 60, 61, 63):
        yield openings(count + 1, q=count)
    yield openings(64, q=63, wait=5)
    yield openings(64, answer=4)
    yield openings(65)
    yield openings(65, answer=4)
    yield openings(81)
    yield log([record(3, answer=4)] + [record(4 + k, row=k) for k in range(60)])
    yield log([record(0, bank=bank, row=9) for bank in range(8)], WIDE)


def settings():
    """Each refusal of a setting, with records that would differ."""
    wrong = [(41, *S[1:]), (40, 1, 4, 20, 6, 60, 4, 1, 1), (40, 1, 4, 2, 21, 10, 4, 1, 1), (2 ** 20, 1, 1, 2, 1025, 10, 4, 1, 1),
             (*S[:5], 9, 4, 1, 1)]
    for setting in wrong:
        yield log([record(3, answer=4)], setting)
    yield log([record(3, answer=4)], (*S[:7], 5, 1), mark=1)
    yield log([record(3, answer=4)], mark=1)
    yield log([record(3, answer=4)], seeds=[1024] + blocks.house_seeds()[1:])
    yield log([record(3, answer=4)], seeds=list(range(64)))
    yield log([record(3, answer=4)], seeds=blocks.house_seeds()[:-1] + [0])


def damaged():
    """Each refusal of a block, in block 0, in the last and between, before and after the record that differs."""
    for count, differs in ((1, 0), (45, 44), (64, 25), (100, 99)):
        good = log([record(5 * k, row=k, answer=4 * (k == differs)) for k in range(count)], ROOMY)
        for block in {0, 1, len(good) // 1024, len(good) // 512 - 1}:
            at = 512 * block
            yield good[:at]
            yield good[:at + 1]
            yield good[:at + 511]
            yield blocks.patched(good, at + 40, b"\7", seal=False)
            yield blocks.patched(good, at + 511, b"\1", seal=False)
            for place, value in ((0, 9), (4, 21), (4, 0), (6, 1), (8 + 20, 2), (8 + 21, 5), (8 + 22, 1), (500, 1), (172, 2)):
                yield blocks.patched(good, at + place, bytes([value]))
    short = log([record(5 * k, row=k, answer=4 * (k == 3)) for k in range(30)], ROOMY, size=10)
    yield short
    yield good + b"\0"


def events():
    """Logs whose first event is a refusal, or that have none, and refusals that come after the difference or go with a record."""
    bad = [record(3, bank=1), record(3, thread=1), record(2 ** 62), done(3), record(2 ** 64 - 1, answer=4)]
    for one_bad in bad:
        yield log([one_bad])
        yield log([one_bad, record(4, answer=4)])
        yield log([record(3, answer=4), one_bad])
        yield log([record(3), one_bad, record(30, answer=4)])
    yield log([])
    yield log([record(3)])
    yield log([record(3), done(3), record(9)])
    yield log([record(9), record(8), record(9, answer=4)])
    yield log([record(2 ** 62 - 1), record(2 ** 62 - 1)])


def faithful(random, setting, seeds, count):
    """Records that agree: small steps of time, few rows, dones of what is in flight."""
    throttle, tick, records = Throttle((*setting, 0), seeds), random.choice([0, 0, 7, 2 ** 40]), []
    rows = [random.randrange(65_536) for _ in range(random.choice([1, 2, 6]))]
    while len(records) < count:
        tick += random.choice([0, 0, 1, 1, 2, 5, setting[0] // 3])
        flying = [key for key, number in throttle.flying.items() if number]
        if flying and random.random() < 0.3:
            bank, thread = random.choice(flying)
            fields = {"kind": 1, "bank": bank, "thread": thread, "row": random.choice([0, 5])}
        else:
            fields = {"kind": 0, "bank": random.randrange(setting[7]), "thread": random.randrange(setting[8]), "row": random.choice(rows)}
        made = record(tick, **fields)
        _, (answer, wait) = throttle.answer(Log.record(Log(b""), made, 1))
        records.append(record(tick, **fields, answer=answer, wait=wait))
    return records


def spoiled(random, records):
    """The records with one changed: held ones are claimed to be opened, answers and wait ticks are others, a record is missing."""
    held = [k for k, one in enumerate(records) if one[21]]
    k = random.choice(held) if held and random.random() < 0.7 else random.randrange(len(records))
    change = random.choice(["opened", "opened", "opened", "wait", "answer", "missing"])
    one = records[k]
    if change == "opened":
        one = one[:8] + bytes(8) + one[16:21] + bytes(3)
    elif change == "wait":
        one = one[:8] + bytes([one[8] ^ random.choice([1, 128])]) + one[9:]
    elif change == "answer":
        one = one[:21] + bytes([random.randrange(5)]) + one[22:]
    return records[:k] + [one] * (change != "missing") + records[k + 1:]


def random_log(random):
    setting = random.choice(SETTINGS)
    seeds = random.choice([blocks.house_seeds(), blocks.house_seeds(), [random.randrange(4) for _ in range(64)]])
    records = faithful(random, setting, seeds, random.choice([5, 12, 25, 45, 64, 66]))
    for _ in range(random.choice([1, 1, 2])):
        records = spoiled(random, records)
    return log(records, setting, seeds, mark=random.randrange(2) if setting[7] <= 4 else 0)


def all_logs():
    random = Random(1)
    assert not any(refusal((*setting, 0), [0]) for setting in [*SETTINGS, ROOMY])
    for family in (samples, answers, sizes, settings, damaged, events):
        yield from family()
    for _ in range(RANDOM):
        yield random_log(random)
