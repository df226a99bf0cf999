"""What cut_log has to print and to write of a log, found by trying to leave out each record; and a run of it."""

import pathlib
import subprocess
import sys
from collections import namedtuple

sys.path.insert(0, str(pathlib.Path(__file__).resolve().parent.parent / "log"))

import blocks
from rules import Throttle, refusal

BLOCK = 512
# The longest that a run may take, in seconds. A good one takes some milliseconds.
HANGS = 60
WORDS = ("opened", "bank", "rank", "row", "quota")
FIELDS = ("W", "tRC", "tFAW", "N", "tD", "L", "Q", "banks", "threads")
# What is said of a setting that is refused.
SETTINGS = {1: "setting or seeds out of range", 2: "window too short for N", 3: "delay below tRC or above W/2", 4: "history too long",
            5: "bound B above limit L", 16: "setting above the small profile"}

Record = namedtuple("Record", "tick wait row bank thread kind answer block place data")
# What is expected of a log: the status, both outputs, and the new log with the report that the checker gives of it.
Expected = namedtuple("Expected", "status output errors new report")


def number(data):
    return int.from_bytes(data, "little")


class Log:
    """The blocks of a log, taken apart: number of the refusal and the block that it is about, or 0, setting, seeds and records."""

    def __init__(self, data):
        self.data = data
        self.records = []
        self.refused, self.block = 0, 0
        parts = [data[at:at + BLOCK] for at in range(0, len(data), BLOCK)] or [b""]
        for self.block, part in enumerate(parts):
            self.refused = self.wrong(part, parts)
            if self.refused:
                return
            for k in range(part[4]):
                self.records.append(self.record(part[8 + 24 * k:32 + 24 * k], k + 1))

    def wrong(self, part, parts):
        """The number with which a block is refused, or 0."""
        if len(part) < BLOCK:
            return 11
        if part != blocks.sealed(part):
            return 12
        count, body = part[4], part[8:508]
        if number(part[:4]) != self.block or any(part[5:8]):
            return 13
        if self.block == 0:
            if count or part[172] > 1 or any(part[173:508]):
                return 13
            self.setting = [number(part[8 + 4 * k:12 + 4 * k]) for k in range(9)] + [part[172]]
            self.seeds = [number(part[44 + 2 * k:46 + 2 * k]) for k in range(64)]
            return refusal(self.setting, self.seeds)
        kinds = [body[24 * k:24 * k + 24] for k in range(min(count, 20))]
        good = 1 <= count <= 20 and not any(body[24 * count:]) and all(r[20] < 2 and r[21] < 5 and not any(r[22:]) for r in kinds)
        return 0 if good and (self.block == 1 or parts[self.block - 1][4] == 20) else 13

    def record(self, data, place):
        return Record(number(data[:8]), number(data[8:16]), number(data[16:18]), *data[18:22], self.block, place, data)

    def run(self, records):
        """The first event of a run from set-up, 'agrees', 'differs' or 'refused', and what the rules say of each record up to it."""
        throttle, replies = Throttle(self.setting, self.seeds), []
        for record in records:
            refused, reply = throttle.answer(record)
            if refused:
                return "refused", replies
            replies.append(reply)
            if reply != (record.answer, record.wait):
                return "differs", replies
        return "agrees", replies

    def differs(self, places):
        return self.run([self.records[k] for k in places])[0] == "differs"

    def kept(self):
        """The places of the records that stay."""
        places = list(range(len(self.records)))
        while True:
            before = list(places)
            for k in before:
                fewer = [p for p in places if p != k]
                if self.differs(fewer):
                    places = fewer
            if places == before:
                return places


def claim(kind, answer, wait):
    word = "done" if kind == 1 and answer == 0 else WORDS[answer]
    return f"{word}, wait until {wait}" if answer in (1, 2, 3) or wait else word


def place(record):
    return f"block {record.block} place {record.place}"


def both(record, reply):
    log, rules = claim(record.kind, record.answer, record.wait), claim(record.kind, *reply)
    return f": the log says {log}; the rules " + ("agree" if reply == (record.answer, record.wait) else f"say {rules}")


def line(record, reply):
    asked = f"{'request' if record.kind == 0 else 'done'} at tick {record.tick}, thread {record.thread}, bank {record.bank}"
    row = f", row {record.row}" if record.kind == 0 else ""
    return f"{place(record)}: {asked}{row}{both(record, reply)}"


def difference(record, reply):
    words = [claim(record.kind, answer, 0).split(",")[0] for answer in (record.answer, reply[0])]
    parts = ["in its answer: the log has {}, the rules have {}".format(*words)] * (words[0] != words[1])
    parts += [f"in its wait tick: the log has {record.wait}, the rules have {reply[1]}"] * (record.wait != reply[1])
    return f"{place(record)} differs " + "; ".join(parts)


def setting_lines(log):
    house = log.seeds == blocks.house_seeds()
    numbers = "".join(f"{name} {value}, " for name, value in zip(FIELDS, log.setting))
    yield f"setting: {numbers}{['large', 'small'][log.setting[9]]} profile, {'house' if house else 'other'} seeds"
    for f in range(0 if house else 4):
        yield f"seeds of function {f}: " + " ".join(map(str, log.seeds[16 * f:16 * f + 16]))


def why_refused(log):
    """What is said of a log that is refused."""
    number, data = log.refused, log.data
    if number in SETTINGS:
        return f"the setting in block 0 is not accepted: {SETTINGS[number]}"
    if number == 11 and not data:
        return "the log is empty"
    return {
        11: f"the log ends within block {log.block}, of which it has {len(data) % BLOCK} of 512 bytes",
        12: f"a sum of block {log.block} is wrong, so its bytes are not as they were written",
        13: f"block {log.block} is against the log format (docs/log-format.md)",
        20: f"it has {len(log.records)} records, and at most 64 are cut down. Give a shorter log that still differs: if check-log says "
            "that this one differs in block B, and B is at most 3, that is the one of its first 512 x (B + 1) bytes",
        21: "its records do not differ from the rules, so there is nothing to cut down. check-log says whether they agree or which refusal "
            "comes first",
    }[number]


def expected(data, program, name):
    """What the program, called by this path, has to do with a log of this name."""
    log = Log(data)
    if not log.refused and len(log.records) > 64:
        log.refused = 20
    if not log.refused and not log.differs(range(len(log.records))):
        log.refused = 21
    if log.refused:
        return Expected(2, "", f"{program}: {name}: refused with {log.refused}: {why_refused(log)}\n", None, None)
    kept = [log.records[k] for k in log.kept()]
    _, replies = log.run(kept)
    _, whole = log.run(log.records)
    first = log.records[len(whole) - 1]
    plural = "" if len(log.records) == 1 else "s"
    lines = [f"kept {len(kept)} of {len(log.records)} record{plural}, none of which can be left out; "
             "run from set-up, the last one differs from the rules", *setting_lines(log), *map(line, kept, replies),
             difference(kept[-1], replies[-1]), f"the whole log differs first at {place(first)}{both(first, whole[-1])}"]
    new = blocks.log([record.data for record in kept], log.setting[:9], log.seeds, mark=log.setting[9])
    opened = sum(record.kind == 0 and reply[0] == 0 for record, reply in zip(kept, replies))
    last = len(kept) - 1
    report = f"records {len(kept)}\nopened {opened}\ndiffers {1 + last // 20} {1 + last % 20}\n"
    return Expected(0, "".join(f"{text}\n" for text in lines), "", new, report)


def run(program, *words, **options):
    """The status of a run, and what it printed on standard output and on standard error."""
    done = subprocess.run([program, *words], capture_output=True, timeout=HANGS, **options)
    return done.returncode, done.stdout.decode("ascii", "backslashreplace"), done.stderr.decode("ascii", "backslashreplace")
