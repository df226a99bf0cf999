"""The throttle's rules, written from the specification: what a request or a done is answered, for runs of a few records.

Wait ticks are found by trying every tick at which a rule can begin to pass.
"""

from collections import Counter
from fractions import Fraction

TOP = 1 << 62
NAMES = ("w", "trc", "tfaw", "n", "td", "l", "q", "banks", "threads", "profile")
RANGES = {"w": (2, 1 << 30), "trc": (1, 65535), "tfaw": (1, 65535), "n": (1, 32768), "td": (1, 1 << 29), "l": (1, 1 << 24), "q": (1, 255),
          "banks": (1, 16), "threads": (1, 32), "profile": (0, 1)}


def refusal(setting, seeds):
    """The number with which a setting is refused, or 0."""
    s = dict(zip(NAMES, setting))
    if any(not low <= s[name] <= high for name, (low, high) in RANGES.items()) or s["w"] % 2 or max(seeds) > 1023:
        return 1
    free = s["w"] - 1 - 2 * s["n"] * s["trc"]
    history = 4 * -(-s["td"] // s["tfaw"])
    if free < 0:
        return 2
    if not s["trc"] <= s["td"] <= s["w"] // 2:
        return 3
    if history > 4096:
        return 4
    if 2 * s["n"] + 1 + free // s["td"] > s["l"]:
        return 5
    return 16 if s["profile"] == 1 and (s["banks"] > 4 or history > 1024) else 0


class Throttle:
    """The state after set-up with an accepted setting."""

    def __init__(self, setting, seeds):
        self.set = dict(zip(NAMES, setting))
        self.epoch = self.set["w"] // 2
        self.seeds = seeds
        self.last = 0
        # Of each filter the counts of (bank, place), and of (bank, thread) the openings of blacklisted rows.
        self.counts = [Counter(), Counter()]
        self.index = [Counter(), Counter()]
        self.flying = Counter()
        # Tick, bank and row, in their order.
        self.openings = []

    def places(self, row):
        """The places of a row's counters, each once."""
        found = set()
        for function in range(4):
            place = 0
            for bit in range(16):
                if row >> bit & 1:
                    place ^= self.seeds[16 * function + bit]
            found.add(place)
        return found

    def turn(self, tick):
        """Moves the clock."""
        before, now = self.last // self.epoch, tick // self.epoch
        for kept in range(2):
            if now - before >= 2 or now - before == 1 and before % 2 == kept:
                self.counts[kept].clear()
                self.index[kept].clear()
        self.last = tick

    def is_black(self, bank, row, tick):
        """Whether the row is blacklisted at a tick from the last one on, if no call comes between."""
        if tick // self.epoch - self.last // self.epoch >= 2:
            return False
        tested = self.counts[tick // self.epoch % 2]
        return min(tested[bank, place] for place in self.places(row)) >= self.set["n"]

    def ends(self, bank, row):
        """The ticks from which on the bank, the rank and the row allow an opening, the row while it is blacklisted."""
        of_bank = [tick for tick, b, _ in self.openings if b == bank]
        of_row = [tick for tick, b, r in self.openings if (b, r) == (bank, row)]
        of_rank = [tick for tick, _, _ in self.openings][-4:]
        return (of_bank[-1] + self.set["trc"] if of_bank else 0, of_rank[0] + self.set["tfaw"] if len(of_rank) == 4 else 0,
                of_row[-1] + self.set["td"] if of_row else 0)

    def cause(self, bank, row, tick):
        """The first of bank, rank and row that does not pass at a tick, by its number, or 0."""
        for number, end in enumerate(self.ends(bank, row), 1):
            if tick < end and (number < 3 or self.is_black(bank, row, tick)):
                return number
        return 0

    def quota(self, bank, thread):
        d = self.set["l"] - self.set["n"]
        c = self.index[self.last // self.epoch % 2][bank, thread]
        return round(Fraction(self.set["q"] * (d - min(c, d)), d))

    def request(self, tick, bank, thread, row):
        """The answer and the wait tick of a request that is not refused."""
        self.turn(tick)
        if sum(self.flying[b, thread] for b in range(self.set["banks"])) >= self.quota(bank, thread):
            return 4, 0
        cause = self.cause(bank, row, tick)
        if cause:
            turns = [(tick // self.epoch + k) * self.epoch for k in (1, 2)]
            return cause, min(u for u in [*self.ends(bank, row), *turns] if u >= tick and not self.cause(bank, row, u))
        self.open(tick, bank, thread, row)
        return 0, 0

    def open(self, tick, bank, thread, row):
        black = self.is_black(bank, row, tick)
        for counts, index in zip(self.counts, self.index):
            for place in self.places(row):
                counts[bank, place] += counts[bank, place] < self.set["n"]
            index[bank, thread] += black and index[bank, thread] < self.set["l"] - self.set["n"]
        self.flying[bank, thread] += 1
        self.openings.append((tick, bank, row))

    def answer(self, record):
        """What the rules say of a record: the number of a refusal, or 0, and the answer and the wait tick."""
        if record.bank >= self.set["banks"] or record.thread >= self.set["threads"]:
            return 8, (0, 0)
        if not self.last <= record.tick < TOP:
            return 9, (0, 0)
        if record.kind == 0:
            return 0, self.request(record.tick, record.bank, record.thread, record.row)
        if self.flying[record.bank, record.thread] == 0:
            return 10, (0, 0)
        self.turn(record.tick)
        self.flying[record.bank, record.thread] -= 1
        return 0, (0, 0)
