"""Logs about the hash by bytes, each with the report that it must get.

Under the house seeds a checker takes its hashes from a table. These logs have the house seeds, the house seeds with one bit of one
word changed, and other seeds. They are made of groups of requests: a row is opened, then four others, one for each of its counters,
and then the row is asked for again, where N is 2. It waits if each of its counters has had a second opening, and is opened if one
has not. The four are chosen so that the hashes of other seeds, or of a wrong table, decide the other way.
"""

import random

from blocks import done, house_seeds, log, record

# N 2 and tD 16; groups are a window apart, so that both filters are cleared between them.
SETTING = (4_000, 1, 1, 2, 16, 400, 255, 1, 1)
WINDOW, N, DELAY = SETTING[0], SETTING[3], SETTING[4]
HOUSE = tuple(house_seeds())
# Tries to find the rows of a group.
TRIES = 200


def places(seeds, row):
    """The four hashes of a row by the seed rule."""
    hashes = [0] * 4
    for k in range(64):
        if row >> k % 16 & 1:
            hashes[k // 16] ^= seeds[k]
    return hashes


def estimate(seeds, opened, row):
    """The estimate of a row after these openings, not cut at N."""
    named = [places(seeds, other) for other in opened]
    return min(sum(place in four for four in named) for place in places(seeds, row))


def rows_with(seeds, function, value):
    """Every row but 0 of which a hash function has this value.

    The seeds and the value, as if it were the seed of bit 16, are reduced to words of different lengths, each with the bits that
    it comes from. Where a word is reduced to 0, its bits are those of seeds whose exclusive or is 0.
    """
    reduced = {}
    zeros = [0]
    for bit, word in enumerate((*seeds[16 * function:16 * function + 16], value)):
        bits = 1 << bit
        while word and word.bit_length() in reduced:
            other, others = reduced[word.bit_length()]
            word, bits = word ^ other, bits ^ others
        if word:
            reduced[word.bit_length()] = word, bits
        else:
            zeros += [bits ^ other for other in zeros]
    return [bits & 0xFFFF for bits in zeros if bits >> 16 and bits & 0xFFFF]


class Group:
    """A row, and the four that are opened after it."""

    def __init__(self, row, others):
        self.row = row
        self.opened = [row, *others]

    def held(self, seeds):
        return estimate(seeds, self.opened, self.row) >= N

    def records(self, seeds, tick):
        """The openings, the request that the seeds decide, and the dones."""
        held = self.held(seeds)
        claim = {"answer": 3, "wait": tick + DELAY} if held else {}
        openings = [record(tick + k, row=row) for k, row in enumerate(self.opened)]
        count = len(openings)
        return openings + [record(tick + count, row=self.row, **claim)] + [done(tick + count)] * (count + (not held))


def found(numbers, seeds, wanted, rows=range(65_536), beside=(0, 0, 0, 0)):
    """A group that is wanted, of one of these rows.

    Each of the four others has one of the row's four places by some function, or a place that differs from it by the bits beside it.
    """
    for _ in range(TRIES):
        row = numbers.choice(rows)
        values = [place ^ bits for place, bits in zip(places(seeds, row), beside)]
        lists = [rows_with(seeds, numbers.randrange(4), value) for value in values]
        if not all(lists):
            continue
        group = Group(row, [numbers.choice(others) for others in lists])
        if len(set(group.opened)) == len(group.opened) and wanted(group):
            return group
    raise ValueError("no rows are found for a group")


def add(corpus, name, seeds, groups):
    """Adds a log of groups, one in each window; the seeds decide what is opened."""
    records = [one for k, group in enumerate(groups) for one in group.records(seeds, WINDOW * k)]
    opened = sum(len(group.opened) + (not group.held(seeds)) for group in groups)
    report = f"records {len(records)}\nopened {opened}\nagrees\n"
    corpus.add(f"bytes-{name}", log(records, SETTING, seeds), report)


def shows_words(group):
    """Does the row wait under the house seeds, and would it be opened if a bit of one of its eight words of the table were another?

    The other rows have neither of its bytes, so that their hashes would stay.
    """
    others = group.opened[1:]
    alike = any((row ^ group.row) & byte == 0 for row in others for byte in (0xFF, 0xFF00))
    named = {place for row in others for place in places(HOUSE, row)}
    moved = {place ^ 1 << bit for place in places(HOUSE, group.row) for bit in range(10)}
    return group.held(HOUSE) and not alike and not moved & named


def house(corpus, numbers):
    """The house seeds: rows that wait, with every value of each byte, and rows that are opened, by a bit of one hash."""
    bytes_of = {"low": [range(byte, 65_536, 256) for byte in range(256)],
                "high": [range(256 * byte, 256 * byte + 256) for byte in range(256)]}
    for name, lists in bytes_of.items():
        add(corpus, f"house-{name}", HOUSE, [found(numbers, HOUSE, shows_words, rows) for rows in lists])
    for bit in range(10):
        beside = [[1 << bit if other == f else 0 for other in range(4)] for f in range(4)]
        groups = [found(numbers, HOUSE, lambda group: not group.held(HOUSE), beside=bits) for bits in beside]
        add(corpus, f"house-bit-{bit}", HOUSE, groups)


def other_seeds(corpus, numbers, name, seeds):
    """Seeds under which a row waits that the house seeds would open, and the other way about."""
    for ending, holding, opening in (("held", seeds, HOUSE), ("opened", HOUSE, seeds)):
        group = found(numbers, holding, lambda group: group.held(holding) and not group.held(opening))
        add(corpus, f"{name}-{ending}", seeds, [group])


def changed(corpus, numbers):
    """The house seeds with one bit of one word changed; from bit 10 on the word exceeds 1,023."""
    for word in range(64):
        for bit in (0, 9, numbers.randrange(1, 9), 10, numbers.randrange(11, 16)):
            seeds = list(HOUSE)
            seeds[word] ^= 1 << bit
            if bit < 10:
                other_seeds(corpus, numbers, f"changed-{word}-{bit}", tuple(seeds))
            else:
                corpus.add(f"bytes-above-{word}-{bit}", log([record(0)], SETTING, seeds), "refused 1 0\n")


def orders(numbers):
    """Other seeds with their names: the house seeds in other orders or in part, and random ones."""
    functions = [HOUSE[16 * f:16 * f + 16] for f in range(4)]
    mixed = [numbers.randrange(1_024) for _ in range(64)]
    yield "backwards", HOUSE[::-1]
    yield "backwards-in-each", sum((words[::-1] for words in functions), ())
    yield "bytes-exchanged", sum((words[8:] + words[:8] for words in functions), ())
    yield "one-further", HOUSE[1:] + HOUSE[:1]
    yield "neighbours-exchanged", tuple(HOUSE[k ^ 1] for k in range(64))
    yield "sorted", tuple(sorted(HOUSE))
    yield "bit-by-bit", tuple(HOUSE[k % 4 * 16 + k // 4] for k in range(64))
    yield "of-1023", (1_023,) * 64
    yield "random", tuple(mixed)
    for f in range(4):
        yield f"but-function-{f}", tuple(mixed[k] if k // 16 == f else HOUSE[k] for k in range(64))
        yield f"function-{f}-alone", tuple(HOUSE[k] if k // 16 == f else mixed[k] for k in range(64))


def add_to(corpus):
    numbers = random.Random(4)
    house(corpus, numbers)
    changed(corpus, numbers)
    for name, seeds in orders(numbers):
        other_seeds(corpus, numbers, f"seeds-{name}", seeds)
