"""Logs about requests in flight: the thread's total over the banks against the quota of the named bank, and dones."""

from blocks import done, log, record

TWO_BY_TWO = (40, 1, 4, 2, 6, 10, 4, 2, 2)
# Two banks and Q 1.
ONE_AT_A_TIME = (40, 1, 4, 2, 6, 10, 1, 2, 1)

# Requests in flight of the thread in each bank, the bank that is asked for, Q, and the index counters above 0 by their
# bank: a counter of c gives a quota of Q × (8 − c)/8.
CASES = {
    "1-of-1": ((1, 0), 1, 1, {}), "1-of-2": ((1, 0), 1, 2, {}),
    "2-of-2": ((1, 1), 0, 2, {}), "2-of-3": ((1, 1), 0, 3, {}),
    "before-2-of-2": ((2, 0), 1, 2, {}), "after-2-of-2": ((0, 2), 0, 2, {}),
    "around-2-of-2": ((1, 0, 1), 1, 2, {}), "around-2-of-3": ((1, 0, 1), 1, 3, {}),
    "own-2-of-4": ((0, 2, 0), 1, 4, {}), "own-4-of-4": ((1, 2, 1), 1, 4, {}),
    "most-15-of-15": ((1,) * 15 + (0,), 15, 15, {}), "most-15-of-16": ((1,) * 15 + (0,), 15, 16, {}),
    "most-255-of-255": ((16,) * 15 + (15,), 15, 255, {}), "most-254-of-255": ((16,) * 15 + (14,), 15, 255, {}),
    "counter-2-of-2": ((2, 0), 1, 4, {1: 4}), "counter-1-of-2": ((1, 0), 1, 4, {1: 4}),
    "other-counter-2-of-4": ((1, 1), 0, 4, {1: 4}), "counters-3-of-3": ((1, 1, 1), 2, 4, {0: 4, 2: 2}),
}


def two_banks():
    """Bank 0 opened, bank 1 held by the quota until the done of bank 0, then bank 0 held."""
    return [record(0), record(1, bank=1, answer=4), done(2), record(2, bank=1), record(3, answer=4)]


def opened(flights, counters):
    """Openings that leave so many requests in flight in each bank, and these counters.

    All seeds are 0. Where there are counters N is 6: the first six openings of a bank fill the one counter of all
    rows, and every later one, each of another row, is of a blacklisted row and raises the index by 1. The banks with
    counters come first; their openings are done at once, but for the last ones.
    """
    banks = [(bank, 6 + c) for bank, c in counters.items()]
    banks += [(bank, count) for bank, count in enumerate(flights) if bank not in counters]
    records = []
    tick = 0
    for bank, count in banks:
        for left in range(count, 0, -1):
            records.append(record(tick, row=tick, bank=bank))
            if left > flights[bank]:
                records.append(done(tick, bank=bank))
            tick += 1
    return records, tick


def decided(corpus, name, flights, bank, q, counters):
    """A request that the total decides: opened, or held by the quota."""
    n = 6 if counters else 16
    setting = (2_000, 1, 4, n, 1_000, 2 * n + 2, q, len(flights), 1)
    start, tick = opened(flights, counters)
    for claim, answer in (("opened", 0), ("quota", 4)):
        end = record(tick, row=tick, bank=bank, answer=answer)
        corpus.add(f"in-flight-{name}-{claim}", log(start + [end], setting, [0] * 64))


def sample(corpus):
    """The two banks, and the same as the bank's own count decides it."""
    corpus.add("in-flight-sample", log(two_banks(), ONE_AT_A_TIME))
    own = [record(0), record(1, bank=1), done(2), done(2, bank=1), record(3)]
    corpus.add("in-flight-sample-own", log(own, ONE_AT_A_TIME))


def threads(corpus):
    """Requests in flight of another thread, which do not count."""
    other = [record(0, thread=1), record(1, bank=1, thread=1), record(2, thread=1, row=6)]
    setting = TWO_BY_TWO[:6] + (3,) + TWO_BY_TWO[7:]
    for bank in (0, 1):
        for thread in (0, 1):
            for claim, answer in (("opened", 0), ("quota", 4)):
                end = record(4, bank=bank, thread=thread, row=7, answer=answer)
                corpus.add(f"in-flight-thread-{thread}-bank-{bank}-{claim}", log(other + [end], setting))


def none(corpus):
    """Dones in bank 1, which has none of the thread's requests, while bank 0 has some: refused, whatever they claim."""
    both = [record(0), record(1, bank=1)]
    starts = {
        "first": [record(0)], "two": [record(0), record(1, row=6)], "taken": both + [done(2, bank=1)],
        "later": both + [done(2, bank=1), record(50), record(1_000)],
        "held": [record(0), record(1), record(2, row=6), record(3, row=7), record(4, bank=1, answer=4)],
    }
    for name, start in starts.items():
        last = int.from_bytes(start[-1][:8], "little")
        for answer, wait in ((0, 0), (3, 7)):
            end = done(last, bank=1, answer=answer, wait=wait)
            corpus.add(f"in-flight-none-{name}-{answer}", log(start + [end], TWO_BY_TWO))
        corpus.add(f"in-flight-some-{name}", log(start + [done(last)], TWO_BY_TWO))


def dones(corpus):
    """Dones of another bank or thread than the opening's, and one more than there were openings."""
    for bank in (0, 1):
        for thread in (0, 1):
            both = [record(0), done(1, bank=bank, thread=thread)]
            corpus.add(f"done-of-{bank}-{thread}", log(both, TWO_BY_TWO))
    corpus.add("done-twice", log([record(0), done(1), done(1)]))
    corpus.add("done-first", log([done(0)]))
    corpus.add("done-after-a-wait", log([record(0), record(0, answer=1, wait=1), done(0), done(0)]))
    corpus.add("done-after-epochs", log([record(0), done(1_000), record(2_000)]))


def faithful(corpus):
    """Logs made by the rules, and by the rules with the named bank's own count, on several banks."""
    for banks in (2, 3, 16):
        for q in (1, 2, 4, 6):
            corpus.with_old_rule(f"in-flight-q{q}-b{banks}", q, (400, 1, 4, 2, 20, 30, q, banks, 2), 0, "bank")
    for seed in range(1, 13):
        corpus.add(f"in-flight-seed-{seed}-bank", corpus.faithful("random", seed, 20, 0, TWO_BY_TWO, 0, ("bank",)))


def add_to(corpus):
    sample(corpus)
    for name, case in CASES.items():
        decided(corpus, name, *case)
    threads(corpus)
    none(corpus)
    dones(corpus)
    faithful(corpus)
