"""Logs that the rounding of the quota decides: to the nearest whole request, an exact half to the even one."""

from blocks import S, done, log, record
from records import five

# Q, D and the counter c at which Q × (D − c)/D has this value, to one place.
VALUES = {
    "0.4": (3, 8, 7), "0.5": (1, 8, 4), "0.6": (1, 8, 3), "1.5": (3, 8, 4), "2.5": (4, 8, 3), "3.2": (4, 10, 2),
    "3.5": (4, 8, 1), "3.6": (4, 9, 1), "4.5": (5, 10, 1),
}


def sample(corpus):
    """The request at tick 8 under S: quota if 3.5 is rounded to 3, row wait until 13 if to 4."""
    corpus.add("rounding-sample-quota", log(five(answer=4)))
    corpus.add("rounding-sample-row", log(five(answer=3, wait=13)))
    corpus.add("rounding-sample-opened", log(five()))


def decided(corpus, name, q, d, c):
    """A request with as many in flight as the whole number below the value: opened, or held by the quota.

    All seeds are 0 and N is 6: the first six openings fill the one counter of all rows, and every later one, each
    of another row, is of a blacklisted row and raises the index by 1.
    """
    setting = (40, 1, 4, 6, 20, d + 6, q, 1, 1)
    last = 6 + c
    start = []
    for tick in range(last):
        start.append(record(tick, row=tick))
        if tick < last - q * (d - c) // d:
            start.append(done(tick))
    ends = {
        "opened": record(last, row=last), "quota": record(last, row=last, answer=4),
        "row": record(last, row=last - 1, answer=3, wait=last + 19),
        "row-quota": record(last, row=last - 1, answer=4),
    }
    for claim, end in ends.items():
        corpus.add(f"rounding-{name}-{claim}", log(start + [end], setting, [0] * 64))


def faithful(corpus):
    """Logs made by the rules, and by the rules with the quota rounded down, where D is small and half-way values are many."""
    for d in (4, 6, 8):
        for q in range(1, 7):
            corpus.with_old_rule(f"rounding-q{q}-d{d}", q, (40, 1, 4, 1, 20, d + 1, q, 1, 2), 1, "down")
    for seed in range(1, 13):
        corpus.add(f"rounding-down-{seed}", corpus.faithful("random", seed, 20, 0, S, 0, ("down",)))


def add_to(corpus):
    sample(corpus)
    for name, value in VALUES.items():
        decided(corpus, name, *value)
    faithful(corpus)
