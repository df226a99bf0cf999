"""Logs whose records differ from the rules or are refused by them: refusals 8, 9 and 10, and `differs`."""

from collections import Counter

from blocks import done, field_of, log, record, records_of, with_field

TOP = 2 ** 62
# S with Q 3: a counter of 1 gives 2.625, that is 3.
THREE = (40, 1, 4, 2, 6, 10, 3, 1, 1)


def four(wait=7):
    """The four records of the sample runs; S opens the first two and the last."""
    return [record(0), record(1), record(2, answer=3, wait=wait), record(7)]


def five(**fields):
    """The four records and a request at tick 8, three in flight. S answers row wait until 13, THREE quota."""
    return four() + [record(8, **fields)]


def pairs(count):
    """Records that agree under S: every hundred ticks row 5 is opened and reported done."""
    both = [(record(100 * k), done(100 * k)) for k in range((count + 1) // 2)]
    return [one for pair in both for one in pair][:count]


def of_each_answer(base, most):
    """Records of a faithful log, at most so many of each kind and answer."""
    seen = Counter()
    for k in range(records_of(base)):
        which = field_of(base, k, "kind"), field_of(base, k, "answer")
        seen[which] += 1
        if seen[which] <= most:
            yield k


def claims(corpus, name, base):
    """Records of a faithful log with another answer, another wait tick or another row."""
    for k in of_each_answer(base, 5):
        answer, wait = field_of(base, k, "answer"), field_of(base, k, "wait")
        for other in {0, 1, 2, 3, 4} - {answer}:
            corpus.add(f"answer-{name}-{k}-{other}", with_field(base, k, "answer", other))
        for other in {wait - 1, wait + 1, 0 if wait else 2 ** 64 - 1}:
            corpus.add(f"wait-{name}-{k}-{other}", with_field(base, k, "wait", other))
        corpus.add(f"row-{name}-{k}", with_field(base, k, "row", 77))


def late(corpus, base):
    """Wait ticks of 2^62 and more, cut to 62 bits or by one off."""
    for k in of_each_answer(base, 8):
        wait = field_of(base, k, "wait")
        if wait >= TOP:
            for name, other in (("cut", wait - TOP), ("less", wait - 1), ("more", wait + 1), ("top", TOP)):
                corpus.add(f"late-wait-{k}-{name}", with_field(base, k, "wait", other))


def refused(corpus):
    """A record that the model refuses, whatever it claims, at several places of a log."""
    faults = {
        "bank-1": {"bank": 1}, "bank-255": {"bank": 255}, "thread-1": {"thread": 1}, "thread-255": {"thread": 255},
        "tick-before": {"tick": -1}, "tick-2-62": {"tick": TOP}, "tick-2-62-less-1": {"tick": TOP - 1},
        "tick-2-63": {"tick": 2 ** 63}, "tick-2-64-less-1": {"tick": 2 ** 64 - 1},
        "bank-1-tick-2-62": {"bank": 1, "tick": TOP}, "same-tick": {},
    }
    for count in (0, 1, 18, 19, 20, 40, 41):
        last = 100 * ((count + 1) // 2 - 1) if count else 0
        for name, fault in faults.items():
            if name == "tick-before" and last == 0:
                continue
            tick = last - 1 if name == "tick-before" else fault.get("tick", last)
            fields = {key: value for key, value in fault.items() if key != "tick"}
            for kind in (0, 1):
                for answer, wait in ((0, 0), (3, 7)):
                    bad = record(tick, kind=kind, answer=answer, wait=wait, **fields)
                    corpus.add(f"refused-{name}-{count}-{kind}-{answer}", log(pairs(count) + [bad]))


def clock(corpus):
    """A wait, a quota answer and a done move the clock, so that an earlier tick is refused after them."""
    start = five(answer=4) + [done(9)]
    for count in range(1, len(start)):
        tick = int.from_bytes(start[count][:8], "little")
        corpus.add(f"clock-after-{count}", log(start[:count + 1] + [record(tick - 1)], THREE))


def history(corpus):
    """Seven openings within tD; a row that is blacklisted by the openings of another one."""
    eight_banks = (80, 1, 35, 1, 36, 10, 9, 8, 1)
    openings = [record(0, bank=bank) for bank in range(4)] + [record(35, bank=bank) for bank in (4, 5, 6)]
    corpus.add("history-of-seven", log(openings + [record(35, answer=3, wait=36), record(36)], eight_banks))
    corpus.add("history-of-five", log(openings + [record(35)], eight_banks))
    corpus.add("history-of-another-row", log([record(0), record(1), record(2, row=0)], seeds=[0] * 64))


def dones(corpus):
    """Dones that claim an answer or a wait tick, and rows of dones."""
    for answer in range(5):
        for wait in (0, 1, 7, 2 ** 63):
            claimed = [record(0), done(0, answer=answer, wait=wait), record(100)]
            corpus.add(f"done-answer-{answer}-wait-{wait}", log(claimed))
    corpus.add("done-row", log([record(0), done(0, row=65_535)]))


def counts(corpus):
    """`opened` counts what the rules open: an opening that claims to be something else, and the reverse."""
    for answer in (1, 2, 3, 4):
        corpus.add(f"opened-claims-{answer}", log([record(0, answer=answer, wait=5)]))
        corpus.add(f"opened-claims-{answer}-wait-0", log([record(0, answer=answer)]))
    corpus.add("wait-claims-opened", log([record(0), record(0)]))
    corpus.add("opened-claims-wait", log([record(0, wait=1)]))
    for wait in (0, 1, 9, 13):
        corpus.add(f"quota-wait-{wait}", log(five(answer=4, wait=wait), THREE))


def first_event(corpus):
    """Two faults in one log, of which the first counts."""
    differs, refusal = record(0, answer=2, wait=1), record(0, bank=9)
    for before in (0, 1, 19, 20):
        corpus.add(f"differs-then-refused-{before}", log(pairs(before) + [record(10 ** 4, answer=1), refusal]))
        corpus.add(f"refused-then-differs-{before}", log(pairs(before) + [refusal, differs]))
    corpus.add("differs-then-cut", log([differs] + [record(0)] * 30)[:1_100])
    corpus.add("agrees-then-cut", log(pairs(30))[:1_100])
    corpus.add("setting-refused-then-cut", log(pairs(3), (40, 1, 4, 2, 6, 9, 4, 1, 1))[:600])


def add_to(corpus, bases):
    for name in ("small", "several", "blacklisting"):
        claims(corpus, name, bases[name])
    late(corpus, bases["late"])
    refused(corpus)
    clock(corpus)
    history(corpus)
    dones(corpus)
    counts(corpus)
    first_event(corpus)
