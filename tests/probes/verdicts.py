"""Compares what fit_probes prints for small files with what trying every offset gives.

    python3 -B tests/probes/verdicts.py PROGRAM
    python3 -B tests/probes/verdicts.py PROGRAM STAND_IN    with each fault that the source STAND_IN can plant

In the second form PROGRAM is linked with the stand-in, and the comparison has to notice each fault. Ends with status 1 if a verdict, a
reason or a status is another, if a fault is not noticed, or if the files do not lead to every kind of answer.
"""

import os
import re
import sys
import tempfile
from random import Random

from model import Recording, expected, fitting, run

TOP = (1 << 62) - 1
RANDOM = 130
# The cases, of all, with which faults are looked for.
SOME = 150
# Words of each kind of answer.
KINDS = ["fits -1000\n", "fits 1000\n", "differs in its bank\n", "differs in its row\n", "differs in its bank and row\n", "has no partner",
         "apart", "at most 1000", "at least -1000"]


def pairs(*differences, tick=50000):
    """Two lists of the same rows with these differences of their ticks."""
    rows = [(place % 5, 100 + place) for place in range(len(differences))]
    first = [(tick + 10 * place, *row) for place, row in enumerate(rows)]
    return first, [(a + d, *row) for (a, *row), d in zip(first, differences)]


def ticks():
    """Differences at the ends of what an offset and a jitter allow, and one past them."""
    for jitter in (0, 1, 7, 1000):
        for end in (-1000 - jitter, -1000, -1000 + jitter, 0, jitter, 1000 - jitter, 1000, 1000 + jitter):
            for near in (-1, 0, 1):
                yield *pairs(end + near), jitter
        for middle in (-1000, -17, 0, 1000):
            for more in (0, 1):
                yield *pairs(middle - jitter, middle, middle + jitter + more), jitter
                yield *pairs(middle + jitter + more, middle, middle - jitter), jitter
                yield *pairs(middle, middle + 2 * jitter + more), jitter


def large_ticks():
    """Ticks up to 2^62 - 1, and differences that are small only in their low bits."""
    for first, second in ((TOP, TOP), (TOP, TOP - 1000), (TOP - 1001, TOP), (0, TOP), (TOP, 0), (0, 0), (0, 1000), (1000, 0)):
        for jitter in (0, 1000):
            yield [(first, 0, 0)], [(second, 0, 0)], jitter
    for difference in (1 << 16, 1 << 31, 1 << 32, (1 << 32) + 5, 1 << 61):
        yield *pairs(difference), 1000
        yield *pairs(0, difference), 1000
        yield *pairs(-difference, tick=1 << 61), 1000


def rows():
    """Lists that differ in length, bank or row, at their ends and within."""
    first, second = pairs(3, 4, 5, 4)
    yield [], [], 0
    yield [], [], 1000
    for some in (first[:1], first):
        yield [], some, 1000
        yield some, [], 1000
    for fewer in (first[:-1], first[1:], first[:1], first[:1] + first[2:]):
        yield fewer, second, 2
        yield second, fewer, 2
    for at in range(4):
        for bank, row in ((1, 0), (0, 1), (0, 256), (0, 255), (256, 0), (1, 1), (5, 65000)):
            tick, old_bank, old_row = second[at]
            yield first, second[:at] + [(tick, old_bank + bank, old_row + row)] + second[at + 1:], 2
    yield first, [second[1], second[0], *second[2:]], 1000
    yield [(5, 0, 1), (5, 1, 0)], [(5, 1, 0), (5, 0, 1)], 1000
    yield [(5, 1, 0)], [(5, 0, 65535)], 0
    yield [(5, 65535, 65535)], [(6, 65535, 65535)], 0
    yield [(5, 7, 7)] * 5, [(6, 7, 7)] * 5, 0


def random_lists(random):
    """Lists that fit or nearly do, with a change now and then."""
    jitter = random.choice([0, 1, 2, 5, 1000])
    middle = random.choice([-1000, -999, -3, 0, 4, 999, 1000])
    first, second = pairs(*(middle + random.randint(-jitter - 1, jitter + 1) for _ in range(random.randint(0, 6))))
    change = random.randint(0, 5)
    if second and change < 3:
        at = random.randrange(len(second))
        tick, bank, row = second[at]
        second[at:at + 1] = [[(tick, bank ^ 1, row)], [(tick, bank, row ^ 1)], []][change]
    return first, second, jitter


def cases(folder):
    """Each case: two files, which are written, the jitter, and what has to be answered."""
    random = Random(1)
    lists = [*ticks(), *large_ticks(), *rows()]
    plain = len(lists)
    lists += [random_lists(random) for _ in range(RANDOM)]
    for number, (first, second, jitter) in enumerate(lists):
        files = Recording(f"{folder}/{number}a.txt", first), Recording(f"{folder}/{number}b.txt", second)
        for file in files:
            if number >= plain:
                file.dress(random)
            file.write()
        yield *files, jitter, expected(*files, jitter)


def answer(program, first, second, jitter, **environment):
    """What the program does: its status, its output, and its errors."""
    return run(program, f"--jitter={jitter}", first.path, second.path, env={**os.environ, **environment})


def has_interval(first, second, jitter):
    """The offsets that fit are those that docs/probes.md names: from the least one on to the least difference plus the jitter, at most 1,000."""
    offsets = fitting(first, second, jitter)
    differences = [b[1] - a[1] for a, b in zip(first.activations, second.activations)]
    return not offsets or offsets == list(range(offsets[0], min([1000] + [d + jitter for d in differences]) + 1))


def compare(program, given):
    """Whether each case is answered as it has to be, and each kind of answer comes."""
    seen = dict.fromkeys(KINDS, 0)
    for first, second, jitter, wanted in given:
        found = answer(program, first, second, jitter)
        if found != (*wanted, ""):
            print(f"verdicts: jitter {jitter}, {first.data} and {second.data}:\n  expected {wanted}\n  found    {found}")
            return False
        if not has_interval(first, second, jitter):
            print(f"verdicts: jitter {jitter}, {first.data} and {second.data}: other offsets fit than docs/probes.md says")
            return False
        for kind in KINDS:
            seen[kind] += kind in found[1]
    if not all(seen.values()):
        print(f"verdicts: not every kind of answer came: {seen}")
        return False
    print(f"verdicts: {len(given)} pairs of files are answered as trying every offset says")
    return True


def is_noticed(program, given, fault):
    """Whether some case is answered otherwise with the fault. The program itself has to work: it may object to the verdict alone."""
    for first, second, jitter, wanted in given:
        status, output, errors = answer(program, first, second, jitter, FAULT=fault)
        if (status, output) != wanted:
            return status in (0, 1) and errors == "" or status == 3 and "throttle_fit_probes says" in errors
    return False


def notice_all(program, given, stand_in):
    """Whether the comparison notices each fault that the stand-in can plant."""
    with open(stand_in, encoding="ascii") as source:
        faults = re.findall(r"\bX\((\w+)\)", source.read())
    missed = [fault for fault in faults if not is_noticed(program, given, fault)]
    for fault in missed:
        print(f"verdicts: the fault {fault} is not noticed")
    print(f"verdicts: {len(faults)} faults planted, {len(missed)} not noticed")
    return faults and not missed


def main():
    with tempfile.TemporaryDirectory() as folder:
        given = list(cases(folder))
        Random(2).shuffle(given)
        if len(sys.argv) == 2:
            good = compare(sys.argv[1], given)
        else:
            given = given[:SOME]
            good = compare(sys.argv[1], given) and notice_all(sys.argv[1], given, sys.argv[2])
    return 0 if good else 1


sys.exit(main())
