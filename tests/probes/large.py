"""Gives fit_probes files of a million lines, and too little memory for them.

    python3 -B tests/probes/large.py PROGRAM

Ends with status 1 if a verdict, what is shown of the reason, or a status is another than it has to be.
"""

import resource
import sys
import tempfile

from model import Recording, expected, run

PROGRAM = sys.argv[1]
LINES = 1000000
# The lines are repeated after so many.
BLOCK = 1000
# Bytes of address space: enough to start the program and to read some of the lines, and not for all of them.
LITTLE = 16 << 20


def text(activations):
    return b"".join(map(b"%d %d %d\n".__mod__, activations))


def few():
    resource.setrlimit(resource.RLIMIT_AS, (LITTLE, LITTLE))


def check(what, found, wanted):
    if found != wanted:
        print(f"large: {what}:\n  expected {wanted}\n  found    {found}")
        sys.exit(1)


def main(folder):
    names = f"{folder}/first.txt", f"{folder}/second.txt"
    first = [(1850000 * i, i & 15, i * 40503 & 65535) for i in range(BLOCK)]
    second = [(tick + 97 + i % 5, bank, row) for i, (tick, bank, row) in enumerate(first)]
    body = text(second) * (LINES // BLOCK - 1) + text(second[:-1])
    with open(names[0], "wb") as file:
        file.write(text(first) * (LINES // BLOCK))
    tick, bank, row = second[-1]
    # The last line of the second file, and the verdict that belongs to it: the model sees the last pair and two with the other differences.
    for last, jitter in (((tick, bank, row), 2), ((tick, bank, row ^ 1), 2), ((tick + 1000, bank, row), 500), ((tick + 1000, bank, row), 2)):
        with open(names[1], "wb") as file:
            file.write(body + text([last]))
        files = [Recording(name, []) for name in names]
        files[0].activations = [(1, *first[0]), (5, *first[4]), (LINES, *first[-1])]
        files[1].activations = [(1, *second[0]), (5, *second[4]), (LINES, *last)]
        status, wanted = expected(*files, jitter)
        wanted = wanted.replace("pair 3", f"pair {LINES}")
        check(f"jitter {jitter}, last line {last}", run(PROGRAM, f"--jitter={jitter}", *names), (status, wanted, ""))
    with open(names[1], "wb") as file:
        file.write(body)
    shown = f"{names[0]}:{LINES}: tick {first[-1][0]}, bank {bank}, row {row} has no partner\n"
    check("a line less", run(PROGRAM, *names),
          (1, f"does not fit: {names[0]} has {LINES} activations, {names[1]} has {LINES - 1}\n{shown}", ""))
    status, output, errors = run(PROGRAM, *names, preexec_fn=few)
    start, _, count = errors.removesuffix(" activations\n").rpartition(" ")
    check("little memory", (status, output, start), (3, "", f"{PROGRAM}: {names[0]}: out of memory after"))
    check("how much was read", 1024 <= int(count) < LINES, True)
    print(f"large: files of {LINES} lines are answered as they must be, and so is a lack of memory")


with tempfile.TemporaryDirectory() as work:
    main(work)
