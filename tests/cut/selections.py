"""Compares what cut_log prints and writes for logs with what trying to leave out each record gives.

    python3 -B tests/cut/selections.py PROGRAM CHECKER PLANTED STAND_IN CC OBJECT...

PROGRAM is compared. CHECKER is the program check_log, which is asked about the logs that PROGRAM writes. Then the comparison has to notice
each fault that the source STAND_IN can plant in the program PLANTED, which is linked with it, and each change of changes.py in the text of
cut_log, compiled with CC and linked with the objects of the other sources and what is given beside them. Ends with status 1 if something
else is printed, written or said, if a fault is not noticed, or if the logs do not lead to every number and to selections of one record
and of 64.
"""

import os
import re
import sys
import tempfile
from random import Random

from cases import all_logs
from changes import changed_programs
from model import expected, run

# Numbers of refusals, or how many records are kept, that have to come.
WANTED = [*(f"refused with {number}:" for number in (1, 2, 3, 4, 5, 16, 11, 12, 13, 20, 21)),
          *(f"kept {count} of" for count in (1, 2, 5, 20, 21, 40, 41, 61, 64))]
NAME = "the.log"


def answer(program, data, folder, **environment):
    """The status, both outputs, and the new log or None."""
    new = f"{folder}/new.log"
    if os.path.exists(new):
        os.remove(new)
    status, output, errors = run(program, NAME, new, input=data, env={**os.environ, **environment})
    if not os.path.exists(new):
        return status, output, errors, None
    with open(new, "rb") as file:
        return status, output, errors, file.read()


def answers(wanted, program):
    """What a program has to do, called by its path."""
    return wanted.status, wanted.output, wanted.errors.replace("PROGRAM", program), wanted.new


def is_right(program, checker, folder, data, wanted):
    """Whether a log is answered as it has to be, with a new log and without, and the checker says of the new log what it has to."""
    right = answers(wanted, program)
    found = answer(program, data, folder)
    if found != right:
        print(f"selections: expected {right}\n  found    {found}")
    elif wanted.new and run(program, NAME, input=data) != right[:3]:
        print(f"selections: without a new log something else is printed than {right}")
    elif wanted.new and run(checker, input=wanted.new) != (0, wanted.report, ""):
        print(f"selections: the checker says {run(checker, input=wanted.new)} of the new log, and not {wanted.report!r}")
    else:
        return True
    return False


def compare(program, checker, folder, given):
    """Whether each log is answered as it has to be, and everything that is wanted comes."""
    wrong = sum(not is_right(program, checker, folder, data, wanted) for data, wanted in given)
    printed = "".join(wanted.output + wanted.errors for _, wanted in given)
    missing = [words for words in WANTED if words not in printed]
    for words in missing:
        print(f"selections: no log led to: {words}")
    written = sum(wanted.new is not None for _, wanted in given)
    print(f"selections: of {len(given)} logs {wrong} are not answered as leaving out each record says; the checker was asked about "
          f"{written} new logs")
    return not wrong and not missing


def is_noticed(program, given, folder, **environment):
    """Whether some log is answered otherwise."""
    for data, wanted in given:
        found = answer(program, data, folder, **environment)
        if found != answers(wanted, program):
            # The program itself has to work: it may object to the call's answer alone.
            return found[0] in (0, 2) or found[0] == 3 and "throttle_" in found[2]
    return False


def in_other_order(given):
    """The logs for the faults: those of the three samples first, then the others, mixed."""
    return given[:3] + Random(2).sample(given[3:], len(given) - 3)


def notice_all(faults, given, folder):
    """Whether each fault is noticed; a fault is a name, a program and its environment."""
    tried, missed = 0, []
    for name, program, environment in faults:
        tried += 1
        if not is_noticed(program, given, folder, **environment):
            missed.append(name)
    for name in missed:
        print(f"selections: the fault is not noticed: {name}")
    print(f"selections: {tried} faults planted, {len(missed)} not noticed")
    return tried > 0 and not missed


def planted_faults(program, source):
    with open(source, encoding="ascii") as file:
        for name in re.findall(r"\bX\((\w+)\)", file.read()):
            yield name, program, {"FAULT": name}


def main(program, checker, planted, stand_in, compiler, *objects):
    given = [(data, expected(data, "PROGRAM", NAME)) for data in all_logs()]
    with tempfile.TemporaryDirectory() as folder:
        good = compare(program, checker, folder, given)
        given = in_other_order(given)
        good = notice_all(planted_faults(planted, stand_in), given, folder) and good
        changed = ((name, made, {}) for name, made in changed_programs(compiler, objects, folder))
        return notice_all(changed, given, folder) and good


sys.exit(0 if main(*sys.argv[1:]) else 1)
