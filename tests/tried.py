"""What the tests of programs' errors share: runs are counted, and said to be wrong where they are another than they have to be."""

import os
import sys
import tempfile

tried = 0
wrong = 0


def same(what, found, wanted):
    """Counts a run, and says so if it is another than it has to be."""
    global tried, wrong
    tried += 1
    if found != wanted:
        wrong += 1
        print(f"errors: {what}:\n  expected {wanted}\n  found    {found}")


def write(name, data):
    with open(name, "wb") as file:
        file.write(data)


def run_tests(*tests):
    """Runs the tests in an empty folder, and ends with status 1 if something was wrong or nothing was tried."""
    with tempfile.TemporaryDirectory() as work:
        os.chdir(work)
        for test in tests:
            test()
        os.chdir("/")
    print(f"errors: {tried} runs, {wrong} not as they must be")
    sys.exit(1 if wrong or not tried else 0)
