#!/usr/bin/env python3
"""Writes the corpus of logs on which checkers are compared.

    make_corpus.py DIRECTORY LOG_MAKER

DIRECTORY gets a file for each log, NAME.log; logs that were there are removed. LOG_MAKER is the
program second_log of tests/second, which writes faithful logs. The files are the same for each
run. What a checker has to report is decided here only of the logs about the profile mark, about the
hash by bytes and about the limits of the old width: their reports stand beside them, NAME.expected.
"""

import pathlib
import subprocess
import sys

sys.dont_write_bytecode = True

import damaged
import hash_bytes
import in_flight
import layout
import old_limits
import profile_mark
import records
import rounding
import settings
from blocks import S, log
from records import four

# Settings of the faithful logs: a small one with several banks and threads, one of a real chip, and
# ones with the least window, the most banks, threads and history places.
SEVERAL = (400, 3, 16, 4, 32, 40, 4, 3, 4)
CHIP = (256_000_000, 185, 140, 512, 67_747, 4_800, 5, 16, 8)
LEAST = (4, 1, 1, 1, 2, 3, 1, 1, 1)
MOST = (6_000, 1, 1, 2, 1_024, 20, 255, 16, 32)
BLACKLISTING = (2_000, 2, 7, 3, 90, 60, 6, 2, 2)


class Corpus:
    """A directory of logs with different names."""

    def __init__(self, directory, maker):
        self.directory = pathlib.Path(directory)
        self.maker = maker
        self.names = set()
        self.directory.mkdir(parents=True, exist_ok=True)
        for old in [*self.directory.glob("*.log"), *self.directory.glob("*.expected")]:
            old.unlink()

    def add(self, name, data, report=None):
        """Adds a log, and the report that it must get if that is given."""
        if name in self.names:
            raise ValueError(f"two logs have the name {name}")
        self.names.add(name)
        (self.directory / f"{name}.log").write_bytes(data)
        if report is not None:
            (self.directory / f"{name}.expected").write_text(report, encoding="ascii")

    def faithful(self, style, seed, count, first, setting, keys=0, more=()):
        """A log in which every record is the rules' own answer, or that of an old rule which `more` names; see LOG_MAKER.

        A tenth number of the setting is its profile mark.
        """
        words = [self.maker, style, *(str(x) for x in (seed, count, first, keys, *setting)), *more]
        return subprocess.run(words, check=True, stdout=subprocess.PIPE).stdout

    def with_old_rule(self, name, seed, setting, keys, rule):
        """A log made by the rules and one with an old rule, whose name ends with the rule."""
        for ending, more in (("", ()), (f"-{rule}", (rule,))):
            self.add(name + ending, self.faithful("random", seed, 300, 0, setting, keys, more))


def samples(corpus):
    corpus.add("sample-four", log(four()))
    corpus.add("sample-block-0-alone", log([]))
    corpus.add("sample-wait-8", log(four(wait=8)))
    corpus.add("sample-empty", b"")


def faithful(corpus):
    """Faithful logs; those that the other groups damage are handed back."""
    for count in (1, 2, 19, 20, 21, 39, 40, 41, 60):
        corpus.add(f"faithful-{count}-records", corpus.faithful("random", count, count, 0, S))
    styles = {"small": S, "several": SEVERAL, "least": LEAST, "most": MOST, "blacklisting": BLACKLISTING}
    for name, setting in styles.items():
        for seed in (1, 2):
            corpus.add(f"faithful-{name}-{seed}", corpus.faithful("random", seed, 2_000, 0, setting))
    for keys in (1, 2, 4, 8, 32):
        shared = corpus.faithful("random", keys, 1_000, 0, BLACKLISTING, keys)
        corpus.add(f"faithful-shared-counters-{keys}", shared)
    corpus.add("faithful-chip-random", corpus.faithful("random", 3, 600, 0, CHIP))
    corpus.add("faithful-chip", corpus.faithful("controller", 4, 4_000, 0, CHIP))
    for before in (1, 5, 30, 500):
        late = corpus.faithful("random", before, 60, 2 ** 62 - before, SEVERAL)
        corpus.add(f"faithful-late-{before}", late)
    return {
        "small": corpus.faithful("random", 11, 70, 0, S),
        "several": corpus.faithful("random", 12, 100, 0, SEVERAL),
        "blacklisting": corpus.faithful("random", 13, 130, 0, BLACKLISTING),
        "late": corpus.faithful("random", 14, 60, 2 ** 62 - 9, SEVERAL),
    }


def main():
    if len(sys.argv) != 3:
        sys.exit(__doc__)
    corpus = Corpus(sys.argv[1], sys.argv[2])
    samples(corpus)
    bases = faithful(corpus)
    settings.add_to(corpus)
    records.add_to(corpus, bases)
    rounding.add_to(corpus)
    in_flight.add_to(corpus)
    profile_mark.add_to(corpus, {"several": SEVERAL, "blacklisting": BLACKLISTING}, {"chip": CHIP, "most": MOST})
    hash_bytes.add_to(corpus)
    old_limits.add_to(corpus)
    layout.add_to(corpus, log(four()))
    damaged.add_to(corpus, {"four": log(four()), **bases})
    print(f"{len(corpus.names)} logs in {corpus.directory}")


if __name__ == "__main__":
    main()
