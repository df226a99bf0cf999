"""Gives fit_probes files and calls that are wrong, and files that are good in unusual ways.

    python3 -B tests/probes/errors.py PROGRAM

What is wrong has to be said on standard error, word for word, with the file and the line, and nothing on standard output. Ends with status
1 if something else is printed, or the status is another.
"""

import os
import pathlib
import subprocess
import sys

sys.path.insert(0, str(pathlib.Path(__file__).resolve().parent.parent))

from model import HANGS, run
from tried import run_tests, same, write

PROGRAM = sys.argv[1]
GOOD = b"5 0 7\n"
NUMBER = "is not a whole decimal number"
LARGE = "is 2^62 or more (refusal 18)"
USAGE = f"usage: {PROGRAM} [--jitter=J] FIRST SECOND\n"

# Lines that are wrong, and what is said of them.
LINES = [
    (b"x 0 7", f'the tick "x" {NUMBER}'),
    (b"5 x 7", f'the bank "x" {NUMBER}'),
    (b"5 0 x", f'the row "x" {NUMBER}'),
    (b"-5 0 7", f'the tick "-5" {NUMBER}'),
    (b"+5 0 7", f'the tick "+5" {NUMBER}'),
    (b"0x5 0 7", f'the tick "0x5" {NUMBER}'),
    (b"5.0 0 7", f'the tick "5.0" {NUMBER}'),
    (b"5e3 0 7", f'the tick "5e3" {NUMBER}'),
    (b"5/ 0 7", f'the tick "5/" {NUMBER}'),
    (b"5: 0 7", f'the tick "5:" {NUMBER}'),
    (b"5,0,7", f'the tick "5,0,7" {NUMBER}'),
    (b"5, 0, 7", f'the tick "5," {NUMBER}'),
    (b"1,000 0 7", f'the tick "1,000" {NUMBER}'),
    (b"5\v0 0 7", f'the tick "5?0" {NUMBER}'),
    (b"5\x7f 0 7", f'the tick "5?" {NUMBER}'),
    (b"5\x1b[2J 0 7", f'the tick "5?[2J" {NUMBER}'),
    (b"5\xc2\xa00 7 7", f'the tick "5??0" {NUMBER}'),
    (b'%s%n" 0 7', f'the tick "%s%n"" {NUMBER}'),
    (b"1" * 30 + b" 0 7", f'the tick "{"1" * 30}" {LARGE}'),
    (b"1" * 31 + b" 0 7", f'the tick "{"1" * 30}.." {LARGE}'),
    (b"9" * 40 + b"x 0 7", f'the tick "{"9" * 30}.." {NUMBER}'),
    (b"5", "the bank and the row are missing"),
    (b"5 # 0 7", "the bank and the row are missing"),
    (b"5 0", "the row is missing"),
    (b"5\t0 ", "the row is missing"),
    (b"5 0#7", "the row is missing"),
    (b"5 0 7 1", "more words than tick, bank and row"),
    (b"5 0 7 x # y", "more words than tick, bank and row"),
    (b"4611686018427387904 0 7", f'the tick "4611686018427387904" {LARGE}'),
    (b"4611686018427387905 0 7", f'the tick "4611686018427387905" {LARGE}'),
    (b"46116860184273879040 0 7", f'the tick "46116860184273879040" {LARGE}'),
    (b"18446744073709551615 0 7", f'the tick "18446744073709551615" {LARGE}'),
    (b"18446744073709551616 0 7", f'the tick "18446744073709551616" {LARGE}'),
    (b"18446744073709551621 0 7", f'the tick "18446744073709551621" {LARGE}'),
    (b"5 65536 7", 'the bank "65536" is above 65535'),
    (b"5 655360 7", 'the bank "655360" is above 65535'),
    (b"5 4294967296 7", 'the bank "4294967296" is above 65535'),
    (b"5 18446744073709551616 7", 'the bank "18446744073709551616" is above 65535'),
    (b"5 0 65536", 'the row "65536" is above 65535'),
    (b"5 0 655350", 'the row "655350" is above 65535'),
    (b"5 0 131072", 'the row "131072" is above 65535'),
    (b"5 0 18446744073709551623", 'the row "18446744073709551623" is above 65535'),
    (b"5 0 7\0", "a NUL byte: this is no text"),
    (b"5\0 0 7", "a NUL byte: this is no text"),
    (b"\0", "a NUL byte: this is no text"),
    (b"5 0 7 # \0", "a NUL byte: this is no text"),
    (b"5 0 7\r6 0 7", "a carriage return within the line"),
    (b"# tick\r5 0 7", "a carriage return within the line"),
    (b"5 0 7\r\r", "a carriage return within the line"),
    (b"#" + b"x" * 65535, "the line is longer than 65535 bytes"),
    (b" " * 70000 + b"5 0 7", "the line is longer than 65535 bytes"),
]

# What may stand before and behind a wrong line: the line it then is, and the bytes.
PLACES = [
    (1, b"", b""),
    (1, b"", b"\n"),
    (4, b"5 0 7\n\n# 5 0\n", b"\n5 0 x\n"),
    (3, b"5 0 7\r\n6 0 7\r\n", b"\r\n"),
    (20001, b"5 0 7\n" * 20000, b"\n" + b"5 0 7\n" * 20000),
]

# Files of an activation at tick 5 in bank 0, row 7, and of none.
ONE = [b"5 0 7", b"5 0 7\n", b"5 0 7\r\n", b"5 0 7\r", b"\xef\xbb\xbf5 0 7\n", b"\xef\xbb\xbf# x\n5 0 7\n", b"\n\n\t5\t0\t7\t\n\n", b"5 0 7#x",
       b"005 00000000000000000000000 7\n", b"0" * 65000 + b"5 0 7\n", b"5 0 7 # 6 0 8\n", b"#" + b"x" * 65534 + b"\n5 0 7", b" " * 65530 + b"5 0 7\n",
       b"5 0 7\n#" + b"x" * 65534, b"# caf\xc3\xa9 \x01\xff\n5 0 7\n"]
NONE = [b"", b"\n", b"\r\n", b"\r", b"# 5 0 7", b"# x\n\n \t\n#", b"\xef\xbb\xbf", b"\xef\xbb\xbf\r\n"]

# Wrong calls, and what is said of them.
CALLS = [
    ([], "two files are needed"),
    (["a"], "two files are needed"),
    (["--"], "two files are needed"),
    (["a", "b", "c"], "too many arguments"),
    (["--", "a", "b", "--help"], "too many arguments"),
    (["--unknown", "a", "b"], "unknown option --unknown"),
    (["-x"], "unknown option -x"),
    (["-j", "5", "a", "b"], "unknown option -j"),
    (["--help=yes"], "unknown option --help=yes"),
    (["--jitters=1", "a", "b"], "unknown option --jitters=1"),
    (["a", "b", "--jitter"], "--jitter needs a number"),
    (["--jitter=", "a", "b"], "--jitter needs a number"),
    (["--jitter", "", "a", "b"], "--jitter needs a number"),
    (["--jitter=x", "a", "b"], "the jitter is not a whole decimal number: x"),
    (["--jitter", "a", "b"], "the jitter is not a whole decimal number: a"),
    (["--jitter=-1", "a", "b"], "the jitter is not a whole decimal number: -1"),
    (["--jitter= 1", "a", "b"], "the jitter is not a whole decimal number:  1"),
    (["--jitter=1.5", "a", "b"], "the jitter is not a whole decimal number: 1.5"),
    (["--jitter=1,000", "a", "b"], "the jitter is not a whole decimal number: 1,000"),
    (["--jitter=1001", "a", "b"], "the jitter is above 1000 (refusal 18): 1001"),
    (["a", "b", "--jitter", "4294967297"], "the jitter is above 1000 (refusal 18): 4294967297"),
    (["--jitter=18446744073709551616", "a", "b"], "the jitter is above 1000 (refusal 18): 18446744073709551616"),
    (["--jitter=" + "9" * 99, "a", "b"], "the jitter is above 1000 (refusal 18): " + "9" * 99),
    (["-", "-"], "standard input can be one of the files, not both"),
]


def wrong_lines():
    """Each wrong line in two of the places, in the first file or in the second; where both are wrong the first is named."""
    write("good", GOOD)
    for number, (line, text) in enumerate(LINES):
        for place in (number % len(PLACES), (number + 2) % len(PLACES)):
            at, before, behind = PLACES[place]
            write("wrong", before + line + behind)
            files = [("wrong", "good"), ("good", "wrong"), ("wrong", "/none")][(number + place) % 3]
            same(f"{line[:80]!r} in place {place} of {files}", run(PROGRAM, *files), (3, "", f"{PROGRAM}: wrong:{at}: {text}\n"))
    # The mark of a UTF-8 file stands at its start and nowhere else.
    for data, line in ((b"\n\xef\xbb\xbf5 0 7", 2), (b"\xef\xbb\xbf\xef\xbb\xbf5 0 7", 1), (b" \xef\xbb\xbf5 0 7", 1)):
        write("wrong", data)
        same(f"{data}", run(PROGRAM, "wrong", "good"), (3, "", f'{PROGRAM}: wrong:{line}: the tick "???5" {NUMBER}\n'))


def good_files():
    """The ways to write one activation, and none."""
    for data in ONE:
        write("one", data)
        same(f"{data[:80]!r}", run(PROGRAM, "--jitter=3", "one", "good"), (0, "fits -3\n", ""))
    for data in NONE:
        write("none", data)
        same(f"{data!r}", run(PROGRAM, "none", "/dev/null"), (0, "fits -1000\n", ""))
        same(f"{data!r}", run(PROGRAM, "none", "good"),
             (1, "does not fit: none has 0 activations, good has 1\ngood:1: tick 5, bank 0, row 7 has no partner\n", ""))


def unreadable():
    """Files that cannot be opened or read."""
    os.mkdir("folder")
    for files, name, text in ((("/none/x", "good"), "/none/x", "No such file or directory"), (("good", ""), "", "No such file or directory"),
                              (("folder", "good"), "folder", "Is a directory"), (("good", "folder"), "folder", "Is a directory"),
                              (("/proc/self/mem", "good"), "/proc/self/mem", "Input/output error"),
                              (("good", "good/x"), "good/x", "Not a directory")):
        same(f"{files}", run(PROGRAM, *files), (3, "", f"{PROGRAM}: {name}: {text}\n"))
    closed = subprocess.run(["sh", "-c", '"$0" - good <&-', PROGRAM], capture_output=True, timeout=HANGS, text=True)
    same("standard input is closed", (closed.returncode, closed.stdout, closed.stderr),
         (3, "", f"{PROGRAM}: standard input: Bad file descriptor\n"))


def calls():
    """Wrong calls, and options in every place."""
    for words, text in CALLS:
        same(f"{words}", run(PROGRAM, *words), (2, "", f"{PROGRAM}: {text}\n{USAGE}"))
    write("--jitter=3", GOOD)
    write("-", b"")
    write("100%s.txt", b"9 0 7\n")
    for words, verdict in ((["good", "good"], "0"), (["--jitter", "4", "good", "good"], "-4"), (["good", "--jitter=4", "good"], "-4"),
                           (["good", "good", "--jitter=4"], "-4"), (["--jitter=9", "--jitter=1", "good", "good"], "-1"),
                           (["--jitter=1000", "good", "good"], "-1000"), (["--jitter=0999", "good", "good"], "-999"),
                           (["--", "--jitter=3", "good"], "0"), (["--jitter=2", "--", "--jitter=3", "good"], "-2"), (["./-", "./-"], "-1000"),
                           (["good", "100%s.txt"], "4")):
        same(f"{words}", run(PROGRAM, *words), (0, f"fits {verdict}\n", ""))
    for words in (["-", "good"], ["good", "-"], ["--", "good", "-"]):
        same(f"{words}", run(PROGRAM, *words, input=GOOD), (0, "fits 0\n", ""))
    same("a wrong line of standard input", run(PROGRAM, "good", "-", input=b"\n5"),
         (3, "", f"{PROGRAM}: standard input:2: the bank and the row are missing\n"))
    for words in (["--help"], ["-h"], ["good", "--help", "--unknown"]):
        status, output, errors = run(PROGRAM, *words)
        same(f"{words}", (status, output.startswith(USAGE + "\n"), "\nStatus: 0  " in output, errors), (0, True, True, ""))


def nowhere():
    """No place for the verdict, or for what is said of an error."""
    full = f"{PROGRAM}: standard output cannot be written\n"
    for words in ("good good", "good /dev/null", "--help"):
        for place in (">/dev/full", ">&-"):
            done = subprocess.run(["sh", "-c", f'"$0" {words} {place}', PROGRAM], capture_output=True, timeout=HANGS, text=True)
            same(f"{words} {place}", (done.returncode, done.stdout, done.stderr), (3, "", full))
    for words, status in (("good good", 0), ("good /dev/null", 1), ("good", 2), ("good /none/x", 3)):
        done = subprocess.run(["sh", "-c", f'"$0" {words} 2>&-', PROGRAM], capture_output=True, timeout=HANGS)
        same(f"{words} 2>&-", done.returncode, status)


run_tests(wrong_lines, good_files, unreadable, calls, nowhere)
