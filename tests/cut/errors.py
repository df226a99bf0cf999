"""Gives cut_log logs that cannot be read, outputs and new logs that cannot be written, and too little memory.

    python3 -B tests/cut/errors.py PROGRAM PLAIN

PLAIN is the program without sanitizers, for the runs in which memory is short. What is wrong has to be said on standard error, word for
word, with nothing on standard output. Ends with status 1 if something else is printed or left, or the status is another.
"""

import os
import pathlib
import resource
import stat
import subprocess
import sys

sys.path.insert(0, str(pathlib.Path(__file__).resolve().parent.parent))

from model import HANGS, expected, run
from tried import run_tests, same, write

PROGRAM, PLAIN = sys.argv[1:]
SAMPLES = pathlib.Path(__file__).resolve().parent.parent.parent / "samples"
LOG = (SAMPLES / "cut-five.log").read_bytes()
GOOD = expected(LOG, PROGRAM, "log")
MOST = 64 << 20
# Bytes of address space: enough to start the program and to read some of the log, and not for all of it.
LITTLE = 40 << 20


def says(text, program=PROGRAM):
    return 3, "", f"{program}: {text}\n"


def shell(words, **options):
    """A run by the shell, in which $0 is the program."""
    done = subprocess.run(["sh", "-c", words, PROGRAM], capture_output=True, timeout=HANGS, text=True, **options)
    return done.returncode, done.stdout, done.stderr


def read(name):
    with open(name, "rb") as file:
        return file.read()


def calls():
    """Wrong calls of the program, and names that are no formats."""
    for words in ([], ["a", "b", "c"]):
        same(f"{words}", run(PROGRAM, *words, input=LOG), says("it takes the log's name, and that of a new log or nothing"))
    same("a name with %", run(PROGRAM, "100%s%n", input=b""), (2, "", f"{PROGRAM}: 100%s%n: refused with 11: the log is empty\n"))


def unreadable():
    """Logs that cannot be read, are too long, or need more memory than there is."""
    same("a directory", shell('"$0" log <.'), says("log: cannot be read: Is a directory"))
    same("closed", shell('"$0" log <&-'), says("log: cannot be read: Bad file descriptor"))
    with open("long", "wb") as file:
        file.truncate(MOST)
    zeros = (2, "", f"{PLAIN}: log: refused with 1: the setting in block 0 is not accepted: setting or seeds out of range\n")
    with open("long", "r+b") as file:
        same("64 MiB of zeros", run(PLAIN, "log", stdin=file), zeros)
        file.seek(0)
        status, output, errors = run(PLAIN, "log", stdin=file, preexec_fn=lambda: resource.setrlimit(resource.RLIMIT_AS, (LITTLE, LITTLE)))
        start, _, rest = errors.partition(" after ")
        same("little memory", (status, output, start), (3, "", f"{PLAIN}: log: out of memory"))
        same("how much was read", 65536 <= int(rest.removesuffix(" bytes\n")) < LITTLE, True)
        file.seek(0)
        file.truncate(MOST + 1)
        same("64 MiB and a byte", run(PLAIN, "log", stdin=file), says("log: longer than 64 MiB, and is not read", PLAIN))
    same("no end", run(PLAIN, "log", stdin=open("/dev/zero", "rb")), says("log: longer than 64 MiB, and is not read", PLAIN))
    os.remove("long")
    # A log that comes in pieces.
    write("log", LOG)
    same("in pieces", shell('(head -c 700 log; sleep 0.1; tail -c +701 log) | "$0" log'), (0, GOOD.output, ""))


def nowhere():
    """No place for what is printed, or for what is said of an error."""
    for place in (">/dev/full", ">&-"):
        same(place, shell(f'"$0" log <log {place}'), says("standard output cannot be written"))
    for words, status in (('"$0" log <log', 0), ('"$0" log </dev/null', 2), ('"$0" log <.', 3)):
        same(f"{words} 2>&-", shell(f"{words} 2>&-")[::2], (status, ""))


def new_logs():
    """New logs that replace a file, keep its mode, follow a link, or go to a device."""
    os.mkdir("folder")
    os.umask(0o027)
    for name in ("new", "./folder/new", "n" * 255, "-", "folder/../new"):
        same(f"{name[:9]}", (run(PROGRAM, "log", name, input=LOG), read(name)), ((0, GOOD.output, ""), GOOD.new))
    same("the mode of a new file", stat.S_IMODE(os.stat("folder/new").st_mode), 0o640)
    write("old", b"x" * 9999)
    os.chmod("old", 0o604)
    os.symlink("old", "link")
    same("a link", (run(PROGRAM, "log", "link", input=LOG), read("old")), ((0, GOOD.output, ""), GOOD.new))
    same("the link and the mode", (os.path.islink("link"), stat.S_IMODE(os.stat("old").st_mode)), (True, 0o604))
    same("a device", run(PROGRAM, "log", "/dev/null", input=LOG), (0, GOOD.output, ""))
    same("a device stays one", stat.S_ISCHR(os.stat("/dev/null").st_mode), True)
    same("a pipe", shell('"$0" log /dev/fd/3 <log 3>&1 >out | cat >piped'), (0, "", ""))
    same("what went through the pipe", (read("piped"), read("out").decode()), (GOOD.new, GOOD.output))


def unwritable():
    """New logs that cannot be written leave nothing behind, and what was there as it was."""
    before = sorted(os.listdir(".")), sorted(os.listdir("folder"))
    for name, text in (("folder", "Is a directory"), ("none/new", "No such file or directory"), ("old/new", "Not a directory"),
                       ("", "No such file or directory"), ("folder/", "Is a directory"), ("/dev/full", "No space left on device"),
                       ("n" * 256, "File name too long")):
        same(f"{name[:9]}", run(PROGRAM, "log", name, input=LOG), says(f"{name}: cannot be written: {text}"))
    # Files of at most so many bytes can be written.
    few = {"preexec_fn": lambda: resource.setrlimit(resource.RLIMIT_FSIZE, (700, 700)), "restore_signals": False}
    for name in ("old", "fresh", "folder/fresh"):
        same(f"{name}, a short limit", run(PROGRAM, "log", name, input=LOG, **few), says(f"{name}: cannot be written: File too large"))
    for data, status in ((b"", 2), (LOG[:512], 2)):
        same(f"{len(data)} bytes", run(PROGRAM, "log", "old", input=data)[:2], (status, ""))
        same(f"{len(data)} bytes", run(PROGRAM, "log", "fresh", input=data)[:2], (status, ""))
    same("what is left", (sorted(os.listdir(".")), sorted(os.listdir("folder"))), before)
    same("the old file", read("old"), GOOD.new)


run_tests(calls, unreadable, nowhere, new_logs, unwritable)
