"""Plants a fault for each thing that check.py looks at, in a copy of the repository, and sees that it is found.

    python3 tests/docs/faults.py ROOT

The status is 1 where a fault is not found, or another one is reported.
"""

import re
import shutil
import subprocess
import sys
import tempfile
from pathlib import Path

ROOT = Path(sys.argv[1]).resolve()
CHECK = Path(__file__).with_name("check.py")
# Not copied: what is made, in target/ and in out/ of each crate.
MADE = {".git", "target", "out"}


def added(text):
    """The document with a paragraph at its end."""
    return lambda old: f"{old.rstrip()}\n\n{text}\n"


def replaced(pattern, new):
    """The file with the first match of a pattern replaced."""
    return lambda old: re.sub(pattern, new, old, count=1, flags=re.M)


# What is planted: a file, its change, and words of the line that reports it.
FAULTS = [
    ("README.md", added("[x](docs/none.md)"), "docs/none.md leads nowhere"),
    ("docs/log-format.md", added("[x](none.md)"), "none.md leads nowhere"),
    ("README.md", added("[x](docs/log-format.md#no-heading)"), "names no heading"),
    ("README.md", added("`docs/none.md`"), "there is no docs/none.md"),
    ("README.md", added("`doc/c-interface.md`"), "there is no doc/c-interface.md"),
    ("docs/architecture.md", added("`rules/specs/None.antt`"), "there is no rules/specs/None.antt"),
    ("docs/architecture.md", added("`None.antt`"), "there is no None.antt"),
    ("docs/gate.md", added("`rules/no_such_edit`"), "there is no rules/no_such_edit"),
    ("docs/changes/house.md", added("`rules/specs/None.antt`"), "there is no rules/specs/None.antt"),
    ("docs/architecture.md", added("`filter::none`"), "filter has no none"),
    ("docs/DECISIONS.md", added("`filter::count::none`"), "filter has no count::none"),
    ("CONTRIBUTING.md", added("`tests/none/`"), "there is no tests/none/"),
    ("README.md", added("`./no-command`"), "there is no ./no-command"),
    ("README.md", added("```sh\n./no-command 1\n```"), "there is no ./no-command, in:"),
    ("README.md", added("    ./check-log samples/none.log"), "there is no samples/none.log, in:"),
    ("docs/c-interface.md", added("`tools/staticlib none`"), "which is no crate"),
    ("docs/c-interface.md", added("`tools/staticlib throttle log none`"), "which is no crate"),
    ("docs/c-interface.md", added("`tools/staticlib throttle_c`"), "which is no crate"),
    ("docs/c-interface.md", added("`rt must-fail none`"), "which is no crate"),
    ("docs/c-interface.md", added("`rt staticlib throttle`"), "takes no crate"),
    ("docs/c-interface.md", added("`throttle_none(1)`"), "no header has throttle_none"),
    ("docs/what-is-proved.md", added("`NoSuchTheorem`"), "no specs file states NoSuchTheorem"),
    ("crates/assurances/specs/Claims.antt", lambda old: old.replace("WaitIsLater", "WaitIsLate"), "no specs file states WaitIsLater"),
    ("docs/what-is-proved.md", added("`no_such_function`"), "no_such_function is neither"),
    ("docs/reading-demand-3.md", added("`NoSuchName`"), "no source has NoSuchName"),
    ("README.md", added("x" * 141), "141 characters"),
    ("README.md", added("| " + "x" * 139), "141 characters"),
    ("CONTRIBUTING.md", added("x" * 141), "141 characters"),
    ("docs/log-format.md", added("x" * 161), "161 characters"),
    ("docs/changes/shape.md", added("- " + "x" * 159), "161 characters"),
    ("CHANGELOG.md", replaced(r"^## ", "## 9.9.9\n\n## "), "the versions differ"),
    ("include/throttle_version.h", replaced(r'THROTTLE_VERSION ".*"', 'THROTTLE_VERSION "9.9.9"'), "the versions differ"),
    ("include/throttle_version.h", replaced(r"MINOR \d+", "MINOR 99"), "the versions differ"),
    ("README.md", replaced(r"^records \d+$", "records 99"), "the report shown of"),
    ("README.md", replaced(r"^\$ \./check-log .*$", "$ ./check-log samples/controller.log"), "is not samples/controller.expected"),
    ("README.md", replaced(r"^\$ \./check-log .*$", ""), "there are no reports to look at"),
    ("docs/cut-log.md", replaced(r"wait until 440$", "wait until 441"), "is not samples/cut-five.cut"),
    ("docs/cut-log.md", replaced(r"^\$ \./cut-log .*$", "$ ./cut-log samples/cut-one.log"), "is not samples/cut-one.cut"),
    ("README.md", added("It takes 7 min 77 s."), "7 min 77 s is no time"),
]

# What the checks must let pass.
GOOD = [
    ("docs/log-format.md", added("| " + "x" * 200)),
    ("docs/log-format.md", added("```\n" + "x" * 200 + " / 1\n```")),
    ("README.md", added("x" * 140)),
    ("docs/log-format.md", added("x" * 160)),
    ("CONTRIBUTING.md", added("`crates/NAME/must-fail/LABEL.edit`, `target/none.a`, `rt dev NAME`")),
]


def check(root):
    """The status of the checks and what they print."""
    done = subprocess.run([sys.executable, "-B", CHECK, root], capture_output=True, text=True)
    return done.returncode, done.stdout + done.stderr


def plant(root, name, change):
    """Checks the copy with one file changed."""
    old = (root / name).read_text(encoding="utf-8")
    new = change(old)
    if new == old:
        return 0, f"the change of {name} changes nothing\n"
    (root / name).write_text(new, encoding="utf-8")
    result = check(root)
    (root / name).write_text(old, encoding="utf-8")
    return result


def main():
    wrong = 0
    with tempfile.TemporaryDirectory() as work:
        root = Path(work)
        for part in (p for p in ROOT.iterdir() if p.name not in MADE):
            if part.is_dir():
                shutil.copytree(part, root / part.name, ignore=lambda folder, names: MADE & set(names))
            else:
                shutil.copy(part, root / part.name)
        for name, change in [("README.md", added("A plain sentence.")), *GOOD]:
            status, output = plant(root, name, change)
            if status != 0 or "changes nothing" in output:
                wrong += 1
                print(f"docs: a good change of {name} is reported:\n{output}")
        for name, change, words in FAULTS:
            status, output = plant(root, name, change)
            found = [line for line in output.split("\n")[:-2] if words in line]
            if status != 1 or len(found) != 1 or "; 1 faults" not in output:
                wrong += 1
                print(f"docs: a fault in {name} is not found, or not it alone ({words}):\n{output}")
    print(f"docs: {len(FAULTS)} faults planted, {wrong} not seen as they must be")
    return wrong != 0


sys.exit(main())
