"""Checks the documents of a repository: what they name exists, what they quote is so, and no line is too long.

    python3 tests/docs/check.py ROOT

Prints a line for each fault, and the counts of what was looked at. The status is 1 where there is a fault, or where a check had nothing to
look at. `CHECKS` at the end lists the checks.
"""

import os
import re
import sys
from pathlib import Path

ROOT = Path(sys.argv[1]).resolve()
# The most characters of a line; tables and code may have more, but not in README.md.
LINE = {"README.md": 140, "CHANGELOG.md": 140, "CONTRIBUTING.md": 140}
DOCS_LINE = 160
ENDINGS = {".md", ".h", ".c", ".rs", ".py", ".rt", ".antt", ".txt", ".log", ".expected", ".cut", ".trace", ".edit"}
# Documents name what is built, and these are not files of the repository: target/ at the top, and out/ of a crate.
MADE = {"target", "out"}
# The document whose names are those of theorems.
PROVED = "docs/what-is-proved.md"

faults = []
looked = {}


def fault(text):
    faults.append(text)


def count(check, n=1):
    looked[check] = looked.get(check, 0) + n


def read(path):
    return (ROOT / path).read_text(encoding="utf-8")


class Document:
    """A document: its lines, each with whether it is text, a table or code, and the code spans and links of its text."""

    def __init__(self, path):
        self.path = path
        self.lines = []
        fence = False
        before = ""
        for line in read(path).split("\n"):
            bare = line.lstrip()
            if bare.startswith("```"):
                fence = not fence
                kind = "code"
            elif fence:
                kind = "code"
            elif line.startswith("    ") and (before == "" or self.lines[-1][0] == "code"):
                kind = "code"
            elif bare.startswith("|"):
                kind = "table"
            else:
                kind = "text"
            self.lines.append((kind, line))
            before = bare
        self.text = "\n".join("" if kind == "code" else line for kind, line in self.lines)
        self.spans = [" ".join(span.split()) for span in re.findall(r"`([^`]+)`", self.text)]
        self.links = re.findall(r"\]\(([^)\s]+)\)", self.text)
        self.code = [line.strip() for kind, line in self.lines if kind == "code"]

    def anchors(self):
        """The anchors of the headings, as they are made from their words."""
        heads = [line.lstrip("#").strip() for kind, line in self.lines if kind == "text" and line.startswith("#")]
        return {re.sub(r"[^\w\- ]", "", head.lower()).replace(" ", "-") for head in heads}


def documents():
    paths = [p for p in ("README.md", "CHANGELOG.md", "CONTRIBUTING.md")]
    paths += sorted(str(p.relative_to(ROOT)) for p in (ROOT / "docs").rglob("*.md"))
    return [Document(p) for p in paths]


DOCUMENTS = documents()
# Notes on changes, which name what was before; docs/changes/house.md says where each crate of the older ones is now.
PAST = {f"docs/changes/{name}.md" for name in "a b cost crates d e f g i k m shape statements".split()} | {"docs/PORT.md", "docs/DESIGN-PASS.md"}
# The place of each former crate, as CRATE or CRATE::MODULE, by the table of docs/changes/house.md.
FORMER = {}
for cells in (line.strip("| ").split("|") for line in read("docs/changes/house.md").split("\n") if line.startswith("| `")):
    FORMER.update((a.strip(" `"), b.strip(" `")) for a, b in zip(cells[::2], cells[1::2]) if "`" in a)
# Places in that table that 3.5.1 had as modules in src/ and 3.5.2 has not.
GONE = {"history::clearing", "plan_rules::spans"}
# A crate's line of crates.txt, as NAME: DEPENDENCIES or NAME staticlib: DEPENDENCIES; the static library NAME_c has the archive libNAME.a.
LISTED = [line.split(":")[0].split() for line in read("crates.txt").split("\n") if ":" in line and not line.startswith("#")]
CRATES = {words[0] for words in LISTED}
ARCHIVES = {words[0].removesuffix("_c") for words in LISTED if "staticlib" in words[1:]}
TOP = {p.name for p in ROOT.iterdir()} - MADE - {".git"}


def files(top):
    """The files of a folder, without what rt made in it."""
    if top.is_file():
        return [top]
    found = []
    for at, folders, names in os.walk(top):
        folders[:] = [name for name in folders if name not in MADE]
        found += [Path(at) / name for name in names]
    return sorted(found)


FILES = [p for top in sorted(TOP) for p in files(ROOT / top)]
NAMES = {p.name for p in FILES}
# Words of a path that stand for any name.
ANY = re.compile(r"\b(NAME|LABEL|LETTER|MODULE)\b")


def links():
    """Every relative link leads to a file, and to a heading of it where it names one."""
    for document in DOCUMENTS:
        for link in document.links:
            if re.match(r"[a-z]+:", link):
                continue
            count("links")
            path, _, anchor = link.partition("#")
            target = (ROOT / document.path).parent / path if path else ROOT / document.path
            if not target.exists():
                fault(f"{document.path}: the link {link} leads nowhere")
            elif anchor and anchor not in Document(target.resolve().relative_to(ROOT)).anchors():
                fault(f"{document.path}: the link {link} names no heading")


def exists(word, folder):
    """Whether a path is there: below the root, below crates/, within a crate or beside the document. CRATE/LABEL is an edit."""
    pattern = ANY.sub("*", word.removeprefix("./").strip("/"))
    within = [f"crates/*/{pattern}"]
    if pattern.count("/") == 1:
        within.append(f"crates/{pattern.replace('/', '/must-fail/')}.edit")
    return any(any(base.glob(pattern)) for base in (ROOT, ROOT / "crates", folder)) or any(any(ROOT.glob(w)) for w in within)


def was(word):
    """Whether a path of a note on a past change stands in the place where its former crate is now."""
    found = re.match(r"(?:crates/)?(\w+)/(specs|src|proofs|must-fail)/(.+)", word)
    if not found or found[1] not in FORMER:
        return False
    crate, *module = FORMER[found[1]].split("::")
    places = [Path("crates", crate, found[2], *middle, found[3]) for middle in ([], module)]
    if found[2] == "src" and found[3] == "lib.rt" and module:
        places.append(Path("crates", crate, "src", module[0] + ".rt"))
    return any((ROOT / place).exists() for place in places)


def looks_like_path(word):
    """Whether a word of a code span looks like a file or folder of the repository."""
    first = word.removeprefix("./").split("/")[0]
    if MADE & set(word.split("/")) or not re.fullmatch(r"[\w./*-]*\w[\w./*-]*", word):
        return False
    if word.startswith("./"):
        return True
    if "/" in word.rstrip("/"):
        return first in TOP or first in CRATES or word.endswith("/") or Path(word).suffix in ENDINGS
    return word.endswith("/") or Path(word).suffix in ENDINGS and not word.startswith((".", "*"))


def paths():
    """Every path in a code span, and in a line of code that is a command, exists; in a note on a past change also where it is now."""
    for document in (d for d in DOCUMENTS if d.path not in ("docs/PORT.md", "docs/DESIGN-PASS.md")):
        folder = (ROOT / document.path).parent
        past = document.path in PAST
        for span in document.spans:
            for word in (w.rstrip(",;:.") for w in span.split()):
                if not looks_like_path(word):
                    continue
                count("paths")
                if not exists(word, folder) and word not in NAMES and not (past and was(word)):
                    fault(f"{document.path}: there is no {word}")
        made = set(re.findall(r"-o (\S+)", "\n".join(document.code)))
        for line in document.code:
            for word in line.split():
                if "/" not in word or word.removeprefix("./") in made or not looks_like_path(word):
                    continue
                count("paths")
                if not exists(word, folder) and not (past and was(word)):
                    fault(f"{document.path}: there is no {word}, in: {line}")


def crates():
    """Every crate that a command names is listed, and what stands behind `CRATE::` is a module, a function or a type of it. Most commands of rt
    take no crate, but work in its folder."""
    within = {crate: set() for crate in CRATES}
    for path in (ROOT / "crates").glob("*/src/**/*.rt"):
        crate = path.relative_to(ROOT / "crates").parts[0]
        text = path.read_text(encoding="utf-8")
        used = " ".join(re.findall(r"\buse [\w:]*::\{([^}]*)\}", text))
        named = re.findall(r"\b(?:fn|struct|enum|use [\w:]*::) ?(\w+)", text)
        within.setdefault(crate, set()).update({path.stem, *named, *re.findall(r"\w+", used)})
    for document in (d for d in DOCUMENTS if d.path not in PAST):
        for text in document.spans + document.code:
            for command, words in re.findall(r"(\brt (?:ci|must-fail)|tools/staticlib)((?: [a-z_]+\b)+)", text):
                for name in words.split():
                    count("crates")
                    if name not in (CRATES if command.startswith("rt") else ARCHIVES):
                        fault(f"{document.path}: {command} is given {name}, which is no crate")
            for verb, name in re.findall(r"\brt (check|dev|staticlib|lib|run|test|try|fmt|tidy|goals) ([a-z_]+)\b", text):
                count("crates")
                fault(f"{document.path}: rt {verb} is given {name}, and takes no crate")
        for crate, rest in re.findall(r"\b([a-z_]+)::([\w:]+)", " ".join(document.spans)):
            if document.path == "docs/changes/house.md" and f"{crate}::{rest}" in GONE:
                continue
            count("modules", crate in CRATES)
            if crate in CRATES and not set(rest.split("::")) <= within[crate]:
                fault(f"{document.path}: {crate} has no {rest}")


def c_names():
    """Every name of C that a code span has is in a header."""
    declared = set(re.findall(r"\b(?:throttle|THROTTLE)_\w+", "\n".join(read(p) for p in (ROOT / "include").glob("*.h"))))
    files = {p.stem for p in (ROOT / "include").glob("*.h")}
    for document in DOCUMENTS:
        for span in document.spans:
            for name in re.findall(r"\b(?:throttle|THROTTLE)_\w+", span):
                count("C names")
                if name not in declared | files | CRATES:
                    fault(f"{document.path}: no header has {name}")


def theorems():
    """Every name in docs/what-is-proved.md is one of a specs file, or, if it has no capital, a crate, a function or a name of C."""
    sources = sorted((ROOT / "crates").glob("*/specs/**/*.antt"))
    stated = set(re.findall(r"^\s*(?:\w+ )?pub (?:record |data )?([\w'-]+)", "\n".join(map(read, sources)), re.M))
    code = "\n".join(map(read, sorted((ROOT / "crates").glob("*/src/**/*.rt"))))
    functions = set(re.findall(r"\bfn (\w+)", code))
    words = {"ensures", "requires", "rt"}
    for document in DOCUMENTS:
        if document.path != PROVED:
            continue
        for name in (s for s in document.spans if re.fullmatch(r"[A-Za-z]\w*", s)):
            if re.search(r"[A-Z]", name):
                count("theorems")
                if name not in stated:
                    fault(f"{PROVED}: no specs file states {name}")
            elif name in stated:
                count("theorems")
            elif name not in functions | CRATES | words:
                fault(f"{PROVED}: {name} is neither a crate nor a function, and no specs file states it")


def names():
    """Every name of several words in the other documents, but those on past changes, is a word or a file of the sources."""
    sources = [p for p in FILES if p.suffix in {".rt", ".antt", ".h", ".c", ".rs"}]
    known = set(re.findall(r"\w+", "\n".join(map(read, sources)))) | {p.stem for p in sources}
    for document in DOCUMENTS:
        if document.path == PROVED or document.path in PAST or document.path.startswith("docs/changes/"):
            continue
        for name in (s for s in document.spans if re.fullmatch(r"(?=\w*[a-z])(?=\w*[A-Z])[A-Za-z]\w*|[a-z]+(_\w+)+", s)):
            count("names")
            # The toolchain's own names begin with rattle_.
            if name not in known and not ANY.fullmatch(name) and not name.startswith("rattle_"):
                fault(f"{document.path}: no source has {name}")


def lines():
    """No line is too long."""
    for document in DOCUMENTS:
        most = LINE.get(document.path, DOCS_LINE)
        for number, (kind, line) in enumerate(document.lines, 1):
            count("lines")
            if len(line) > most and (document.path == "README.md" or kind == "text"):
                fault(f"{document.path}:{number}: {len(line)} characters, of at most {most}")


def version():
    """The newest entry of the changes, the version of the header and its three numbers are the same."""
    header = read("include/throttle_version.h")
    text = re.search(r'THROTTLE_VERSION "([^"]*)"', header)
    numbers = re.findall(r"THROTTLE_VERSION_(?:MAJOR|MINOR|PATCH) (\d+)", header)
    newest = re.search(r"^## (\S+)", read("CHANGELOG.md"), re.M)
    if not text or not newest or len(numbers) != 3:
        fault("the version is not found in include/throttle_version.h or CHANGELOG.md")
        return
    count("versions", 3)
    if not newest[1] == text[1] == ".".join(numbers):
        fault(f"the versions differ: CHANGELOG.md {newest[1]}, throttle_version.h {text[1]} and {'.'.join(numbers)}")


def reports():
    """What a document shows after '$ ./check-log LOG' or '$ ./cut-log LOG' is what stands beside that log. README.md has a report."""
    endings = {"check": "expected", "cut": "cut"}
    for document in DOCUMENTS:
        for at, line in enumerate(document.code):
            asked = re.fullmatch(r"\$ \./(check|cut)-log (samples/\S+)\.log", line)
            if not asked:
                continue
            count("reports", document.path == "README.md")
            shown = []
            for printed in document.code[at + 1 :]:
                if not printed or printed.startswith(("$", "```")):
                    break
                shown.append(printed)
            expected = Path(f"{asked[2]}.{endings[asked[1]]}")
            if not (ROOT / expected).exists() or read(expected) != "".join(f"{s}\n" for s in shown):
                fault(f"{document.path}: the report shown of {asked[2]}.log is not {expected}")


def times():
    """Every time that README.md states is one of docs/gate.md."""
    gate = " ".join(read("docs/gate.md").split())
    text = " ".join(DOCUMENTS[0].text.split())
    for time in re.findall(r"\b\d[\d.]* (?:min(?: \d+ s)?|minutes|hours)\b", text):
        count("times")
        if not re.search(rf"(?<![\d.]){re.escape(time)}(?!\w)", gate):
            fault(f"README.md: {time} is no time of docs/gate.md")


CHECKS = [links, paths, crates, c_names, theorems, names, lines, version, reports, times]
WANTED = ["links", "paths", "crates", "modules", "C names", "theorems", "names", "lines", "versions", "reports", "times"]

for check in CHECKS:
    check()
for name in WANTED:
    if not looked.get(name):
        fault(f"there are no {name} to look at")
for text in faults:
    print(f"docs: {text}")
print("docs: " + ", ".join(f"{looked.get(name, 0)} {name}" for name in WANTED) + f"; {len(faults)} faults")
sys.exit(bool(faults))
