#!/usr/bin/env python3
"""Spells the repository's own definitions, lemmas and fields in snake case, after port.py has run.

usage: tools/port-names.py [FOLDER] [--dry]

A name that specs/ or proofs/ declare and that begins with a small letter gets '_' for '-' and before each capital:
nextPlace becomes next_place, thread-in thread_in. Types keep their spelling. What a function's proof generates (below
'tie.' and 'c.') is left alone. Sources of Rust are changed in their clauses alone, where such names are cited; edits in
must-fail/ and close-misses/, and names between backticks in README.md and docs/, follow. Names that would fall together,
or meet another of a file, are printed, and get a word more by the table APART below.
"""
import collections
import os
import re
import sys

# Lemmas whose plain spelling is that of a definition: filled by main.
APART = {}
TOKEN = r"[^\s(){}\[\].;,@\"«»`:]+"
DECL = re.compile(r"^( *)((?:abbrev |opaque |unfoldable |pub |instance )*)((?:record |data ) *)?([^\s:(){},.=|]+)((?: [^=:\n]*)?)\s*:(?:\s|$)(.*)", re.M)


def spelled(name):
    if name in APART:
        return APART[name]
    out = re.sub(r"getD(?=-|$)", "get_or", name)
    out = re.sub(r"(?<=[a-z0-9'])([A-Z])|(?<=[A-Z])([A-Z])", lambda m: "_" + m[0].lower(), out)
    return out.replace("-", "_").lower() if out[:1].islower() else out.replace("-", "_")


def wanted(n):
    return re.match(r"[a-z]", n) and ("-" in n or re.search(r"[A-Z]", n)) and re.fullmatch(r"[\w'-]+", n)


def files(root, *ends):
    for base, dirs, names in os.walk(os.path.join(root, "crates")):
        dirs[:] = sorted(d for d in dirs if d not in ("out", "target"))
        for f in sorted(names):
            if f.endswith(ends):
                yield os.path.join(base, f)


def read(p):
    with open(p, encoding="utf-8") as f:
        return f.read()


def write(p, t):
    with open(p, "w", encoding="utf-8") as f:
        f.write(t)


def declared(root):
    """The names to be spelled anew: definitions and lemmas, and fields; and every name that stands at the top or in a module."""
    names, fields, plain = set(), set(), set()
    for p in files(root, ".antt"):
        in_proof = p.endswith("/Proof.antt")
        blocks = []
        for line in read(p).split("\n"):
            if not line.strip() or line.lstrip().startswith("--"):
                continue
            indent = len(line) - len(line.lstrip())
            while blocks and blocks[-1][0] >= indent:
                blocks.pop()
            head = re.match(r" *(?:(?:pub|abbrev|unfoldable|opaque) )*(record|data|module)\b", line)
            inside = blocks[-1][1] if blocks else "module"
            m = DECL.match(line)
            several = re.match(r" +(?:pub )?((?:[a-z][\w'-]* )+): ", line)
            if inside in ("data", "record") and several:
                (names if inside == "data" else fields).update(n for n in several[1].split() if wanted(n) and n != "pub")
            elif m and m[4] not in ("use", "mod", "open", "module", "let") and not (head and head[1] == "module"):
                n = m[4]
                made = in_proof and (m[6].startswith("tie.Need") or n.endswith(("-spec", "_spec")) or re.match(r"(invariant|decreases)-", n))
                if not made:
                    if inside == "module" and not head:
                        plain.add((n, p))
                    if wanted(n):
                        (names if inside == "module" else fields).add(n)
            if head and (head[1] == "module" or "where" in line or head[1] in ("record", "data")):
                blocks.append((indent, head[1]))
    return names, fields, plain


def code(t):
    """Pieces of an antt text: (is comment, text)."""
    for line in re.split(r"(?<=\n)", t):
        i = line.find("--")
        while i > 0 and not line[i - 1].isspace():
            i = line.find("--", i + 2)
        if i >= 0 and (i == 0 or line[i - 1].isspace()):
            yield False, line[:i]
            yield True, line[i:]
        else:
            yield False, line


def turn(text, names, fields, rust, seen):
    def one(m):
        n, dotted = m[0], m.start() > 0 and text[m.start() - 1] == "."
        if dotted:
            before = re.search(r"[\w.'-]*\.$", text[: m.start()])[0]
            of_module = re.match(r"Rattle\.|[A-Z]\w*\.$", before) is not None
            if n in APART and not of_module:
                return n
            if of_module and n in names | fields:
                return spelled(n)
            if n in fields and not ("-" in n and n.replace("-", "_") in rust):
                return spelled(n)
            return n
        if n in APART and n not in fields and "-" not in n and text[m.end() :].lstrip()[:2].startswith("= ") and APART[n] != n:
            return n
        if n in names or n in fields:
            return spelled(n)
        return n

    return re.sub(TOKEN, one, text)


def main(argv):
    dry = "--dry" in argv
    argv = [a for a in argv if a != "--dry"]
    root = argv[0] if argv else "."
    names, fields, plain = declared(root)
    rust = set()
    for p in files(root, ".rt"):
        rust |= set(re.findall(r"\b[a-z]\w*\b", read(p)))
    # A lemma that would have its definition's name gets '_lem'.
    made = collections.defaultdict(set)
    for n in names:
        made[spelled(n)].add(n)
    there = {n for n, p in plain}
    for new, olds in made.items():
        camel = [n for n in olds if "-" not in n]
        if len(olds) > 1 and len(camel) == 1:
            APART.update({n: new + "_lem" for n in olds - set(camel)})
        if new in there and camel:
            APART[new] = new + "_lem"
            names.add(new)
        elif new in there:
            APART.update({n: new + "_lem" for n in olds})
    both = names | fields
    by = collections.defaultdict(set)
    for n in both:
        by[spelled(n)].add(n)
    tokens = {p: set(re.findall(TOKEN, "".join(x for c, x in code(read(p)) if not c))) for p in files(root, ".antt", ".rt")}
    for new, olds in sorted(by.items()):
        if len(olds) > 1:
            print("together:", new, sorted(olds))
        for p, ts in tokens.items():
            if new in ts and ts & olds:
                print("meets:", new, sorted(ts & olds), os.path.relpath(p, root))
    for n in sorted(fields):
        if "-" in n and n.replace("-", "_") in rust:
            print("field like a name of the source:", n)
    print(len(names), "names,", len(fields), "fields")
    if dry:
        return 0
    for p in files(root, ".antt"):
        t = read(p)
        out = []
        for comment, x in code(t):
            if comment:
                out.append(re.sub(r"`([^`]+)`", lambda m: "`" + (spelled(m[1]) if m[1] in both else m[1]) + "`", x))
            else:
                out.append(turn(x, names, fields, rust, None))
        new = "".join(out)
        if new != t:
            write(p, new)
    camel = {n for n in both if "-" not in n}
    sub = lambda t: re.sub(r"(?<![\w'-])[a-z]\w*(?![\w'])", lambda m: spelled(m[0]) if m[0] in camel else m[0], t)  # noqa: E731
    for p in files(root, ".rt"):
        t = read(p)
        out = []
        for line in re.split(r"(?<=\n)", t):
            i = line.find("//")
            out.append(line if i == 0 or (i > 0 and not line[:i].strip()) else sub(line))
            if out[-1] is line:
                out[-1] = re.sub(r"`([^`]+)`", lambda m: "`" + (spelled(m[1]) if m[1] in both else m[1]) + "`", line)
        new = "".join(out)
        if new != t:
            write(p, new)
    for p in files(root, ".edit"):
        t = read(p)
        out = []
        for line in re.split(r"(?<=\n)", t):
            if line.startswith(("old:", "new:")):
                out.append(line[:4] + turn(line[4:], names, fields, rust, None))
            else:
                out.append(line)
        new = "".join(out)
        if new != t:
            write(p, new)
    pages = [os.path.join(root, "README.md"), os.path.join(root, "CONTRIBUTING.md")]
    for base, dirs, fs in os.walk(os.path.join(root, "docs")):
        dirs[:] = [d for d in dirs if d != "changes"]
        pages += [os.path.join(base, f) for f in fs if f.endswith(".md")]
    for p in pages:
        if os.path.isfile(p):
            t = read(p)
            new = re.sub(r"`([^`\n]+)`", lambda m: "`" + sub(m[1]) + "`", t)
            if new != t:
                write(p, new)
    return 0


if __name__ == "__main__":
    sys.exit(main(sys.argv[1:]))
