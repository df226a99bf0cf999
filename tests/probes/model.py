"""What fit_probes has to print, found by trying every offset; the files that it is given; and a run of it."""

import functools
import subprocess

OFFSETS = range(-1000, 1001)
# The longest that a run may take, in seconds. A good one takes well under a second, with a million lines too.
HANGS = 60


class Recording:
    """A file with its name and its activations, each a line's number, tick, bank and row."""

    def __init__(self, path, activations):
        """A line for each activation, behind one with a comment."""
        self.path = path
        self.activations = [(line, *activation) for line, activation in enumerate(activations, 2)]
        self.data = b"# tick bank row\n" + b"".join(b"%d %d %d\n" % activation for activation in activations)

    def dress(self, random):
        """Writes the same activations in other ways: comments, empty lines, tabs, zeros in front, other ends of lines."""
        lines, places = [b""] if random.random() < 0.2 else [], []
        for _, *numbers in self.activations:
            while random.random() < 0.3:
                lines.append(random.choice([b"", b"   ", b"\t", b"#", b"# 5 0 7", b" # \xff"]))
            words = [b"0" * random.choice([0, 0, 2]) + b"%d" % n for n in numbers]
            line = random.choice([b"", b" ", b"\t"]) + random.choice([b" ", b"\t", b"   "]).join(words)
            lines.append(line + random.choice([b"", b"", b" ", b"\t\t", b"#", b" # 9"]))
            places.append(len(lines))
        end = random.choice([b"\n", b"\n", b"\r\n"])
        self.data = random.choice([b"", b"", b"\xef\xbb\xbf"]) + end.join(lines) + random.choice([b"", end])
        self.activations = [(place, *rest) for place, (_, *rest) in zip(places, self.activations)]

    def write(self):
        with open(self.path, "wb") as file:
            file.write(self.data)

    def show(self, at):
        line, tick, bank, row = self.activations[at]
        return f"{self.path}:{line}: tick {tick}, bank {bank}, row {row}"

    def show_tick(self, at):
        line, tick, _, _ = self.activations[at]
        return f"{self.path}:{line} tick {tick}"


@functools.cache
def fitting(first, second, jitter):
    """All offsets that fit."""
    a, b = first.activations, second.activations
    if len(a) != len(b) or any(x[2:] != y[2:] for x, y in zip(a, b)):
        return []
    differences = {y[1] - x[1] for x, y in zip(a, b)}
    return [d for d in OFFSETS if all(abs(difference - d) <= jitter for difference in differences)]


def lengths(first, second):
    a, b = len(first.activations), len(second.activations)
    return f"{first.path} has {a} activation{'' if a == 1 else 's'}, {second.path} has {b}"


def apart(first, second, jitter):
    """The lines about lists that have the same banks and rows."""
    differences = [b[1] - a[1] for a, b in zip(first.activations, second.activations)]
    yield f"does not fit: no d from -1000 to 1000 is within jitter {jitter} of every difference, second tick minus first tick"
    least, greatest = min(differences), max(differences)
    for which, value in (("least", least), ("greatest", greatest)):
        at = differences.index(value)
        yield f"{which} difference {value}, pair {at + 1}: {first.show_tick(at)}, {second.show_tick(at)}"
    if greatest - least > 2 * jitter:
        yield f"the differences are {greatest - least} apart, and jitter {jitter} allows {2 * jitter}"
    if greatest > 1000 + jitter:
        yield f"the greatest less the jitter is {greatest - jitter}, and d is at most 1000"
    if least < -1000 - jitter:
        yield f"the least plus the jitter is {least + jitter}, and d is at least -1000"


def reason(first, second, jitter):
    """The lines that say why lists do not fit."""
    a, b = first.activations, second.activations
    for at, (x, y) in enumerate(zip(a, b)):
        if x[2:] != y[2:]:
            fields = " and ".join(name for name, p, q in (("bank", x[2], y[2]), ("row", x[3], y[3])) if p != q)
            shown = [f"does not fit: pair {at + 1} differs in its {fields}", first.show(at), second.show(at)]
            return shown + [lengths(first, second)] * (len(a) != len(b))
    if len(a) == len(b):
        return list(apart(first, second, jitter))
    longer = first.show(len(b)) if len(a) > len(b) else second.show(len(a))
    return [f"does not fit: {lengths(first, second)}", f"{longer} has no partner"]


def expected(first, second, jitter):
    """The status and the lines that the program has to end with and to print."""
    offsets = fitting(first, second, jitter)
    lines = [f"fits {offsets[0]}"] if offsets else reason(first, second, jitter)
    return (0 if offsets else 1), "".join(f"{line}\n" for line in lines)


def run(program, *words, **options):
    """The status of a run, and what it printed on standard output and on standard error."""
    done = subprocess.run([program, *words], capture_output=True, timeout=HANGS, **options)
    return done.returncode, done.stdout.decode("ascii", "backslashreplace"), done.stderr.decode("ascii", "backslashreplace")
