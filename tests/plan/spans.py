"""Compares what plan-settings --spans prints with the formula of request m, computed in whole numbers, for many spans of
several settings.
    python3 -B tests/plan/spans.py COMMAND
COMMAND is ./plan-settings or another that prints the same. Ends with status 1 if a line is another than the formula's, or if
the spans do not tell the formula from one that is planted wrong.
"""
import subprocess
import sys

# The most spans in one call, and the greatest that the program takes.
MANY = 400
GREATEST = 999999999999999999

# W, tRC, tFAW, L, N, tD: setting S; BlockHammer's timing with N 4,096; N x tRC just below W/2, so that the second form
# holds again after an epoch; the greatest numbers; a long history.
SETTINGS = [
    ([], (40, 1, 4, 10, 2, 6)),
    (["--small"], (40, 1, 4, 10, 2, 6)),
    ([], (256000000, 185, 140, 16384, 4096, 31065)),
    (["--wide"], (256000000, 185, 140, 16384, 4096, 31065)),
    ([], (200, 33, 1, 8, 3, 40)),
    ([], (1 << 30, 511, 65535, 2097153, 1 << 20, 536862720)),
    ([], (256000000, 185, 140, 1024, 400, 1142197)),
]


def ceiling(x, y):
    return -(-x // y)


def bound(setting, x, free=None):
    """The bound of X ticks; `free` gives F if it is another than the formula's."""
    w, trc, _, _, n, td = setting
    m = ceiling(x - 1, w // 2) + 1
    f = n * ceiling(m, 2) if free is None else free(n, m)
    if x - 1 >= f * trc:
        return f + 1 + (x - 1 - f * trc) // td
    return 1 + (x - 1) // trc


# Wrong numbers of free activations, which the spans have to tell from F.
WRONG = {"N": lambda n, m: n, "2N": lambda n, m: 2 * n, "N x floor(m/2)": lambda n, m: n * (m // 2), "N x m": lambda n, m: n * m}


def spans(setting):
    """Short spans one by one, and others around whole epochs and around the ticks of free activations."""
    w, trc, _, _, n, td = setting
    found = set(range(1, 150))
    for k in list(range(1, 30)) + [1000, 10**6, 10**9]:
        for ticks in (k * w // 2, k * n * trc, n * trc + k * td, k * trc):
            found.update(ticks + near for near in (-1, 0, 1, 2))
    for ticks in (1 << 31, 1 << 32, 1 << 53, GREATEST - 2):
        found.update(ticks + near for near in (-1, 0, 1, 2))
    return sorted(x for x in found if 1 <= x <= GREATEST)


def head(options, setting):
    w, trc, tfaw, limit, n, td = setting
    small = ", small profile" if "--small" in options else ""
    return f"W {w}, tRC {trc}, tFAW {tfaw}, N {n}, tD {td}, L {limit}{small} (ticks; 4 ticks are a nanosecond)"


def wanted(options, setting, part):
    """The lines for these spans, one blank between the words."""
    lines = [head(options, setting), "X nanoseconds at most"]
    for x in part:
        lines.append(f"{x} {x // 4}.{25 * (x % 4):02} {bound(setting, x)}")
    return lines


def printed(command, options, setting, part):
    words = [command, "--spans", *options, *map(str, setting), *map(str, part)]
    told = subprocess.run(words, stdout=subprocess.PIPE, check=True, text=True).stdout
    return [" ".join(line.split()) for line in told.splitlines()]


def main():
    command, compared, failed = sys.argv[1], 0, False
    for options, setting in SETTINGS:
        every = spans(setting)
        for at in range(0, len(every), MANY):
            part = every[at : at + MANY]
            lines = printed(command, options, setting, part)
            expected = wanted(options, setting, part)
            compared += len(part)
            if lines != expected:
                other = [pair for pair in zip(lines, expected) if pair[0] != pair[1]]
                print(f"spans: {setting}: {len(lines)} lines for {len(expected)}; printed and wanted: {other[:3]}")
                failed = True
        for name, free in WRONG.items():
            if all(bound(setting, x) == bound(setting, x, free) for x in every):
                print(f"spans: {setting}: no span tells F from {name}")
                failed = True
    print(f"spans: {compared} spans compared")
    return 1 if failed else 0


if __name__ == "__main__":
    sys.exit(main())
