"""Logs at and above the checker's limits on threshold and history, each with the report that it must get.

The checker keeps the limits of the old width, N 32,768 and 4,096 history places, and prints 1 or 4 above them, also where the new width
takes the setting.
"""

from blocks import BLOCK, MARK, S, log, patched, record
from settings import changed

AGREES = "records {}\nopened {}\nagrees\n"
REFUSED = "refused {} 0\n"

# The new width takes these, the first with N 2^20, the second with 32,768 history places, the third with both, and the fourth, a chip
# with the limit 1,024 by the timing of the BlockHammer paper, with 32,636 places.
THRESHOLD = (2 ** 22, 1, 4, 2 ** 20, 6, 2 ** 24, 4, 2, 1)
HISTORY = (40_000, 1, 1, 2, 8_192, 100, 4, 1, 1)
BOTH = (2 ** 30, 511, 65_535, 2 ** 20, 536_862_720, 2 ** 21 + 1, 255, 16, 32)
CHIP = (256_000_000, 185, 140, 400, 1_142_197, 1_024, 255, 16, 8)

N, TD = 3, 4
# What N gets, under THRESHOLD.
THRESHOLDS = {32_767: 0, 32_768: 0, 32_769: 1, 65_535: 1, 65_536: 1, 65_537: 1, 98_304: 1, 2 ** 20 - 1: 1, 2 ** 20: 1, 2 ** 20 + 1: 1}
# What tD gets, under HISTORY: four history places for each tick.
DELAYS = {1_023: 0, 1_024: 0, 1_025: 4, 1_026: 4, 2_048: 4, 4_096: 4, 8_191: 4, 8_192: 4, 8_193: 4, 20_000: 4, 20_001: 3}

# Settings above a limit that meet another refusal too, and some at or above one or both limits that meet no other. 4 comes before 16, so
# that it is given under both profiles.
OTHERS = {
    "both": (BOTH, 1), "chip": (CHIP, 4), "both-history-alone": (changed(BOTH, N, 32_768), 4),
    "both-threshold-alone": (changed(BOTH, TD, 67_107_840), 1), "both-none": (changed(changed(BOTH, N, 32_768), TD, 67_107_840), 0),
    "threshold-and-2": (changed(THRESHOLD, 1, 2), 1), "threshold-and-3": (changed(THRESHOLD, TD, 2 ** 21 + 1), 1),
    "threshold-and-4": (changed(THRESHOLD, TD, 2 ** 20), 1), "threshold-and-5": (changed(THRESHOLD, 5, 2 ** 20), 1),
    "history-and-1": (changed(HISTORY, 6, 0), 1), "history-and-2": (changed(HISTORY, 1, 10_000), 2),
    "history-and-5": (changed(HISTORY, 5, 4), 4), "history-5-banks": (changed(HISTORY, 7, 5), 4),
}


def settings():
    """Every setting by name, with its refusal, 0 for none."""
    for n, refusal in THRESHOLDS.items():
        yield f"N-{n}", changed(THRESHOLD, N, n), refusal
    for delay, refusal in DELAYS.items():
        yield f"H-{4 * delay}", changed(HISTORY, TD, delay), refusal
    for name, (setting, refusal) in OTHERS.items():
        yield name, setting, refusal


def above_small(setting):
    """More than four banks or 1,024 history places."""
    return setting[7] > 4 or 4 * ((setting[TD] + setting[2] - 1) // setting[2]) > 1_024


def add_to(corpus):
    """Each setting under both profiles with one request, which is opened, and without; and some in damaged logs."""
    for name, setting, refusal in settings():
        for mark in (0, 1):
            number = refusal if refusal or not (mark and above_small(setting)) else 16
            for count, ending in ((1, ""), (0, "-alone")):
                report = REFUSED.format(number) if number else AGREES.format(count, count)
                corpus.add(f"limits-{name}-mark-{mark}{ending}", log([record(0)] * count, setting, mark=mark), report)
    for name, setting in {"S": S, "threshold": THRESHOLD, "history": HISTORY}.items():
        base = log([record(0)], setting)
        corpus.add(f"limits-{name}-sum", patched(base, 9, b"\7", seal=False), REFUSED.format(12))
        corpus.add(f"limits-{name}-layout", patched(base, MARK + 1, b"\1"), REFUSED.format(13))
        corpus.add(f"limits-{name}-cut", base[:BLOCK - 1], REFUSED.format(11))
