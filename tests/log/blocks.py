"""The log format of the specification: blocks of 512 bytes, written and changed byte by byte.

Nothing here looks at the throttle's rules: what a record claims is given by the caller.
"""

BLOCK = 512
RECORD = 24
RECORDS = 20
BODY = 8
# The byte of the profile mark in block 0, the first one after nine numbers and 64 seeds.
MARK = 172
SUMS = 508
MODULUS = 65_521

# W, tRC, tFAW, N, tD, L, Q, banks, threads: the setting S of the sample runs.
S = (40, 1, 4, 2, 6, 10, 4, 1, 1)

# Places of a record's fields and their widths.
FIELDS = {"tick": (0, 8), "wait": (8, 8), "row": (16, 2), "bank": (18, 1), "thread": (19, 1),
          "kind": (20, 1), "answer": (21, 1), "zeros": (22, 2)}


def house_seeds():
    """Function f, bit i: (37(i+1)^2 + 211f + 89if) mod 1,024."""
    return [(37 * (i + 1) ** 2 + 211 * f + 89 * i * f) % 1024 for f in range(4) for i in range(16)]


def little(number, width):
    return number.to_bytes(width, "little")


def record(tick, **fields):
    """A request of row 5 that was opened, or what the fields say instead."""
    values = {"tick": tick, "row": 5, **fields}
    return b"".join(little(values.get(name, 0), width) for name, (_, width) in FIELDS.items())


def done(tick, **fields):
    return record(tick, kind=1, **fields)


def sums(block):
    """The two sums of bytes 0 to 507, not yet reduced."""
    plain = sum(block[:SUMS])
    weighted = sum((place + 1) * byte for place, byte in enumerate(block[:SUMS]))
    return plain, weighted


def sealed(block):
    """The block with its sums written anew."""
    plain, weighted = sums(block)
    return bytes(block[:SUMS]) + little(plain % MODULUS, 2) + little(weighted % MODULUS, 2)


def block(number, count, body):
    head = little(number, 4) + little(count, 1) + bytes(3)
    return sealed((head + body).ljust(BLOCK, b"\0"))


def start(setting=S, seeds=None, mark=0):
    """Block 0."""
    words = house_seeds() if seeds is None else seeds
    numbers = b"".join(little(x, 4) for x in setting) + b"".join(little(x, 2) for x in words)
    return block(0, 0, numbers + little(mark, 1))


def log(records, setting=S, seeds=None, size=RECORDS, mark=0):
    """A log of these records, `size` to a block."""
    blocks = [start(setting, seeds, mark)]
    for first in range(0, len(records), size):
        part = records[first:first + size]
        blocks.append(block(len(blocks), len(part), b"".join(part)))
    return b"".join(blocks)


def split(log):
    return [log[at:at + BLOCK] for at in range(0, len(log), BLOCK)]


def patched(log, at, data, seal=True):
    """The log with these bytes from byte `at` on; the sums of that block are repaired if `seal`."""
    changed = log[:at] + data + log[at + len(data):]
    first = at // BLOCK * BLOCK
    whole = changed[first:first + BLOCK]
    if not seal or len(whole) < BLOCK:
        return changed
    return changed[:first] + sealed(whole) + changed[first + BLOCK:]


def place_of(k, field):
    """The byte at which a field of record k of the log (from 0) starts, in a log of full blocks."""
    return BLOCK * (1 + k // RECORDS) + BODY + RECORD * (k % RECORDS) + FIELDS[field][0]


def field_of(log, k, field):
    at = place_of(k, field)
    return int.from_bytes(log[at:at + FIELDS[field][1]], "little")


def with_field(log, k, field, value):
    """The log with one field of record k changed and the sums repaired."""
    return patched(log, place_of(k, field), little(value % 2 ** (8 * FIELDS[field][1]), FIELDS[field][1]))


def records_of(log):
    """How many records the blocks of a log say they have."""
    return sum(part[4] for part in split(log)[1:])
