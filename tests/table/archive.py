"""Looks for the table of the house seeds in an archive: for each byte 256 numbers of 64 bits in one piece, from the value 0 or 128 on, as a compiler
orders the values of a byte with or without a sign. Then it changes a bit of each number in a copy, one at a time, and must no longer find the table.

usage: python3 archive.py SCRIPT ARCHIVE    SCRIPT is tools/make-hash-table, which has the words
"""
import importlib.machinery
import importlib.util
import struct
import sys


def load(path):
    """The script as a module, without running it."""
    loader = importlib.machinery.SourceFileLoader("make_hash_table", path)
    module = importlib.util.module_from_spec(importlib.util.spec_from_loader(loader.name, loader))
    loader.exec_module(module)
    return module


def pieces(script, byte):
    """The table of a byte in each order."""
    numbers = [int(script.words(value * script.BYTES[byte]).replace("_", ""), 16) for value in range(256)]
    for first in (0, 128):
        yield struct.pack("<256Q", *numbers[first:], *numbers[:first])


def place(script, data, byte):
    """Where the byte's table starts, or -1."""
    return max(data.find(piece) for piece in pieces(script, byte))


def main(script_path, archive):
    sys.dont_write_bytecode = True
    script = load(script_path)
    with open(archive, "rb") as file:
        data = bytearray(file.read())
    for byte in script.BYTES:
        start = place(script, data, byte)
        if start < 0:
            print(f"{archive} does not have the table of the {byte} byte", file=sys.stderr)
            return 1
        for value in range(256):
            at = start + 8 * value + value % 8
            data[at] ^= 1 << value % 7
            if place(script, data, byte) >= 0:
                print(f"a changed word of the {byte} byte is not seen", file=sys.stderr)
                return 1
            data[at] ^= 1 << value % 7
    print(f"table of the house seeds: in {archive} as constant data; 512 changed words seen")
    return 0


if __name__ == "__main__":
    sys.exit(main(*sys.argv[1:]))
