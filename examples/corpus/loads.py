#!/usr/bin/env python3
"""loads.py PROGRAM SHOWN: how many noted instructions are loads of another register than x0.

PROGRAM is an ELF file, and SHOWN what `mssp show` prints of an image of it. An image has a note for each
instruction that was executed, and never as another word than the program's.
"""

import struct
import sys
from pathlib import Path


def loaded(file):
    """The word at an address, by the parts that the file loads; the last part that covers a byte gives it."""
    start, size, count = struct.unpack_from("<I", file, 28)[0], *struct.unpack_from("<HH", file, 42)
    parts = [struct.unpack_from("<IIIIII", file, start + size * k) for k in range(count)]
    parts = [(at, file[offset : offset + filed]) for kind, offset, at, _, filed, _ in parts if kind == 1]

    def word(pc):
        found = [part[pc - at : pc - at + 4] for at, part in parts if at <= pc < at + len(part)]
        return struct.unpack("<I", found[-1])[0]

    return word


def main():
    program, shown = sys.argv[1:]
    word = loaded(Path(program).read_bytes())
    notes = [int(line.split()[1], 16) for line in Path(shown).read_text().splitlines() if line.startswith("note ")]
    words = [word(pc) for pc in notes]
    print(sum(w % 128 == 3 and w >> 7 & 31 != 0 for w in words))


if __name__ == "__main__":
    main()
