#!/usr/bin/env python3
"""Writes the programs and the images of this folder.

`count` counts to ten in memory, and its three images let a task begin at the head of the loop. `kept`
does every instruction ahead of the tasks. `lazy` leaves out the loop's body, so it predicts that
memory still holds what it held before. `sure` leaves out what only the exit reads, says which
registers are live and needed, and lists what it assumes: it fits the program.

`countdown` prints the digits from 9 down, each on a line of its own.

`setting` adds, in each of 100 turns, the entry of a table that a setting names.

`phases` adds up numbers in the first half of its run, and takes others off in the second.

The files are committed; this script says what is in them.
"""

import struct
from pathlib import Path

FOLDER = Path(__file__).parent
BASE = 0x0001_0000

PROGRAM = [
    0x00020337,  # 00010000        lui  x6, 0x20         the counter is at 00020000
    0x00032383,  # 00010004  head: lw   x7, 0(x6)
    0x00138393,  # 00010008        addi x7, x7, 1
    0x00732023,  # 0001000c        sw   x7, 0(x6)
    0x00A3A293,  # 00010010        slti x5, x7, 10
    0xFE0298E3,  # 00010014        bne  x5, x0, head
    0x00038513,  # 00010018        addi x10, x7, 0       the exit code
    0x05D00893,  # 0001001c        addi x17, x0, 93
    0x00000073,  # 00010020        ecall
]
HEAD = BASE + 4
EXEC, GO, FORK = 0, 1, 2
CODE, WITHIN, SPAN = 3, 4, 5

COUNTDOWN = [
    0x000205B7,  # 00010000        lui  x11, 0x20        the line is at 00020000
    0x00A00293,  # 00010004        addi x5, x0, 10       ten lines
    0x005580A3,  # 00010008        sb   x5, 1(x11)       a line feed, which is 10 too
    0x03900313,  # 0001000c        addi x6, x0, 57       the digit 9
    0x00658023,  # 00010010  head: sb   x6, 0(x11)
    0x00100513,  # 00010014        addi x10, x0, 1
    0x00200613,  # 00010018        addi x12, x0, 2
    0x04000893,  # 0001001c        addi x17, x0, 64
    0x00000073,  # 00010020        ecall                 writes two bytes from x11 on
    0xFFF30313,  # 00010024        addi x6, x6, -1
    0xFFF28293,  # 00010028        addi x5, x5, -1
    0xFE0292E3,  # 0001002c        bne  x5, x0, head
    0x00000513,  # 00010030        addi x10, x0, 0
    0x05D00893,  # 00010034        addi x17, x0, 93
    0x00000073,  # 00010038        ecall
]

SETTING = [
    0x000102B7,  # 00010000        lui  x5, 0x10         what follows the code is at 00010030
    0x06400413,  # 00010004        addi x8, x0, 100      turns
    0x0302A303,  # 00010008  head: lw   x6, 48(x5)       the setting
    0x00231393,  # 0001000c        slli x7, x6, 2
    0x005383B3,  # 00010010        add  x7, x7, x5
    0x0343A383,  # 00010014        lw   x7, 52(x7)       the entry of the table that it names
    0x007484B3,  # 00010018        add  x9, x9, x7
    0xFFF40413,  # 0001001c        addi x8, x8, -1
    0xFE0414E3,  # 00010020        bne  x8, x0, head
    0x00048513,  # 00010024        addi x10, x9, 0       the exit code
    0x05D00893,  # 00010028        addi x17, x0, 93
    0x00000073,  # 0001002c        ecall
    2,  # 00010030                 the setting
    5,  # 00010034                 the table
    7,
    11,
    13,
]

PHASES = [
    0x000022B7,  # 00010000        lui  x5, 2            8,192 turns
    0x00001337,  # 00010004        lui  x6, 1            half of them
    0xFFF28293,  # 00010008  head: addi x5, x5, -1
    0x0062CC63,  # 0001000c        blt  x5, x6, late
    0x005383B3,  # 00010010        add  x7, x7, x5
    0xFE029AE3,  # 00010014  next: bne  x5, x0, head
    0x00038513,  # 00010018        addi x10, x7, 0       the exit code
    0x05D00893,  # 0001001c        addi x17, x0, 93
    0x00000073,  # 00010020        ecall
    0x405383B3,  # 00010024  late: sub  x7, x7, x5
    0xFEDFF06F,  # 00010028        jal  x0, next
]


def pc(index):
    return BASE + 4 * index


def numbers(*values):
    return struct.pack(f"<{len(values)}I", *values)


def elf(words):
    size = 4 * len(words)
    header = struct.pack(
        "<16sHHIIIIIHHHHHH", b"\x7fELF\x01\x01\x01", 2, 243, 1, BASE, 52, 0, 0, 52, 32, 1, 0, 0, 0
    )
    return header + numbers(1, 84, BASE, BASE, size, size, 5, 4) + numbers(*words)


def image(limit, slots, anchors, notes, listed=()):
    """Slots are (kind, a, b), anchors (pc, slot, count), notes (pc, slot, live, need); `listed` has kinds of assumptions."""
    parts = [numbers(0x5053534D, 1, limit, len(slots), len(anchors), len(notes), len(listed))]
    parts += [numbers(*slot) for slot in slots]
    parts += [numbers(*anchor) for anchor in anchors]
    parts += [numbers(*note) for note in notes]
    parts += [numbers(kind, 0, 0, 0) for kind in listed]
    return b"".join(parts)


def registers(*names):
    return sum(1 << name for name in names)


def kept():
    slots = [(EXEC, pc(0), PROGRAM[0]), (FORK, 0, 0)]
    slots += [(EXEC, pc(i), PROGRAM[i]) for i in range(1, 9)]
    notes = [(pc(0), 0, 0, 0), (pc(1), 1, 0, 0)] + [(pc(i), i + 1, 0, 0) for i in range(2, 9)]
    return image(64, slots, [(HEAD, 1, 1)], notes)


def lazy():
    return image(64, [(FORK, 0, 0), (GO, HEAD, 0)], [(HEAD, 0, 1)], [(HEAD, 0, 0, 0)])


def sure():
    """The two words before the exit lay no slot: the master goes on at the exit's. Behind the loop x7 is live, and not needed."""
    slots = [(EXEC, pc(0), PROGRAM[0]), (FORK, 0, 0)]
    slots += [(EXEC, pc(i), PROGRAM[i]) for i in (1, 2, 3, 4, 5, 8)]
    both = registers(6, 7)
    notes = [
        (pc(0), 0, 0, 0),
        (pc(1), 1, registers(6), registers(6)),
        (pc(2), 3, both, both),
        (pc(3), 4, both, both),
        (pc(4), 5, both, both),
        (pc(5), 6, registers(5, 6, 7), registers(5, 6)),
        (pc(6), 7, registers(7), 0),
        (pc(7), 7, 0, 0),
        (pc(8), 7, 0, 0),
    ]
    return image(64, slots, [(HEAD, 1, 1)], notes, (CODE, WITHIN, SPAN))


def main():
    FOLDER.joinpath("count.elf").write_bytes(elf(PROGRAM))
    FOLDER.joinpath("kept.img").write_bytes(kept())
    FOLDER.joinpath("lazy.img").write_bytes(lazy())
    FOLDER.joinpath("sure.img").write_bytes(sure())
    FOLDER.joinpath("countdown.elf").write_bytes(elf(COUNTDOWN))
    FOLDER.joinpath("setting.elf").write_bytes(elf(SETTING))
    FOLDER.joinpath("phases.elf").write_bytes(elf(PHASES))


if __name__ == "__main__":
    main()
