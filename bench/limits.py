#!/usr/bin/env python3
"""bench/limits.py BINARY: seconds and memory for the greatest files that each format holds.

Each file is as large as its format allows, and is read, shown, checked, distilled, run or refused for its last byte. The table is
that of docs/MAP.md: the file's size, processor seconds, the most memory at one time, and that memory as a multiple of the file.
"""

import os
import struct
import subprocess
import sys
import tempfile
from dataclasses import dataclass
from pathlib import Path

MIB = 1 << 20
BASE = 0x0001_0000
SLOTS, ANCHORS, NOTES, ASSUMPTIONS, TARGETS = 1 << 20, 1 << 19, 1 << 19, 1 << 20, 1 << 20
ROWS = 1 << 19
EXEC, GO, FORK = 0, 1, 2
CUT, DEAD, JUMP, CODE, WITHIN, SPAN = 0, 2, 1, 3, 4, 5


def words(*values: int) -> bytes:
    return struct.pack(f"<{len(values)}I", *values)


def executable(code: list[int], size: int | None = None) -> bytes:
    """An executable of these words, and zeros behind them up to a size of the file."""
    length = (size or 84 + 4 * len(code)) - 84
    head = struct.pack("<16sHHIIIIIHHHHHH", b"\x7fELF\x01\x01\x01", 2, 243, 1, BASE, 52, 0, 0, 52, 32, 1, 0, 0, 0)
    return (head + words(1, 84, BASE, BASE, length, length, 7, 4) + words(*code)).ljust(84 + length, b"\0")


EXIT = [0x00000513, 0x05D00893, 0x00000073]


# Sets the registers of a call that writes 256 bytes; then each pair sets the descriptor and writes; then it jumps back.
PRINTS = [0x000105B7, 0x10000613, 0x04000893] + [0x00100513, 0x00000073] * 2_046 + [0x804FC06F]


def printing() -> bytes:
    """An image of version 2: a task begins at the first word, and does each of the calls."""
    calls = [BASE + 4 * i for i, word in enumerate(PRINTS) if word == 0x0000_0073]
    return words(0x5053534D, 2, 4_096, 2, 1, 1, 0, len(calls), FORK, 0, 0, GO, BASE, 0, BASE, 0, 1, BASE, 0, 0, 0, *calls)


def image() -> bytes:
    """Every table of an image at its greatest: anchors and notes at each second word, and all targets on one jump."""
    pcs = [BASE + 4 * i for i in range(NOTES)]
    slots = b"".join(words(FORK, i, 0) for i in range(ANCHORS)) + b"".join(words(GO, pc, 0) for pc in pcs)
    anchors = b"".join(words(pc, i, 64) for i, pc in enumerate(pcs))
    notes = b"".join(words(pc, i, 0xFFFFFFFE, 0xFFFFFFFE) for i, pc in enumerate(pcs))
    listed = ASSUMPTIONS - 4
    cuts, dead = listed // 2, listed - listed // 2
    assumptions = [words(CUT, 4 * i, 1, 0) for i in range(cuts)]
    assumptions += [words(JUMP, BASE, 0, TARGETS), words(*(4 * i for i in range(TARGETS)))]
    assumptions += [words(DEAD, 4 * i, 0, 0) for i in range(dead)]
    assumptions += [words(kind, 0, 0, 0) for kind in (CODE, WITHIN, SPAN)]
    return words(0x5053534D, 1, 16_384, SLOTS, ANCHORS, NOTES, ASSUMPTIONS) + slots + anchors + notes + b"".join(assumptions)


def profile() -> bytes:
    """A profile of so many rows, executed once each; the first is a jump with all targets."""
    targets = words(*(4 * i for i in range(TARGETS)))
    rows = [struct.pack("<IIQQI", BASE + 4 * i, 0, 1, 0, TARGETS if i == 0 else 0) + (targets if i == 0 else b"") for i in range(ROWS)]
    return struct.pack("<IIQII", 0x4650534D, 1, ROWS, 0, ROWS) + b"".join(rows)


@dataclass(frozen=True)
class Measure:
    status: int
    seconds: float
    bytes: int


def measure(command: list[str], folder: str) -> Measure:
    with open(os.devnull, "r+b") as nothing:
        running = subprocess.Popen(command, cwd=folder, stdin=nothing, stdout=nothing, stderr=nothing)
        _, status, used = os.wait4(running.pid, 0)
    return Measure(os.waitstatus_to_exitcode(status), used.ru_utime + used.ru_stime, 1024 * used.ru_maxrss)


def write_files(room: Path) -> None:
    files = {
        "small": executable(EXIT),
        "prints": executable(PRINTS),
        "printing": printing(),
        # A jump through a register, then code that does nothing: as many rows as a profile has.
        "line": executable([0x00028067] + [0x00128293] * (ROWS - 4) + EXIT),
        "program": executable(EXIT, 16 * MIB),
        "image": image(),
        "image.long": image() + b"\0",
        "image.empty": words(0x5053534D, 1, 16, 0, 0, 0, 0),
        "profile": profile(),
        "profile.long": profile() + b"\0",
        "comments": b"#\n" * (32 * MIB),
        "idle": b"1 commit\n" * (64 * MIB // 9),
    }
    for name, content in files.items():
        (room / name).write_bytes(content)


# What is done, the file that counts, the command's words over the folder, the status that is due.
CASES = [
    ("run, the greatest program", "program", "run ./program", 0),
    ("profile of it", "program", "profile ./program ./made", 0),
    ("show, the greatest image", "image", "show ./image", 0),
    ("show, one byte more", "image.long", "show ./image.long", 117),
    ("check beside it", "image", "check ./small ./image", 0),
    ("run beside it", "image", "run ./small --image ./image --report ./report", 0),
    ("run, 64 tasks that print half a megabyte each", "printing", "run ./prints --image ./printing --report ./report --slaves 64 --budget 1000000", 120),
    ("distill, the greatest profile", "profile", "distill ./line ./profile ./made", 0),
    ("certify of what it made", "made", "certify ./line ./made", 0),
    ("distill, one byte more", "profile.long", "distill ./line ./profile.long ./made", 118),
    ("replay, the longest list of comments", "comments", "replay ./small ./image.empty ./comments", 0),
    ("replay, the longest list of lines", "idle", "replay ./small ./image.empty ./idle", 0),
]


def main() -> int:
    if sys.argv[1:2] == ["--write"]:
        write_files(Path(sys.argv[2]))
        return 0
    if len(sys.argv) != 2:
        print(__doc__.split("\n", 1)[0], file=sys.stderr)
        return 2
    binary, failed = str(Path(sys.argv[1]).resolve()), 0
    print("| What | File, MiB | Seconds | Memory, MiB | Times the file |\n|---|---|---|---|---|")
    with tempfile.TemporaryDirectory() as room:
        # A process of its own writes them: what this one holds counts as memory of those that it begins.
        subprocess.run([sys.executable, __file__, "--write", room], check=True)
        for what, file, command, status in CASES:
            size = (Path(room) / file).stat().st_size
            took = measure([binary, *command.split()], room)
            print(f"| {what} | {size / MIB:.1f} | {took.seconds:.2f} | {took.bytes / MIB:.0f} | {took.bytes / size:.1f} |", flush=True)
            if took.status != status:
                print(f"bench/limits.py: {what}: status {took.status} for {status}", file=sys.stderr)
                failed += 1
    return 1 if failed else 0


if __name__ == "__main__":
    sys.exit(main())
