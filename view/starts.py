"""At which pc tasks start, from what `mssp` prints.

The line of a fork names no pc. But a task that was committed, or squashed by another cell than the pc, began at the pc of the
run at the position where it was compared, since the pc is the first cell that is compared. `restart` tells the pc of the run
where that is an anchor's. So a list goes to each of these positions by serial steps, and restarts there, beside an image that
is made here: each word of the program's code is an anchor, and the master halts at once, so a task of one step follows.
"""
from __future__ import annotations

import struct
import tempfile
from pathlib import Path

from view.lists import text_of
from view.program import Mssp, Refused, input_words
from view.story import ALIVE, DROPPED, Story

MOST_ANCHORS = 524_288
MOST_EVENTS = 20_000_000
NOWHERE = 0xFFFF_FFFC
PAUSE = ["restart", "master", "slave 0", "commit"]


def code_parts(program: bytes) -> list[tuple[int, bytes]]:
    """The loaded parts of an accepted program that may be executed: where each stands, and its bytes."""
    offset, size, count = *struct.unpack_from("<I", program, 28), *struct.unpack_from("<HH", program, 42)
    parts = []
    for entry in range(count):
        kind, at, address, _, length, _, flags = struct.unpack_from("<7I", program, offset + entry * size)
        if kind == 1 and flags & 1:
            parts.append((address, program[at : at + length]))
    return parts


def pausing_image(parts: list[tuple[int, bytes]]) -> bytes:
    """The image with an anchor at each word of the code, and a master that finds no slot to go on."""
    pcs = sorted({address + at for address, part in parts for at in range(0, len(part) - 3, 4) if address % 4 == 0})
    pcs = pcs[:MOST_ANCHORS]
    header = struct.pack("<7I", 0x5053534D, 1, 16, 1, len(pcs), 0, 0)
    return header + struct.pack("<3I", 1, NOWHERE, 0) + b"".join(struct.pack("<3I", pc, 0, 1) for pc in pcs)


def _one_pass(mssp: Mssp, words: list[str], folder: Path, positions: list[int]) -> tuple[dict[int, str], list[int]]:
    """The pcs at some of the positions, which rise, and the positions that are left for another pass."""
    at = 0
    events: list[str] = []
    asked: list[tuple[int, int]] = []
    left: list[int] = []
    for position in positions:
        if position - at < 1 and asked:  # a serial step is owed behind a task
            left.append(position)
            continue
        events += ["serial"] * (position - at) + PAUSE
        asked.append((position, len(events) - len(PAUSE)))
        at = position + 1
    (folder / "events").write_text(text_of(events))
    put = mssp.call("replay", words[0], str(folder / "image"), str(folder / "events"), *words[1:], "--slaves", "1")
    lines = put.decode("latin-1").split("\n", len(events))
    pcs: dict[int, str] = {}
    for index, (position, event) in enumerate(asked):
        if lines[event].startswith("started "):
            pcs[position] = lines[event].split()[1]
        if lines[event + 3] != "committed 1 dropped 0":  # no step was done there, so what follows is out of place
            return pcs, left + [later for later, _ in asked[index + 1 :]]
    return pcs, left


def pcs_at(mssp: Mssp, program: str, input_file: str | None, positions: list[int]) -> dict[int, str]:
    """The pc of the run at each of these positions, where that lies in the program's code."""
    pcs: dict[int, str] = {}
    left, given = sorted(set(positions)), 0
    with tempfile.TemporaryDirectory() as name:
        folder = Path(name)
        (folder / "image").write_bytes(pausing_image(code_parts(Path(program).read_bytes())))
        while left and given + left[-1] <= MOST_EVENTS:
            given += left[-1]
            found, rest = _one_pass(mssp, [program, *input_words(input_file)], folder, left)
            if not found:
                break
            pcs.update(found)
            left = sorted(rest)
    return pcs


def anchors_of(mssp: Mssp, image: str) -> list[str]:
    """The pcs of an image's anchors."""
    shown = mssp.call("show", image).decode().splitlines()
    return [line.split()[3] for line in shown if line.startswith("anchor ")]


def tell_starts(story: Story, mssp: Mssp, program: str, image: str, input_file: str | None) -> None:
    """Puts the start's pc to each task where it can be had from what `mssp` prints."""
    anchors = anchors_of(mssp, image)
    unknown = [task for task in story.tasks if task.pc is None]
    if len(anchors) == 1:
        for task in unknown:
            task.pc = anchors[0]
        return
    compared = [task for task in unknown if task.fate not in (ALIVE, DROPPED) and task.position is not None]
    try:
        pcs = pcs_at(mssp, program, input_file, [task.position for task in compared if task.position is not None])
    except (Refused, struct.error, OSError):
        return
    for task in compared:
        task.pc = pcs.get(task.position) if task.position is not None else None
