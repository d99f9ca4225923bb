"""Lists of events as `mssp replay` reads them: their text, rounds, and interleavings drawn from a seed.

An event is named as in a list without its count: `serial`, `restart`, `master`, `slave J`, `commit`.
"""
from __future__ import annotations

import random
from collections.abc import Iterable
from itertools import groupby
from pathlib import Path

from view.program import Refused

MOST = 100_000_000
MOST_HELD = 10_000_000  # what the scripts here hold at once
MASTER_SLOTS = 4


def round_of(slaves: int) -> list[str]:
    """One round, as `run --image` gives them: each actor has its turn."""
    return ["restart", "serial"] + ["master"] * MASTER_SLOTS + [f"slave {j}" for j in range(slaves)] + ["commit"]


def drawn(slaves: int, count: int, seed: int) -> list[str]:
    """So many events, each drawn from those of a round. The same seed gives the same events."""
    choices = round_of(slaves)
    source = random.Random(seed)
    return [choices[int(source.random() * len(choices))] for _ in range(count)]


def text_of(events: Iterable[str]) -> str:
    """The list of these events: equal ones that follow one another are one line."""
    return "".join(f"{sum(1 for _ in same)} {event}\n" for event, same in groupby(events))


def is_held(file: Path) -> None:
    """Refuses a list with more events than are held at once. What isn't a list is left to `mssp` to refuse."""
    try:
        lines = file.read_text("latin-1").split("\n")
    except OSError:
        return
    counts = [line.split(" ", 1)[0] for line in lines if line and not line.startswith("#")]
    count = sum(int(number) for number in counts if number.isascii() and number.isdigit() and len(number) < 10)
    if MOST_HELD < count <= MOST:
        raise Refused(f"{file}: {count:,} events, and at most {MOST_HELD:,} are held here", 2)


def written_out(file: Path) -> list[str]:
    """The events of a list that `mssp` has accepted, repeats written out."""
    events: list[str] = []
    for line in file.read_text("latin-1").split("\n"):
        if line and not line.startswith("#"):
            count, event = line.split(" ", 1)
            events += [event] * int(count)
    return events


def reached_at(lines: list[str], slaves: int, position: int) -> int | None:
    """How many events of rounds it takes until so many steps are committed or the run has ended, as their lines tell."""
    length, at = slaves + 7, 0
    if position == 0:
        return 0
    for start in range(0, len(lines), length):
        serial, commit = lines[start + 1 : start + 2], lines[start + length - 1 : start + length]
        if serial and serial[0] != "idle":
            at += 1
            if at >= position or serial[0].startswith("ended"):
                return start + 2
        if commit and commit[0].startswith("committed "):
            at += int(commit[0].split()[1])
            if at >= position:
                return start + length
    return None


def save(text: str, file: str | None) -> None:
    """Writes a text to a file, or to standard output where none is named."""
    if file is None:
        print(text, end="")
        return
    try:
        Path(file).write_text(text)
    except OSError as error:
        raise Refused(f"{file}: {error.strerror}", 2) from error
