#!/usr/bin/env python3
"""Writes lists of events for `mssp replay` and view/replay.py.

    rounds.py --slaves N --rounds K             K rounds, as `run --image` gives them: a restart, a serial step, four slots of
                                                the master, a step of each slave, and a commit
    rounds.py --slaves N --rounds K --seed S    as many events, each drawn from those of a round; S gives always the same
    rounds.py --slaves N --to P PROGRAM IMAGE   the rounds that `run --image` gives until P steps are committed, or the run
                                                has ended
    rounds.py --squeeze EVENTS PROGRAM IMAGE    the list without its events that were idle or stalled. Its replay gives the same
                                                other lines: it is the schedule of a runtime that never asks in vain

The list goes to standard output, or to the file of -o.
"""
from __future__ import annotations

import argparse
import sys
import tempfile
from pathlib import Path

sys.path[0] = str(Path(__file__).resolve().parent.parent)
from view.lists import MOST, MOST_HELD, drawn, is_held, reached_at, round_of, save, text_of, written_out  # noqa: E402
from view.program import BUILT, Mssp, Refused, end_with, input_words  # noqa: E402
from view.story import SUMMARY  # noqa: E402

IN_VAIN = ("idle", "stalled")


def lines_of(mssp: Mssp, words: argparse.Namespace, events: str) -> tuple[list[str], list[str]]:
    """The lines of a replay, and those of its summary."""
    is_held(Path(events))
    put = mssp.call("replay", words.program, words.image, events, "--slaves", str(words.slaves), *input_words(words.input))
    lines = put.decode("latin-1").split("\n")
    end = next(at for at in range(len(lines)) if lines[at].startswith("position "))
    return lines[:end], lines[end : end + len(SUMMARY)]


def rounds_to(mssp: Mssp, words: argparse.Namespace) -> list[str]:
    """The rounds until the position of `--to`."""
    one, count = round_of(words.slaves), max(16, words.to // words.slaves)
    while count * len(one) <= MOST_HELD:
        with tempfile.NamedTemporaryFile("w") as file:
            file.write(text_of(one) * count)
            file.flush()
            lines, _ = lines_of(mssp, words, file.name)
        end = reached_at(lines, words.slaves, words.to)
        if end is not None:
            return (one * (end // len(one) + 1))[:end]
        count *= 2
    raise Refused(f"{MOST_HELD:,} events, the most that are held here, don't come to position {words.to}", 2)


def squeezed(mssp: Mssp, words: argparse.Namespace) -> list[str]:
    """The list of `--squeeze` without what was asked in vain; replayed again, since it has to give the same other lines."""
    lines, summary = lines_of(mssp, words, words.squeeze)
    kept = [(event, line) for event, line in zip(written_out(Path(words.squeeze)), lines) if line not in IN_VAIN]
    events = [event for event, _ in kept]
    with tempfile.NamedTemporaryFile("w") as file:
        file.write(text_of(events))
        file.flush()
        again = lines_of(mssp, words, file.name)
    if again != ([line for _, line in kept], summary):
        raise Refused("the shorter list gives other lines", 2)
    return events


def list_of(words: argparse.Namespace) -> str:
    """The list that the words ask for."""
    if words.to is not None or words.squeeze is not None:
        if words.image is None:
            raise Refused("PROGRAM and IMAGE are wanted with --to and --squeeze", 2)
        mssp = Mssp(words.mssp)
        return text_of(rounds_to(mssp, words) if words.squeeze is None else squeezed(mssp, words))
    count, most = words.rounds * (words.slaves + 7), MOST if words.seed is None else MOST_HELD
    if count > most:
        raise Refused(f"{count:,} events, and at most {most:,} can be asked for", 2)
    if words.seed is None:
        return "".join([text_of(round_of(words.slaves))] * words.rounds)
    return text_of(drawn(words.slaves, count, words.seed))


def words_of() -> argparse.Namespace:
    """The words of the command line."""
    parser = argparse.ArgumentParser(description=__doc__, formatter_class=argparse.RawDescriptionHelpFormatter)
    what = parser.add_mutually_exclusive_group(required=True)
    what.add_argument("--rounds", type=int, metavar="K")
    what.add_argument("--to", type=int, metavar="P")
    what.add_argument("--squeeze", metavar="EVENTS")
    parser.add_argument("program", nargs="?")
    parser.add_argument("image", nargs="?")
    parser.add_argument("--slaves", type=int, default=4, choices=range(1, 65), metavar="N", help="1 to 64, 4 without it")
    parser.add_argument("--seed", type=int, metavar="S")
    parser.add_argument("--input", metavar="F")
    parser.add_argument("--mssp", type=Path, default=BUILT, metavar="BINARY")
    parser.add_argument("-o", dest="out", metavar="FILE")
    words = parser.parse_args()
    if (words.rounds or 0) < 0 or (words.to or 0) < 0:
        parser.error("K and P are at least 0")
    return words


def main() -> None:
    words = words_of()
    try:
        save(list_of(words), words.out)
    except Refused as refused:
        end_with("rounds.py", refused)


if __name__ == "__main__":
    main()
