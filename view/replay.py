#!/usr/bin/env python3
"""Shows a replay: `mssp replay PROGRAM IMAGE EVENTS` as a page, as lanes of characters, as a trace or as a still picture.

    replay.py PROGRAM IMAGE EVENTS -o page.html        one page that works offline
    replay.py PROGRAM IMAGE EVENTS --text              lanes for a terminal
    replay.py PROGRAM IMAGE EVENTS --trace out.json    the Trace Event Format, which Perfetto and Chrome's tracing read
    replay.py PROGRAM IMAGE EVENTS --picture out.svg   a picture of a short list (SVG or PNG), by matplotlib

All of it is what `mssp` prints and what stands in the program's file. The axis is events: no time is told.
"""
from __future__ import annotations

import argparse
import shutil
import sys
from pathlib import Path

sys.path[0] = str(Path(__file__).resolve().parent.parent)
from view.lanes import text_lanes  # noqa: E402
from view.lists import save  # noqa: E402
from view.page import page_of  # noqa: E402
from view.program import BUILT, Mssp, Refused, end_with  # noqa: E402
from view.starts import tell_starts  # noqa: E402
from view.story import Story, replayed  # noqa: E402
from view.symbols import Names, names_of  # noqa: E402
from view.traces import trace_of  # noqa: E402


def words_of() -> argparse.Namespace:
    """The words of the command line."""
    parser = argparse.ArgumentParser(description=__doc__, formatter_class=argparse.RawDescriptionHelpFormatter)
    parser.add_argument("program")
    parser.add_argument("image")
    parser.add_argument("events")
    parser.add_argument("-o", dest="page", metavar="page.html")
    parser.add_argument("--text", action="store_true")
    parser.add_argument(
        "--width", type=int, default=shutil.get_terminal_size().columns, help="of the lanes; that of the terminal"
    )
    parser.add_argument("--first", type=int, default=0, metavar="E", help="the first event of the lanes")
    parser.add_argument("--last", type=int, metavar="E", help="the last event of the lanes")
    parser.add_argument("--trace", metavar="out.json")
    parser.add_argument("--picture", metavar="out.svg")
    parser.add_argument("--input", metavar="F")
    parser.add_argument("--slaves", type=int, default=4, choices=range(1, 65), metavar="N", help="1 to 64, 4 without it")
    parser.add_argument(
        "--mssp", type=Path, default=BUILT, metavar="BINARY", help=f"the built program, {BUILT.relative_to(BUILT.parents[3])}"
    )
    words = parser.parse_args()
    if not (words.page or words.text or words.trace or words.picture):
        parser.error("one of -o, --text, --trace and --picture is wanted")
    return words


def picture(story: Story, names: Names, file: str) -> None:
    """A still picture, which alone needs matplotlib."""
    try:
        from view.pictures import still
    except ImportError as error:
        raise Refused("matplotlib is missing (Debian: python3-matplotlib)", 2) from error
    still(story, names, file)


def show(words: argparse.Namespace) -> None:
    """Replays the list, and writes all that is asked for."""
    mssp = Mssp(words.mssp)
    story = replayed(mssp, words.program, words.image, words.events, words.input, words.slaves)
    tell_starts(story, mssp, words.program, words.image, words.input)
    names = names_of(words.program)
    for remark in names.remarks:
        print(f"replay.py: {words.program}: {remark}", file=sys.stderr)
    if not story.tasks:
        print("replay.py: no task was begun: is the list made for this program and image?", file=sys.stderr)
    files = {"program": Path(words.program).name, "image": Path(words.image).name, "events": Path(words.events).name}
    if words.page:
        save(page_of(story, names, files), words.page)
    if words.trace:
        save(trace_of(story, names, files), words.trace)
    if words.picture:
        picture(story, names, words.picture)
    if words.text:
        print(text_lanes(story, names, words.width, words.first, words.last), end="")


def main() -> None:
    words = words_of()
    try:
        show(words)
    except Refused as refused:
        end_with("replay.py", refused)


if __name__ == "__main__":
    main()
