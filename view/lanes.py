"""A replay as lanes of characters for a terminal, at most as wide as it is.

A column is one event while the events are few, and else a group of them, of which it shows what tells most.
"""
from __future__ import annotations

from dataclasses import dataclass
from textwrap import wrap

from view.page import lane_of, lanes_of
from view.program import Refused
from view.story import DROPPED, SQUASHED, Story, Task
from view.symbols import Names

LABEL = 10
MOST_BLOCKS = 40
MOST_REMARKS = 60
# what a line is drawn as, from what tells least to what tells most
SIGNS = {
    "idle": ".",
    "moved": "+",
    "stepped": "+",
    "stalled": "s",
    "done reached": "R",
    "done full": "U",
    "done met": "M",
    "committed": "C",
    "forked": "F",
    "started": "S",
    "halted": "H",
    "squashed": "X",
    "ended": "E",
}
RANKS = {name: rank for rank, name in enumerate(SIGNS)}
LEGEND = (
    "S restart, F fork, + step or slot, s stalled, H halted, R done reached, U done full, M done met, C commit, X squash, "
    "E end, - a running task waits for its turn, _ a done task waits for its commit, . idle"
)


@dataclass(frozen=True)
class Window:
    """The events that are shown, and how many each column stands for."""

    first: int
    last: int
    group: int
    columns: int

    def blocks(self) -> list[range]:
        """The columns of each block."""
        count = -(-(self.last + 1 - self.first) // self.group)
        return [range(at, min(count, at + self.columns)) for at in range(0, count, self.columns)]


def window_of(story: Story, width: int, first: int, last: int | None) -> Window:
    """The window from one event to another in so many characters."""
    end = len(story.lines) - 1 if last is None else min(last, len(story.lines) - 1)
    if first < 0 or end < first:
        raise Refused(f"the list has the events 0 to {len(story.lines) - 1}", 2)
    columns = max(10, width - LABEL - 1)
    count = end + 1 - first
    return Window(first, end, 1 if count <= columns * MOST_BLOCKS else -(-count // columns), columns)


def _kind(line: str) -> str:
    return line if line.startswith("done") else line.split(" ", 1)[0]


def _background(tasks: list[Task], window: Window, count: int) -> list[str]:
    """What a slave's lane shows where none of its events stands: nothing, a running task, or a done one."""
    row = [" "] * count
    for task in tasks:
        ended = len(row) * window.group + window.first if task.ended is None else task.ended
        for event in range(max(task.begun + 1, window.first), min(ended, window.last + 1)):
            row[(event - window.first) // window.group] = "-" if task.done is None or event < task.done else "_"
    return row


def _rows(story: Story, window: Window) -> list[list[str]]:
    """The lanes, one character a column."""
    count = -(-(window.last + 1 - window.first) // window.group)
    rows = [[" "] * count for _ in lanes_of(story.slaves)]
    for slave in range(story.slaves):
        rows[2 + slave] = _background([task for task in story.tasks if task.slave == slave], window, count)
    ranks = [[-1] * count for _ in rows]
    for event in range(window.first, window.last + 1):
        lane, column = lane_of(story.events[event], story.slaves), (event - window.first) // window.group
        kind = _kind(story.lines[event])
        if RANKS[kind] > ranks[lane][column] and (window.group == 1 or kind != "idle" or rows[lane][column] == " "):
            ranks[lane][column] = RANKS[kind]
            rows[lane][column] = SIGNS[kind]
    return rows


def _ruler(window: Window, block: range) -> str:
    """The numbers of events above a block, each above its column."""
    text = [" "] * len(block)
    for column in block:
        label = str(window.first + column * window.group)
        at = column - block.start
        if column % 10 == 0 and at + len(label) <= len(text):
            text[at : at + len(label)] = label
    return ("event".ljust(LABEL) + "".join(text)).rstrip()


def _remark(story: Story, names: Names, event: int) -> str | None:
    """What is told in words of an event, if anything."""
    line, number = story.lines[event], story.tasks_at[event]
    kind = _kind(line)
    if kind not in ("started", "forked", "squashed", "halted", "ended") and not (kind == "committed" and line[-2:] != " 0"):
        return None
    task = story.tasks[number] if number >= 0 else None
    text = f"event {event}: {line}"
    if task is not None:
        text += "" if kind == "forked" else f", task {task.number}"
        text += f" from {task.pc} {names.place(int(task.pc, 16))}".rstrip() if task.pc and kind != "started" else ""
        gone = [str(other.number) for other in story.tasks if other.fate == DROPPED and other.behind == task.number]
        text += f"; given up behind it: {' '.join(gone)}" if gone and task.ended == event and task.fate == SQUASHED else ""
    return text


def _wrapped(text: str, width: int) -> list[str]:
    return wrap(text, width, subsequent_indent="  ")


def text_lanes(story: Story, names: Names, width: int, first: int, last: int | None) -> str:
    """The lanes with their legend, what is told in words, and the summary."""
    width = max(LABEL + 11, width)
    window = window_of(story, width, first, last)
    rows, lines = _rows(story, window), _wrapped(LEGEND, width)
    columns = "one event" if window.group == 1 else f"{window.group} events, and shows what tells most of them"
    lines += _wrapped(f"A column is {columns}.", width)
    for block in window.blocks():
        lines += ["", _ruler(window, block)]
        for name, row in zip(lanes_of(story.slaves), rows):
            lines.append((name.ljust(LABEL) + "".join(row[block.start : block.stop])).rstrip())
    told = (_remark(story, names, event) for event in range(window.first, window.last + 1))
    remarks = [remark for remark in told if remark is not None and (window.group == 1 or " forked " not in remark)]
    lines.append("")
    for remark in remarks[:MOST_REMARKS]:
        lines += _wrapped(remark, width)
    if len(remarks) > MOST_REMARKS:
        lines += _wrapped(f"and {len(remarks) - MOST_REMARKS} more: --first and --last choose the events", width)
    lines += _wrapped(", ".join(f"{name} {value}" for name, value in story.summary.items()), width)
    return "".join(line + "\n" for line in lines)
