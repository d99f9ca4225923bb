"""The page of a replay: one HTML file that works offline, from page.html, page.css, page.js and the story as data."""
from __future__ import annotations

import html
import json
from pathlib import Path

from view.story import SQUASH, Story, Task
from view.symbols import Names

FOLDER = Path(__file__).resolve().parent
WORDS = 8
COLUMNS = ("slave", "begun", "done", "ended", "fate", "steps", "pc", "ending", "line", "behind", "restarted", "position")
FATES = ("committed", "squashed", "dropped", "alive")


def lanes_of(slaves: int) -> list[str]:
    """The lanes from top to bottom."""
    return ["machine", "master", *(f"slave {j}" for j in range(slaves)), "commits"]


def lane_of(event: str, slaves: int) -> int:
    """The lane in which an event is drawn. A slave that there isn't shares the last one's lane."""
    actor, _, number = event.partition(" ")
    if actor == "slave":
        return 2 + min(int(number), slaves - 1)
    return {"serial": 0, "restart": 0, "master": 1, "commit": slaves + 2}[actor]


def _task_row(task: Task) -> list[object]:
    """A task as the page reads it: its fate by number, and its other columns as they are."""
    return [FATES.index(task.fate) if name == "fate" else getattr(task, name) for name in COLUMNS]


def _addresses(story: Story) -> tuple[set[int], set[int]]:
    """The pcs at which tasks start, and all addresses that lines name."""
    pcs = {int(task.pc, 16) for task in story.tasks if task.pc}
    named = set(pcs)
    for line in set(story.lines):
        squash = SQUASH.fullmatch(line)
        if squash and squash[1] == "pc":
            named |= {int(squash[2], 16), int(squash[3], 16)}
        elif squash and squash[1].startswith("byte "):
            named.add(int(squash[1][5:], 16))
        elif line.startswith(("started ", "ended misfetch ")):
            named.add(int(line.rsplit(" ", 1)[1], 16))
    return pcs, named


def data_of(story: Story, names: Names, files: dict[str, str]) -> dict[str, object]:
    """All that the page draws, as JSON writes it."""
    table = {line: at for at, line in enumerate(dict.fromkeys(story.lines))}
    kinds = {event: at for at, event in enumerate(dict.fromkeys(story.events))}
    pcs, named = _addresses(story)
    return {
        "files": files,
        "slaves": story.slaves,
        "lanes": lanes_of(story.slaves),
        "summary": story.summary,
        "remarks": names.remarks,
        "lines": list(table),
        "line": [table[line] for line in story.lines],
        "event": "".join(chr(48 + kinds[event]) for event in story.events),
        "events": list(kinds),
        "laneOf": [lane_of(event, story.slaves) for event in kinds],
        "task": story.tasks_at,
        "columns": COLUMNS,
        "tasks": [_task_row(task) for task in story.tasks],
        "positions": [number for pair in story.positions for number in pair],
        "live": [number for pair in story.live for number in pair],
        "lead": [number for pair in story.lead for number in pair],
        "places": {f"{at:08x}": place for at in named if (place := names.place(at))},
        "words": {f"{pc:08x}": words for pc in sorted(pcs) if (words := names.words(pc, WORDS))},
    }


def page_of(story: Story, names: Names, files: dict[str, str]) -> str:
    """The text of the page. `files` has the program, the image and the list by what each is."""
    data = json.dumps(data_of(story, names, files), separators=(",", ":")).replace("<", "\\u003c")
    page = (FOLDER / "page.html").read_text()
    title = html.escape(f"{files['program']} beside {files['image']}, {files['events']}")
    style, script = (FOLDER / "page.css").read_text(), (FOLDER / "page.js").read_text()
    for name, text in (("STYLE", style), ("SCRIPT", script), ("TITLE", title), ("DATA", data)):
        page = page.replace(f"<!--{name}-->", text)
    return page
