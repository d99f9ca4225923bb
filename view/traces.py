"""A replay in the Trace Event Format, which Perfetto and Chrome's tracing read.

One event of the list is one slice of category `event`, a microsecond long, since the format has no other axis: no time is
told. Tasks are slices around those of their steps, with an arrow from their fork; three counters stand beside them.
"""
from __future__ import annotations

import json

from view.page import lane_of, lanes_of
from view.story import Story, Task
from view.symbols import Names

Entry = dict[str, object]
PROCESS = 1


def _slice(name: str, category: str, lane: int, start: int, length: int, told: Entry) -> Entry:
    return {"name": name, "cat": category, "ph": "X", "pid": PROCESS, "tid": lane, "ts": start, "dur": length, "args": told}


def _threads(story: Story) -> list[Entry]:
    """The names of the lanes, in their order."""
    entries: list[Entry] = [{"name": "process_name", "ph": "M", "pid": PROCESS, "tid": 0, "args": {"name": "mssp replay"}}]
    for lane, name in enumerate(lanes_of(story.slaves)):
        entries.append({"name": "thread_name", "ph": "M", "pid": PROCESS, "tid": lane, "args": {"name": name}})
        entries.append({"name": "thread_sort_index", "ph": "M", "pid": PROCESS, "tid": lane, "args": {"sort_index": lane}})
    return entries


def _of_task(story: Story, names: Names, task: Task) -> list[Entry]:
    """The slice of a task from behind its fork to before its end, and the arrow from its fork to its first event."""
    end, lane = len(story.lines) if task.ended is None else task.ended, 2 + task.slave
    if end <= task.begun + 1:
        return []
    place = names.place(int(task.pc, 16)) if task.pc else ""
    told: Entry = {"fate": task.fate, "steps": task.steps, "pc": task.pc, "place": place, "line": task.line}
    bar = _slice(f"task {task.number}", "task", lane, task.begun + 1, end - task.begun - 1, told)
    arrow = {"name": "begins", "cat": "begins", "id": task.number, "pid": PROCESS}
    source = {**arrow, "ph": "s", "tid": 0 if task.restarted else 1, "ts": task.begun}
    return [bar, source, {**arrow, "ph": "f", "bp": "e", "tid": lane, "ts": task.begun + 1}]


def _counter(name: str, changes: list[tuple[int, int]]) -> list[Entry]:
    return [{"name": name, "ph": "C", "pid": PROCESS, "ts": event + 1, "args": {name: value}} for event, value in changes]


def trace_of(story: Story, names: Names, files: dict[str, str]) -> str:
    """The text of the trace."""
    entries = _threads(story)
    for task in story.tasks:
        entries += _of_task(story, names, task)
    for at, (event, line, number) in enumerate(zip(story.events, story.lines, story.tasks_at)):
        told: Entry = {"event": at} if number < 0 else {"event": at, "task": number}
        entries.append(_slice(line, "event", lane_of(event, story.slaves), at, 1, told))
    for name, changes in (("committed position", story.positions), ("live tasks", story.live), ("master's lead", story.lead)):
        entries += _counter(name, changes)
    other = {**files, "axis": "a microsecond stands for one event", **story.summary}
    return json.dumps({"traceEvents": entries, "displayTimeUnit": "ns", "otherData": other}, separators=(",", ":")) + "\n"
