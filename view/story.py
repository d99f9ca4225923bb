"""What a replay tells: each event with its line, the tasks with their fates, and three counts over the events.

The lines are those of `mssp replay` (docs/FORMATS.md). From them follows which task each event was about: numbers go on by
one over the whole life, a slave runs the task whose number is its own modulo the number of slaves, and a commit is about the
oldest task. At the end all of it is compared with the summary that `mssp` puts.
"""
from __future__ import annotations

import re
from dataclasses import dataclass, field
from pathlib import Path

from view.lists import is_held, written_out
from view.program import Mssp, Refused, input_words

COMMITTED, SQUASHED, DROPPED, ALIVE = "committed", "squashed", "dropped", "alive"
SQUASH = re.compile(r"squashed (pc|x\d+|byte [0-9a-f]{8}) predicted ([0-9a-f]{8}) found ([0-9a-f]{8})")
SUMMARY = ("position", "tasks", "by-tasks", "serial", "squashed", "dropped", "end", "output")


@dataclass
class Task:
    """A task from the event that began it to the one that ended it, or to the end of the list."""

    number: int
    slave: int
    begun: int
    restarted: bool
    slots: int
    steps: int = 0
    done: int | None = None
    ending: str | None = None
    ended: int | None = None
    fate: str = ALIVE
    position: int | None = None  # the committed position at which it was compared
    behind: int | None = None  # the task whose commit or squash it was given up behind
    line: str = ""
    pc: str | None = None


@dataclass
class Story:
    """A replay: `tasks_at` has for each event the number of the task that it was about, or -1.

    `positions`, `live` and `lead` have a pair (event, value) for each change: the committed position, the live tasks, and the
    slots that the master did past the beginning of the oldest live task.
    """

    events: list[str]
    lines: list[str]
    slaves: int
    summary: dict[str, str] = field(default_factory=dict)
    tasks: list[Task] = field(default_factory=list)
    tasks_at: list[int] = field(default_factory=list)
    positions: list[tuple[int, int]] = field(default_factory=lambda: [(-1, 0)])
    live: list[tuple[int, int]] = field(default_factory=lambda: [(-1, 0)])
    lead: list[tuple[int, int]] = field(default_factory=lambda: [(-1, 0)])

    def squashes(self) -> list[Task]:
        """The squashed tasks in the order of their squashes."""
        return [task for task in self.tasks if task.fate == SQUASHED]


@dataclass
class _Teller:
    """Takes one event with its line after the other. Its fields are what the lines tell of the model."""

    story: Story
    position: int = 0
    slots: int = 0
    has_master: bool = False
    alive: list[Task] = field(default_factory=list)

    def take(self, at: int, event: str, line: str) -> None:
        """One event, and what changes by it."""
        word = line.split(" ", 1)[0]
        actor = event.split(" ", 1)[0]
        task = getattr(self, "_" + actor)(at, event, line, word) if word != "idle" else None
        self.story.tasks_at.append(-1 if task is None else task.number)
        _note(self.story.positions, at, self.position)
        _note(self.story.live, at, len(self.alive))
        _note(self.story.lead, at, self.slots - self.alive[0].slots if self.has_master and self.alive else 0)

    def _serial(self, at: int, event: str, line: str, word: str) -> None:
        self.position += 1

    def _restart(self, at: int, event: str, line: str, word: str) -> Task:
        self.has_master = True
        self.slots = 0
        task = self._begin(at, True)
        task.pc = line.split()[1]
        return task

    def _master(self, at: int, event: str, line: str, word: str) -> Task | None:
        if word == "halted":
            self.has_master = False
        if word in ("moved", "forked"):
            self.slots += 1
        return self._begin(at, False) if word == "forked" else None

    def _slave(self, at: int, event: str, line: str, word: str) -> Task:
        slave = int(event.split()[1]) % self.story.slaves
        task = next((task for task in self.alive if task.slave == slave and task.done is None), None)
        if task is None:
            raise Refused(f"event {at}: {event} answers {line}, and no task of it runs", 2)
        if word == "done":
            task.done, task.ending = at, line.split()[1]
        if line != "done met":
            task.steps += 1
        return task

    def _commit(self, at: int, event: str, line: str, word: str) -> Task:
        front = self.alive.pop(0)
        front.ended, front.position, front.line = at, self.position, line
        squash = SQUASH.fullmatch(line)
        front.fate = SQUASHED if squash else COMMITTED
        if squash:
            front.pc = squash[2] if squash[1] == "pc" else front.pc
        else:
            self.position += int(line.split()[1])
        if squash or front.ending != "reached":
            self._give_up(at, front)
        return front

    def _begin(self, at: int, restarted: bool) -> Task:
        number = len(self.story.tasks)
        task = Task(number, number % self.story.slaves, at, restarted, self.slots)
        self.story.tasks.append(task)
        self.alive.append(task)
        return task

    def _give_up(self, at: int, front: Task) -> None:
        """All live tasks and the master, behind the commit or squash of one."""
        for task in self.alive:
            task.ended, task.fate, task.behind = at, DROPPED, front.number
        self.alive = []
        self.has_master = False


def _note(changes: list[tuple[int, int]], at: int, value: int) -> None:
    """Notes a value after an event, where it changed."""
    if changes[-1][1] != value:
        changes.append((at, value))


def _agrees(story: Story, position: int) -> bool:
    """Whether what was told of the tasks comes to the summary that `mssp` put."""
    committed = [task for task in story.tasks if task.fate == COMMITTED]
    behind_commits = [t for t in story.tasks if t.behind is not None and story.tasks[t.behind].fate == COMMITTED]
    told = (position, len(committed), sum(task.steps for task in committed), len(story.squashes()), len(behind_commits))
    names = ("position", "tasks", "by-tasks", "squashed", "dropped")
    return told == tuple(int(story.summary[name]) for name in names)


def told(events: list[str], put: bytes, slaves: int) -> Story:
    """The story of events and of what `mssp replay` put for them."""
    lines = put.decode("latin-1").split("\n", len(events) + len(SUMMARY))
    if len(lines) < len(events) + len(SUMMARY):
        raise Refused("the replay has fewer lines than the list has events", 2)
    story = Story(events, lines[: len(events)], slaves)
    story.summary = dict(line.split(" ", 1) for line in lines[len(events) : len(events) + len(SUMMARY)])
    teller = _Teller(story)
    for at, (event, line) in enumerate(zip(story.events, story.lines)):
        teller.take(at, event, line)
    if not _agrees(story, teller.position):
        raise Refused("the lines of the replay don't come to its summary", 2)
    return story


def replayed(mssp: Mssp, program: str, image: str, events: str, input_file: str | None, slaves: int) -> Story:
    """Replays a list, and tells the story."""
    is_held(Path(events))
    put = mssp.call("replay", program, image, events, "--slaves", str(slaves), *input_words(input_file))
    return told(written_out(Path(events)), put, slaves)
