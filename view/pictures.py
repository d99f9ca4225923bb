"""A still picture of a replay, by matplotlib: the lanes of a list that is short enough to be read as a whole."""
from __future__ import annotations

import matplotlib

matplotlib.use("Agg")
import matplotlib.pyplot as plt  # noqa: E402
from matplotlib.axes import Axes  # noqa: E402
from matplotlib.patches import FancyBboxPatch  # noqa: E402

from view.page import lane_of, lanes_of  # noqa: E402
from view.program import Refused  # noqa: E402
from view.story import SQUASH, Story, Task  # noqa: E402
from view.symbols import Names  # noqa: E402

MOST = 400
COLOURS = {"committed": "#3a7d5b", "squashed": "#c0392b", "dropped": "#8b95a5", "alive": "#4a7fc1"}
INK = "#1c2430"
MARKS = {
    "started": (">", "#2f5d9b"),
    "forked": ("^", "#2f5d9b"),
    "halted": ("s", "#c0392b"),
    "stalled": ("|", "#e0a030"),
    "moved": ("o", "#6d7b90"),
    "stepped": ("o", "#6d7b90"),
    "committed": ("P", "#2d6a4b"),
    "squashed": ("X", "#c0392b"),
    "ended": ("s", INK),
    "idle": (".", "#c3cad4"),
    "done": ("D", INK),
}


def settle() -> None:
    """The same files from the same data: text as text, no date, and ids by a fixed salt."""
    matplotlib.rcParams.update({"svg.fonttype": "none", "svg.hashsalt": "mssp", "font.family": "DejaVu Sans", "font.size": 9})


def _bar(axes: Axes, story: Story, task: Task) -> None:
    """The bar of a task, paler from where it is done on."""
    end = len(story.lines) if task.ended is None else task.ended + 1
    y, begin = 2 + task.slave, task.begun
    colour = COLOURS[task.fate]
    done = end if task.done is None else task.done + 1
    for start, stop, alpha in ((begin, done, 1.0), (done, end, 0.45)):
        if stop > start:
            style = "round,pad=0,rounding_size=0.12" if stop - start > 1 else "square,pad=0"
            box = FancyBboxPatch((start, y - 0.34), stop - start, 0.68, style, facecolor=colour, alpha=alpha, linewidth=0)
            axes.add_patch(box)
    text = f"task {task.number}" + (f" from {task.pc}" if task.pc else "")
    if end - begin > 3:
        axes.text(begin + 0.25, y - 0.12, text, color="white", fontsize=8, va="center")
    axes.plot([begin + 0.5] * 2, [0.25 if task.restarted else 1.25, y - 0.34], color="#8b95a5", linewidth=0.8, zorder=0)
    if task.ended is not None:
        axes.plot([end - 0.5] * 2, [y + 0.34, story.slaves + 1.7], color="#8b95a5", linewidth=0.8, zorder=0)


def _marks(axes: Axes, story: Story) -> None:
    """A mark for each event, in its lane."""
    for name, (marker, colour) in MARKS.items():
        at = [event for event, line in enumerate(story.lines) if line.split(" ", 1)[0] == name]
        lanes = [lane_of(story.events[event], story.slaves) for event in at]
        small = name in ("stepped", "moved", "idle", "done")
        inside = [lane + 0.18 if 2 <= lane < story.slaves + 2 and name != "idle" else lane for lane in lanes]
        pale = ["white" if small and 2 <= lane < story.slaves + 2 and name != "idle" else colour for lane in lanes]
        axes.scatter([event + 0.5 for event in at], inside, s=9 if small else 46, marker=marker, c=pale, linewidths=0, zorder=3)


def _squashes(axes: Axes, story: Story, names: Names) -> int:
    """What each squash tells, beneath the lanes. How many rows that takes."""
    squashed = story.squashes()[:4]
    for row, task in enumerate(squashed):
        match = SQUASH.fullmatch(task.line)
        if match is None or task.ended is None:
            continue
        place = f" {names.place(int(task.pc, 16))}".rstrip() if task.pc else ""
        start = f" from {task.pc}{place}" if task.pc else ""
        text = f"task {task.number}{start} is squashed: {match[1]} was predicted {match[2]}, and found {match[3]}"
        y = story.slaves + 3 + 0.7 * row
        left = task.ended < len(story.lines) / 2
        axes.text(task.ended + (0.2 if left else 0.8), y, text, color="#b3261e", va="center", ha="left" if left else "right")
    return len(squashed)


def still(story: Story, names: Names, file: str) -> None:
    """Draws the lanes into a file, SVG or PNG by its name."""
    if len(story.lines) > MOST:
        raise Refused(f"a still picture has at most {MOST} events", 2)
    settle()
    used = [task.slave for task in story.tasks]
    lanes = lanes_of(story.slaves)
    figure, axes = plt.subplots(figsize=(max(6.4, min(14, 0.42 * len(story.lines))), 0.36 * len(lanes) + 1.1))
    for lane in range(0, len(lanes), 2):
        axes.axhspan(lane - 0.5, lane + 0.5, color="#f5f7fa", zorder=-1, linewidth=0)
    for task in story.tasks:
        _bar(axes, story, task)
    _marks(axes, story)
    rows = _squashes(axes, story, names)
    axes.set_xlim(0, len(story.lines))
    axes.set_ylim(len(lanes) - 0.4 + 0.7 * rows, -0.6)
    axes.set_yticks(
        range(len(lanes)),
        [f"{name}" + ("" if not 2 <= at < len(lanes) - 1 or at - 2 in used else " (no task)") for at, name in enumerate(lanes)],
    )
    axes.set_xticks([event + 0.5 for event in range(0, len(story.lines), max(1, len(story.lines) // 20))])
    axes.set_xticklabels([str(event) for event in range(0, len(story.lines), max(1, len(story.lines) // 20))])
    axes.set_xlabel("event")
    axes.tick_params(length=0)
    for side in axes.spines.values():
        side.set_visible(False)
    save_figure(figure, file)


def save_figure(figure: plt.Figure, file: str) -> None:
    """Writes a figure without a date."""
    try:
        figure.savefig(
            file, bbox_inches="tight", facecolor="white", metadata={"Date": None} if file.endswith(".svg") else None, dpi=150
        )
    except (OSError, ValueError) as error:
        raise Refused(f"{file}: {error}", 2) from error
    finally:
        plt.close(figure)
