"""Charts of the statistics, as SVG by matplotlib: for each program a bar for each setting, in two panels."""
from __future__ import annotations

from pathlib import Path

import matplotlib

matplotlib.use("Agg")
import matplotlib.pyplot as plt  # noqa: E402
from matplotlib.axes import Axes  # noqa: E402

from view.pictures import save_figure, settle  # noqa: E402

SHADES = ("#1f4e79", "#5b8fc7", "#b9d0ea")
PALES = ("#c0392b", "#dd7f75", "#f0c4bf")
Row = tuple[float | None, ...]


def _panel(axes: Axes, programs: list[str], labels: list[str], rows: list[Row], above: list[Row] | None, title: str) -> None:
    """One panel: `rows` has for each setting a value for each program, `above` what is stacked on them."""
    wide = 0.8 / len(labels)
    for at, (label, values) in enumerate(zip(labels, rows)):
        places = [index + (at - (len(labels) - 1) / 2) * wide for index in range(len(programs))]
        heights = [value or 0 for value in values]
        axes.bar(places, heights, wide, color=SHADES[at % 3], label=label)
        if above is not None:
            axes.bar(
                places, [value or 0 for value in above[at]], wide, bottom=heights, color=PALES[at % 3], label=f"{label}, dropped"
            )
        for place, value in zip(places, values):
            if value is None:
                axes.annotate("–", (place, 0), ha="center", va="bottom", fontsize=7, color="#596273")
    axes.set_xticks(range(len(programs)), programs, rotation=45, ha="right", rotation_mode="anchor")
    axes.set_title(title, fontsize=9, loc="left")
    axes.legend(frameon=False, fontsize=7)
    axes.tick_params(length=0)
    axes.grid(axis="y", color="#e3e7ed", linewidth=0.6)
    axes.set_axisbelow(True)
    for side in ("top", "right", "left"):
        axes.spines[side].set_visible(False)


def chart(file: Path, unit: str, programs: list[str], panels: list[tuple[str, list[str], list[Row], list[Row] | None]]) -> None:
    """Writes one chart. A panel is its title, the labels of its settings, and their rows."""
    settle()
    figure, all_axes = plt.subplots(1, len(panels), figsize=(10, 3), sharey=True, squeeze=False)
    for axes, (title, labels, rows, above) in zip(all_axes[0], panels):
        _panel(axes, programs, labels, rows, above, title)
    all_axes[0][0].set_ylabel(unit)
    figure.tight_layout()
    save_figure(figure, str(file))
