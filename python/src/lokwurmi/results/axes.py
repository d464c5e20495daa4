"""Axes of pictures: their times, edges, legends and colours. No package is needed, since axes are the caller's."""
from collections.abc import Sequence
from fractions import Fraction
from typing import Any

from lokwurmi.model.units import UNITS, decimal_text, text_of, unit_of

# one for each of some kinds that stand side by side, as resources, streams and numbers
SIDE_BY_SIDE = ["#3f7cac", "#5b9a68", "#8a6bb1", "#a3862a", "#2a8c8c", "#7d6b5d", "#6f8c1f", "#5b6770"]
# what is late or has no bound
LATE = "#c0392b"


class Scale:
    """How numbers of ticks are shown: as they are, or as times where the time of a tick is known."""

    def __init__(self, tick: Fraction | None = None):
        self.tick = tick

    def text(self, ticks: int) -> str:
        """A number of ticks, or the time that they are, in the unit that fits it, with all its digits."""
        if self.tick is None:
            return str(ticks)
        if not ticks:
            return "0"
        time = abs(ticks) * self.tick
        unit = unit_of(time)
        # a time of a tick is a decimal number, and so is each multiple of it
        digits = decimal_text(time / UNITS[unit]) or f"{float(time / UNITS[unit]):.12g}"
        return f"{'-' if ticks < 0 else ''}{digits}{unit}"

    def length(self, ticks: int) -> str:
        """The same with the word ticks."""
        return f"{ticks} tick{'' if ticks in (1, -1) else 's'}" if self.tick is None else self.text(ticks)

    def axis(self, axes: Any, last: int) -> None:
        """An axis of time up to a tick: its numbers and what they are, in one unit."""
        unit = self.units(axes, last)
        axes.set_xlabel(unit if self.tick is None else f"{unit}, where a tick is {text_of(self.tick)}")

    def units(self, axes: Any, last: int) -> str:
        """The same numbers, and what they are in one word."""
        if self.tick is None:
            return "ticks"
        unit = unit_of(last * self.tick)
        each = float(self.tick / UNITS[unit])
        axes.xaxis.set_major_formatter(lambda at, _: f"{at * each:.12g}")
        return unit


def bare(axes: Any) -> None:
    """Leaves out the lines above and to the right."""
    for side in ("top", "right"):
        axes.spines[side].set_visible(False)


def legend_above(axes: Any, marks: Sequence[Any], texts: Sequence[str], **look: Any) -> None:
    """A legend in one line above the axes, to the right."""
    where = {"loc": "lower right", "bbox_to_anchor": (1.01, 0.99), "borderaxespad": 0.2, "columnspacing": 1.0}
    axes.legend(marks, texts, fontsize=7, ncols=len(texts), frameon=False, **(where | look))
