"""The clocks of a system: the sources that one timer starts, and when each comes after the clock's start.

A clock is no entry of a file: it is there as long as a source names it.
"""
import math
from typing import TYPE_CHECKING, NamedTuple

from lokwurmi.errors import LokwurmiError
from lokwurmi.model.entries import Source, Ticks
from lokwurmi.model.limits import MOST_STARTS, MOST_TICKS
from lokwurmi.model.units import Time

if TYPE_CHECKING:
    from matplotlib.figure import Figure
    from pandas import DataFrame

    from lokwurmi.model.named_entries import NamedEntries

PREMISE = (
    "Holds while the node doesn't begin anew, no source drifts against the others, and no event is left out or sent"
    " besides."
)


class Release(NamedTuple):
    """When an event of a source on a clock comes, in ticks after the clock's start."""

    source: str
    number: int
    """Which event of the source it is; the first is number 0."""
    earliest: int
    """The offset, and so many periods."""
    latest: int
    """The jitter later."""


class Clock:
    """The sources of a system that name one clock. Event number n of each comes at its offset and n periods after the
    clock's start, by up to its jitter late, and none is left out.

    >>> from lokwurmi import System
    >>> system = System()
    >>> engine = system.clock("engine")
    >>> speed = engine.source("speed", period=10, jitter=1)
    >>> torque = engine.source("torque", period=20, offset=5)
    >>> engine.cycle, engine.offsets
    (20, {'speed': 0, 'torque': 5})
    >>> [(it.source, it.earliest, it.latest) for it in engine.releases()]
    [('speed', 0, 1), ('torque', 5, 5), ('speed', 10, 11)]
    """

    __slots__ = ("name", "_system")

    name: str

    def __init__(self, name: str, system: "NamedEntries"):
        self.name, self._system = name, system

    def __repr__(self) -> str:
        return f"Clock({self.name!r}, {len(self.sources)} sources)"

    def __eq__(self, other: object) -> bool:
        return isinstance(other, Clock) and self.name == other.name and self._system is other._system

    def __hash__(self) -> int:
        return hash((self.name, id(self._system)))

    def source(
        self,
        name: str,
        period: Ticks,
        *,
        offset: Ticks | None = None,
        jitter: Ticks | None = None,
        distance: Ticks | None = None,
    ) -> Source:
        """Adds a source on this clock; times are in ticks, or have a unit, and the period is a whole number of
        ticks."""
        return self._system.source(name, period, jitter=jitter, distance=distance, clock=self.name, offset=offset)

    @property
    def tick(self) -> Time | None:
        """The time of a tick, where the system has one."""
        return self._system.tick

    @property
    def sources(self) -> dict[str, Source]:
        """The sources that name it by now, by their names, in the order of the system."""
        return {name: it for name, it in self._system.sources.items() if it.clock == self.name}

    @property
    def offsets(self) -> dict[str, int]:
        """The offsets of its sources, in ticks."""
        return {name: self._ticks(it, "offset") for name, it in self.sources.items()}

    @property
    def cycle(self) -> int:
        """After how many ticks its sources come as before: the least common multiple of their periods."""
        if not self.sources:
            there = ", ".join(map(repr, self._system.clocks)) or "none"
            raise LokwurmiError(f"no source names the clock {self.name!r}; clocks with sources: {there}")
        return math.lcm(*(self._ticks(it, "period") for it in self.sources.values()))

    def time(self, ticks: int | None = None) -> Time:
        """So many ticks as an exact time, or the cycle; NoTick is raised where the system has no tick."""
        from lokwurmi.results.reports import time_of_ticks

        found = time_of_ticks(self.cycle if ticks is None else ticks, self.tick, "the cycle")
        assert found is not None
        return found

    def _ticks(self, it: Source, key: str) -> int:
        return self._system.ticks(it, key) or 0

    def releases(self, cycles: int = 1) -> list[Release]:
        """When each event comes that is due in so many cycles from the clock's start on, in the order of time."""
        end, found = cycles * self.cycle, list[Release]()
        counts = {name: end // self._ticks(it, "period") for name, it in self.sources.items()}
        if end > MOST_TICKS or sum(counts.values()) > MOST_STARTS:
            raise LokwurmiError(
                f"clock {self.name!r}: {cycles} cycle(s) of {self.cycle} ticks have {sum(counts.values())} events; at"
                f" most {MOST_STARTS} in {MOST_TICKS} ticks are listed: take periods that divide each other"
            )
        for name, it in self.sources.items():
            period, offset, jitter = (self._ticks(it, key) for key in ("period", "offset", "jitter"))
            begins = (offset + number * period for number in range(counts[name]))
            found += [Release(name, number, begin, begin + jitter) for number, begin in enumerate(begins)]
        return sorted(found, key=lambda it: it.earliest)

    def plot(self, cycles: int = 1) -> "Figure":
        """A chart of the releases: a row for each source, and a bar from when an event comes at the earliest to the
        latest. It needs matplotlib."""
        from lokwurmi.results.reports import plots

        return plots().clock_chart(self, cycles)

    def to_dataframe(self, cycles: int = 1) -> "DataFrame":
        """The releases as a table of pandas, in ticks."""
        from lokwurmi.results.reports import table_of

        return table_of(self.releases(cycles), Release._fields)

    def _repr_html_(self) -> str:
        from lokwurmi.results import html

        return html.clock(self)
