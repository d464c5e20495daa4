"""Where the sources of a clock may lie, and which places leave them most room: for lokwurmi offsets.

The first offsets are those of a known heuristic (Grenier, Havet and Navet, "Pushing the limits of CAN: scheduling
frames with offsets provides a major performance boost", 2008): sources by rising periods, each into the middle of the
longest stretch of its period in which least comes of those that are placed.
"""
import bisect
import math
from collections.abc import Iterable, Mapping, Sequence
from dataclasses import dataclass
from fractions import Fraction
from typing import NamedTuple

from lokwurmi.model.limits import MOST_TICKS
from lokwurmi.model.view import SystemView


class Beat(NamedTuple):
    """What comes at an offset, and every period from then on."""

    offset: int
    period: int


@dataclass(frozen=True, slots=True)
class Grid:
    """The offsets that a source may have: multiples of `step`, none above `most`."""

    step: int = 1
    most: int = MOST_TICKS

    def places(self, period: int) -> range:
        """The offsets of a source of this period."""
        return range(0, min(period - 1, self.most) + 1, self.step)

    def near(self, place: int, period: int) -> list[int]:
        """The offsets next to a place of the period, before it and behind it."""
        places, before = self.places(period), place // self.step * self.step
        several = (before, before + self.step, 0, places[-1])
        return [it for it in dict.fromkeys(several) if it in places]


class Folded:
    """How much of what comes by a clock meets a source of some period, by the place of the period: of each other one
    the share of the source's events beside which it comes."""

    def __init__(self, period: int, others: Iterable[Beat]):
        self.period = period
        self.loads: dict[int, Fraction] = {}
        for it in others:
            # the two come by each other as often as their periods' greatest common divisor says
            step = math.gcd(it.period, period)
            for place in range(it.offset % step, period, step):
                self.loads[place] = self.loads.get(place, Fraction(0)) + Fraction(step, it.period)
        self.sorted: dict[Fraction, list[int]] = {}

    def above(self, load: Fraction) -> list[int]:
        """The places that have more than a load, in order."""
        if load not in self.sorted:
            self.sorted[load] = sorted(place for place, it in self.loads.items() if it > load)
        return self.sorted[load]

    def distance(self, place: int, load: Fraction) -> int:
        """How far from a place the next one is that has more than a load, before it or behind it."""
        several = self.above(load)
        if not several:
            return self.period
        at = bisect.bisect_left(several, place)
        behind, before = several[at % len(several)], several[at - 1]
        return min((behind - place) % self.period, (place - before) % self.period)

    def middles(self) -> list[int]:
        """The middles of the stretches in which nothing comes."""
        several = self.above(Fraction(0))
        following = [*several[1:], several[0] + self.period] if several else []
        return [(one + (other - one) // 2) % self.period for one, other in zip(several, following)]

    def ranked(self, grid: Grid) -> list[int]:
        """Offsets for the source, the one with the least load first, and of these the one furthest from more."""
        places = grid.places(self.period)
        if len(places) > 2 * len(self.loads):
            several: Iterable[int] = {it for middle in self.middles() or [0] for it in grid.near(middle, self.period)}
        else:
            several = places

        def key(place: int) -> tuple[Fraction, int, int]:
            load = self.loads.get(place, Fraction(0))
            return load, -self.distance(place, load), place

        return sorted(several, key=key)


def peak(beats: Sequence[tuple[Beat, int]], cycle: int, window: int) -> int:
    """The most work that comes in a window of a clock's cycle, of what brings so much work each."""
    events = sorted((place, work) for it, work in beats for place in range(it.offset % it.period, cycle, it.period))
    # windows begin with an event, and go on into the next cycle
    most = inside = end = 0
    turns, rest = divmod(window, cycle)
    for place, work in events if rest else ():
        while end < 2 * len(events) and events[end % len(events)][0] + end // len(events) * cycle < place + rest:
            inside += events[end % len(events)][1]
            end += 1
        most = max(most, inside)
        inside -= work
    return most + turns * sum(work for _, work in events)


class Clocks:
    """The sources of a system that may move, those that are on clocks and aren't kept, and where they may lie."""

    def __init__(self, view: SystemView, free: Sequence[str], grid: Grid):
        self.view, self.grid = view, grid
        self.free = sorted(free, key=lambda it: (view.sources[it].period, self.urgency(it)))
        self.given = {name: view.sources[name].offset for several in view.clocks.values() for name in several}

    def urgency(self, source: str) -> float:
        """The least number of a priority among the tasks that a source starts; one without comes after all others."""
        ranks = [self.view.tasks[it].priority for it in self.view.successors(source)]
        return min((it for it in ranks if it is not None), default=math.inf)

    def places(self, source: str) -> range:
        """The offsets that a source may have."""
        return self.grid.places(self.view.sources[source].period)

    def off(self) -> list[str]:
        """The sources that may move whose offsets in the file aren't among those that they may have."""
        return [it for it in self.free if self.given[it] not in self.places(it)]

    def beside(self, source: str, offsets: Mapping[str, int]) -> list[Beat]:
        """What else comes by the clock of a source, of the sources that have offsets."""
        several = self.view.clocks[str(self.view.sources[source].clock)]
        return [Beat(offsets[it], self.view.sources[it].period) for it in several if it != source and it in offsets]

    def ranked(self, source: str, offsets: Mapping[str, int]) -> list[int]:
        """Offsets for a source beside others, those first that leave most room."""
        return Folded(self.view.sources[source].period, self.beside(source, offsets)).ranked(self.grid)

    def work(self, source: str) -> int:
        """What an event of a source brings: the greatest executions of the tasks that it starts."""
        return sum(self.view.tasks[it].worst for it in self.view.successors(source))

    def by_peaks(
        self, source: str, places: Sequence[int], offsets: Mapping[str, int], windows: Sequence[int]
    ) -> list[int]:
        """Places for a source beside others, those first by which its clock brings least in windows, all together."""
        clock = str(self.view.sources[source].clock)
        cycle = self.view.clock_cycle(clock)
        others = [
            (Beat(offsets[it], self.view.sources[it].period), self.work(it))
            for it in self.view.clocks[clock]
            if it != source
        ]
        own = self.view.sources[source].period, self.work(source)

        def key(place: int) -> int:
            beats = [*others, (Beat(place, own[0]), own[1])]
            return sum(peak(beats, cycle, it) for it in windows)

        # of two that bring the same the one before stays before
        return sorted(places, key=key)

    def spread(self) -> dict[str, int]:
        """The offsets of all sources on clocks by the heuristic; those that are kept have theirs, and come first."""
        free = set(self.free)
        found = {name: it for name, it in self.given.items() if name not in free}
        for name in self.free:
            alone = not self.beside(name, found) and self.given[name] in self.places(name)
            found[name] = self.given[name] if alone else self.ranked(name, found)[0]
        return found

    def fixed(self) -> set[str]:
        """Of each clock whose sources may all move one that needn't: where it lies is where the clock begins, which no
        bound depends on, as long as all may move on together."""
        if self.grid.most < MOST_TICKS:
            return set()
        found = set()
        for several in self.view.clocks.values():
            mine = [it for it in several if it in self.free]
            whole = all(self.view.sources[it].period % self.grid.step == 0 for it in mine)
            if len(mine) == len(several) and whole and not set(mine).intersection(self.off()):
                found.add(max(mine, key=lambda it: len(self.places(it))))
        return found
