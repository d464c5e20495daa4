"""A clock over its cycle: when its sources release, what work comes by it in each part, and where a trace has it."""
from collections.abc import Iterator, Sequence
from dataclasses import dataclass

from lokwurmi.model.view import SystemView
from lokwurmi_tools.shared.faults import Fault
from lokwurmi_tools.shared.types import Times

# into how many parts a cycle is cut at most
MOST_PARTS = 100
# from when to when a clock has run at the beginning of a trace
Lead = tuple[int, int]


@dataclass(frozen=True)
class ClockCycle:
    """A clock of a system."""

    view: SystemView
    name: str

    @property
    def cycle(self) -> int:
        return self.view.clock_cycle(self.name)

    @property
    def sources(self) -> tuple[str, ...]:
        return self.view.clocks[self.name]

    @property
    def part(self) -> int:
        """The length of a part of the cycle: 1, 2 or 5 times a power of ten."""
        least, part = -(-self.cycle // MOST_PARTS), 1
        while not any(least <= it * part for it in (1, 2, 5)):
            part *= 10
        return next(it * part for it in (1, 2, 5) if least <= it * part)

    def releases(self, source: str) -> range:
        """When the events of a source come in a cycle that aren't late."""
        it = self.view.sources[source]
        return range(it.offset, self.cycle, it.period)

    def resources(self) -> list[str]:
        """The resources of the tasks that its sources start, in the order of the file."""
        found = {self.view.tasks[it].on for source in self.sources for it in self.view.successors(source)}
        return [it for it in self.view.resources if it in found]

    def work(self, source: str, resource: str) -> int:
        """What an event of a source brings on a resource: the greatest executions of the tasks that it starts there."""
        rows = (self.view.tasks[it] for it in self.view.successors(source))
        return sum(it.worst for it in rows if it.on == resource)

    def loads(self, resource: str) -> dict[str, list[int]]:
        """The work that each source brings on a resource in each part of the cycle, where it brings any."""
        found = dict[str, list[int]]()
        for source in self.sources:
            if work := self.work(source, resource):
                found[source] = in_parts(self.releases(source), work, 0, self.cycle, self.part)
        return found

    def fullest(self, resource: str) -> tuple[int, int]:
        """The part of the cycle in which most comes, the first of these: when it begins, and how much that is."""
        sums = [sum(it) for it in zip(*self.loads(resource).values())]
        return sums.index(max(sums)) * self.part, max(sums)

    def left(self, resource: str) -> list[tuple[int, int]]:
        """How much of the work is left at which times of the cycle if nothing else comes, and nothing is late: before
        and behind each release. It begins with what the cycle before leaves."""
        by_time = dict[int, int]()
        for source in self.sources:
            for at in self.releases(source):
                by_time[at] = by_time.get(at, 0) + self.work(source, resource)
        rest = 0
        for _ in range(2):
            points, before, rest = [(0, rest)], 0, rest
            for at in sorted(by_time):
                points += drained(before, rest, at)
                rest = points[-1][1] + by_time[at]
                points.append((at, rest))
                before = at
            points += drained(before, rest, self.cycle)
            rest = points[-1][1]
        return points


def drained(since: int, work: int, until: int) -> list[tuple[int, int]]:
    """How work is done from one time until another: when it is, if by then, and what is left at the end."""
    done = [(since + work, 0)] if work < until - since else []
    return [*done, (until, max(0, work - (until - since)))]


def in_parts(times: Sequence[int], work: int, start: int, until: int, part: int) -> list[int]:
    """So much work at some times, summed in the parts of a stretch of time."""
    found = [0] * -(-(until - start) // part)
    for at in times:
        if start <= at < until:
            found[(at - start) // part] += work
    return found


def clock_of(view: SystemView, name: str, file: str) -> ClockCycle:
    """The clock of this name; one that isn't there ends the command."""
    if name not in view.clocks:
        there = f"there are {', '.join(view.clocks)}" if view.clocks else "no source is on a clock"
        raise Fault(f"{file}: --clock {name}: there is no such clock; {there}")
    return ClockCycle(view, name)


def leads_in(clock: ClockCycle, events: Times) -> list[Lead]:
    """For how long a clock may have run when a trace begins, up to its cycle, by which all its events come."""
    left = [(0, clock.cycle - 1)]
    for source in clock.sources:
        left = list(common(left, leads_of(clock, source, events.get(source, ()))))
    return left


def leads_of(clock: ClockCycle, name: str, times: Sequence[int]) -> list[Lead]:
    """The same by the events of one source, in order and each once."""
    source, cycle = clock.view.sources[name], clock.cycle
    if not times:
        return [(0, cycle - 1)]
    begins = [source.offset + number * source.period - at for number, at in enumerate(times)]
    first, last = max(begins), min(begins) + source.jitter
    if last - first >= source.period - 1:
        return [(0, cycle - 1)]
    found = list[Lead]()
    for more in range(0, cycle, source.period):
        low = (first + more) % cycle
        high = low + last - first
        found += [(low, high)] if high < cycle else [(0, high - cycle), (low, cycle - 1)]
    return sorted(found) if last >= first else []


def common(some: list[Lead], others: list[Lead]) -> Iterator[Lead]:
    """What two lists of stretches in order have in common."""
    place = 0
    for low, high in some:
        while place and others[place - 1][1] >= low:
            place -= 1
        while place < len(others) and others[place][0] <= high:
            if others[place][1] >= low:
                yield max(low, others[place][0]), min(high, others[place][1])
            place += 1
        place = max(0, place - 1)
