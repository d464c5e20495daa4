"""Finds clocks in a log: sources whose events keep their distance to each other. For lokwurmi import log --clocks.

What is found is a proposal: a log shows that sources kept their places while it was written, and no more. A source that
may be on several clocks, or that doesn't fit, is on none, which makes no bound lower.
"""
import math
from collections.abc import Iterable, Mapping, Sequence
from dataclasses import dataclass, field
from fractions import Fraction
from typing import NamedTuple

from lokwurmi.model.limits import MOST_STARTS, MOST_TICKS
from lokwurmi_tools.logs.schedules import Pace, Schedule, Told, pace_of, ppm, zeros_of
from lokwurmi_tools.networks.buses import LONGEST, named

# by how many millionths the clocks of two nodes differ, as a rule: a log that doesn't show that much is too short
USUAL = 100
# by how many zeros a period is clearly rounder than another
CLEARLY = 2


class Node(NamedTuple):
    """Whose clock a source may be on: a channel, and a sender where a database tells it."""

    channel: str
    sender: str


class SeenSource(NamedTuple):
    """A source of a log: its times, its node, why it can't be on a clock, and what is known of it besides."""

    times: Sequence[int]
    node: Node
    why: str
    told: Told


class Place(NamedTuple):
    """A source on a clock."""

    clock: str
    offset: int
    schedule: Schedule


@dataclass
class FoundClock:
    """A clock with the periods of its sources, of which it drifts so against the recorder's clock, and their
    schedules."""

    name: str
    node: Node
    drift: float
    periods: dict[str, int]
    sources: dict[str, Schedule] = field(default_factory=dict)

    @property
    def drifts(self) -> tuple[Fraction, Fraction]:
        """The least and the greatest drift by which all of them stray little."""
        several = self.sources.values()
        return max(it.least for it in several), min(it.most for it in several)

    @property
    def middle(self) -> Fraction:
        return sum(self.drifts, Fraction(0)) / 2

    @property
    def hidden(self) -> Fraction:
        """By how much two of its sources may drift against each other without leaving their places."""
        return sum(sorted((it.hidden for it in self.sources.values()), reverse=True)[:2], Fraction(0))


@dataclass
class FoundClocks:
    """The clocks of a log, where each source is on one, and why the others are on none."""

    clocks: list[FoundClock] = field(default_factory=list)
    places: dict[str, Place] = field(default_factory=dict)
    why: dict[str, str] = field(default_factory=dict)


def periods_at(paces: Mapping[str, Pace], drift: float) -> dict[str, int]:
    """The sources that may be on a clock that drifts so, each with its period."""
    found = {name: it.period_at(drift) for name, it in paces.items()}
    return {name: period for name, period in found.items() if period is not None}


def by_drift(node: Node, paces: Mapping[str, Pace], why: dict[str, str]) -> list[FoundClock]:
    """Sources in groups that a drift each fits: the one that fits most of those that are left, then that by which their
    periods are roundest, then the least. Says why others are in none."""
    drifts = sorted({round(drift, 12) for it in paces.values() for drift in it.drifts()} | {0.0}, key=abs)
    every = {drift: periods_at(paces, drift) for drift in drifts}
    rest, found = dict(paces), []

    def worth(drift: float) -> tuple[int, int]:
        there = [zeros_of(period) for name, period in every[drift].items() if name in rest]
        return len(there), sum(there)

    while rest:
        drift = max(drifts, key=worth)
        group = {name: period for name, period in every[drift].items() if name in rest}
        if not group:
            break
        found.append(FoundClock("", node, drift, group))
        rest = {name: it for name, it in rest.items() if name not in group}
    why |= {name: f"its period is no whole number of ticks: {float(it.best):.6g}" for name, it in rest.items()}
    return found


def by_roundness(groups: list[FoundClock], paces: Mapping[str, Pace], why: dict[str, str]) -> None:
    """Puts each source into the group by whose drift its period is roundest; where two are about as good, into none."""
    for name, it in paces.items():
        every = [(place, it.period_at(group.drift)) for place, group in enumerate(groups)]
        found = sorted((zeros_of(period), place, period) for place, period in every if period is not None)
        for own in groups:
            own.periods.pop(name, None)
        if len(found) > 1 and found[-1][0] < found[-2][0] + CLEARLY:
            why[name] = "it fits more than one clock, and the log is too short to tell which"
        elif found:
            groups[found[-1][1]].periods[name] = found[-1][2]


def keep_places(clock: FoundClock, paces: Mapping[str, Pace], why: dict[str, str]) -> None:
    """Gives the sources of a clock their schedules, or says why they have none."""
    for name, period in clock.periods.items():
        schedule = paces[name].schedule(period)
        if isinstance(schedule, str):
            why[name] = schedule
        else:
            clock.sources[name] = schedule


def leave_alone(groups: list[FoundClock], why: dict[str, str]) -> list[FoundClock]:
    """The groups of more than one source; says why the others are on no clock."""
    kept = [it for it in groups if len(it.sources) > 1]
    for lone in groups:
        for name, it in lone.sources.items() if lone not in kept else ():
            others = [f"{ppm(it.drift - one.middle)} against {next(iter(one.sources))}" for one in kept]
            drifts = f": it drifts by {' and by '.join(others)}" if others else ""
            why[name] = f"no other source keeps its distance to it{drifts}"
    return kept


def keep_cycle(clock: FoundClock, why: dict[str, str]) -> None:
    """Takes sources out by whose periods the cycle of a clock were too long; those that go with most others stay."""
    periods = [it.period for it in clock.sources.values()]

    def fitting(period: int) -> int:
        return sum(it % period == 0 or period % it == 0 for it in periods)

    cycle, kept = 1, list[int]()
    for name, it in sorted(clock.sources.items(), key=lambda row: (-fitting(row[1].period), row[1].period)):
        longer = math.lcm(cycle, it.period)
        if longer > MOST_TICKS or sum(longer // one for one in (*kept, it.period)) > MOST_STARTS:
            long = (
                f"longer than {MOST_TICKS} ticks" if longer > MOST_TICKS else f"one of more than {MOST_STARTS} events"
            )
            why[name] = f"by its period of {it.period} the cycle of its clock would be {long}"
            del clock.sources[name]
        else:
            cycle = longer
            kept.append(it.period)


def name_clocks(clocks: Iterable[FoundClock], names: Mapping[Node, str]) -> None:
    """Names clocks by their nodes, with numbers behind where several have one name."""
    taken: set[str] = set()
    for it in clocks:
        it.name = named(names[it.node], taken, LONGEST)


def place_sources(clock: FoundClock) -> dict[str, Place]:
    """The offsets of the sources of a clock, whose start is where the first event seen of it could come."""
    start = min(it.early for it in clock.sources.values())
    return {name: Place(clock.name, (it.early - start) % it.period, it) for name, it in clock.sources.items()}


def find_clocks(sources: Mapping[str, SeenSource], names: Mapping[Node, str]) -> FoundClocks:
    """The clocks of some sources; `names` has that of a clock by its node."""
    found, by_node = FoundClocks(), dict[Node, dict[str, Pace]]()
    for name, it in sources.items():
        pace = it.why or pace_of(it.times, it.told)
        if isinstance(pace, str):
            found.why[name] = pace
        else:
            by_node.setdefault(it.node, {})[name] = pace
    for node, paces in by_node.items():
        found.clocks += clocks_of_node(node, paces, found.why)
    name_clocks(found.clocks, names)
    for clock in found.clocks:
        found.places |= place_sources(clock)
    return found


def clocks_of_node(node: Node, paces: Mapping[str, Pace], why: dict[str, str]) -> list[FoundClock]:
    """The clocks of the sources of a node; says why some are on none."""
    groups = by_drift(node, paces, why)
    by_roundness(groups, paces, why)
    for clock in groups:
        keep_places(clock, paces, why)
    several = leave_alone(groups, why)
    for clock in several:
        keep_cycle(clock, why)
    return leave_alone(several, why)
