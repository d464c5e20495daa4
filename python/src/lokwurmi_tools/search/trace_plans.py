"""Plans of traces that may make a task, a path or an effect chain late, for lokwurmi worst.

Their sources stay near: the k-th event of a source comes k periods after its start, and up to its jitter later."""
import itertools
import random
from collections.abc import Iterable, Sequence
from dataclasses import dataclass, field
from typing import NamedTuple

from lokwurmi.model.event_models import Bounds, least_time
from lokwurmi.model.limits import MOST_TIME, Kind
from lokwurmi.model.view import SystemView
from lokwurmi_tools.bounds.bound_parts import BoundParts, Tired
from lokwurmi_tools.shared.types import Times

# how many rows a trace may have that is tried, about
MOST_ROWS = 20_000
# how many looks at windows may be taken for the one in which the bound of a task of a queue is reached
MOST_LOOKS = 1_000_000


class Turn(NamedTuple):
    """What is so from a place on, or up to before it, of events or jobs that count from 0."""

    place: int
    is_from: bool

    def has(self, place: int) -> bool:
        """Whether it is so at a place."""
        return (place >= self.place) == self.is_from


# of no event, and of the first one alone
NONE, FIRST = Turn(0, False), Turn(1, False)
# which events of a source are late, and by how many ticks
Lateness = tuple[Turn, int]


@dataclass
class TracePlan:
    """What a trace is made of. `start` has the first event of each source that has any, in ticks; `late` which of its
    events are late and by how much, and where that isn't told the first one is by all its jitter; `long` which jobs of
    a task take the greatest execution, all where that isn't told; `turned` single jobs that take the other one; `phase`
    where TDMA cycles stand."""

    start: dict[str, int]
    late: dict[str, Lateness] = field(default_factory=dict)
    long: dict[str, Turn] = field(default_factory=dict)
    turned: dict[str, set[int]] = field(default_factory=dict)
    phase: dict[str, int] = field(default_factory=dict)

    def copy(self) -> "TracePlan":
        turned = {task: set(jobs) for task, jobs in self.turned.items()}
        return TracePlan(dict(self.start), dict(self.late), dict(self.long), turned, dict(self.phase))

    def without(self, view: SystemView, names: Iterable[str]) -> "TracePlan":
        """The plan without some sources. What is left comes sooner where the first event goes, and cycles with it."""
        fewer = self.copy()
        for name in names:
            del fewer.start[name]
        sooner = min(fewer.start.values(), default=0) - min(self.start.values(), default=0)
        for name in view.rings():
            fewer.phase[name] = (self.phase.get(name, 0) + sooner) % view.cycle(name)
        return fewer


def lateness_of(view: SystemView, plan: TracePlan, source: str) -> Lateness:
    """Which events of a source are late, and by how many ticks, which is up to its jitter."""
    jitter = view.sources[source].jitter
    turn, ticks = plan.late.get(source, (FIRST, jitter))
    return turn, min(ticks, jitter)


def steady_starts(view: SystemView, plan: TracePlan) -> dict[str, int]:
    """When the first event of each source came if it weren't late. On a clock the first source of the plan says where
    that stands, and each other begins with that of its events which is nearest to its start."""
    first, found = min(plan.start.values(), default=0), dict[str, int]()
    begun: dict[str, int] = {}
    for name, start in plan.start.items():
        source, (turn, late) = view.sources[name], lateness_of(view, plan, name)
        lateness = late * turn.has(0)
        steady = start - first - lateness
        if source.clock is not None:
            begin = begun.setdefault(source.clock, steady - source.offset)
            later = (begin + source.offset - steady) % source.period
            may_be_sooner = steady + later - source.period + lateness >= 0
            steady += later - (source.period if 2 * later > source.period and may_be_sooner else 0)
        found[name] = steady
    return found


def events_of(view: SystemView, plan: TracePlan, span: int) -> Times:
    """The times of each source: as dense as it may be from its start on, for so many ticks."""
    found = dict[str, list[int]]()
    for name, steady in steady_starts(view, plan).items():
        source, times = view.sources[name], list[int]()
        turn, late = lateness_of(view, plan, name)
        while len(times) < MOST_ROWS // len(plan.start):
            at = steady + len(times) * source.period + late * turn.has(len(times))
            at = max(at, times[-1] + source.distance) if times else at
            if times and at > span or at > MOST_TIME:
                break
            times.append(at)
        found[name] = times
    return found


def rows_of(view: SystemView, plan: TracePlan, span: int) -> list[str]:
    """The rows of the trace."""
    events = events_of(view, plan, span)
    rows = [f"event,{name},{at}" for name, times in events.items() for at in times]
    for name, task in view.tasks.items():
        if task.best == task.worst or (name not in plan.long and name not in plan.turned):
            continue
        count = min(sum(len(events.get(source, ())) for source in view.sources_of(name)), MOST_ROWS)
        long, turned = plan.long.get(name, Turn(0, True)), plan.turned.get(name, set())
        greatest = [long.has(k) != (k in turned) for k in range(count)]
        while greatest and greatest[-1]:
            # a job without a row takes the greatest
            greatest.pop()
        rows += [f"exec,{name},{task.worst if it else task.best}" for it in greatest]
    return rows + [f"phase,{name},{at}" for name, at in plan.phase.items()]


def travel_of(view: SystemView, bounds: Bounds, way: Iterable[str], which: str) -> int:
    """For how many ticks a job is on its way to a task: with least or greatest executions, or as late as the bounds
    allow."""
    if which == "best":
        return sum(view.tasks[it].best for it in way)
    return sum((bounds.get(it) if which == "bound" else None) or view.tasks[it].worst for it in way)


def known_plans(view: SystemView, target: str, bounds: Bounds) -> list[TracePlan]:
    """Plans that are known to be bad for a task: its rivals come with it, jitter is used up first, all take their
    greatest; a frame of lower priority has just begun, or a region or a section; the slot has just ended; on a queue
    the task comes last. Where tasks come along chains, these are started before, so that they arrive then, with first
    jobs that take long and later ones that don't, or with all that take as long."""
    lower, plans = view.blockers(target), arriving(view, target, bounds)
    if lower:
        plans += [more for plan in plans for more in blocked(view, plan, bounds, target, lower)]
    if view.kind(target) == Kind.FIFO:
        plans = [*last_of_all(view, plans, bounds, target), *plans]
    if view.kind(target) == Kind.TDMA:
        plans += [more for plan in plans for more in turned(view, plan, target)]
    together = {name: 0 for name in view.sources}
    return [*plans, TracePlan(together), TracePlan(together, long=dict.fromkeys(view.tasks, FIRST))]


def arriving(view: SystemView, target: str, bounds: Bounds) -> list[TracePlan]:
    """Plans in which the jobs of a task and of its rivals arrive together."""
    plans, several = [], [*view.rivals(target), target]
    for which, shift in itertools.product(("worst", "best", "bound"), (0, 1, -1)):
        start: dict[str, int] = {}
        for name in several:
            for source, *way in view.ways_to(name):
                at = -travel_of(view, bounds, way, which) - (shift if name != target else 0)
                start[source] = min(start.get(source, at), at)
        ways = {one for name in several for _, *way in view.ways_to(name) for one in way}
        long: list[dict[str, Turn]] = [{}, dict.fromkeys(ways, FIRST)]
        long.append(dict.fromkeys(ways, NONE) if which == "best" else {})
        plans += [TracePlan(start, long=it) for it in long]
    return plans


def blocked(view: SystemView, plan: TracePlan, bounds: Bounds, target: str, lower: list[str]) -> list[TracePlan]:
    """The plan with a frame of lower priority that has just begun, or a region, or a critical section."""
    found = []
    for block in [it for it in view.blocks(target) if it.task in lower][:3]:
        for ahead in {1, view.resource(target).bit, block.start + 1}:
            more = plan.copy()
            for source, *way in view.ways_to(block.task):
                if source not in more.start:
                    more.start[source] = -ahead - travel_of(view, bounds, way, "worst")
            found.append(more)
    return found


def last_of_all(view: SystemView, plans: list[TracePlan], bounds: Bounds, target: str) -> list[TracePlan]:
    """Plans with the jobs of a task of a queue so late that the last of them comes at the end of the window in which
    its bound is reached, where all that comes in it is in front."""
    parts = BoundParts(view, bounds)
    try:
        job = parts.latest(target, most=MOST_LOOKS)
    except Tired:
        return []
    if job is None:
        return []
    later, found = job.came - least_time(parts.inputs[target] or [], job.number), list[TracePlan]()
    for plan in plans:
        found.append(plan.copy())
        for source in dict.fromkeys(view.sources_of(target)):
            found[-1].start[source] += later
    return found


def turned(view: SystemView, plan: TracePlan, target: str) -> list[TracePlan]:
    """The plan with the cycle where the slot of a task has just ended, or about."""
    ring, found = view.tasks[target].on, []
    ended = view.slot_begin(target) + view.tasks[target].turn
    for late in range(-2, 3):
        more = plan.copy()
        more.phase[ring] = (ended + late + min(more.start.values())) % view.cycle(ring)
        found.append(more)
    return found


def path_plan(
    view: SystemView, links: Sequence[str], bounds: Bounds, busy: set[str], which: str, late: bool
) -> tuple[dict[str, int], set[str]]:
    """A plan in which the passage of a path finds those tasks of it that are busy at their worst: their rivals come
    with it, and a frame, a region or a section of lower priority begins a tick before; or the rivals come late, just
    before that has ended. What is already bound to come elsewhere stays there."""
    source, *before = view.ways_to(links[0])[0]
    start, at, ways = {source: -travel_of(view, bounds, before, "worst")}, 0, set(before)
    for name in links:
        if name not in busy:
            at += view.tasks[name].worst
            continue
        blocks = [it for it in view.blocks(name) if it.ticks > 1]
        lower = [it for it in blocks if not any(source in start for source in view.sources_of(it.task))][:1]
        later = max(0, lower[0].ticks - 2) if late and lower else 0
        for rival, ahead in [(it.task, it.start + 1) for it in lower] + [(one, -later) for one in view.rivals(name)]:
            for source, *way in view.ways_to(rival):
                start.setdefault(source, at - ahead - travel_of(view, bounds, way, which))
                ways.update(way)
        at += (bounds.get(name) or view.tasks[name].worst) - (1 if lower else 0)
    return start, ways


def path_plans(view: SystemView, links: Sequence[str], bounds: Bounds) -> list[TracePlan]:
    """Plans that are bad for a path: each of its tasks is busy, or some are, as one that comes late may spare it
    others."""
    if len(links) <= 4:
        some = [{links[k] for k in range(len(links)) if number >> k & 1} for number in range(1, 2 ** len(links))]
    else:
        some = [set(links), *({name} for name in links)]
    plans = []
    for busy in some:
        for which, late in itertools.product(("worst", "best", "bound"), (False, True)):
            start, ways = path_plan(view, links, bounds, busy, which, late)
            plans += [TracePlan(start), TracePlan(start, long=dict.fromkeys(ways, FIRST))]
    return plans


def change(view: SystemView, plan: TracePlan, rng: random.Random, sources: list[str], tasks: list[str]) -> TracePlan:
    """A plan that differs from another in one or two things."""
    new = plan.copy()
    for _ in range(rng.choice((1, 1, 2))):
        what = rng.random()
        if what < 0.45 and sources:
            change_start(view, new, rng, rng.choice(sources))
        elif what < 0.6 and sources:
            name = rng.choice(sources)
            jitter = view.sources[name].jitter
            new.late[name] = FIRST, rng.choice((0, jitter, rng.randint(0, jitter)))
        elif what < 0.8 and tasks:
            name, jobs = rng.choice(tasks), rng.choice((None, 0, 1, 1, 2, 3, rng.randint(0, 20)))
            new.long[name] = Turn(0, True) if jobs is None else Turn(jobs, False)
        elif what < 0.93 and tasks:
            turned = new.turned.setdefault(rng.choice(tasks), set())
            turned ^= {rng.randint(0, rng.choice((2, 8, 30)))}
        elif rings := view.rings():
            name = rng.choice(rings)
            cycle = view.cycle(name)
            new.phase[name] = (new.phase.get(name, 0) + rng.choice((-1, 1, rng.randrange(cycle)))) % cycle
    return new


def change_start(view: SystemView, plan: TracePlan, rng: random.Random, name: str) -> None:
    """Moves the first event of a source, or leaves all of its events out."""
    if name in plan.start and len(plan.start) > 1 and rng.random() < 0.08:
        del plan.start[name]
    elif rng.random() < 0.4 and plan.start:
        plan.start[name] = plan.start[rng.choice(sorted(plan.start))] + rng.choice((-1, 0, 0, 1))
    else:
        size = rng.choice((1, 2, 5, 20, 100, view.sources[name].period))
        plan.start[name] = plan.start.get(name, 0) + rng.randint(-size, size)
