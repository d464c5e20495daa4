"""A system as a whole, in whole ticks, for whoever asks what its entries say together.

A view is made of a system that the program accepts, and presumes that: each name names what it should, no task follows
itself, and each has what its kind of resource wants. What a file leaves out has the value that stands for it, and a
frame has the executions that its payload tells. A view doesn't change; `with_keys` gives another.
"""
import math
from collections.abc import Iterable, Mapping
from dataclasses import dataclass, fields
from fractions import Fraction
from functools import cached_property
from typing import Any, NamedTuple, TypeVar

from lokwurmi.files.documents import PARTS, activators
from lokwurmi.frames import execution
from lokwurmi.model.formats import least_format
from lokwurmi.model.limits import (
    DEFAULT_BIT,
    DEFAULT_LIMIT,
    DEFAULT_RATE,
    DEFAULT_REGION,
    WITH_PRIORITIES,
    Kind,
    Limits,
    limits_of,
)

Way = tuple[str, ...]
"""The way of a stream to a task: its source, and the tasks behind that one by one."""


@dataclass(frozen=True, slots=True)
class ResourceRow:
    """A resource; its times are in ticks."""

    name: str
    kind: Kind
    limit: int = DEFAULT_LIMIT
    """The longest busy window that is looked at."""
    gap: int = 0
    """The part of a TDMA cycle that belongs to no task."""
    bit: int = DEFAULT_BIT
    """The time of a bit of a CAN bus."""
    rate: int = DEFAULT_RATE
    """How many bits go over a port in a tick."""

    @property
    def has_priorities(self) -> bool:
        """Whether its tasks have priorities; else they have slots, or they queue."""
        return self.kind in WITH_PRIORITIES

    @property
    def is_queue(self) -> bool:
        """Whether what came first is next, so that its tasks have neither priorities nor slots."""
        return self.kind == Kind.FIFO

    @property
    def is_bus(self) -> bool:
        """Whether it is a CAN bus, on which what has started goes on to its end."""
        return self.kind == Kind.CAN


@dataclass(frozen=True, slots=True)
class SourceRow:
    """A source; its times are in ticks."""

    name: str
    period: int
    jitter: int = 0
    distance: int = 0
    sporadic: bool = False
    """Whether it may fall silent."""
    clock: str | None = None
    """The clock that it is on; None where it is on none."""
    offset: int = 0
    """How long after the start of its clock its first event comes."""


class Block(NamedTuple):
    """By what a task of lower priority may hold up another: for so many ticks, by a `frame`, a `region` or a `section`;
    of a section the lock, and after how many ticks of a job it begins."""

    task: str
    ticks: int
    under: str
    lock: str = ""
    start: int = 0


class Anchor(NamedTuple):
    """Where a stream is on a clock: event number n comes from offset + n periods after the clock's start to that and
    the jitter."""

    clock: str
    offset: int


@dataclass(frozen=True, slots=True)
class LockRow:
    """A critical section of a task: the lock, after how many ticks of each job it begins, and how many it has."""

    name: str
    start: int
    length: int

    @property
    def end(self) -> int:
        """After how many ticks of a job it is over, unless the job ends before."""
        return self.start + self.length


@dataclass(frozen=True, slots=True)
class TaskRow:
    """A task or a frame; its times are in ticks."""

    name: str
    on: str
    after: tuple[str, ...]
    """What starts its jobs: names of sources and tasks."""
    best: int
    """Its least execution, that of a frame by its payload."""
    worst: int
    """Its greatest execution, that of a frame by its payload."""
    payload: int | None = None
    """How many bytes the frame has, where that stands in the file."""
    extended: bool = False
    """Whether the frame's identifier has 29 bits, where it has a payload."""
    priority: int | None = None
    """None where it has a slot, or queues; the smaller number goes first."""
    slot: int | None = None
    """None where it has a priority, or queues."""
    region: int = DEFAULT_REGION
    """For how long a job isn't preempted once it has begun a region; it may be longer than the execution."""
    locks: tuple[LockRow, ...] = ()
    """Its critical sections, in the order of the file."""

    @property
    def rank(self) -> int:
        """The priority of a task that is known to have one."""
        assert self.priority is not None, f"{self.name} has no priority"
        return self.priority

    @property
    def turn(self) -> int:
        """The slot of a task that is known to have one, in ticks."""
        assert self.slot is not None, f"{self.name} has no slot"
        return self.slot

    @property
    def longest_region(self) -> int:
        """For how many ticks a job of it is not preempted at most."""
        return min(self.region, self.worst)


@dataclass(frozen=True, slots=True)
class PathRow:
    """A path; its deadline is in ticks."""

    name: str
    tasks: tuple[str, ...]
    deadline: int | None = None


Row = TypeVar("Row", ResourceRow, SourceRow, TaskRow, PathRow)
_KEYS = {kind: {it.name for it in fields(kind)} for kind in (ResourceRow, SourceRow, TaskRow, PathRow)}


def _row(kind: type[Row], entry: Mapping[str, Any], /, **others: Any) -> Row:
    """A row of the keys of an entry, of which others are told in their place."""
    keys = _KEYS[kind]
    return kind(**{key: it for key, it in entry.items() if key in keys} | others)


def _task_row(entry: Mapping[str, Any], resource: Mapping[str, Any]) -> TaskRow:
    best, worst = execution(entry, resource)
    locks = tuple(LockRow(**it) for it in entry.get("locks", []))
    return _row(TaskRow, entry, after=tuple(activators(entry)), best=best, worst=worst, locks=locks)


@dataclass(frozen=True, eq=False)
class SystemView:
    """The entries of a system by name, each in the order of the file, and what follows from them.

    >>> view = SystemView.of({
    ...     "format": 1,
    ...     "resource": [{"name": "cpu", "kind": "preemptive"}],
    ...     "source": [{"name": "often", "period": 10}, {"name": "seldom", "period": 20}],
    ...     "task": [
    ...         {"name": "a", "on": "cpu", "after": "often", "best": 1, "worst": 3, "priority": 1},
    ...         {"name": "b", "on": "cpu", "after": "seldom", "best": 2, "worst": 7, "priority": 2},
    ...     ],
    ... })
    >>> view.on("cpu"), view.rivals("b"), view.lower("a"), view.utilisation("cpu")
    (('a', 'b'), ['a'], ['b'], Fraction(13, 20))
    """

    values: Mapping[str, Any]
    """What stands in the file, for whoever writes it anew."""
    resources: Mapping[str, ResourceRow]
    sources: Mapping[str, SourceRow]
    tasks: Mapping[str, TaskRow]
    paths: Mapping[str, PathRow]

    @classmethod
    def of(cls, values: Mapping[str, Any]) -> "SystemView":
        """The view of the values of a system file, as `lokwurmi.files.documents` reads them."""
        given = {it["name"]: it for it in values.get("resource", [])}
        resources = {name: _row(ResourceRow, it, kind=Kind(it["kind"])) for name, it in given.items()}
        sources = {it["name"]: _row(SourceRow, it) for it in values.get("source", [])}
        tasks = {it["name"]: _task_row(it, given[it["on"]]) for it in values.get("task", [])}
        paths = {it["name"]: _row(PathRow, it, tasks=tuple(it["tasks"])) for it in values.get("path", [])}
        return cls(values, resources, sources, tasks, paths)

    def with_keys(self, part: str, keys: Mapping[str, Mapping[str, Any]]) -> "SystemView":
        """The view of a system that has other values of some keys, by the names of the entries of a part. Its format is
        the least that has them, or that of this one where that is greater."""
        entries = [{**it, **keys.get(it["name"], {})} for it in self.values.get(part, [])]
        values: dict[str, Any] = {**self.values, part: entries}
        values["format"] = max(self.values.get("format", 1), least_format({key: values.get(key, []) for key in PARTS}))
        return SystemView.of(values)

    # ---- who is where

    @cached_property
    def _on(self) -> dict[str, tuple[str, ...]]:
        found: dict[str, list[str]] = {name: [] for name in self.resources}
        for name, task in self.tasks.items():
            found[task.on].append(name)
        return {name: tuple(several) for name, several in found.items()}

    def on(self, resource: str) -> tuple[str, ...]:
        """The tasks of a resource, in the order of the file."""
        return self._on[resource]

    def ranked(self, resource: str) -> list[str]:
        """The tasks of a resource with priorities, the one that goes first first."""
        return sorted(self.on(resource), key=lambda it: self.tasks[it].rank)

    def resource(self, task: str) -> ResourceRow:
        """The resource of a task."""
        return self.resources[self.tasks[task].on]

    def kind(self, task: str) -> Kind:
        """The kind of a task's resource."""
        return self.resource(task).kind

    @property
    def limits(self) -> Limits:
        """What a file of its format may have at most."""
        return limits_of(self.values.get("format"))

    def limit(self, task: str) -> int:
        """The longest busy window of a task that is looked at, in ticks."""
        return self.resource(task).limit

    def executions(self, task: str) -> tuple[int, int]:
        """The least and the greatest execution of a task, in ticks."""
        return self.tasks[task].best, self.tasks[task].worst

    def paths_over(self, task: str) -> list[str]:
        """The paths that have a task, each once."""
        return [name for name, path in self.paths.items() if task in path.tasks]

    def deadlines_over(self, task: str) -> dict[str, int]:
        """The deadline of each path that has a task and a deadline, in ticks."""
        over = {name: self.paths[name].deadline for name in self.paths_over(task)}
        return {name: deadline for name, deadline in over.items() if deadline is not None}

    # ---- who may delay whom on a resource

    def beside(self, task: str) -> list[str]:
        """The other tasks of its resource, in the order of the file."""
        return [it for it in self.on(self.tasks[task].on) if it != task]

    def rivals(self, task: str) -> list[str]:
        """The tasks that may go before this one on its resource: where there are priorities those of higher ones, in a
        ring and in a queue all others, and on TDMA none."""
        if self.resource(task).has_priorities:
            return [it for it in self.beside(task) if self.tasks[it].rank < self.tasks[task].rank]
        return self.beside(task) if self.kind(task) in (Kind.ROUND_ROBIN, Kind.FIFO) else []

    def lower(self, task: str) -> list[str]:
        """The tasks that this one may go before, where there are priorities."""
        if not self.resource(task).has_priorities:
            return []
        return [it for it in self.beside(task) if self.tasks[it].rank > self.tasks[task].rank]

    def uninterrupted(self, task: str) -> int:
        """For how many ticks a job that has begun isn't interrupted at most: a frame, and one of a queue, to its end,
        another for a region."""
        row, resource = self.tasks[task], self.resource(task)
        return row.worst if resource.is_bus or resource.is_queue else row.longest_region

    def blocks(self, task: str) -> list[Block]:
        """By what each task of lower priority may hold up this one for longest: by a frame that is under way, a region
        that has begun, or a critical section whose ceiling is no less urgent. Those that hold it up for longest come
        first."""
        found = []
        for name in self.lower(task):
            under = "frame" if self.resource(name).is_bus else "region"
            several = [Block(name, self.uninterrupted(name), under)]
            several += [
                Block(name, min(it.length, self.tasks[name].worst), "section", it.name, it.start)
                for it in self.tasks[name].locks
                if self.ceiling(self.tasks[name].on, it.name) <= self.tasks[task].rank
            ]
            found.append(max(several, key=lambda it: it.ticks))
        return sorted(found, key=lambda it: -it.ticks)

    def blockers(self, task: str) -> list[str]:
        """The tasks of lower priority that may hold up one that comes, in the order of the file."""
        found = {it.task for it in self.blocks(task) if it.ticks > 1}
        return [it for it in self.lower(task) if it in found]

    # ---- locks

    @cached_property
    def _users(self) -> dict[tuple[str, str], list[str]]:
        found: dict[tuple[str, str], list[str]] = {}
        for name, task in self.tasks.items():
            for lock in dict.fromkeys(it.name for it in task.locks):
                found.setdefault((task.on, lock), []).append(name)
        return found

    def locks_on(self, resource: str) -> dict[str, tuple[str, ...]]:
        """The locks of a resource, each with the tasks that use it, in the order of the file."""
        return {lock: tuple(several) for (on, lock), several in self._users.items() if on == resource}

    def ceiling(self, resource: str, lock: str) -> int:
        """The ceiling of a lock: the smallest priority number among the tasks that use it."""
        return min(self.tasks[it].rank for it in self._users[resource, lock])

    # ---- TDMA

    def rings(self) -> list[str]:
        """The TDMA resources that have tasks."""
        return [name for name, it in self.resources.items() if it.kind == Kind.TDMA and self.on(name)]

    def cycle(self, resource: str) -> int:
        """The length of a cycle in ticks: the slots of all tasks, and the gap. Of a resource that isn't TDMA it says
        nothing."""
        return sum(self.tasks[it].slot or 0 for it in self.on(resource)) + self.resources[resource].gap

    def slot_begin(self, task: str) -> int:
        """How many ticks after the beginning of a cycle the slot of a task begins: slots follow in the order of the
        file, and the gap is last."""
        own = self.on(self.tasks[task].on)
        return sum(self.tasks[it].turn for it in own[: own.index(task)])

    def slot_share(self, task: str) -> Fraction:
        """What part of the time a task's slot is on TDMA; on others all of it may be a task's."""
        if self.kind(task) != Kind.TDMA:
            return Fraction(1)
        return Fraction(self.tasks[task].turn, self.cycle(self.tasks[task].on))

    # ---- who starts whom

    @cached_property
    def _successors(self) -> dict[str, list[str]]:
        found: dict[str, list[str]] = {name: [] for name in (*self.sources, *self.tasks)}
        for name, task in self.tasks.items():
            for before in task.after:
                found[before].append(name)
        return found

    def successors(self, name: str) -> tuple[str, ...]:
        """The tasks that a source or a task starts, in the order of the file."""
        return tuple(self._successors[name])

    @cached_property
    def _ways(self) -> dict[str, tuple[Way, ...]]:
        return {}

    def ways_to(self, task: str) -> tuple[Way, ...]:
        """The way of each stream that starts a task, in the order of its streams."""
        if task not in self._ways:
            self._ways[task] = tuple(way for before in self.tasks[task].after for way in self._ways_over(before))
        return self._ways[task]

    def _ways_over(self, before: str) -> Iterable[Way]:
        return ((*way, before) for way in self.ways_to(before)) if before in self.tasks else ((before,),)

    def sources_of(self, task: str) -> list[str]:
        """The source of each stream that starts a task, in the order of its streams; one may stand there twice."""
        return [way[0] for way in self.ways_to(task)]

    def sporadic_sources_of(self, task: str) -> list[str]:
        """The sporadic ones among the sources of a task's streams, each once: where there is one, nothing bounds the
        wait for the next job of the task."""
        return [it for it in dict.fromkeys(self.sources_of(task)) if self.sources[it].sporadic]

    # ---- clocks

    @cached_property
    def clocks(self) -> dict[str, tuple[str, ...]]:
        """The clocks in the order of their first sources, each with the sources on it in the order of the file."""
        found: dict[str, list[str]] = {}
        for name, it in self.sources.items():
            if it.clock is not None:
                found.setdefault(it.clock, []).append(name)
        return {clock: tuple(several) for clock, several in found.items()}

    def clock_cycle(self, clock: str) -> int:
        """After how many ticks all sources of a clock come as before: the least common multiple of their periods."""
        return math.lcm(*(self.sources[it].period for it in self.clocks[clock]))

    def anchors_of(self, task: str) -> tuple[Anchor | None, ...]:
        """Of each stream that starts a task where it is on a clock: each task on its way moves it on by its least
        execution."""
        return tuple(self._anchor_by(way) for way in self.ways_to(task))

    def _anchor_by(self, way: Way) -> Anchor | None:
        source, *tasks = way
        it = self.sources[source]
        return None if it.clock is None else Anchor(it.clock, it.offset + sum(self.tasks[name].best for name in tasks))

    def clocks_at(self, task: str) -> list[str]:
        """The clocks that two streams of a task and of those that may go before it share: by these its bound may be
        below that without clocks. Each once, on resources with priorities alone."""
        if not self.clocks or not self.resource(task).has_priorities:
            return []
        several = [it.clock for name in (task, *self.rivals(task)) for it in self.anchors_of(name) if it]
        return [it for it in dict.fromkeys(several) if several.count(it) > 1]

    @cached_property
    def clocks_in_bounds(self) -> tuple[str, ...]:
        """The clocks that bounds use, in the order of their first sources: by each of them some bound may be below that
        without clocks, as `clocks_at` says of a task. The task that goes last on a resource has them all."""
        found: set[str] = set()
        for resource, it in self.resources.items():
            if self.clocks and it.has_priorities and self.on(resource):
                found.update(self.clocks_at(self.ranked(resource)[-1]))
        return tuple(clock for clock in self.clocks if clock in found)

    def streams_from(self, name: str) -> int:
        """How many streams come out of a source, or out of a task."""
        return len(self.ways_to(name)) if name in self.tasks else 1

    def shortest_period(self, task: str) -> int:
        """The shortest period of a source of a task, in ticks."""
        return min(self.sources[it].period for it in self.sources_of(task))

    # ---- how much is asked for

    def demands(self, task: str) -> dict[str, Fraction]:
        """What a task asks for of its resource at most, as a share of the time, by the sources of its streams."""
        found: dict[str, Fraction] = {}
        for source in self.sources_of(task):
            more = Fraction(self.tasks[task].worst, self.sources[source].period)
            found[source] = found.get(source, Fraction(0)) + more
        return found

    def demand(self, task: str) -> Fraction:
        """What a task asks for of its resource at most, as a share of the time."""
        return sum(self.demands(task).values(), Fraction(0))

    def utilisation(self, resource: str) -> Fraction:
        """What all tasks of a resource ask for at most, as a share of the time; above 1 a task of it has no bound."""
        return sum(map(self.demand, self.on(resource)), Fraction(0))

    def overloaded(self) -> dict[str, Fraction]:
        """The resources that are asked for more than all of the time, and how much: whatever the priorities and offsets
        are, a task of each has no bound."""
        found = {on: self.utilisation(on) for on in self.resources}
        return {on: share for on, share in found.items() if share > 1}
