"""The entries of a system, each by its name: adding them, their times in ticks, and what is told of roundings.

Nothing is checked here that the program checks: a system that it refuses raises `SystemRefused` when it is analysed.
docs/FILES.md has the range and the meaning of each attribute.
"""
import copy
from collections.abc import Iterable
from typing import Any, Self, TypeVar

from lokwurmi.errors import LokwurmiError, WrongType
from lokwurmi.frames import execution
from lokwurmi.model.clocks import Clock
from lokwurmi.model.conversion import Converter, NoUnitWarning, Rounding, warn
from lokwurmi.model.entries import Entry, Lock, Path, Resource, Source, Task, Ticks, check_no_time, keys_of, kind_name
from lokwurmi.model.formats import least_format
from lokwurmi.model.limits import NEWEST, TIMES, Kind
from lokwurmi.model.units import Time, tick_of
from lokwurmi.model.view import SystemView

_Entry = TypeVar("_Entry", Resource, Source, Task, Path)
_Item = TypeVar("_Item")


def name_of(it: "str | Entry | Clock") -> str:
    name = it if isinstance(it, str) else getattr(it, "name", None)
    if not isinstance(name, str):
        raise WrongType(f"{it!r} is no name: write a text, as 'control', or what was added by it")
    return name


def listed(several: Iterable[_Item], what: str) -> list[_Item]:
    """What there is several of; something that can't be is refused."""
    if isinstance(several, bytes) or not isinstance(several, Iterable):
        raise WrongType(f"{what}, and not {several!r}")
    return list(several)


def names_of(several: "Iterable[str | Entry]", what: str) -> list[str]:
    """The names of several entries; a text is one name, and its letters are none."""
    if isinstance(several, str):
        raise WrongType(f"{what} is a list of tasks, and not a text: write [{several!r}]")
    return [name_of(it) for it in listed(several, f"{what} is a list of tasks, as ['sense', 'act']")]


class NamedEntries:
    """Resources, sources, tasks and paths, each a dictionary by name, in the order in which they were added."""

    def __init__(self, tick: "Time | str | None" = None) -> None:
        self.resources: dict[str, Resource] = {}
        self.sources: dict[str, Source] = {}
        self.tasks: dict[str, Task] = {}
        self.paths: dict[str, Path] = {}
        self.is_large = False
        """Whether its file has format 4 and its larger limits, also where its entries don't need them: so it is with a
        system that was read from such a file."""
        self._told: set[str] = set()
        self._has_units = False
        self._looked_at = ""
        self.tick = tick  # type: ignore[assignment]

    @property
    def tick(self) -> Time | None:
        """The time of a tick, or None: then all times are plain numbers. It may be set, also by a text such as
        "1us"."""
        return self._tick

    @tick.setter
    def tick(self, tick: "Time | str | None") -> None:
        self._tick = None if tick is None else tick_of(tick)

    def __eq__(self, other: object) -> bool:
        if not isinstance(other, NamedEntries):
            return NotImplemented
        return self._converted()[0] == other._converted()[0]

    __hash__ = None  # type: ignore[assignment]

    def _parts(self) -> dict[str, dict[str, Any]]:
        return {"resource": self.resources, "source": self.sources, "task": self.tasks, "path": self.paths}

    def _add(self, it: _Entry) -> _Entry:
        part = self._parts()[kind_name(it)]
        if it.name in part:
            raise ValueError(f"there is a {kind_name(it)} {it.name!r} already")
        self._tell(it)
        part[it.name] = it
        return it

    def _tell(self, it: Entry) -> None:
        """Says at once what is rounded of an entry, or why it can't be."""
        if converter := self._converter(kind_name(it), keys_of(it)):
            self._warn(converter.reported)
            self._warn_bare(converter)

    def _convert(self, kind: str, entry: dict[str, Any]) -> list[Rounding]:
        """Turns the times of an entry into ticks, and gives what was rounded; raises NoTick where there is no tick."""
        converter = self._converter(kind, entry)
        return converter.reported if converter else []

    def _converter(self, kind: str, entry: dict[str, Any]) -> Converter | None:
        """What has turned the times of an entry into ticks; None where there is no tick."""
        if self._tick is None:
            check_no_time(kind, entry)
            return None
        document = {kind: [entry]}
        if entry.get("on") in self.resources:
            document["resource"] = [keys_of(self.resources[entry["on"]])]
        converter = Converter(self._tick.nanoseconds)
        converter.convert(document)
        return converter

    def _warn_bare(self, converter: Converter) -> None:
        """Warns of numbers without a unit where other times have one, once of each."""
        self._has_units = self._has_units or converter.has_units
        new = [it for it in converter.bare if " ".join(it) not in self._told]
        if self._has_units and new:
            self._told |= {" ".join(it) for it in new}
            converter.bare = new
            warn([converter.bare_text()], NoUnitWarning)

    def _warn(self, roundings: Iterable[Rounding]) -> None:
        """Warns of roundings of which it hasn't warned yet."""
        if new := [it for it in roundings if str(it) not in self._told]:
            self._told |= {str(it) for it in new}
            warn(new)

    def resource(
        self,
        name: str,
        kind: str,
        *,
        limit: Ticks | None = None,
        gap: Ticks | None = None,
        bit: Ticks | None = None,
        bitrate: int | None = None,
        rate: int | None = None,
    ) -> Resource:
        """Adds a resource; times are in ticks, or have a unit."""
        return self._add(Resource(name, str(kind), limit, gap, bit, bitrate, rate))

    def preemptive(self, name: str, *, limit: Ticks | None = None) -> Resource:
        """Adds a processor on which the smallest priority number is next."""
        return self.resource(name, Kind.PREEMPTIVE, limit=limit)

    def round_robin(self, name: str, *, limit: Ticks | None = None) -> Resource:
        """Adds a processor on which one task runs after the other, each for up to its slot."""
        return self.resource(name, Kind.ROUND_ROBIN, limit=limit)

    def tdma(self, name: str, *, gap: Ticks | None = None, limit: Ticks | None = None) -> Resource:
        """Adds a resource on which each task has its slot of a cycle; a `gap` of it, in ticks or as a time, belongs to
        no task."""
        return self.resource(name, Kind.TDMA, limit=limit, gap=gap)

    def can(
        self, name: str, *, bit: Ticks | None = None, bitrate: int | None = None, limit: Ticks | None = None
    ) -> Resource:
        """Adds a CAN bus, whose bits take `bit` ticks or such a time each, or which has so many bits per second."""
        return self.resource(name, Kind.CAN, limit=limit, bit=bit, bitrate=bitrate)

    def fifo(
        self, name: str, *, rate: int | None = None, bitrate: int | None = None, limit: Ticks | None = None
    ) -> Resource:
        """Adds a queue, on which what came first is next. Where it serves a port, `rate` bits go over that in a tick,
        or so many in a second, and its tasks may have a `payload`.

        >>> from lokwurmi import System
        >>> system = System()
        >>> port, often = system.fifo("port", rate=100), system.source("often", period=100)
        >>> video = system.task("video", on=port, after=often, payload=1000)
        >>> system.execution(video)
        (83, 84)
        """
        return self.resource(name, Kind.FIFO, limit=limit, bitrate=bitrate, rate=rate)

    def ceiling(self, name: str, *, limit: Ticks | None = None) -> Resource:
        """Adds a processor on which the smallest priority number is next, and a task that holds a lock has the lock's
        ceiling as its priority: the smallest number among the tasks that take the lock.

        >>> from lokwurmi import Lock, System
        >>> system = System()
        >>> cpu, often = system.ceiling("cpu"), system.source("often", period=100)
        >>> shared = [Lock("shared", start=0, length=2)]
        >>> control = system.task("control", on=cpu, after=often, best=5, worst=5, priority=1, locks=shared)
        >>> longer = [Lock("shared", start=3, length=8)]
        >>> log = system.task("log", on=cpu, after=often, best=20, worst=20, priority=2, locks=longer)
        >>> system.analyse().tasks["control"].worst
        12
        """
        return self.resource(name, Kind.CEILING, limit=limit)

    def source(
        self,
        name: str,
        period: Ticks,
        *,
        jitter: Ticks | None = None,
        distance: Ticks | None = None,
        sporadic: bool | None = None,
        clock: str | Clock | None = None,
        offset: Ticks | None = None,
    ) -> Source:
        """Adds a source of events; times are in ticks, or have a unit. One that is `sporadic` may fall silent. Those
        that name one `clock` keep their distances: event n of each comes at its `offset` and n periods after the
        clock's start, by up to its jitter late, and none is left out. `clock("timer").source` does the same.

        >>> from lokwurmi import System
        >>> system = System()
        >>> cpu = system.preemptive("cpu")
        >>> first = system.source("first", period=10, clock="timer")
        >>> second = system.source("second", period=10, clock="timer", offset=5)
        >>> a = system.task("a", on=cpu, after=first, best=4, worst=4, priority=1)
        >>> b = system.task("b", on=cpu, after=second, best=3, worst=3, priority=2)
        >>> system.analyse().tasks["b"].worst
        3
        """
        on = None if clock is None else name_of(clock)
        return self._add(Source(name, period, jitter, distance, sporadic, on, offset))

    def clock(self, name: str) -> Clock:
        """The clock of a name: its sources, offsets and cycle, and `source`, which adds one to it.

        >>> from lokwurmi import System
        >>> system = System()
        >>> ecu = system.clock("ecu")
        >>> fast, slow = ecu.source("fast", period=10), ecu.source("slow", period=20, offset=5)
        >>> ecu.cycle
        20
        """
        return Clock(name, self)

    @property
    def clocks(self) -> dict[str, Clock]:
        """The clocks that sources name, by their names, in the order of their first sources."""
        return {it.clock: Clock(it.clock, self) for it in self.sources.values() if it.clock is not None}

    def task(
        self,
        name: str,
        *,
        on: str | Resource,
        after: "str | Source | Task | Iterable[str | Source | Task]",
        best: Ticks | None = None,
        worst: Ticks | None = None,
        payload: int | None = None,
        extended: bool | None = None,
        priority: int | None = None,
        slot: Ticks | None = None,
        region: Ticks | None = None,
        locks: "Iterable[Lock] | None" = None,
    ) -> Task:
        """Adds a task; `on` and `after` are names, or what was added before. Times are in ticks, or have a unit.

        >>> from lokwurmi import System
        >>> system = System()
        >>> cpu, often = system.preemptive("cpu"), system.source("often", period=10)
        >>> control = system.task("control", on=cpu, after=often, best=2, worst=2, priority=1)
        >>> seldom = system.source("seldom", period=100)
        >>> log = system.task("log", on=cpu, after=seldom, best=5, worst=20, priority=2, region=5)
        >>> system.analyse().tasks["control"].worst
        6
        """
        starts: str | list[str]
        if isinstance(after, (str, Source, Task)):
            starts = name_of(after)
        else:
            starts = [name_of(it) for it in listed(after, "`after` is a name, or a list of these")]
        turn = (priority, slot, region, list(locks or ()) or None)
        return self._add(Task(name, name_of(on), starts, best, worst, payload, extended, *turn))

    def path(self, name: str, tasks: Iterable[str | Task], *, deadline: Ticks | None = None) -> Path:
        """Adds a path over tasks, with a deadline in ticks or as a time, if there is one."""
        return self._add(Path(name, names_of(tasks, "a path"), deadline))

    def copy(self) -> Self:
        """An equal system of its own."""
        return copy.deepcopy(self)

    def ticks(self, it: Entry, key: str) -> int | None:
        """An attribute of an entry in ticks, rounded as the system file has it; None where it isn't set.

        >>> from lokwurmi import System
        >>> system = System(tick="10us")
        >>> system.ticks(system.source("s", "1 ms", jitter="15 us"), "jitter")
        2
        """
        entry = keys_of(it)
        self._convert(kind_name(it), entry)
        return entry.get(key)

    def execution(self, task: str | Task) -> tuple[int, int]:
        """The least and the greatest execution of a task in ticks; those of a frame by its payload."""
        if (name := name_of(task)) not in self.tasks:
            raise LokwurmiError(f"there is no task {name!r}: the tasks are {', '.join(self.tasks) or 'none'}")
        entry = keys_of(self.tasks[name])
        self._convert("task", entry)
        resource = keys_of(self.resources[entry["on"]]) if "payload" in entry else {}
        self._convert("resource", resource)
        return execution(entry, resource)

    def view(self) -> SystemView:
        """What the entries say together, in whole ticks, for a system that the program accepts: who shares a resource,
        which streams start a task, how much of a resource is asked for.

        >>> from lokwurmi import System
        >>> system = System()
        >>> cpu, often = system.preemptive("cpu"), system.source("often", period=10)
        >>> control = system.task("control", on=cpu, after=often, best=2, worst=4, priority=1)
        >>> system.view().utilisation("cpu")
        Fraction(2, 5)
        """
        return SystemView.of({"format": self._format(), **self._converted()[0]})

    def _converted(self) -> tuple[dict[str, list[dict[str, Any]]], Converter | None]:
        """The keys of all entries, in ticks where there is a tick, and what has turned them into ticks."""
        document = {key: [keys_of(it) for it in part.values()] for key, part in self._parts().items()}
        if self._tick is None:
            for kind, entries in document.items():
                for entry in entries:
                    check_no_time(kind, entry)
            return document, None
        converter = Converter(self._tick.nanoseconds)
        converter.convert(document)
        return document, converter

    @property
    def roundings(self) -> list[Rounding]:
        """The times that are no whole number of ticks, each with the side to which it is rounded, and the regions and
        executions that have a tick more."""
        converter = self._converted()[1]
        return converter.reported if converter else []

    def _bare_text(self) -> str:
        """What is to be said of numbers without a unit; nothing where no other time has one."""
        converter = self._converted()[1]
        return converter.bare_text() if converter and converter.has_units else ""

    def _format(self) -> int:
        """The least format that has all keys that are set, or the newest where the system is large."""
        found = least_format({key: map(keys_of, part.values()) for key, part in self._parts().items()})
        return NEWEST if self.is_large else found

    def _check_names(self) -> None:
        """Refuses an entry that was given another name than the one by which it was added: edits and bounds of a
        session go by names."""
        for kind, part in self._parts().items():
            for name, it in part.items():
                if it.name != name:
                    raise LokwurmiError(
                        f"{kind} {name!r} has the name {it.name!r} by now: a session goes by names, so add it anew"
                        " under that one"
                    )

    def _expect_ticks(self, kind: str, name: str) -> None:
        """Numbers of an entry are known to count ticks, and nothing is to be said of them."""
        self._told |= {f"{key} {kind} {name}" for key in TIMES[kind]}
