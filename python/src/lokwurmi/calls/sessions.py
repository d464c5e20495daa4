"""A system under edits whose bounds are kept between them: what an edit can't reach isn't analysed again."""
import threading
from collections.abc import Mapping, Sequence
from types import MappingProxyType, TracebackType
from typing import TYPE_CHECKING, Any

from lokwurmi.calls.engines import Engine, KeptSession, default_engine
from lokwurmi.calls.library import Library
from lokwurmi.errors import CallFailed, EditRefused, LokwurmiError, ScriptRefused, SessionClosed, UnitsRefused
from lokwurmi.files.report_lines import REFUSED
from lokwurmi.model.conversion import Rounding, warn
from lokwurmi.model.entries import Resource, Source, Task, Ticks
from lokwurmi.model.event_models import Bounds
from lokwurmi.model.limits import WITH_PRIORITIES, WITH_SLOTS, Kind
from lokwurmi.model.statuses import Status
from lokwurmi.refusals.program_lines import error_of
from lokwurmi.refusals.sentences import edit_words
from lokwurmi.results import reports
from lokwurmi.results.reports import Verdict

if TYPE_CHECKING:
    from lokwurmi.calls.system import System

# the numbers that edits set
_SET = ("best", "worst", "slot", "period", "jitter", "distance", "offset")


class Session:
    """A system under edits. Use it as a context manager, which closes it:

        >>> from lokwurmi import System
        >>> system = System()
        >>> cpu = system.preemptive("cpu")
        >>> a = system.task("a", on=cpu, after=system.source("s", period=10), best=1, worst=3, priority=1)
        >>> b = system.task("b", on=cpu, after=system.source("r", period=20), best=2, worst=7, priority=2)
        >>> with system.session() as session:
        ...     session.exec("b", worst=5)
        ...     session.bounds["b"]
        8

    An edit that can't be made raises EditRefused, and changes nothing. Times are in ticks; where the system has a tick,
    they may have units, and are rounded as those of a system. By the library the bounds are kept in this process; where
    there is none, or an older one, each edit replays all edits before it: the same answers, slower, and at most 10,000
    edits (`is_kept` says which).

    Several threads may share a session: one call waits for the other.
    """

    def __init__(self, system: "System", engine: Engine | None = None):
        chosen = engine or default_engine()
        self.is_kept = isinstance(chosen, Library) and chosen.has("open")
        self._kept: KeptSession | None
        system._check_names()
        self._kept, told = system._keep(engine)
        self._roundings: list[Rounding] = list(told)
        self._system = system.copy()
        self._lock = threading.Lock()
        self._found: tuple[Bounds, Bounds] | None = None

    def __enter__(self) -> "Session":
        return self

    def __exit__(
        self, kind: type[BaseException] | None, fault: BaseException | None, trace: TracebackType | None
    ) -> None:
        self.close()

    def close(self) -> None:
        """Frees what is kept. The session can't be used any more; to close it again does nothing."""
        with self._lock:
            if self._kept is not None:
                self._kept.close()
                self._kept = None

    @property
    def is_closed(self) -> bool:
        """Whether the session was closed."""
        return self._kept is None

    def __repr__(self) -> str:
        return f"Session({'closed' if self.is_closed else repr(self._system)})"

    def _repr_html_(self) -> str:
        return "<div>A session that is closed</div>" if self.is_closed else self.report()._repr_html_()

    def _open(self) -> KeptSession:
        if self._kept is None:
            raise SessionClosed("the session is closed: open another by system.session()")
        return self._kept

    # ---- edits

    def edit(self, line: str) -> None:
        """Makes an edit that is a line of a script (docs/FILES.md, "The script"), as "exec b 2 8", in ticks."""
        with self._lock:
            self._edit(line)

    def _edit(self, line: str, told: Sequence[Rounding] = ()) -> None:
        """Makes an edit, for which so much was rounded."""
        status, text = self._open().edit(line)
        if status == Status.EDIT_REFUSED and (found := REFUSED.fullmatch(text.rstrip("\n"))):
            raise self._refused(line, int(found[2]))
        if status == Status.SCRIPT_REFUSED:
            raise error_of(status, text.rstrip("\n") + "\n")
        if status:
            raise CallFailed(status, text)
        self._found = None
        edit = next(it for it in line.split("\n") if it.strip(" \t\r") and not it.lstrip(" \t").startswith("#"))
        _apply(self._system, edit.split())
        anew = {(it.what, it.key) for it in told}
        self._roundings = [it for it in self._roundings if (it.what, it.key) not in anew and self._stands(it)]
        self._roundings += told

    def _stands(self, it: Rounding) -> bool:
        """Whether what was rounded is a number of its entry still."""
        kind, _, name = it.what.partition(" ")
        parts: dict[str, Mapping[str, Task | Source]] = {"task": self._system.tasks, "source": self._system.sources}
        entry = parts.get(kind, {}).get(name)
        if entry is None:
            return kind != "task"
        return it.key not in _SET or self._system.ticks(entry, it.key) == it.ticks

    def _refused(self, line: str, rule: int, shown: str = "") -> EditRefused:
        """The refusal of an edit, in words."""
        why = edit_words(line, rule, self._system._file()[0])
        return EditRefused(shown or line.strip(), rule, why)

    def _ticks(self, kind: str, name: str, **given: Ticks | str | None) -> tuple[dict[str, Any], list[Rounding]]:
        """Times of an entry in ticks, rounded and told as those of a system; and what was rounded."""
        entry: dict[str, Any] = {"name": name} | {key: it for key, it in given.items() if it is not None}
        if kind == "task" and "on" not in entry and name in self._system.tasks:
            task = self._system.tasks[name]
            entry["on"] = task.on
            # an execution that one of them covers has a tick more
            entry |= {key: self._system.ticks(task, key) for key in ("region", "locks") if getattr(task, key)}
        told = self._system._convert(kind, entry)
        warn(told)
        return entry, told

    def _known(self, form: str, it: "str | Task | Source", part: Mapping[str, Any]) -> str:
        """The name of an entry that is there. What stays of one that isn't is unknown here, so that such an edit isn't
        sent: the program refuses it too."""
        self._open()
        name = _named(it)
        if name not in part:
            numbers = {"exec": "1 1", "source": "1 0 0", "offset": "0"}[form]
            raise self._refused(f"{form} {name} {numbers}", 1, f"{form} {name}")
        return name

    def exec(self, task: str | Task, best: Ticks | None = None, worst: Ticks | None = None) -> None:
        """Sets the least and the greatest execution of a task, in ticks or with units; one that isn't given stays."""
        with self._lock:
            name = self._known("exec", task, self._system.tasks)
            before = self._system.execution(name)
            found, told = self._ticks("task", name, best=best, worst=worst)
            self._edit(f"exec {name} {found.get('best', before[0])} {found.get('worst', before[1])}", told)

    def priority(self, task: str | Task, priority: int) -> None:
        """Sets the priority of a task on a preemptive, can or ceiling resource."""
        self.edit(f"priority {_named(task)} {priority}")

    def swap(self, one: str | Task, other: str | Task) -> None:
        """Exchanges the priorities of two tasks of one preemptive, can or ceiling resource."""
        self.edit(f"swap {_named(one)} {_named(other)}")

    def slot(self, task: str | Task, slot: Ticks) -> None:
        """Sets the slot of a task on a round-robin or tdma resource, in ticks or as a time that is whole ticks."""
        with self._lock:
            name = _named(task)
            found, told = self._ticks("task", name, slot=slot)
            self._edit(f"slot {name} {found['slot']}", told)

    def source(
        self,
        source: str | Source,
        period: Ticks | None = None,
        jitter: Ticks | None = None,
        distance: Ticks | None = None,
    ) -> None:
        """Sets the period, the jitter and the distance of a source, in ticks or with units; what isn't given stays, and
        so do its clock and its offset."""
        with self._lock:
            name = self._known("source", source, self._system.sources)
            there, stays = self._system.sources[name], {"period": 1, "jitter": 0, "distance": 0}
            stays |= {key: it for key in stays if (it := self._system.ticks(there, key)) is not None}
            # a jitter has what the offset was rounded down by in it
            on = {"clock": there.clock, "offset": None if jitter is None else there.offset}
            given, told = self._ticks("source", name, period=period, jitter=jitter, distance=distance, **on)
            found = stays | given
            self._edit(f"source {name} {found['period']} {found['jitter']} {found['distance']}", told)

    def offset(self, source: str | Source, offset: Ticks) -> None:
        """Sets how long after the start of its clock the first event of a source comes, in ticks or as a time that is
        whole ticks."""
        with self._lock:
            name = self._known("offset", source, self._system.sources)
            found: dict[str, Any] = {"name": name, "clock": "it", "offset": offset}
            self._system._convert("source", found)
            if "jitter" in found:
                raise UnitsRefused(
                    f"source {name}: an offset of {offset} is no whole number of ticks, and its jitter would have to"
                    " grow with it: give a whole one"
                )
            self._edit(f"offset {name} {found['offset']}")

    def add(
        self,
        name: str,
        *,
        on: str | Resource,
        after: "str | Source | Task",
        best: Ticks,
        worst: Ticks,
        priority: int | None = None,
        slot: Ticks | None = None,
    ) -> None:
        """Adds a task as the last one, after one source or task, with a priority or a slot; on a queue with neither."""
        if not isinstance(after, (str, Source, Task)):
            raise LokwurmiError(
                f"add {name}: a task that is added comes after one source or task, and not after a list"
            )
        with self._lock:
            found, told = self._ticks("task", name, on=_named(on), best=best, worst=worst, slot=slot)
            number = self._turn(name, _named(on), {"priority": priority, "slot": found.get("slot")})
            self._edit(f"add {name} {_named(on)} {_named(after)} {found['best']} {found['worst']} {number}", told)

    def _turn(self, name: str, on: str, given: Mapping[str, int | None]) -> int:
        """The number of a task that is added: its priority or its slot, whichever its resource wants."""
        turns = {key: it for key, it in given.items() if it is not None}
        there = self._system.resources.get(on)
        if there is None or there.kind == Kind.FIFO:
            # an edit has a number for a task of a queue, too: 0, all others are refused
            return max(turns.values(), default=0)
        wanted = "priority" if there.kind in WITH_PRIORITIES else "slot"
        if set(turns) != {wanted}:
            has = " and ".join(turns) + (" are" if len(turns) > 1 else " is") if turns else "neither is"
            raise LokwurmiError(
                f"add {name}: tasks on {on}, which is {there.kind}, have a {wanted}, and {has} given: {wanted}=.."
            )
        return turns[wanted]

    def remove(self, task: str | Task) -> None:
        """Removes a task that no other comes after, and no path names."""
        self.edit(f"remove {_named(task)}")

    # ---- what holds by now

    def _all(self) -> tuple[Bounds, Bounds]:
        with self._lock:
            kept = self._open()
            if self._found is None:
                tasks, paths = kept.numbers()
                bounds = dict(zip(self._system.tasks, tasks, strict=True))
                latencies = dict(zip(self._system.paths, paths, strict=True))
                self._found = MappingProxyType(bounds), MappingProxyType(latencies)
            return self._found

    @property
    def bounds(self) -> Bounds:
        """The bounds of the tasks by name, in ticks; None where there is none. What was given doesn't change by later
        edits."""
        return self._all()[0]

    @property
    def latencies(self) -> Bounds:
        """The bounds of the paths by name, in ticks; None where there is none."""
        return self._all()[1]

    def report(self) -> reports.Report:
        """The report of the system as it is by now."""
        with self._lock:
            status, text = self._open().report()
            if not Status.is_answer(status):
                raise CallFailed(status, text)
            return reports.reports(text, self._system.tick, self._roundings, *self._system._by_clocks())[-1]

    @property
    def verdict(self) -> Verdict:
        """That of the report."""
        return self.report().verdict

    @property
    def roundings(self) -> list[Rounding]:
        """The times that were rounded, those of the system and those of edits."""
        return list(self._roundings)

    def to_system(self) -> "System":
        """A system of its own with all edits that were made; they are made anew here, and no proof speaks of that."""
        with self._lock:
            return self._system.copy()


def _named(it: "str | Task | Source | Resource") -> str:
    return it if isinstance(it, str) else it.name


def _apply(system: "System", words: list[str]) -> None:
    """Makes an edit that was accepted in a system, whose numbers are those of the program, in ticks."""
    form, name, *rest = words
    system._expect_ticks("source" if form in ("source", "offset") else "task", name)
    numbers = [int(it) for it in rest if it.isdigit()]
    if form == "exec":
        it = system.tasks[name]
        it.best, it.worst, it.payload, it.extended = numbers[0], numbers[1], None, None
    elif form == "priority":
        system.tasks[name].priority = numbers[0]
    elif form == "swap":
        one, other = system.tasks[name], system.tasks[rest[0]]
        one.priority, other.priority = other.priority, one.priority
    elif form == "slot":
        system.tasks[name].slot = numbers[0]
    elif form == "source":
        source = system.sources[name]
        source.period, source.jitter, source.distance = numbers
    elif form == "offset":
        system.sources[name].offset = numbers[0]
    elif form == "add":
        on, after, best, worst, number = rest
        several: dict[str, Any] = {"best": int(best), "worst": int(worst)}
        kind = system.resources[on].kind
        if kind in WITH_PRIORITIES:
            several["priority"] = int(number)
        elif kind in WITH_SLOTS:
            several["slot"] = int(number)
        system.tasks[name] = Task(name, on, after, **several)
    elif form == "remove":
        del system.tasks[name]


__all__ = ["EditRefused", "ScriptRefused", "Session"]
