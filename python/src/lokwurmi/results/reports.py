"""The results of calls, as objects. All numbers of time are ticks; `time` gives them as times with units.

Each object is shown as a table in a notebook (`_repr_html_`).
"""
from collections.abc import Callable, Iterable, Iterator, Mapping, Sequence
from dataclasses import dataclass, field, fields
from enum import Enum
from functools import partial
from typing import TYPE_CHECKING, Any, ClassVar

from lokwurmi.errors import NoTick, NotInstalled, Unreadable
from lokwurmi.files import report_lines as lines
from lokwurmi.model.conversion import Rounding
from lokwurmi.model.units import Time
from lokwurmi.model.view import Anchor
from lokwurmi.results import html

if TYPE_CHECKING:
    from matplotlib.figure import Figure
    from pandas import DataFrame

    from lokwurmi.results.differences import Changes


Phases = Mapping[str, tuple[Anchor | None, ...]]
"""Of each stream of a task where it is on a clock, by the names of tasks."""


class Verdict(Enum):
    """Of a path: its deadline is met, missed, unknown (a task has no bound), or there is none. Of a report: the worst
    of all."""

    MET = "met"
    MISSED = "missed"
    UNKNOWN = "unknown"
    NONE = "none"
    OVERLOAD = "overload"


def worst_of(overloads: int, missed: int) -> Verdict:
    """OVERLOAD where there is one, else MISSED where a deadline is missed, else MET, as the status of the program
    is."""
    return Verdict.OVERLOAD if overloads else Verdict.MISSED if missed else Verdict.MET


def time_of_ticks(ticks: int | None, tick: Time | None, what: str) -> Time | None:
    """So many ticks as an exact time; None where there is no number."""
    if tick is None:
        raise NoTick(f"{what} can't be given as a time")
    return None if ticks is None else tick * ticks


@dataclass(frozen=True, slots=True)
class Timed:
    """Something with numbers of ticks, of which `time` gives one as a time with a unit."""

    tick: Time | None = field(default=None, kw_only=True, repr=False, compare=False)
    """The time of a tick, where the system has one."""
    main: ClassVar[str] = "worst"

    def time(self, what: str = "") -> Time | None:
        """A number of ticks as an exact time, by its name: `time("jitter")`. Without a name it is the bound or what is
        asked for first. None where there is no number; NoTick is raised where the system has no tick."""
        name = what or self.main
        return time_of_ticks(getattr(self, name), self.tick, name)


@dataclass(frozen=True, slots=True)
class TaskReport(Timed):
    """What the analysis says of a task."""

    name: str
    on: str
    """The name of its resource."""
    best: int
    """Its least execution, in ticks."""
    worst: int | None
    """The bound of its response time, from its activation to its end, in ticks; None where it is `overload`: there is
    no bound."""
    streams: int = 1
    """How many streams of events start it."""
    period: int | None = None
    """The period of its one stream, in ticks; None where it has several."""
    jitter: int | None = None
    """The jitter of its one stream, in ticks; None where it has several, or where that has no bound."""
    distance: int | None = None
    """The least distance of its one stream, in ticks; None as for the jitter."""
    phases: tuple[Anchor | None, ...] = ()
    """Of each stream where it is on a clock: its event number n comes from `offset` and n periods after the clock's
    start on, in ticks, by up to the stream's jitter later. None where it is on none; empty where nobody told the system
    of the report."""

    @property
    def overload(self) -> bool:
        """Whether there is no bound."""
        return self.worst is None


@dataclass(frozen=True, slots=True)
class PathReport(Timed):
    """What the analysis says of a path."""

    name: str
    best: int
    """Its least time from end to end, in ticks."""
    worst: int | None
    """The bound of its time from end to end, in ticks; None where there is none."""
    deadline: int | None
    """Its deadline, in ticks, if it has one."""
    verdict: Verdict

    @property
    def overload(self) -> bool:
        """Whether there is no bound."""
        return self.worst is None

    @property
    def slack(self) -> int | None:
        """The deadline less the bound, in ticks, which is negative where it is missed; None where one is lacking."""
        return None if self.worst is None or self.deadline is None else self.deadline - self.worst


class _Entries(Mapping[str, Any]):
    """Lines by the name in them, in their order. A line is read when it is asked for, since most loops ask for few."""

    __slots__ = ("_rows", "_read")

    def __init__(self, rows: Iterable[str], read: Callable[[str], Any]):
        self._rows: dict[str, Any] = {row.split(" ", 2)[1]: row for row in rows}
        self._read = read

    def __getitem__(self, name: str) -> Any:
        it = self._rows[name]
        if isinstance(it, str):
            it = self._rows[name] = self._read(it)
        return it

    def __iter__(self) -> Iterator[str]:
        return iter(self._rows)

    def __len__(self) -> int:
        return len(self._rows)

    def __repr__(self) -> str:
        return repr(dict(self))


def _task(line: str, tick: Time | None, phases: Phases) -> TaskReport:
    it = lines.TASK.fullmatch(line)
    if not it:
        raise Unreadable(f"this is no line of a task: {line}")
    return TaskReport(it["name"], **lines.task_in(it), phases=phases.get(it["name"], ()), tick=tick)


def _path(line: str, tick: Time | None) -> PathReport:
    it = lines.PATH.fullmatch(line)
    if not it:
        raise Unreadable(f"this is no line of a path: {line}")
    read = lines.path_in(it)
    verdict = Verdict(read.pop("verdict"))
    return PathReport(it["name"], **read, verdict=verdict, tick=tick)


class Report:
    """The bounds of a system: they hold in every run whose events and executions obey the system."""

    __slots__ = ("text", "tasks", "paths", "refused", "overloads", "missed", "tick", "roundings", "phases", "clocks")

    text: str
    """What the program writes of it, in ticks."""
    tasks: Mapping[str, TaskReport]
    """By name, in the order of the system."""
    paths: Mapping[str, PathReport]
    """By name, in the order of the system."""
    refused: Mapping[int, int]
    """Of a session: the edits before this report that weren't made, the rule that they break (errors.RULES) by the line
    of the script."""
    overloads: int
    """How many tasks have no bound."""
    missed: int
    """How many deadlines are missed."""
    tick: Time | None
    """The time of a tick, where the system has one."""
    roundings: tuple[Rounding, ...]
    """The times of the system that were rounded, each to its safe side."""
    phases: Phases
    """Where the streams of each task are on clocks, by the names of tasks; empty where none is on one, and where nobody
    told the system, as of a script."""
    clocks: tuple[str, ...]
    """The clocks that its bounds use, and so hold by: of a script all that there are, since its edits may change that;
    empty where nobody told the system."""

    def __init__(
        self,
        rows: list[str],
        refused: dict[int, int] | None = None,
        tick: Time | None = None,
        roundings: Iterable[Rounding] = (),
        phases: Phases | None = None,
        clocks: Iterable[str] = (),
    ):
        summary = lines.SUMMARY.fullmatch(rows[-1]) if rows else None
        tasks = [row for row in rows if row.startswith("task ")]
        others = rows[len(tasks) : -1]
        if not summary or len(tasks) != int(summary[1]) or any(not row.startswith("path ") for row in others):
            raise Unreadable("there is no whole report; its last line begins with summary")
        self.text = "".join(f"{row}\n" for row in rows)
        self.tick, self.roundings, self.phases = tick, tuple(roundings), dict(phases or {})
        self.clocks = tuple(clocks)
        self.tasks = _Entries(tasks, partial(_task, tick=tick, phases=self.phases))
        self.paths = _Entries(others, partial(_path, tick=tick))
        self.refused = refused or {}
        self.overloads, self.missed = int(summary[2]), int(summary[3])

    def __repr__(self) -> str:
        return f"Report({len(self.tasks)} tasks, {len(self.paths)} paths, {self.verdict.value})"

    def __eq__(self, other: object) -> bool:
        if not isinstance(other, Report):
            return NotImplemented
        return self.text == other.text and self.refused == other.refused

    def __reduce__(self) -> tuple[Any, ...]:
        return Report, (self.text.splitlines(), self.refused, self.tick, self.roundings, self.phases, self.clocks)

    def __hash__(self) -> int:
        return hash(self.text)

    @property
    def verdict(self) -> Verdict:
        """OVERLOAD where a task has no bound, else MISSED where a deadline is missed, else MET."""
        return worst_of(self.overloads, self.missed)

    @property
    def ok(self) -> bool:
        """Whether all tasks have a bound and all deadlines are met."""
        return self.verdict is Verdict.MET

    def diff(self, other: "Report") -> "Changes":
        """What changes from this report to another one, bound by bound: `lokwurmi.diffs` has chains beside it."""
        from lokwurmi.results.differences import changes_of

        return changes_of(self, other)

    def _repr_html_(self) -> str:
        return html.report(self)

    def plot(self) -> "Figure":
        """A chart: a bar for the bound of each task and path, beside the deadlines. It needs matplotlib."""
        return plots().report_chart(self)

    def to_dataframe(self, part: str = "tasks") -> "DataFrame":
        """The tasks as a table of pandas, or with "paths" the paths. Times are in ticks; what has no bound is <NA>. A
        system with clocks has two columns more of its tasks with one stream: its clock, and its offset there."""
        table = frame([self.tasks, self.paths][("tasks", "paths").index(part)].values(), drop=("tick", "phases"))
        if part == "tasks" and self.phases:
            single = [it.phases[0] if len(it.phases) == 1 else None for it in self.tasks.values()]
            table["clock"] = [it and it.clock for it in single]
            table["offset"] = whole_numbers([it and it.offset for it in single])
        return table


def plots() -> Any:
    """The module that draws, which needs matplotlib."""
    try:
        from lokwurmi.results import charts
    except ImportError as fault:
        raise NotInstalled("matplotlib", "python3-matplotlib") from fault
    return charts


def _pandas() -> Any:
    """The package pandas."""
    try:
        import pandas
    except ImportError as fault:
        raise NotInstalled("pandas", "python3-pandas") from fault
    return pandas


def whole_numbers(words: Sequence[int | None]) -> Any:
    """A column of pandas whose numbers stay whole: Int64, where <NA> stands for none."""
    return _pandas().array(words, dtype="Int64")


def table_of(rows: Iterable[Any], names: Sequence[str]) -> "DataFrame":
    """Attributes of objects as a table of pandas, whose numbers stay whole."""
    several = list(rows)
    rows_of_names = [{name: getattr(it, name) for name in names} for it in several]
    table: "DataFrame" = _pandas().DataFrame(rows_of_names, columns=list(names))
    for name in names:
        words = [getattr(it, name) for it in several]
        if all(it is None or isinstance(it, int) for it in words) and not any(isinstance(it, bool) for it in words):
            table[name] = whole_numbers(words)
        elif any(isinstance(it, Enum) for it in words):
            table[name] = [it.value for it in words]
    return table


def frame(rows: Iterable[Any], drop: tuple[str, ...] = ()) -> "DataFrame":
    """Dataclasses as a table of pandas, whose numbers stay whole."""
    several = list(rows)
    names = [it.name for it in fields(several[0]) if it.name not in drop] if several else []
    table = table_of(several, names)
    return table.set_index("name") if "name" in names else table


def reports(
    text: str,
    tick: Time | None = None,
    roundings: Iterable[Rounding] = (),
    phases: Phases | None = None,
    clocks: Iterable[str] = (),
) -> list[Report]:
    """The reports in what `analyse` or `session` wrote; `phases` and `clocks` are those of the system of all of
    them."""
    found: list[Report] = []
    rows: list[str] = []
    refused: dict[int, int] = {}
    for line in text.splitlines():
        if line.startswith("line ") and (it := lines.REFUSED.fullmatch(line)):
            refused[int(it[1])] = int(it[2])
            continue
        rows.append(line)
        if line.startswith("summary "):
            found.append(Report(rows, refused, tick, roundings, phases, clocks))
            rows, refused = [], {}
    if not found or rows or refused:
        raise Unreadable("there is no whole report; its last line begins with summary")
    return found


@dataclass(frozen=True, slots=True)
class SeenTask(Timed):
    """What was observed of a task in a run."""

    name: str
    jobs: int
    done: int
    worst: int | None
    """The greatest response of a job that is done, in ticks; None where none is done."""


@dataclass(frozen=True, slots=True)
class SeenPath(Timed):
    """What was observed of a path in a run."""

    name: str
    passages: int
    worst: int | None
    """The greatest time of a passage that is done, in ticks; None where none is done."""


@dataclass(frozen=True, slots=True)
class Run(Timed):
    """What was observed when a trace was replayed. One run isn't the worst case: the bounds are those of a Report."""

    tasks: Mapping[str, SeenTask]
    paths: Mapping[str, SeenPath]
    end: int
    """When the run ended, in ticks."""
    main: ClassVar[str] = "end"

    def _repr_html_(self) -> str:
        return html.run(self)


def run(text: str, tick: Time | None = None) -> Run:
    """The run in what `simulate` wrote."""
    tasks, paths, end = lines.seen_in(text.splitlines())
    return Run(
        {name: SeenTask(name, **it, tick=tick) for name, it in tasks.items()},
        {name: SeenPath(name, **it, tick=tick) for name, it in paths.items()},
        end,
        tick=tick,
    )


@dataclass(frozen=True, slots=True)
class Slack(Timed):
    """By how much the greatest execution of a task may grow while all deadlines are met."""

    ticks: int | None
    """In ticks; None where a deadline is missed already, or a path with one has no bound."""
    at_limit: bool
    """Whether the execution is then the greatest that there is, and no deadline is what ends it."""
    task: str = ""
    main: ClassVar[str] = "ticks"

    def _repr_html_(self) -> str:
        return html.slack(self)


def slack(text: str, tick: Time | None = None) -> Slack:
    """The slack in what `slack` wrote."""
    it = lines.SLACK.fullmatch(text.rstrip("\n"))
    if not it:
        raise Unreadable(f"this is no slack: {text.strip()}")
    return Slack(int(it[2]) if it[2] else None, it[3] == "limit", it[1], tick=tick)


class Order(dict[str, int]):
    """Priorities by task, from the highest to the lowest."""

    def _repr_html_(self) -> str:
        return html.order(self)


def order(text: str) -> Order | None:
    """The priorities in what `assign` wrote, by task, from the highest to the lowest; None where no order meets."""
    found, is_whole = Order(), False
    for line in text.splitlines():
        if it := lines.PRIORITY.fullmatch(line):
            found[it[1]] = int(it[2])
        elif line.startswith("none "):
            return None
        elif lines.ASSIGNED.fullmatch(line):
            is_whole = True
        else:
            raise Unreadable(f"this is no line of an order: {line}")
    if not is_whole:
        raise Unreadable("there is no whole order; a line of it begins with assigned")
    return found


@dataclass(frozen=True, slots=True)
class Buffers:
    """How many jobs may be pending at one time, and how many were in a run."""

    tasks: Mapping[str, tuple[int | None, int]]
    """By task: the bound, or None where there is none, and the peak."""
    resources: Mapping[str, tuple[int | None, int]]
    """The same by resource, all its tasks together."""
    queues: Mapping[str, int | None]
    """By queue how many ticks of work may be pending at one time, or None where there is no bound."""

    def _repr_html_(self) -> str:
        return html.buffers(self)


def buffers(text: str) -> Buffers:
    """What `buffers` wrote."""
    tasks, resources, queues, is_whole = {}, {}, {}, False
    for line in text.splitlines():
        if it := lines.BUFFER.fullmatch(line):
            tasks[it[1]] = (lines.number(it[2]), int(it[3]))
        elif it := lines.RESOURCE.fullmatch(line):
            resources[it[1]] = (lines.number(it[2]), int(it[3]))
        elif it := lines.QUEUE.fullmatch(line):
            queues[it[1]] = lines.number(it[2])
        elif line.startswith("summary "):
            is_whole = True
        else:
            raise Unreadable(f"this is no line of buffers: {line}")
    if not is_whole:
        raise Unreadable("there are no whole buffers; the last line begins with summary")
    return Buffers(tasks, resources, queues)


@dataclass(frozen=True, slots=True)
class Hammered:
    """What was seen of a system under generated traces."""

    tasks: Mapping[str, tuple[int, int | None, int | None]]
    """By task: its jobs, the greatest response of one that is done or None, and its bound or None; in ticks."""
    traces: int
    jobs: int
    beyond: int
    """How many jobs were beyond their bound: 0, by proof."""

    def _repr_html_(self) -> str:
        return html.hammered(self)


def hammered(text: str) -> Hammered:
    """What `hammer` wrote."""
    tasks, summary = {}, None
    for line in text.splitlines():
        if it := lines.HAMMERED.fullmatch(line):
            tasks[it[1]] = (int(it[2]), lines.number(it[3]), lines.number(it[4]))
        elif not (summary := lines.HAMMERED_SUMMARY.fullmatch(line)):
            raise Unreadable(f"this is no line of a hammering: {line}")
    if not summary:
        raise Unreadable("there is no whole hammering; its last line begins with summary")
    return Hammered(tasks, *(int(it) for it in summary.groups()))


@dataclass(frozen=True, slots=True)
class Segment:
    """The first segment of a schedule that differs from the run: its place, from 1, and what the run has there, if
    anything."""

    place: int
    expected: tuple[str, int, int] | None
    """Task, start and end, in ticks."""


def difference(text: str) -> Segment | None:
    """What `audit` wrote: None where the schedule is that of the run."""
    if text.startswith("audit same "):
        return None
    it = lines.WRONG.fullmatch(text.rstrip("\n"))
    if not it:
        raise Unreadable(f"this is no line of an audit: {text.strip()}")
    return Segment(int(it[1]), (it[2], int(it[3]), int(it[4])) if it[2] else None)


@dataclass(frozen=True, slots=True)
class Schedule(Timed):
    """Who runs from when to when in a run: rows of task, start and end, in ticks, where the end isn't part of it."""

    rows: tuple[tuple[str, int, int], ...]
    on: Mapping[str, str] = field(default_factory=dict, repr=False)
    """The resource of each task."""
    main: ClassVar[str] = "end"

    @property
    def end(self) -> int:
        """When the last segment ends, in ticks."""
        return max((end for _, _, end in self.rows), default=0)

    def __len__(self) -> int:
        return len(self.rows)

    def __iter__(self) -> Iterator[tuple[str, int, int]]:
        return iter(self.rows)

    def to_csv(self) -> str:
        """The rows as the file that `schedule` writes, and `audit` takes."""
        return "".join(f"{task},{start},{end}\n" for task, start, end in self.rows)

    def _repr_html_(self) -> str:
        return html.schedule(self)

    def plot(self) -> "Figure":
        """The schedule as a Gantt chart, a row for each task. It needs matplotlib."""
        return plots().schedule_chart(self)


def schedule(text: str, on: Mapping[str, str], tick: Time | None = None) -> Schedule:
    """The schedule in what `schedule` wrote."""
    rows = []
    for line in text.splitlines():
        it = lines.SEGMENT.fullmatch(line)
        if not it:
            raise Unreadable(f"this is no line of a schedule: {line}")
        rows.append((it[1], int(it[2]), int(it[3])))
    return Schedule(tuple(rows), dict(on), tick=tick)
