"""The entries of a system: resources, sources, tasks and paths; and chains with deadlines.

A number is one of ticks. Where the system has a tick, a time with a unit may stand in its place: `us(250)` or "250us",
and on a resource with a bit rate also "84 byte" or "111 bit". It's rounded to the side that is safe for its key as the
system file is written, and stays as it is here.
"""
from collections.abc import Mapping
from dataclasses import asdict, dataclass, fields
from typing import Any

from lokwurmi.errors import LokwurmiError, NoTick, WrongType
from lokwurmi.model.limits import TIMES
from lokwurmi.model.units import Time, amount_of

Ticks = int | Time | str
"""A number of ticks, or a time with a unit."""


@dataclass(slots=True)
class Resource:
    """A processor or a bus."""

    name: str
    kind: str
    limit: Ticks | None = None
    """The longest busy window that is looked at, in ticks or as a time, rounded up; a task with a longer one has no
    bound. None: 1,000,000 ticks."""
    gap: Ticks | None = None
    """The part of a TDMA cycle that belongs to no task, in ticks or as a time, rounded up, only for `tdma`. None: 0."""
    bit: Ticks | None = None
    """The time of a bit, in ticks or as a time, rounded up, only for `can`. None: 1 tick. Frames with a payload get
    their lengths by the exact time."""
    bitrate: int | None = None
    """In place of `bit` or `rate`: bits per second, where the system has a tick."""
    rate: int | None = None
    """How many bits go over a port in a tick, 1 to 672, only for `fifo`. None: 1."""


@dataclass(slots=True)
class Source:
    """What activates tasks from outside: an event every `period`, each by up to `jitter` late, and no two closer than
    `distance`."""

    name: str
    period: Ticks
    """In ticks or as a time, rounded down."""
    jitter: Ticks | None = None
    """In ticks or as a time, rounded up. None: 0."""
    distance: Ticks | None = None
    """In ticks or as a time, rounded down, at most the period. None: 0."""
    sporadic: bool | None = None
    """Whether it may fall silent, so that nothing bounds how long an effect chain waits for it. None: it may not."""
    clock: str | None = None
    """The name of a clock: sources that name one keep their distances, as those of one timer do. None: it has none."""
    offset: Ticks | None = None
    """How long after the clock's start its first event comes, in ticks or as a time below the period, which is rounded
    down, with the jitter as much greater. Only beside `clock`. None: 0."""


@dataclass(slots=True)
class Lock:
    """A critical section of a task under priority ceilings: each job holds the lock from then on when it has had more
    than `start` ticks, until it has had `length` more, or is complete. Both are in ticks or times; `start` is rounded
    down, `length` up, and a time has a tick more."""

    name: str
    start: Ticks
    length: Ticks


@dataclass(slots=True)
class Task:
    """A task, or a frame on a bus."""

    name: str
    on: str
    """The name of its resource."""
    after: str | list[str]
    """What starts its jobs: the name of a source or a task, or several such names, each event or end of which starts a
    job."""
    best: Ticks | None = None
    """Its least execution, in ticks or as a time, rounded down."""
    worst: Ticks | None = None
    """Its greatest execution, in ticks or as a time, rounded up."""
    payload: int | None = None
    """In place of both: how many bytes the frame has, 0 to 8 on `can`, and on `fifo` 0 to 1500, of which a tag is
    4."""
    extended: bool | None = None
    """Whether the frame's identifier has 29 bits; only beside `payload`, on `can`."""
    priority: int | None = None
    """On `preemptive`, `can` and `ceiling`: the smaller number goes first. On `fifo` there is neither this nor a
    slot."""
    slot: Ticks | None = None
    """On `round-robin` and `tdma`: how long its turn lasts, in ticks or as a time, which must be a whole number of
    ticks."""
    region: Ticks | None = None
    """On `preemptive` and `ceiling`: for so many ticks a job isn't preempted once it has begun a region. A time is
    rounded up, and has a tick more. None: 1 tick, so that a job may be preempted at each."""
    locks: list[Lock] | None = None
    """On `ceiling`: its critical sections, of which two nest or are apart; none beside a region. None: it has none."""

    def __post_init__(self) -> None:
        if isinstance(self.locks, list):
            self.locks = [Lock(**it) if isinstance(it, Mapping) else it for it in self.locks]


@dataclass(slots=True)
class Path:
    """A chain of tasks, whose time from end to end is asked for."""

    name: str
    tasks: list[str]
    """The names of its tasks, each of which is activated by the one before."""
    deadline: Ticks | None = None
    """In ticks or as a time, rounded down, if there is one."""


@dataclass(slots=True)
class Chain:
    """An effect chain with deadlines: the names of its tasks in the order of the data, and how long its reaction time,
    its data age and the time for which its data is held may be. A deadline is a number of ticks, or a time with a unit,
    which is rounded down."""

    name: str
    tasks: list[str]
    reaction: "int | Time | None" = None
    age: "int | Time | None" = None
    held: "int | Time | None" = None


Entry = Resource | Source | Task | Path
KINDS: dict[str, type] = {"resource": Resource, "source": Source, "task": Task, "path": Path}
_KEYS = {kind: [at.name for at in fields(kind)] for kind in KINDS.values()}
_NAMES = {kind: name for name, kind in KINDS.items()}


def kind_name(it: Entry) -> str:
    """resource, source, task or path; one of a class below these counts as of these."""
    if kind := next((kind for kind in KINDS.values() if isinstance(it, kind)), None):
        return _NAMES[kind]
    raise WrongType(f"{it!r} is no resource, source, task or path: hand over what was added to a system")


def keys_of(it: Entry) -> dict[str, Any]:
    """The keys of an entry that have a value, with it."""
    found = {key: value for key in _KEYS[KINDS[kind_name(it)]] if (value := getattr(it, key)) is not None}
    if "locks" in found:
        found["locks"] = [_section_keys(it.name, lock) for lock in found["locks"]]
    return found


def _section_keys(task: str, it: Any) -> dict[str, Any]:
    """The keys of a critical section."""
    if not isinstance(it, Lock):
        raise LokwurmiError(f"task {task!r}: locks are a list of Lock(NAME, start=.., length=..), and {it!r} is none")
    return asdict(it)


def is_time(word: Any) -> bool:
    """Whether a value is a time with a unit."""
    if isinstance(word, Time):
        return True
    if not isinstance(word, str):
        return False
    try:
        amount_of(word)
    except ValueError:
        return False
    return True


def check_no_time(kind: str, entry: Mapping[str, Any]) -> None:
    """Raises NoTick where an entry has a time with a unit, or a bit rate."""
    for key, value in entry.items():
        if key == "bitrate" or (key in TIMES[kind] or key == "bit") and is_time(value):
            raise NoTick(f"{key} of {kind} {entry.get('name')!r} is {value}")
    for lock in entry.get("locks", []):
        check_no_time("lock", lock)
