"""What files may hold: kinds of resources, the ranges of numbers, and how many entries there may be (docs/FILES.md).

Times are in ticks. This module needs next to nothing, so that a refusal is told in words without loading what analyses
systems.
"""
from collections.abc import Mapping
from dataclasses import dataclass
from enum import StrEnum


class Kind(StrEnum):
    """Who runs on a resource."""

    PREEMPTIVE = "preemptive"
    """The smallest priority number is next, and a region that has begun goes on to its end."""
    ROUND_ROBIN = "round-robin"
    """One task after the other, each for up to its slot."""
    TDMA = "tdma"
    """Each task in its slot of a fixed cycle."""
    CAN = "can"
    """The smallest priority number is next, and what has started goes on to its end."""
    FIFO = "fifo"
    """A queue: what came first is next, and goes on to its end."""
    CEILING = "ceiling"
    """As preemptive, and within a critical section a job has the ceiling of the lock as its priority."""


WITH_PRIORITIES = ("preemptive", "can", "ceiling")
"""The kinds of resource whose tasks have priorities."""
WITH_SLOTS = ("round-robin", "tdma")
"""Those whose tasks have slots; on a queue they have neither."""
WITH_REGIONS = ("preemptive", "ceiling")
"""Those whose tasks may have regions."""


@dataclass(frozen=True, slots=True)
class Limits:
    """What a system file of a format may have at most."""

    entries: Mapping[str, int]
    """How many entries each list may have."""
    file_bytes: int
    """How many bytes the file may have."""
    execution: int
    """The longest execution, region, critical section, slot and gap."""
    window: int
    """The longest busy window that may be looked at."""


_FIRST = Limits({"resource": 64, "source": 128, "task": 512, "path": 128}, 1_048_576, 1_000_000, 10_000_000)
NEWEST = 4
LIMITS = {
    1: _FIRST,
    2: _FIRST,
    NEWEST: Limits(
        entries={"resource": 128, "source": 8_192, "task": 8_192, "path": 2_048},
        file_bytes=16_777_216,
        execution=10_000_000,
        window=100_000_000,
    ),
}
"""The limits of each format."""


def limits_of(form: object) -> Limits:
    """The limits of a format; of what is none, those of the newest one."""
    if not isinstance(form, int) or isinstance(form, bool):
        return LIMITS[NEWEST]
    return LIMITS.get(int(form), LIMITS[NEWEST])


MOST_ENTRIES = LIMITS[NEWEST].entries
"""How many entries each list of a system file of the newest format may have."""
MOST_EXECUTION = LIMITS[NEWEST].execution
"""The longest execution, region, slot and gap of the newest format."""
MOST_LIMIT = LIMITS[NEWEST].window
"""The longest busy window that may be looked at in the newest format."""
MOST_CHAINS = 128
"""How many chains a file of chains may have."""
MOST_IN_CHAIN = 32
"""How many tasks a chain may have, from its source or in a file of chains."""
MOST_STREAMS = 32
"""How many streams may start a task."""
MOST_IN_NAME = 64
"""How many letters a name may have."""
MOST_SECTIONS = 64
"""How many critical sections a task may have."""
MOST_STARTS = 4_096
"""How many events the sources on a clock may have in a cycle of it."""

MOST_TICKS = 1_000_000_000
"""The longest period, jitter, distance and deadline, and the greatest phase of a trace."""
MOST_BIT = 1_000
"""The most ticks that a bit of a CAN bus may take."""
MOST_RATE = 672
"""The most bits in a tick on a port: at more, the shortest frame would take less than a tick."""
MOST_PRIORITY = 536_870_911
"""The greatest priority number, which is the greatest identifier of 29 bits."""
MOST_SHORT, LOW_BITS = 0x7FF, 18
"""The greatest identifier of 11 bits, and how many bits of one of 29 come behind those that are compared first."""
DEFAULT_LIMIT = 1_000_000
"""The longest busy window that is looked at where a resource names none."""
DEFAULT_BIT = 1
"""The ticks of a bit of a CAN bus that names none."""
DEFAULT_RATE = 1
"""The bits in a tick on a port that names no number of them."""
DEFAULT_REGION = 1
"""The region of a task that names none: a job may be preempted at each tick."""

MOST_SCRIPT_LINES = 10_000
"""How many lines a script may have."""
MOST_ROWS = 200_000
"""How many rows a trace or a schedule may have."""
MOST_JOBS = 2_000_000
"""How many jobs the events of a trace may start."""
MOST_TIME, HORIZON = 10_000_000, 20_000_000
"""The last time of an event of a trace, and the last tick of a run."""
MOST_SEED, MOST_TRACES = 4_294_967_295, 10_000
"""The greatest seed of generated systems and traces, and how many traces a call of `hammer` has at most."""
MOST_BYTES = {
    "system": _FIRST.file_bytes,
    "script": 1_048_576,
    "chains": 1_048_576,
    "trace": 16_777_216,
    "schedule": 16_777_216,
}
"""How many bytes each sort of file may have; a system of the newest format may have more."""

UP, DOWN, NEITHER = "up", "down", "to neither side"
TimeRanges = Mapping[str, Mapping[str, tuple[str, int, int]]]
"""Of each list its keys that are times, each with the side that is safe, and the least and the greatest number of
ticks."""


def times_of(limits: Limits) -> TimeRanges:
    """The times of a format with such limits, and those of a task's critical sections. A region stands before what
    depends on it."""
    execution = {key: (side, 1, limits.execution) for key, side in (("region", UP), ("best", DOWN), ("worst", UP))}
    return {
        "resource": {"limit": (UP, 1, limits.window), "gap": (UP, 0, limits.execution)},
        "source": {
            "period": (DOWN, 1, MOST_TICKS),
            "jitter": (UP, 0, MOST_TICKS),
            "distance": (DOWN, 0, MOST_TICKS),
            "offset": (DOWN, 0, MOST_TICKS - 1),
        },
        "task": {**execution, "slot": (NEITHER, 1, limits.execution)},
        "lock": {"start": (DOWN, 0, limits.execution), "length": (UP, 1, limits.execution)},
        "path": {"deadline": (DOWN, 1, MOST_TICKS)},
        "chain": {key: (DOWN, 1, MOST_TICKS) for key in ("reaction", "age", "held")},
    }


TIMES = times_of(LIMITS[NEWEST])
"""The times of the newest format."""
CHAIN_KEYS = ("name", "tasks", "reaction", "age", "held")
"""The keys of a chain."""
