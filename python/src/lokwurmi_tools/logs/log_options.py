"""What is asked for of a recorded log."""
from dataclasses import dataclass
from fractions import Fraction


@dataclass(frozen=True, slots=True)
class LogOptions:
    """A log, and the system, None where sources are made of it, that it is held against by its report. Databases name
    the frames, and pairs in `bus` say which channel each bus is; `tick` is in nanoseconds. By `period` sources get the
    periods of the log or of the database. The times of the log may be late by `rough` ticks, and its clock slower by
    `drift` millionths; `classical` takes frames in lines of CAN FD as classical ones, and `sort` sorts all. `clocks`
    puts sources that keep their distance on clocks."""

    log: str
    program: str
    system: str | None
    report: str | None
    database: list[str]
    bus: list[tuple[str, str]]
    tick: Fraction
    period: str
    classical: bool
    sort: bool
    rough: int
    drift: float
    clocks: bool
