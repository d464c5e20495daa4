"""What is asked for of a page."""
from dataclasses import dataclass
from fractions import Fraction


@dataclass(frozen=True, slots=True)
class PageOptions:
    """The system of a page, and what it has besides: the run of a trace, whose Gantt chart is drawn from the tick
    `start` until the tick `until`, the effect chains of a file, what a script of a session changes, how far numbers may
    move, other priorities, and what would help. `tick` is in nanoseconds; with `strict` a task without a bound has a
    status of its own."""

    file: str
    program: str
    to: str
    trace: str | None = None
    schedule: str | None = None
    start: int = 0
    until: int | None = None
    chains: str | None = None
    session: str | None = None
    sensitivity: bool = False
    optimise: bool = False
    helps: bool = False
    strict: bool = False
    tick: Fraction | None = None
