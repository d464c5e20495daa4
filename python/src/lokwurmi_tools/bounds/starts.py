"""From where a busy window is looked at, where streams are on clocks: from each moment of the task's own clock at which
an event of its stream, or of one that may go before it on that clock, comes as late as it can. Other clocks stand as
their streams ask for most (docs/ANALYSIS.md, "Offsets"). It is no part of what is proved."""
from collections.abc import Iterable, Mapping
from typing import NamedTuple

from lokwurmi.model.event_models import Stream
from lokwurmi.model.view import Anchor

Moments = Mapping[str, int]
"""Where clocks stand as a window begins, by their names."""


class Start(NamedTuple):
    """A busy window that begins at a moment of a clock."""

    clock: str
    moment: int


class PlacedStream(NamedTuple):
    """A stream, where it is on a clock, and the execution of the task that it starts."""

    stream: Stream
    anchor: Anchor
    worst: int


def phase_on(stream: Stream, anchor: Anchor | None, moments: Moments) -> int:
    """How long after a window begins the next moment is at which an event comes as late as it can; 0 where nothing is
    known of that."""
    if anchor is None or anchor.clock not in moments:
        return 0
    period, jitter, _ = stream
    return (anchor.offset + jitter - moments[anchor.clock]) % period


def arrivals(stream: Stream, phase: int, window: int) -> int:
    """The most events of a stream in a window that begins at such a phase."""
    period, jitter, distance = stream
    most = -(-max(window + jitter - phase, 0) // period) if window else 0
    return min(most, -(-window // distance)) if distance else most


def earliest(stream: Stream, phase: int, events: int) -> int:
    """How long after a window begins so many events can have come at the earliest."""
    period, jitter, distance = stream
    gaps = events - 1
    return max(gaps * distance, phase + gaps * period - jitter, 0) if events else 0


def latest_moments(several: Iterable[PlacedStream], cycle: int) -> list[int]:
    """The moments of a cycle at which an event of some stream of its clock comes as late as it can."""
    found: set[int] = set()
    for (period, jitter, _), anchor, _ in several:
        first = (anchor.offset + jitter - 1) % period + 1
        found.update(range(first, cycle + 1, period))
    return sorted(found)


def work_from(several: Iterable[PlacedStream], moment: int, window: int) -> int:
    """The work of the streams of a clock in a window that begins at a moment of it."""
    return sum(
        arrivals(it.stream, phase_on(it.stream, it.anchor, {it.anchor.clock: moment}), window) * it.worst
        for it in several
    )
