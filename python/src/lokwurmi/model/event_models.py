"""Event models: how densely the events of streams may come, and which streams start each task of a system.

All times are in ticks. A stream is a period, a jitter and a distance: its events come a period apart, each by up to the
jitter later, and no two closer than the distance.
"""
from collections.abc import Mapping

from lokwurmi.model.view import SystemView, Way

Stream = tuple[int, int, int]
"""A period, a jitter and a distance, in ticks."""
Bounds = Mapping[str, int | None]
"""The greatest response of each task in ticks, by its name; None for `overload`."""


def label_of(way: Way) -> str:
    """The way of a stream as a text.

    >>> label_of(("s", "a", "b"))
    's → a → b'
    """
    return " → ".join(way)


def inputs_of(view: SystemView, bounds: Bounds) -> dict[str, list[Stream] | None]:
    """The streams that start each task, in their order, where `bounds` has what each task's response is at most. None
    stands for an input without a bound.

    What comes out of a task has more jitter by what its response varies, and is as far apart as its least execution, or
    as what that leaves of the distance.
    """
    found: dict[str, list[Stream] | None] = {}

    def sent_by(before: str) -> list[Stream] | None:
        if before in view.sources:
            it = view.sources[before]
            return [(it.period, it.jitter, it.distance)]
        come, bound = input_to(before), bounds[before]
        if come is None or bound is None:
            return None
        best = view.tasks[before].best
        varies = bound - best
        return [(period, jitter + varies, max(distance - varies, best)) for period, jitter, distance in come]

    def input_to(name: str) -> list[Stream] | None:
        if name not in found:
            several = [sent_by(before) for before in view.tasks[name].after]
            known = [stream for streams in several for stream in streams or []]
            found[name] = None if None in several else known
        return found[name]

    return {name: input_to(name) for name in view.tasks}


def input_of(view: SystemView, bounds: Bounds, name: str) -> list[Stream] | None:
    """The streams that start one task."""
    return inputs_of(view, bounds)[name]


def most_events(stream: Stream, window: int) -> int:
    """The most events of a stream in a window of so many ticks.

    >>> most_events((10, 5, 0), 6), most_events((10, 25, 4), 6)
    (2, 2)
    """
    period, jitter, distance = stream
    most = -(-(window + jitter) // period) if window else 0
    return min(most, -(-window // distance)) if distance else most


def least_time(streams: list[Stream], events: int) -> int:
    """The least time in ticks from the first to the last of so many events of some streams.

    >>> least_time([(10, 5, 0)], 3), least_time([(10, 0, 0), (20, 0, 0)], 3)
    (15, 10)
    """
    if events < 2:
        return 0
    apart = [max(0, (events - 1) * distance, (events - 1) * period - jitter) for period, jitter, distance in streams]
    low, high = 0, max(apart)
    # the least window that has room for them once it is a tick longer; one stream alone needs all of its own time
    while len(streams) > 1 and low < high:
        middle = (low + high) // 2
        has_room = sum(most_events(it, middle + 1) for it in streams) >= events
        low, high = (low, middle) if has_room else (middle + 1, high)
    return high


def first_windows(stream: Stream, longest: int) -> list[int]:
    """The shortest window in ticks that has room for one event of a stream, for two, and so on, up to a longest one.

    >>> first_windows((10, 5, 0), 20)
    [1, 6, 16]
    """
    period, jitter, distance = stream
    found: list[int] = []
    while (least := max(0, len(found) * distance, len(found) * period - jitter)) < longest:
        found.append(least + 1)
    return found
