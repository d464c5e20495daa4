"""Sources on clocks, by the rules of docs/DEFINITIONS.md, followed plainly: when the streams of tasks can come after
the start of a busy window, the bounds from each start of one, and which traces come by their clocks.

Each tick of a cycle is tried, one after the other. Times are ticks.
"""
import math

from tests.rules.curves import OVERLOAD, ceiling, least_time, least_window, most_events


class Placed:
    """A stream on a clock: its period, jitter and distance, its offset, and the execution of the task behind it."""

    def __init__(self, stream, offset, worst):
        (self.period, self.jitter, self.distance), self.offset, self.worst = stream, offset, worst

    def phase(self, start):
        """How long after a moment of the clock the next one is at which an event comes as late as it can."""
        return (self.offset + self.jitter - start) % self.period

    def earliest(self, start, events):
        """How long after the start of a window so many events can have come at the earliest."""
        if events == 0:
            return 0
        gaps = events - 1
        return max(gaps * self.distance, self.phase(start) + gaps * self.period - self.jitter, 0)

    def arrivals(self, start, window):
        """The most events in a window whose end doesn't count: the most whose earliest time is within it."""
        if window == 0:
            return 0
        by_period = ceiling(max(window + self.jitter - self.phase(start), 0), self.period)
        return min(by_period, ceiling(window, self.distance)) if self.distance else by_period


def work_from(streams, start, window):
    """The work of the streams of one clock in a window that begins at a moment of it."""
    return sum(it.arrivals(start, window) * it.worst for it in streams)


class OnClocks:
    """A task among those that may go before it, at some bounds, of a system with clocks."""

    def __init__(self, system, name, higher, bounds):
        self.worst, self.limit = system.tasks[name]["worst"], system.limit_of(name)
        self.model = system.input_of(name, bounds)
        self.own = self.clock = None
        anchors = system.anchors_of(name)
        if len(anchors) == 1 and anchors[0]:
            self.clock = anchors[0][0]
            self.own = Placed(self.model[0], anchors[0][1], self.worst)
        self.cycles = system.cycles
        # the streams of others by their clocks, those on none, and whether an input has no bound
        self.streams, self.free, self.is_endless = {it: [] for it in self.cycles}, [], False
        for rival in higher:
            model, worst = system.input_of(rival, bounds), system.tasks[rival]["worst"]
            self.is_endless |= model is None
            for stream, anchor in zip(model or [], system.anchors_of(rival)):
                if anchor:
                    self.streams[anchor[0]].append(Placed(stream, anchor[1], worst))
                else:
                    self.free.append((stream, worst))
        self.joint = self.streams.pop(self.clock, [])
        self.known = {}

    def elsewhere(self, window):
        """What those on no clock ask for in a window, and those of each other clock, wherever in a cycle it begins."""
        if window and self.is_endless:
            return OVERLOAD
        if window not in self.known:
            free = sum(most_events([stream], window) * worst for stream, worst in self.free)
            clocks = (
                max(work_from(streams, start, window) for start in range(1, self.cycles[clock] + 1))
                for clock, streams in self.streams.items()
                if streams
            )
            self.known[window] = free + sum(clocks)
        return self.known[window]

    def starts(self):
        """Each start of a busy window: what others ask for from there, how early the task's own jobs can come, and how
        many come."""
        if self.own is None:
            yield self.elsewhere, lambda n: least_time(self.model, n), lambda w: most_events(self.model, w)
            return
        for start in range(1, self.cycles[self.clock] + 1):
            yield (
                lambda w, start=start: work_from(self.joint, start, w) + self.elsewhere(w),
                lambda n, start=start: self.own.earliest(start, n),
                lambda w, start=start: self.own.arrivals(start, w),
            )

    def preemptive(self, blocking):
        return max(self.preemptive_from(blocking, *it) for it in self.starts())

    def preemptive_from(self, blocking, others, earliest, _):
        def window(jobs, first=0):
            return least_window(lambda w: blocking + jobs * self.worst + others(w), first, self.limit)

        # the others are done before the first job comes
        if self.own is not None and window(0, 1) <= earliest(1):
            return 0
        greatest, jobs = 0, 1
        while True:
            end = window(jobs)
            if end == OVERLOAD:
                return OVERLOAD
            greatest = max(greatest, end - earliest(jobs))
            if end <= earliest(jobs + 1):
                return greatest
            jobs += 1

    def can(self, blocking, bit):
        return max(self.can_from(blocking, bit, *it) for it in self.starts())

    def can_from(self, blocking, bit, others, earliest, frames):
        busy = least_window(lambda w: blocking + frames(w) * self.worst + others(w), 1, self.limit)
        if busy == OVERLOAD:
            return OVERLOAD
        greatest = 0
        for frame in range(1, frames(busy) + 1):
            before = blocking + (frame - 1) * self.worst
            end = least_window(lambda w, b=before: b + others(w + bit), 0, self.limit) + self.worst
            if end > self.limit:
                return OVERLOAD
            greatest = max(greatest, end - earliest(frame))
        return greatest


def clocks_of(sources):
    """The clocks of sources, each with its cycle."""
    periods = {}
    for it in sources:
        if "clock" in it:
            periods.setdefault(it["clock"], []).append(it["period"])
    return {clock: math.lcm(*several) for clock, several in periods.items()}


def is_by(source, times, lead):
    """Whether the events of a source come by a clock that has run for so long at time 0, as many having come before as
    may be: event n comes from its offset and n periods after the clock's start to that and its jitter."""
    period, jitter, offset = source["period"], source.get("jitter", 0), source.get("offset", 0)
    if not times:
        return True
    # the first event has one of these numbers
    last = (times[0] + lead - offset) // period
    return any(
        all(0 <= time + lead - offset - (first + n) * period <= jitter for n, time in enumerate(times))
        for first in range(last - jitter // period - 1, last + 1)
    )


def first_off(sources, events):
    """The first event that can't come by its clock, beside those before it of its source, and all of the sources before
    that on its clock: the name of the source, and the time; None where all come by their clocks."""
    cycles = clocks_of(sources)
    for place, source in enumerate(sources):
        if "clock" not in source:
            continue
        before = [it for it in sources[:place] if it.get("clock") == source["clock"]]
        times = events.get(source["name"], [])
        leads = range(cycles[source["clock"]])
        left = [lead for lead in leads if all(is_by(it, events.get(it["name"], []), lead) for it in before)]
        for n in range(len(times)):
            left = [lead for lead in left if is_by(source, times[: n + 1], lead)]
            if not left:
                return source["name"], times[n]
    return None
