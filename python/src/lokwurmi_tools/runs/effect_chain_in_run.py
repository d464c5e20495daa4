"""Tells what is seen of a chain in a run, for the tools beside it: how long it takes to react, and how old its data is.

A chain is a list of tasks. Each writes a register at the end of each job, and the next reads it once, somewhere from a
job's arrival to its end; what was written when it reads counts (docs/FILES.md, "Effect chains"). When a
job reads isn't seen in a run, so there are five rules: all jobs read as they come, as they start or as they are done;
or each in that tick in which it runs, or at that time from arrival to end, which makes the chain slowest. Where a task
starts the next one, a job may take what started it, or what stands in the register: the slower counts.
"""
from bisect import bisect_left, bisect_right
from collections.abc import Iterator
from typing import NamedTuple

from lokwurmi.model.view import SystemView
from lokwurmi_tools.runs.jobs_in_run import causes_in, jobs_in, parts_in, segments_of
from lokwurmi_tools.shared.types import Schedule, Segment, Trace

READINGS = {
    "arrival": "as they come",
    "start": "as they start",
    "end": "as they are done",
    "running": "at the worst time while they run",
    "whenever": "at the worst time",
}
ASKED = ("reaction", "age", "held")
# later than any time of a run
NEVER = 1 << 62


class Job(NamedTuple):
    """A job: when it came and was done, None where it wasn't, and the parts in which it ran, each from when to before
    when; what started it, the name of a source or a task and the place of the event or job there; and its stream, by
    the place among those of its task."""

    came: int
    parts: list[Segment]
    done: int | None
    cause: tuple[str, int]
    stream: int


class Late(NamedTuple):
    """A reaction, an age or a time for which data is held: from when to when, and the job of each task of the chain, by
    its place among those of the task."""

    since: int
    until: int
    jobs: tuple[int, ...]

    def ticks(self) -> int:
        return self.until - self.since


class SeenChain(NamedTuple):
    """The greatest that is seen by a rule of reading, None where nothing is; of how many jobs of the first task a
    reaction is seen, and of how many of the last an age, and how many there are."""

    latest: dict[str, Late | None]
    reactions: int
    firsts: int
    ages: int
    lasts: int


class RunOfJobs:
    """The jobs of a run, those of each task in the order in which they came."""

    def __init__(self, view: SystemView, schedule: Schedule, trace: Trace):
        self.view, self.tasks = view, view.tasks
        jobs = jobs_in(view, schedule, trace)
        self.causes = causes_in(view, jobs, trace[0])
        parts = self.parts_of(schedule, trace)
        self.jobs = {name: self.jobs_of(name, jobs[name], parts[name]) for name in self.tasks}
        self.started = {(name, cause): k for name, several in self.causes.items() for k, cause in enumerate(several)}
        self.inner = {name: self.inner_of(name) for name in self.tasks}

    def parts_of(self, schedule: Schedule, trace: Trace) -> dict[str, list[list[Segment]]]:
        """The parts of each task's jobs that have begun."""
        segments = segments_of(schedule, self.tasks)
        found: dict[str, list[list[Segment]]] = {}
        for name, task in self.tasks.items():
            found[name] = [parts for parts, _ in parts_in(segments[name], trace[1].get(name, []), task.worst)]
        return found

    def jobs_of(self, name: str, jobs: list[tuple[int, int | None]], parts: list[list[Segment]]) -> list[Job]:
        rows = zip(jobs, parts + [[]] * (len(jobs) - len(parts)), self.causes[name])
        return [Job(came, ran, done, cause, self.stream_of(name, cause)) for (came, done), ran, cause in rows]

    def stream_of(self, name: str, cause: tuple[str, int]) -> int:
        """The stream of a task that a job of it belongs to, by what started it."""
        (before, place), after = cause, self.tasks[name].after
        first = sum(self.view.streams_from(it) for it in after[: after.index(before)])
        return first + (self.stream_of(before, self.causes[before][place]) if before in self.tasks else 0)

    def inner_of(self, name: str) -> range:
        """The jobs up to which each stream of the task has had one, and after which each has one."""
        places: dict[int, list[int]] = {}
        for k, job in enumerate(self.jobs[name]):
            places.setdefault(job.stream, []).append(k)
        if len(places) < self.view.streams_from(name):
            return range(0)
        return range(max(several[0] for several in places.values()), min(several[-1] for several in places.values()))


def times_of(job: Job, reading: str) -> list[tuple[int, int]]:
    """The times at which a job may read by a rule, each from when up to when. What isn't known by the end of the run
    comes never."""
    done = NEVER if job.done is None else job.done
    if reading == "whenever":
        return [(job.came, done)]
    if reading == "running" and job.done is not None:
        return [(start, end - 1) for start, end in job.parts]
    began = job.parts[0][0] if job.parts else NEVER
    time = {"arrival": job.came, "start": began, "end": done, "running": NEVER}[reading]
    return [(time, time)]


class Window:
    """The times at which each job of a task may read, and when it is done."""

    def __init__(self, jobs: list[Job], reading: str):
        self.times = [times_of(job, reading) for job in jobs]
        self.earliest = [several[0][0] for several in self.times]
        self.latest = [several[-1][1] for several in self.times]
        self.done = [NEVER if job.done is None else job.done for job in jobs]


class Watch:
    """A chain in a run, by a rule of reading."""

    def __init__(self, run: RunOfJobs, tasks: list[str], reading: str):
        self.run, self.tasks = run, tasks
        self.windows = {name: Window(run.jobs[name], reading) for name in tasks}

    def first_to_know(self, before: str, k: int, name: str) -> Iterator[int]:
        """The jobs of the next task that may be the first to know what job k wrote."""
        started = self.run.started.get((name, (before, k)))
        if started is not None:
            yield started
        written, window = self.windows[before].done[k], self.windows[name]
        last = bisect_left(window.earliest, written)
        for n in range(bisect_left(window.latest, written), min(last + 1, len(window.done))):
            if before in self.run.tasks[name].after or n - 1 in self.run.inner[name]:
                yield n

    def data_of(self, before: str, name: str, n: int) -> Iterator[int]:
        """The jobs of the task before whose data job n may have."""
        cause, place = self.run.causes[name][n]
        if cause == before:
            yield place
        done, window = self.windows[before].done, self.windows[name]
        for k in range(max(0, bisect_right(done, window.earliest[n]) - 1), bisect_right(done, window.latest[n])):
            until = done[k + 1] - 1 if k + 1 < len(done) else NEVER
            can = any(max(done[k], first) <= min(until, last) for first, last in window.times[n])
            if can and (self.run.tasks[name].after == (before,) or k in self.run.inner[before]):
                yield k

    def forward(self) -> dict[int, Late]:
        """For each job of the first task the slowest way to the end of the chain, from its arrival."""
        done = self.windows[self.tasks[-1]].done
        later: dict[int, tuple[int, tuple[int, ...]]] = {n: (end, (n,)) for n, end in enumerate(done) if end < NEVER}
        for before, name in reversed(list(zip(self.tasks, self.tasks[1:]))):
            ways: dict[int, tuple[int, tuple[int, ...]]] = {}
            for k, written in enumerate(self.windows[before].done):
                several = self.first_to_know(before, k, name) if written < NEVER else ()
                known = [later[n] for n in several if n in later]
                if known:
                    end, jobs = max(known)
                    ways[k] = (end, (k, *jobs))
            later = ways
        firsts = self.run.jobs[self.tasks[0]]
        return {k: Late(firsts[k].came, end, way) for k, (end, way) in later.items()}

    def reactions(self) -> list[Late]:
        """From when each job of the first task that follows on has just been missed by the one before it."""
        window, inner = self.windows[self.tasks[0]], self.run.inner[self.tasks[0]]
        missed = {k: window.earliest[k - 1] + 1 for k in range(1, len(window.done)) if k - 1 in inner}
        ways = {k: it for k, it in self.forward().items() if k in missed and missed[k] <= window.latest[k]}
        return [Late(missed[k], it.until, it.jobs) for k, it in ways.items()]

    def ages(self) -> list[Late]:
        """For each job of the last task that is done the oldest data of the first that it may have."""
        earlier: dict[int, tuple[int, tuple[int, ...]]] = {
            k: (job.came, (k,)) for k, job in enumerate(self.run.jobs[self.tasks[0]])
        }
        for before, name in zip(self.tasks, self.tasks[1:]):
            ways: dict[int, tuple[int, tuple[int, ...]]] = {}
            for n, done in enumerate(self.windows[name].done):
                several = self.data_of(before, name, n) if done < NEVER else ()
                known = [earlier[k] for k in several if k in earlier]
                if known:
                    since, jobs = min(known)
                    ways[n] = (since, (*jobs, n))
            earlier = ways
        ends = self.windows[self.tasks[-1]].done
        return [Late(since, ends[n], jobs) for n, (since, jobs) in earlier.items() if ends[n] < NEVER]

    def held(self, ages: list[Late]) -> list[Late]:
        """Until the last tick at which the register of the last task has what a job wrote: that before the next job of
        it is done."""
        name = self.tasks[-1]
        done, inner = self.windows[name].done, self.run.inner[name]
        followed = [(it, done[it.jobs[-1] + 1]) for it in ages if it.jobs[-1] in inner]
        return [Late(it.since, over - 1, it.jobs) for it, over in followed if over < NEVER]


def seen_of(run: RunOfJobs, tasks: list[str], reading: str) -> SeenChain:
    """What is seen of a chain by a rule of reading."""
    watch = Watch(run, tasks, reading)
    reactions, ages = watch.reactions(), watch.ages()
    found = dict(zip(ASKED, (reactions, ages, watch.held(ages))))
    latest = {what: max(several, key=Late.ticks) if several else None for what, several in found.items()}
    lasts = sum(job.done is not None for job in run.jobs[tasks[-1]])
    return SeenChain(latest, len(reactions), len(run.jobs[tasks[0]]), len(ages), lasts)


class Gap(NamedTuple):
    """Two events of a source that isn't sporadic, farther apart than its period and jitter say: their times, and how
    far apart they may be."""

    source: str
    first: int
    second: int
    most: int


def gaps_in(view: SystemView, events: dict[str, list[int]]) -> list[Gap]:
    """The first such events of each source that has any; there are none where all sources stay near."""
    found = []
    for name, it in view.sources.items():
        if it.sporadic:
            continue
        least, place, period, jitter = NEVER, 0, it.period, it.jitter
        for n, time in enumerate(events.get(name, [])):
            if time - n * period > least + jitter:
                found.append(Gap(name, events[name][place], time, (n - place) * period + jitter))
                break
            if time - n * period <= least:
                least, place = time - n * period, n
    return found
