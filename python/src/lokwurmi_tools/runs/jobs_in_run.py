"""The jobs and passages of a run, by its schedule and its trace."""
from collections.abc import Iterable, Sequence
from typing import NamedTuple

from lokwurmi.files import traces
from lokwurmi.model.limits import Kind
from lokwurmi.model.view import LockRow, SystemView
from lokwurmi_tools.shared.program import written_by
from lokwurmi_tools.shared.types import Jobs, Schedule, Segment, Times, Trace


def schedule_in(text: str, file: str, view: SystemView) -> Schedule:
    """The rows of a schedule of a system."""
    return traces.schedule_in(text, file, view.tasks)


def read_schedule(file: str, view: SystemView) -> Schedule:
    return schedule_in(traces.text_of(file), file, view)


def schedule_by(program: str, file: str, trace: str, view: SystemView) -> Schedule:
    """What `lokwurmi schedule` writes of a trace."""
    return schedule_in(written_by(program, "schedule", file, trace), "lokwurmi schedule", view)


def read_trace(file: str) -> Trace:
    return traces.trace_in(traces.text_of(file), file)


def parts_in(segments: list[Segment], executions: list[int], greatest: int) -> list[tuple[list[Segment], bool]]:
    """What each job of a task ran, by its segments, each from when to before when, and whether it is done by them: each
    job takes its execution, and the one before goes first."""
    jobs: list[list[Segment]] = []
    left = 0
    for start, end in segments:
        while start < end:
            if left == 0:
                left = executions[len(jobs)] if len(jobs) < len(executions) else greatest
                jobs.append([])
            ran = min(left, end - start)
            jobs[-1].append((start, start + ran))
            start, left = start + ran, left - ran
    return [(parts, left == 0 or place + 1 < len(jobs)) for place, parts in enumerate(jobs)]


def points_in(view: SystemView, schedule: Schedule, trace: Trace) -> dict[str, list[int]]:
    """When each task was between two regions of a job of it that went on: there it might have been preempted."""
    _, executions, _ = trace
    tasks = {name: it for name, it in view.tasks.items() if it.region > 1}
    segments = segments_of([row for row in schedule if row[0] in tasks], tasks)
    found: dict[str, list[int]] = {name: [] for name in tasks}
    for name, task in tasks.items():
        for parts, _ in parts_in(segments[name], executions.get(name, []), task.worst):
            had, region = 0, task.region
            for start, end in parts:
                found[name] += range(start + region - had % region, end, region)
                had += end - start
    return found


class Held(NamedTuple):
    """A part of a job in which it has ticks of a critical section: from when to when, the lock, and within how many
    others of its sections it is."""

    start: int
    end: int
    lock: str
    depth: int


def held_in(view: SystemView, schedule: Schedule, trace: Trace) -> dict[str, list[Held]]:
    """Of each task with locks when its jobs ran within critical sections."""
    tasks = {name: it for name, it in view.tasks.items() if it.locks}
    segments = segments_of([row for row in schedule if row[0] in tasks], tasks)
    found: dict[str, list[Held]] = {name: [] for name in tasks}
    for name, task in tasks.items():
        depths = [sum(is_within(it, other) for other in task.locks) for it in task.locks]
        for parts, _ in parts_in(segments[name], trace[1].get(name, []), task.worst):
            had = 0
            for start, end in parts:
                for it, depth in zip(task.locks, depths):
                    first, last = max(it.start, had), min(it.end, had + end - start)
                    if first < last:
                        found[name].append(Held(start + first - had, start + last - had, it.name, depth))
                had += end - start
    return found


def is_within(one: LockRow, other: LockRow) -> bool:
    """Whether a critical section is within another one, which is longer."""
    return other.start <= one.start and one.end <= other.end and one.length < other.length


def waits_in(view: SystemView, schedule: Schedule, trace: Trace, jobs: Jobs) -> dict[str, list[Segment]]:
    """Of each task of a queue from when to when its jobs waited, of those that have begun: from when they came."""
    tasks = {name: it for name, it in view.tasks.items() if view.kind(name) == Kind.FIFO}
    segments = segments_of([row for row in schedule if row[0] in tasks], tasks)
    found: dict[str, list[Segment]] = {}
    for name, task in tasks.items():
        ran = parts_in(segments[name], trace[1].get(name, []), task.worst)
        found[name] = [(came, parts[0][0]) for (came, _), (parts, _) in zip(jobs[name], ran)]
    return found


def ends_in(segments: list[Segment], executions: list[int], greatest: int) -> list[int]:
    """When the jobs of a task were done, by its segments."""
    return [parts[-1][1] for parts, is_done in parts_in(segments, executions, greatest) if is_done]


def segments_of(schedule: Schedule, tasks: Iterable[str]) -> dict[str, list[Segment]]:
    """The segments of each task, in order."""
    segments: dict[str, list[Segment]] = {name: [] for name in tasks}
    for name, start, end in schedule:
        segments[name].append((start, end))
    return {name: sorted(several) for name, several in segments.items()}


def jobs_in(view: SystemView, schedule: Schedule, trace: Trace) -> Jobs:
    """The jobs of each task in the order in which they came, by a schedule and the trace that it is of: when each came,
    and when it was done, None where it wasn't."""
    events, executions, _ = trace
    segments = segments_of(schedule, view.tasks)
    ends = {name: ends_in(segments[name], executions.get(name, []), it.worst) for name, it in view.tasks.items()}
    jobs: Jobs = {}
    for name, task in view.tasks.items():
        times = (ends[it] if it in view.tasks else events.get(it, []) for it in task.after)
        came = sorted(time for several in times for time in several)
        jobs[name] = [(time, ends[name][place] if place < len(ends[name]) else None) for place, time in enumerate(came)]
    return jobs


class Passage(NamedTuple):
    """A job of a path's first task and the jobs that it leads to: when it came, when the last one was done, None where
    that isn't so, and the place of each among the jobs of its task, as far as there are any."""

    came: int
    done: int | None
    places: tuple[int, ...]

    def took(self) -> int:
        return -1 if self.done is None else self.done - self.came


def causes_in(view: SystemView, jobs: Jobs, events: Times) -> dict[str, list[tuple[str, int]]]:
    """What has started each job of each task, in the order in which they came: the name of a source or a task, and the
    place of the event or the job there. What starts jobs at one time stands in the order of the tasks and then of the
    sources.
    """
    order = {name: place for place, name in enumerate([*view.tasks, *view.sources])}
    times = {name: events.get(name, []) for name in view.sources}
    times |= {name: [done for _, done in jobs[name] if done is not None] for name in view.tasks}
    found = {}
    for name, task in view.tasks.items():
        came = [(time, order[it], place, it) for it in task.after for place, time in enumerate(times[it])]
        found[name] = [(it, place) for _, _, place, it in sorted(came)]
    return found


def passages_in(view: SystemView, jobs: Jobs, events: Times, way: Sequence[str]) -> list[Passage]:
    """The passages of a path, whose tasks are `way`, in the order in which their first jobs came."""
    causes = causes_in(view, jobs, events)
    place_of = {task: {cause: place for place, cause in enumerate(causes[task])} for task in way}
    found = []
    for first, (came, _) in enumerate(jobs[way[0]]):
        places = [first]
        for before, task in zip(way, way[1:]):
            place = place_of[task].get((before, places[-1]))
            if place is None:
                break
            places.append(place)
        found.append(Passage(came, jobs[way[-1]][places[-1]][1] if len(places) == len(way) else None, tuple(places)))
    return found
