"""The Gantt chart of a run: what of it is drawn, by the options of lokwurmi gantt.

When jobs come and are done is read from the trace: in a schedule a segment may end as its job is interrupted.
"""
from collections.abc import Iterator
from dataclasses import dataclass
from fractions import Fraction

from lokwurmi.model.view import SystemView
from lokwurmi.results.effect_chains import between_ticks
from lokwurmi_tools.pictures.clock_lanes import ClockInRun
from lokwurmi_tools.pictures.effect_chain_arrows import Marked, marked_in
from lokwurmi_tools.pictures.gantt_lanes import DrawnJob, GanttChart, Longest, Overdue, drawn
from lokwurmi_tools.pictures.plotting import save
from lokwurmi_tools.runs.clock_cycle import clock_of, leads_in
from lokwurmi_tools.runs.effect_chain_in_run import READINGS, RunOfJobs
from lokwurmi_tools.runs.jobs_in_run import (
    held_in,
    jobs_in,
    passages_in,
    points_in,
    read_schedule,
    read_trace,
    schedule_by,
    waits_in,
)
from lokwurmi_tools.shared.chain_files import asked_chain, bounds_by, totals_of
from lokwurmi_tools.shared.faults import Fault
from lokwurmi_tools.shared.packages import need
from lokwurmi_tools.shared.report import bounds_in, latencies_in, report_of
from lokwurmi_tools.shared.system_file import read_system
from lokwurmi_tools.shared.times import Scale
from lokwurmi_tools.shared.types import Bounds, Jobs, Schedule, Times, Trace

# how many segments a picture takes
MOST_SEGMENTS = 20000
# the stretch of what took longest is drawn with so much of it on either side, where the run is more than so many times
# as long
MARGIN, LONG = 0.04, 20


@dataclass(frozen=True, slots=True)
class GanttOptions:
    """Which run is drawn into the picture `to`: `schedule` is a file of rows, None for what the program writes of the
    trace. It is drawn from the tick `start` until the tick `until`; `longest` is the task or the path that is marked,
    `chain` the effect chain, by its tasks or by its name in the file `chains`, and `what` the one of its times that is;
    `tick` is in nanoseconds. The `clock` is drawn below."""

    file: str
    program: str
    to: str
    schedule: str | None = None
    trace: str | None = None
    report: str | None = None
    longest: str | None = None
    chain: str | None = None
    chains: str | None = None
    what: str | None = None
    reading: str = "whenever"
    clock: str | None = None
    start: int | None = None
    until: int | None = None
    tick: Fraction | None = None


def jobs_of(jobs: Jobs, name: str, bounds: Bounds, end: int) -> Iterator[DrawnJob]:
    """The jobs of a task in a run with this end."""
    after: int | None = 0
    for came, done in jobs.get(name, ()):
        yield DrawnJob(name, came, done, end if done is None else done, after, bounds.get(name))
        after = done


def overdue_in(jobs: Iterator[DrawnJob]) -> Iterator[Overdue]:
    """The jobs that took longer than their bounds, or are pending at the end of the run though these are past."""
    for it in jobs:
        if it.bound is not None and it.took() > it.bound:
            yield Overdue(it, it.bound, it.came + it.bound)


def longest_in(
    view: SystemView, jobs: Jobs, of_tasks: Bounds, of_paths: Bounds, events: Times, name: str
) -> Longest | None:
    """The job of a task, or the passage of a path, that took longest: the first of these."""
    is_path = name.startswith("path:") or name not in jobs
    if not is_path:
        several = [it for it in jobs_of(jobs, name, of_tasks, 0) if it.done is not None]
        job = max(several, key=DrawnJob.took, default=None)
        return job and Longest(name, [job], job.came, job.last, job.bound, False)
    name = name.removeprefix("path:")
    passage = max(passages_in(view, jobs, events, view.paths[name].tasks), key=lambda it: it.took(), default=None)
    if passage is None or passage.done is None:
        return None
    way = [list(jobs_of(jobs, task, of_tasks, 0))[place] for task, place in zip(view.paths[name].tasks, passage.places)]
    return Longest(name, way, passage.came, passage.done, of_paths.get(name), True)


def chart_of(
    view: SystemView,
    schedule: Schedule,
    trace: Trace | None = None,
    bounds: Bounds | None = None,
    start: int | None = None,
    until: int | None = None,
    scale: Scale = Scale(),
) -> GanttChart:
    """What is drawn of a schedule, and of the jobs in it where there is a trace."""
    jobs: Jobs = jobs_in(view, schedule, trace) if trace else {}
    last = max([end for _, _, end in schedule] + [came for several in jobs.values() for came, _ in several], default=1)
    start, until = start or 0, last if until is None else until
    rows = [row for row in schedule if row[1] < until and row[2] > start]
    late = [
        it
        for name in jobs
        for it in overdue_in(jobs_of(jobs, name, bounds or {}, last))
        if it.past < until and it.job.last > start
    ]
    points = points_in(view, schedule, trace) if trace else {}
    waits = waits_in(view, schedule, trace, jobs) if trace else {}
    held = held_in(view, schedule, trace) if trace else {}
    return GanttChart(view, rows, jobs, late, trace[2] if trace else {}, start, until, scale, points, waits, held)


def check_longest(name: str, view: SystemView) -> None:
    """Ends the tool where no task and no path has the name."""
    if not (name in view.tasks or name in view.paths or name.removeprefix("path:") in view.paths):
        there = ", ".join(sorted(view.paths)) or "none"
        raise Fault(f"{name}: the system has no task of this name, and no path; its paths are {there}")


def marked_of(options: GanttOptions, view: SystemView, run: RunOfJobs) -> list[Marked]:
    """What is marked of the chain that is asked for."""
    tasks = list(asked_chain(options.chain or "", options.chains, options.file, view).tasks)
    bounds = bounds_by(options.program, options.file, tasks)
    if options.tick is not None:
        # what is shown as times has to hold between ticks too
        bounds = between_ticks(bounds)
    marked = marked_in(run, tasks, options.reading, totals_of(bounds), READINGS[options.reading], options.what)
    if not marked:
        raise Fault(f"{' '.join(tasks)}: nothing of the chain is seen in this run")
    return marked


def stretch_of_chain(
    marked: list[Marked], start: int | None, until: int | None, last: int
) -> tuple[int | None, int | None]:
    """From when to when is drawn, where that isn't said: the stretch of what is marked."""
    if not marked or start is not None or until is not None:
        return start, until
    first, end = min(it.late.since for it in marked), max(it.late.until for it in marked)
    more = max(1, round(MARGIN * (end - first)))
    return max(0, first - more), min(last, end + more)


def stretch(longest: Longest | None, start: int | None, until: int | None, last: int) -> tuple[int | None, int | None]:
    """From when to when is drawn, where that isn't said: the stretch of what took longest, of a path, or in a long
    run."""
    whole = last - (start or 0) if until is None else until - (start or 0)
    took = longest.done - longest.came if longest else 0
    if not longest or start is not None or until is not None or not (longest.is_path or whole > LONG * took):
        return start, until
    more = max(1, round(MARGIN * took))
    return max(0, longest.came - more), min(last, longest.done + more)


def clock_in_run(options: GanttOptions, view: SystemView, trace: Trace | None) -> ClockInRun | None:
    """The clock that is asked for, with the events of the trace."""
    if options.clock is None or trace is None:
        return None
    clock = clock_of(view, options.clock, options.file)
    return ClockInRun(clock, trace[0], leads_in(clock, trace[0]))


def draw_gantt(options: GanttOptions) -> None:
    """Writes the picture of a run."""
    need("matplotlib")
    view = read_system(options.file)
    if options.longest:
        check_longest(options.longest, view)
    if options.schedule:
        schedule = read_schedule(options.schedule, view)
    else:
        schedule = schedule_by(options.program, options.file, options.trace or "", view)
    report = report_of(view, options.file, options.report) if options.report else None
    of_tasks, of_paths = (bounds_in(report), latencies_in(report)) if report else ({}, {})
    trace, longest = read_trace(options.trace) if options.trace else None, None
    start, until, last = options.start, options.until, max((end for _, _, end in schedule), default=1)
    if options.longest and trace:
        longest = longest_in(view, jobs_in(view, schedule, trace), of_tasks, of_paths, trace[0], options.longest)
        if longest is None:
            raise Fault(f"{options.longest}: no job of it is done")
        start, until = stretch(longest, start, until, last)
    run = RunOfJobs(view, schedule, trace) if options.chain and trace else None
    marked = marked_of(options, view, run) if run else []
    start, until = stretch_of_chain(marked, start, until, last)
    chart = chart_of(view, schedule, trace, of_tasks, start, until, Scale(options.tick))
    if len(chart.rows) > MOST_SEGMENTS:
        raise Fault(
            f"{options.schedule or options.trace}: there are {len(chart.rows)} segments in this time,"
            f" and a picture takes {MOST_SEGMENTS}: cut a part out by --from and --until"
        )
    save(drawn(chart, longest=longest, run=run, marked=marked, clock=clock_in_run(options, view, trace)), options.to)
