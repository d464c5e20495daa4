"""Searches for traces that make tasks and paths late, and makes short what was found, for lokwurmi worst.

The search for a path begins with those for its tasks. Each search has random numbers of its own, by the name of what it
looks for, so that it is the same whatever else is asked for.
"""
import concurrent.futures
import os
import random
import subprocess
import threading
import time
from collections.abc import Iterable, Iterator
from dataclasses import dataclass
from typing import Protocol

from lokwurmi.files.traces import write
from lokwurmi.model.limits import MOST_TIME
from lokwurmi.model.view import SystemView
from lokwurmi.results.reports import Report
from lokwurmi_tools.runs.jobs_in_run import jobs_in, read_trace, schedule_by
from lokwurmi_tools.search.phase_plans import PhasePlans, phase_plans
from lokwurmi_tools.search.trace_plans import TracePlan, change, known_plans, path_plans, rows_of
from lokwurmi_tools.shared.analysed import Analysed
from lokwurmi_tools.shared.faults import OwnFault
from lokwurmi_tools.shared.progress import Progress
from lokwurmi_tools.shared.report import run_in
from lokwurmi_tools.shared.types import Jobs, Times

# how many plans are replayed between two looks at the time
TOGETHER = 32
# the share of the time in which is searched where a trace, or those of --keep, are made short afterwards; the seconds
# by which a replay may go on after the time, and those that each has at least
SEARCHED, KEEPING, GRACE, LEAST = 0.8, 0.6, 2.0, 1.0
# what is told of a search that ended by the time, and what may help
TIME_WAS_UP, MORE_TIME = "the time was up before all tries were made", "another call may see more (--seconds)"
# the status of a run that would be too long, and that of a search that was interrupted
TOO_LONG, INTERRUPTED = 16, 130
# `task` or `path`, and its name
Target = tuple[str, str]
# the latest of some tasks and paths
Shown = dict[Target, int]


@dataclass(frozen=True, slots=True)
class WorstOptions:
    """What is to be late: a task, a path, all of them, or an effect chain, by its tasks or by its name in the file
    `chains`, of which `what` is and whose jobs are taken to read by the rule `reading`. The search makes so many tries,
    in so many seconds at most, by a seed; so many traces are replayed side by side. The trace goes into the file `to`,
    its run into the picture `draw`, the traces of all into the folder `keep`."""

    file: str
    program: str
    task: str | None
    path: str | None
    all: bool
    chain: str | None
    chains: str | None
    what: str
    reading: str
    to: str | None
    draw: str | None
    keep: str | None
    tries: int
    seconds: float
    seed: int
    jobs: int


def targets_in(report: Report) -> dict[Target, int | None]:
    """The tasks and paths of a report with their bounds in ticks, None for `overload`."""
    found = {("task", name): it.worst for name, it in report.tasks.items()}
    return found | {("path", name): it.worst for name, it in report.paths.items()}


class Replays(Protocol):
    """Whoever says whether a plan shows what is wanted."""

    view: SystemView

    def shows(self, plan: TracePlan, span: int, wanted: Shown) -> bool:
        ...


def with_ways(view: SystemView, tasks: Iterable[str]) -> set[str]:
    """Tasks, and those on the ways to them."""
    several = set(tasks)
    return several | {it for task in several for _, *way in view.ways_to(task) for it in way}


class Judge:
    """Replays plans by `simulate`, several side by side."""

    def __init__(self, known: Analysed, folder: str, jobs: int):
        self.known, self.view, self.folder = known, known.view, folder
        self.pool = concurrent.futures.ThreadPoolExecutor(jobs)
        # once it is set, plans of a search aren't replayed any more
        self.interrupt = threading.Event()
        # when all is to be over
        self.until = float("inf")

    def is_late(self) -> bool:
        """Whether no time is left."""
        return time.monotonic() > self.until

    def seen(self, number: object, plan: TracePlan, span: int) -> Shown:
        """The greatest response of each task and time of each path that was seen; nothing of a replay that would go on
        for too long after the time."""
        trace = os.path.join(self.folder, f"{number}.csv")
        write(trace, rows_of(self.view, plan, span))
        left = None if self.until == float("inf") else max(LEAST, self.until - time.monotonic() + GRACE)
        try:
            # a group of its own: an interrupt of the terminal is for this script alone
            run = subprocess.run(
                [self.known.direct, "simulate", self.known.file, trace],
                capture_output=True,
                text=True,
                check=False,
                process_group=0,
                timeout=left,
            )
        except subprocess.TimeoutExpired:
            return {}
        finally:
            os.remove(trace)
        if run.returncode == TOO_LONG:
            return {}
        if run.returncode:
            raise OwnFault(
                f"a trace was refused, which shouldn't be: status {run.returncode},"
                f" {run.stdout.strip() or run.stderr.strip()}"
            )
        seen = run_in(run.stdout, "lokwurmi simulate")
        found = {("task", name): it.worst for name, it in seen.tasks.items()}
        found |= {("path", name): it.worst for name, it in seen.paths.items()}
        return {target: worst for target, worst in found.items() if worst is not None}

    def all(self, plans: list[TracePlan], span: int, ends: float) -> list[Shown]:
        """What is seen of each plan of a search; nothing of those that an interrupt, or the time when it ends, leaves
        out. The first one is replayed as long as there is any time."""

        def look(it: tuple[int, TracePlan]) -> Shown:
            number, plan = it
            is_over = self.is_late() if number == 0 else time.monotonic() > ends
            return {} if is_over or self.interrupt.is_set() else self.seen(number, plan, span)

        return list(self.pool.map(look, enumerate(plans)))

    def shows(self, plan: TracePlan, span: int, wanted: Shown) -> bool:
        """Whether a plan shows what is wanted: the latest of some tasks and paths. Once the time is over none is
        looked at any more."""
        if self.is_late():
            return False
        answer = self.seen("one", plan, span)
        return all(answer.get(what) == worst for what, worst in wanted.items())

    def jobs(self, rows: list[str]) -> tuple[Times, Jobs]:
        """The times of the events of a trace, and its jobs."""
        trace = os.path.join(self.folder, "trace.csv")
        write(trace, rows)
        read = read_trace(trace)
        schedule = schedule_by(self.known.program, self.known.file, trace, self.view)
        return read[0], jobs_in(self.view, schedule, read)


class Best:
    """The latest that was seen of each task and path, and by which plan."""

    def __init__(self) -> None:
        self.found: dict[Target, tuple[int, TracePlan, int]] = {}

    def take(self, plans: list[TracePlan], answers: list[Shown], span: int) -> None:
        for plan, answer in zip(plans, answers):
            for what, worst in answer.items():
                if worst > self.found.get(what, (-1, None, 0))[0]:
                    self.found[what] = (worst, plan, span)


class Scope:
    """What a search for a task or a path looks at: the tasks along the way, those that may delay them, and their
    sources."""

    def __init__(self, view: SystemView, target: Target, bounds: dict[Target, int | None]):
        kind, name = target
        self.links = (name,) if kind == "task" else view.paths[name].tasks
        self.bounds = {one: bounds.get(("task", one)) for one in view.tasks}
        reach = with_ways(view, self.links)
        near = with_ways(view, {it for task in reach for it in view.rivals(task) + view.blockers(task)} | reach)
        self.sources = sorted({source for task in near for source in view.sources_of(task)})
        self.tasks = sorted(task for task in near if view.tasks[task].best < view.tasks[task].worst)
        longest = sum(self.bounds.get(one) or 10 * view.tasks[one].worst for one in reach)
        self.span = min(15 * longest + 100, MOST_TIME)

    def first_plans(self, view: SystemView, target: Target, best: Best) -> list[TracePlan]:
        """What is tried first: what is known to be bad, and for a path what was found for its tasks and for itself by
        then."""
        plans = path_plans(view, self.links, self.bounds) if len(self.links) > 1 else []
        for task in dict.fromkeys([self.links[-1], *self.links]):
            # those of a task by itself come before all others
            plans += phase_plans(view, task, self.bounds).plans if target[0] == "path" else []
            plans += known_plans(view, task, self.bounds)
        if target[0] == "path":
            plans += [best.found[it][1] for it in (target, *(("task", one) for one in self.links)) if it in best.found]
        return plans


class SeenByPhase:
    """What was seen of tasks where the busy window begins at the worst phase of their clocks, and which that is."""

    def __init__(self) -> None:
        self.found: dict[Target, tuple[PhasePlans, int]] = {}

    def take(self, target: Target, phases: PhasePlans, answers: list[Shown]) -> None:
        """Keeps the latest of the answers, of which the first are those of its plans."""
        seen = [answer[target] for _, answer in zip(phases.plans, answers) if target in answer]
        if seen:
            self.found[target] = phases, max(seen)


class WorstSearch:
    """The searches for some tasks and paths, one after the other."""

    def __init__(self, judge: Judge, options: WorstOptions, targets: list[Target]):
        self.view, self.judge, self.options, self.targets = judge.view, judge, options, targets
        self.bounds = targets_in(judge.known.report)
        self.best, self.progress, self.cut, self.place = Best(), Progress("lokwurmi worst"), 0, 0
        self.phased = SeenByPhase()

    def show(self, target: Target, made: int, tries: int, ends: float) -> None:
        """How far it is."""
        seen, bound = self.best.found.get(target, (0,))[0], self.bounds.get(target)
        left = self.progress.left((self.place + made / tries) / len(self.targets), ends)
        of = "overload" if bound is None else bound
        where = f"{self.place + 1} of {len(self.targets)}, {' '.join(target)}"
        self.progress.show(f"{where}: seen {seen} of {of}, {made} of {tries} tries{left}")

    def is_over(self, target: Target, made: int, ends: float) -> bool:
        """Whether a search is over: the bound is reached, it was interrupted, or the time is up, which is
        counted."""
        bound = self.bounds.get(target)
        if bound is not None and self.best.found.get(target, (0,))[0] >= bound or self.judge.interrupt.is_set():
            return True
        if made and time.monotonic() > ends:
            self.cut += 1
            return True
        return False

    def look_for(self, target: Target, ends: float, last: float) -> None:
        """Looks for a plan that is late for a task or a path until a time; by `last` all searches end."""
        scope, made = Scope(self.view, target, self.bounds), 0
        pool: list[tuple[int, TracePlan]] = []
        # of its own, so that a target is looked for alike whatever else is asked for
        rng = random.Random(f"{self.options.seed} {' '.join(target)}")
        phases = phase_plans(self.view, target[1], scope.bounds) if target[0] == "task" else PhasePlans()
        plans = phases.plans + scope.first_plans(self.view, target, self.best)
        while not self.is_over(target, made, ends) and (plans or made < self.options.tries):
            self.show(target, made, max(self.options.tries, made + len(plans)), last)
            if not plans:
                picks = [pool[min(int(rng.expovariate(0.7)), len(pool) - 1)][1] for _ in range(TOGETHER)]
                plans = [change(self.view, it, rng, scope.sources, scope.tasks) for it in picks]
            some, plans = plans[:TOGETHER], plans[TOGETHER:]
            # what is known to be bad may take the time of others
            answers = self.judge.all(some, scope.span, ends if made else last)
            if not made:
                self.phased.take(target, phases, answers)
            made += len(some)
            self.best.take(some, answers, scope.span)
            pool += [(answer.get(target, -1), plan) for plan, answer in zip(some, answers)]
            pool = sorted(pool, key=lambda it: -it[0])[:6]

    def run(self) -> Iterator[Target]:
        """Makes each search, and tells of each target as it was looked for."""
        began, seconds = time.monotonic(), self.options.seconds
        self.judge.until = began + seconds
        if self.options.keep or not self.options.all:
            seconds *= KEEPING if self.options.keep else SEARCHED
        for self.place, target in enumerate(self.targets):
            self.look_for(target, began + seconds * (self.place + 1) / len(self.targets), began + seconds)
            self.progress.clear()
            yield target
            if self.judge.interrupt.is_set():
                return


def needed(judge: Replays, plan: TracePlan, span: int, wanted: Shown, names: list[str]) -> TracePlan:
    """The plan without those of some sources that it doesn't need to show what is wanted, as found by leaving out
    several."""
    if len(names) < len(plan.start):
        fewer = plan.without(judge.view, names)
        if judge.shows(fewer, span, wanted):
            return fewer
    if len(names) == 1:
        return plan
    half = len(names) // 2
    return needed(judge, needed(judge, plan, span, wanted, names[:half]), span, wanted, names[half:])


def shortest(judge: Replays, plan: TracePlan, span: int, wanted: Shown) -> tuple[TracePlan, int]:
    """A plan and for how many ticks it goes on so that it still shows what is wanted: without sources that it doesn't
    need, and as short as is found by halving the time."""
    plan = needed(judge, plan, span, wanted, sorted(plan.start))
    least, most = 0, span
    while most - least > 1:
        middle = (least + most) // 2
        if judge.shows(plan, middle, wanted):
            most = middle
        else:
            least = middle
    return plan, most


def cover(judge: Judge, best: Best, targets: list[Target]) -> Iterator[tuple[list[str], Shown]]:
    """As few traces as are found to do to show the latest of each target, each with what it shows: the plan that shows
    most of what is left comes first."""
    plans = {id(best.found[what][1]): best.found[what][1:] for what in targets if what in best.found}
    answers = {key: {} if judge.is_late() else judge.seen("one", plan, span) for key, (plan, span) in plans.items()}
    left = {what: best.found[what][0] for what in targets if what in best.found}
    while left:
        shows = {
            key: {what: worst for what, worst in left.items() if answer.get(what) == worst}
            for key, answer in answers.items()
        }
        key = max(shows, key=lambda it: len(shows[it]))
        if not shows[key]:
            # no time was left to look at them: each by the plan by which it was seen
            shown = {what: worst for what, worst in left.items() if id(best.found[what][1]) == key}
            if not shown:
                plans.pop(key)
                answers.pop(key)
                continue
            shows[key] = shown
        yield rows_of(judge.view, *shortest(judge, *plans[key], shows[key])), shows[key]
        left = {what: worst for what, worst in left.items() if what not in shows[key]}
