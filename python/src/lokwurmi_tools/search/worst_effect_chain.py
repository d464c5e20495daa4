"""Looks for a trace under which an effect chain reacts as late, or its data is as old, as can be found, for lokwurmi
worst.

Its traces obey and their sources stay near, so that the bounds of `lokwurmi chain` hold in their runs. The search
shifts sources so that a reader just misses what is written, that events of other tasks come with a job of the chain,
and that events come late from one on, and keeps what is later.
"""
import os
import random
import sys
import time
from typing import NamedTuple

from lokwurmi.files.traces import write
from lokwurmi.model.view import SystemView
from lokwurmi.refusals.remark import printable
from lokwurmi_tools.runs.effect_chain_in_run import Late, RunOfJobs, seen_of
from lokwurmi_tools.runs.jobs_in_run import read_trace, schedule_in
from lokwurmi_tools.search.trace_plans import NONE, TracePlan, Turn, rows_of
from lokwurmi_tools.search.worst_pictures import draw_run
from lokwurmi_tools.search.worst_search import (
    INTERRUPTED,
    MORE_TIME,
    SEARCHED,
    TIME_WAS_UP,
    TOO_LONG,
    Shown,
    WorstOptions,
    shortest,
)
from lokwurmi_tools.shared.chain_files import asked_chain, bounds_by, totals_of
from lokwurmi_tools.shared.faults import Fault
from lokwurmi_tools.shared.program import call, often
from lokwurmi_tools.shared.progress import Progress
from lokwurmi_tools.shared.system_file import read_system
from lokwurmi_tools.shared.tables import ratio_text

# of how many plans the next ones are made, and how many ticks a trace is for where a chain has no bound
KEPT, UNBOUNDED = 6, 100_000


class LatePlan(NamedTuple):
    """What a plan shows: the latest reaction or the oldest data, with its run."""

    late: Late
    plan: TracePlan
    run: RunOfJobs


class Mover:
    """Changes a plan, by what its run shows of the chain."""

    def __init__(self, view: SystemView, tasks: list[str], draw: random.Random):
        self.view, self.tasks, self.draw = view, tasks, draw
        self.loose = [name for name, it in view.tasks.items() if it.best < it.worst]

    def first(self) -> TracePlan:
        """A plan of chance, in which no event is late."""
        starts = {name: self.draw.randrange(it.period) for name, it in self.view.sources.items()}
        return TracePlan(starts, late={name: (NONE, 0) for name in starts})

    def shift(self, plan: TracePlan, source: str, ticks: int) -> None:
        """Has the events of a source come so much later, within a period."""
        plan.start[source] = (plan.start[source] + ticks) % self.view.sources[source].period

    def changed(self, found: LatePlan) -> TracePlan:
        plan = found.plan.copy()
        moves = (self.miss, self.miss, self.meet, self.meet, self.wait, self.run_long, self.wander)
        for _ in range(self.draw.choice((1, 1, 2, 3))):
            self.draw.choice(moves)(plan, found)
        return plan

    def source_of(self, name: str) -> str:
        return self.draw.choice(self.view.sources_of(name))

    def miss(self, plan: TracePlan, found: LatePlan) -> None:
        """A reader comes just before something is written."""
        steps = list(zip(self.tasks, found.late.jobs))
        if len(steps) < 2:
            return
        place = self.draw.randrange(1, len(steps))
        (before, k), (name, n) = steps[place - 1], steps[place]
        written, read = found.run.jobs[before], found.run.jobs[name]
        m, j = self.draw.choice(((k, n - 1), (k + 1, n)))
        done = written[m].done if m < len(written) else None
        if 0 <= j < len(read) and done is not None:
            aim = done - self.draw.choice((1, 1, 1, 0, 2))
            self.shift(plan, self.source_of(name), aim - read[j].came)

    def meet(self, plan: TracePlan, found: LatePlan) -> None:
        """An event of a task on the same resource comes with a job of the chain, or just before it."""
        place = self.draw.randrange(len(self.tasks))
        name, k = self.tasks[place], found.late.jobs[place]
        if rivals := self.view.beside(name):
            rival = self.draw.choice(rivals)
            jobs, aim = found.run.jobs[rival], found.run.jobs[name][k].came - self.draw.choice((0, 0, 1, 1, 2))
            if jobs:
                near = min(jobs, key=lambda it: abs(it.came - aim))
                self.shift(plan, self.source_of(rival), aim - near.came)

    def wait(self, plan: TracePlan, found: LatePlan) -> None:
        """Events come late from about a job of the chain on, or up to there."""
        place = self.draw.randrange(len(self.tasks))
        turn = found.late.jobs[place] + self.draw.choice((0, 0, 1, -1, 2))
        source, is_from = self.source_of(self.tasks[place]), self.draw.choice((True, True, False))
        plan.late[source] = Turn(abs(turn), is_from == (turn >= 0)), self.view.sources[source].jitter

    def run_long(self, plan: TracePlan, found: LatePlan) -> None:
        """Executions are the least up to a job of the chain, or from there on."""
        if self.loose:
            name = self.draw.choice(self.loose)
            if self.draw.random() < 0.3:
                plan.long.pop(name, None)
            else:
                turn = self.draw.randint(0, max(1, len(found.run.jobs[name])))
                plan.long[name] = Turn(turn, self.draw.choice((True, False)))

    def wander(self, plan: TracePlan, found: LatePlan) -> None:
        """Something moves by chance."""
        rings = self.view.rings()
        if rings and self.draw.random() < 0.4:
            name = self.draw.choice(sorted(rings))
            plan.phase[name] = self.draw.randrange(self.view.cycle(name))
            return
        source = self.draw.choice(sorted(self.view.sources))
        size = self.draw.choice((1, 2, 10, 100, self.view.sources[source].period))
        self.shift(plan, source, self.draw.randint(-size, size))


class ChainSearch:
    """The search for one chain: for its reaction, its age, or how long its data is held."""

    def __init__(self, options: WorstOptions, view: SystemView, tasks: list[str], folder: str):
        self.options, self.view, self.tasks, self.what, self.status = options, view, tasks, options.what, 0
        self.bound = totals_of(bounds_by(options.program, options.file, tasks))[self.what]
        self.trace, self.ends, self.is_cut = os.path.join(folder, "chain.csv"), 0.0, False
        # what the script lokwurmi calls, which is called many times here
        self.program = often(options.program)
        self.draw = random.Random(f"{options.seed} {self.what} {' '.join(tasks)}")
        own = [view.sources[source] for name in tasks for source in view.sources_of(name)]
        self.span = 2 * (self.bound or UNBOUNDED) + 3 * max(it.period + it.jitter for it in own)

    def look(self, plan: TracePlan, span: int) -> LatePlan | None:
        """What the run of a plan shows."""
        write(self.trace, rows_of(self.view, plan, span))
        status, text = call(self.program, "schedule", self.options.file, self.trace)
        if status == TOO_LONG or status < 0:
            return None
        if status:
            raise Fault(f"a trace was refused: status {status}, {text.strip()}")
        run = RunOfJobs(self.view, schedule_in(text, "lokwurmi schedule", self.view), read_trace(self.trace))
        late = seen_of(run, self.tasks, self.options.reading).latest[self.what]
        return late and LatePlan(late, plan, run)

    def shows(self, plan: TracePlan, span: int, wanted: Shown) -> bool:
        """Whether a plan is as late as is wanted, as long as there is time."""
        found = self.look(plan, span) if time.monotonic() <= self.ends else None
        return found is not None and found.late.ticks() in wanted.values()

    def next(self, tried: int, pool: list[LatePlan], mover: Mover) -> TracePlan:
        """A plan of chance at first and now and then, and else a change of one of the latest."""
        if not pool or tried < 20 or self.draw.random() < 0.03:
            return mover.first()
        return mover.changed(pool[min(int(self.draw.expovariate(0.8)), len(pool) - 1)])

    def run(self) -> LatePlan | None:
        """The latest that is found in so many tries, by the time, or up to an interrupt."""
        mover, progress = Mover(self.view, self.tasks, self.draw), Progress("lokwurmi worst")
        pool: list[LatePlan] = []
        # the rest of the time is for a shorter trace
        began, seconds = time.monotonic(), self.options.seconds
        ends, self.ends = began + SEARCHED * seconds, began + seconds
        of = "overload" if self.bound is None else self.bound
        try:
            for tried in range(self.options.tries):
                if found := self.look(self.next(tried, pool, mover), self.span):
                    pool = sorted([*pool, found], key=lambda it: -it.late.ticks())[:KEPT]
                seen = pool[0].late.ticks() if pool else 0
                progress.show(f"{self.what}: seen {seen} of {of}, {tried + 1} of {self.options.tries} tries")
                if seen == self.bound:
                    break
                if tried + 1 < self.options.tries and time.monotonic() > ends:
                    self.is_cut = True
                    break
        except KeyboardInterrupt:
            self.status = INTERRUPTED
            print("lokwurmi worst: interrupted: what is written was seen by then", file=sys.stderr)
        progress.clear()
        return pool[0] if pool else None


def told(search: ChainSearch, late: Late, to: str | None) -> str:
    """A line for what was seen, and one for the jobs, which count from 1."""
    seen, bound, chain = late.ticks(), search.bound, ",".join(search.tasks)
    of = f"{bound} ratio {ratio_text(seen, bound)}" if bound else "overload"
    jobs = ",".join(f"{name}:{k + 1}" for name, k in zip(search.tasks, late.jobs))
    text = f"chain {chain} {search.what} seen {seen} bound {of}\n"
    text += f"late {search.what} from {late.since} to {late.until} jobs {jobs}"
    return text + (f" trace {printable(to)}" if to else "")


def perform_chain(options: WorstOptions, folder: str) -> int:
    """The whole of a call for a chain; its status."""
    view = read_system(options.file)
    tasks = list(asked_chain(options.chain or "", options.chains, options.file, view).tasks)
    search = ChainSearch(options, view, tasks, folder)
    found = search.run()
    if found is None:
        more = "--seconds" if search.is_cut else "--tries"
        raise Fault(f"in no trace that was tried a chain of jobs was whole: more {more} may find one")
    plan, span = shortest(search, found.plan, search.span, {("chain", search.what): found.late.ticks()})
    found = search.look(plan, span) or found
    rows = rows_of(view, plan, span)
    if options.to:
        write(options.to, rows)
    print(told(search, found.late, options.to), flush=True)
    if search.is_cut:
        print(f"{TIME_WAS_UP}: {MORE_TIME}", file=sys.stderr)
    if options.draw:
        draw_run(options, rows, folder, chain=",".join(tasks), what=options.what, reading=options.reading)
    return search.status
