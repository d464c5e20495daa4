"""What a run shows of effect chains, in lines beside the bounds that hold in every run: for lokwurmi effects."""
from dataclasses import dataclass

from lokwurmi.model.entries import Chain
from lokwurmi.model.view import SystemView
from lokwurmi.refusals.silence import AskedChain
from lokwurmi.results.effect_chains import ChainReport
from lokwurmi_tools.runs.effect_chain_in_run import ASKED, READINGS, Gap, Late, RunOfJobs, gaps_in, seen_of
from lokwurmi_tools.runs.jobs_in_run import read_schedule, read_trace, schedule_by
from lokwurmi_tools.shared.chain_files import bounds_by, read_chains, totals_of
from lokwurmi_tools.shared.faults import Fault
from lokwurmi_tools.shared.system_file import read_system, silences_in
from lokwurmi_tools.shared.tables import columns, ratio_text

# the rules of reading for which the bounds of jobs that read while they run hold
WHILE_RUNNING = ("start", "running")


@dataclass(frozen=True, slots=True)
class EffectOptions:
    """The run of a trace, by `schedule` where one was recorded, and the chains of which is told: one by its tasks, or
    those of the file `chains`. `late` is the rule of reading whose latest jobs are listed."""

    file: str
    trace: str
    program: str
    tasks: list[str]
    chains: str | None = None
    schedule: str | None = None
    late: str = "whenever"


def chains_of(options: EffectOptions, view: SystemView) -> list[Chain]:
    if options.chains is not None:
        return read_chains(options.chains, view)
    if unknown := [it for it in options.tasks if it not in view.tasks]:
        raise Fault(f"{options.file}: the system has no task {unknown[0]}; it has {', '.join(view.tasks) or 'none'}")
    return [Chain("", options.tasks, None, None)]


def told_gaps(gaps: list[Gap], fed: set[str], has_sporadic: bool = False) -> str:
    """Whether the premise of the bounds is there, and where it isn't."""
    several = "all sources but sporadic ones" if has_sporadic else "all sources"
    if not gaps:
        return f"{several} stay near: the bounds hold in this run\n"
    text = ""
    for it in gaps:
        text += f"source {it.source} doesn't stay near: events at {it.first} and {it.second}, {it.most} apart at most\n"
    if any(it.source in fed for it in gaps):
        return text + "so reaction, age and held MAY BE BEYOND the bounds in this run\n"
    return text + f"no task of the chain hangs on it; yet what is proved wants {several} near\n"


def cell(late: Late | None, bound: int | None) -> str:
    """A time that was seen, and its part of the bound, rounded down."""
    if late is None:
        return "none"
    ticks = late.ticks()
    return f"{ticks} {ratio_text(ticks, bound)}" if bound else str(ticks)


def table_of(rows: list[list[str]]) -> str:
    """Rows in columns, the first to the left."""
    return "".join(f"{it}\n" for it in columns(rows, right=range(1, len(rows[0]))))


def bound_row(what: str, bounds: ChainReport) -> list[str]:
    """A row of bounds in ticks."""
    return [what, *("overload" if it is None else str(it) for it in totals_of(bounds).values())]


class ChainInRun:
    """What there is to say of a chain."""

    def __init__(self, options: EffectOptions, run: RunOfJobs, chain: Chain):
        self.run, self.chain, self.late, self.file = run, chain, options.late, options.file
        self.bounds = bounds_by(options.program, options.file, chain.tasks)
        self.tighter = bounds_by(options.program, options.file, chain.tasks, "--while-running")
        self.seen = {reading: seen_of(run, chain.tasks, reading) for reading in READINGS}

    def bound_of(self, reading: str, what: str) -> int | None:
        """The bound for a rule of reading: the tighter one, where there is one for it."""
        known = self.tighter if reading in WHILE_RUNNING else self.bounds
        return totals_of(known)[what]

    def rows(self) -> list[list[str]]:
        rows = [["ticks, and part of the bound", *ASKED]]
        rows.append(bound_row("bound in every run", self.bounds))
        rows.append(bound_row("bound where jobs read while they run", self.tighter))
        limits = (self.chain.reaction, self.chain.age, self.chain.held)
        if any(it is not None for it in limits):
            rows.append(["deadline", *("-" if it is None else str(it) for it in limits)])
        for reading, seen in self.seen.items():
            cells = [cell(seen.latest[what], self.bound_of(reading, what)) for what in ASKED]
            rows.append([f"jobs read {READINGS[reading]}", *cells])
        return rows

    def left_out(self) -> str:
        """What nothing is said of, which is at the beginning and at the end of the run."""
        seen, first, last = self.seen["whenever"], self.chain.tasks[0], self.chain.tasks[-1]
        text = f"  of {seen.firsts} jobs of {first} {seen.reactions} have a reaction: "
        text += "not the first, nor what nothing has answered by the end of the run\n"
        text += f"  of {seen.lasts} jobs of {last} {seen.ages} have an age: "
        return text + "not those before data came, nor those whose data is the last of all\n"

    def silences(self) -> str:
        """Which bounds are open since a task waits for a sporadic source."""
        found = silences_in(self.file, [AskedChain("", self.chain.tasks)])
        tighter = silences_in(self.file, [AskedChain("", self.chain.tasks)], True)
        running = [] if tighter == found else [f"where jobs read while they run: {it}" for it in tighter]
        return "".join(f"  {it}\n" for it in found + running)

    def jobs(self, what: str, late: Late) -> str:
        """The jobs along the chain, which count from 1."""
        rows = []
        for name, k in zip(self.chain.tasks, late.jobs):
            job = self.run.jobs[name][k]
            times = [f"came {job.came}", f"started {job.parts[0][0]}", f"done {job.done}"]
            rows.append([f"  {name}", f"job {k + 1}", *times, ""])
        first, last = late.jobs[0], late.jobs[-1]
        if what == "reaction":
            rows[0][-1] = f"job {first} has read at {late.since - 1}"
        if what == "held":
            rows[-1][-1] = f"job {last + 2} done {late.until + 1}"
        when = f"{late.ticks()} ticks, from {late.since} to {late.until}"
        return f"  latest {what} where jobs read {READINGS[self.late]}: {when}\n{table_of(rows)}"

    def beyond(self) -> list[str]:
        """What is later than its bound."""
        found = []
        for reading, seen in self.seen.items():
            for what, late in seen.latest.items():
                bound = self.bound_of(reading, what)
                if late and bound is not None and late.ticks() > bound:
                    found.append(f"{what} where jobs read {READINGS[reading]}")
        return found

    def text(self, premise: str) -> str:
        name = f"{self.chain.name}: " if self.chain.name else ""
        head = f"chain {name}{' '.join(self.chain.tasks)}\n{premise}"
        text = f"{head}{table_of(self.rows())}{self.silences()}{self.left_out()}"
        latest = self.seen[self.late].latest if self.late != "none" else {}
        return text + "".join(self.jobs(what, late) for what, late in latest.items() if late)


def tell_effects(options: EffectOptions) -> int:
    """Prints what a run shows of chains; 1 where something is beyond its bound though all sources stay near."""
    view = read_system(options.file)
    chains, trace = chains_of(options, view), read_trace(options.trace)
    if options.schedule is not None:
        schedule = read_schedule(options.schedule, view)
    else:
        schedule = schedule_by(options.program, options.file, options.trace, view)
    run, gaps, status = RunOfJobs(view, schedule, trace), gaps_in(view, trace[0]), 0
    for place, chain in enumerate(chains):
        told = ChainInRun(options, run, chain)
        fed = {source for name in chain.tasks for source in view.sources_of(name)}
        premise = told_gaps(gaps, fed, any(it.sporadic for it in view.sources.values()))
        print(("\n" if place else "") + told.text(premise), end="", flush=True)
        over = told.beyond() if not gaps else []
        if over:
            print(f"  BEYOND THE BOUND: {', '.join(over)}: is the schedule that of the trace, and does the trace obey?")
            status = 1
    return status
