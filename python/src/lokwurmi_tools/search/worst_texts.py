"""What a search for late runs has found, in lines and as traces: for lokwurmi worst."""
import os
import signal
import statistics
import sys
import tempfile
from collections.abc import Iterable
from fractions import Fraction

from lokwurmi.errors import LokwurmiError
from lokwurmi.files.traces import write
from lokwurmi.model.view import SystemView
from lokwurmi.refusals.remark import printable
from lokwurmi_tools.runs.jobs_in_run import passages_in
from lokwurmi_tools.search.trace_plans import rows_of
from lokwurmi_tools.search.worst_effect_chain import perform_chain
from lokwurmi_tools.search.worst_pictures import draw_run
from lokwurmi_tools.search.worst_search import (
    INTERRUPTED,
    MORE_TIME,
    TIME_WAS_UP,
    Best,
    Judge,
    Shown,
    Target,
    WorstOptions,
    WorstSearch,
    cover,
    shortest,
    targets_in,
)
from lokwurmi_tools.shared.analysed import analysed
from lokwurmi_tools.shared.faults import Fault
from lokwurmi_tools.shared.packages import need
from lokwurmi_tools.shared.tables import ratio_text
from lokwurmi_tools.shared.types import Jobs, Times
from lokwurmi_tools.shared.written_entries import check_folders


def late_in(view: SystemView, events: Times, jobs: Jobs, target: Target) -> str:
    """Which job of a task, or which passage of a path, takes longest in a run, the first of these, and from when to
    when. Jobs are counted from 1 on."""
    kind, name = target
    if kind == "task":
        took = [-1 if done is None else done - came for came, done in jobs[name]]
        place = took.index(max(took))
        return f"task {name} job {place + 1} from {jobs[name][place][0]} to {jobs[name][place][1]}"
    way = view.paths[name].tasks
    several = passages_in(view, jobs, events, way)
    place = max(range(len(several)), key=lambda it: several[it].took())
    it = several[place]
    on_way = ",".join(f"{task}:{number + 1}" for task, number in zip(way, it.places))
    return f"path {name} passage {place + 1} from {it.came} to {it.done} jobs {on_way}"


def tell_late(judge: Judge, rows: list[str], targets: Iterable[Target], trace: str | None = None) -> None:
    """A line for each target that a trace shows: which job is late there, and when."""
    events, jobs = judge.jobs(rows)
    for target in targets:
        say(f"late {late_in(judge.view, events, jobs, target)}" + (f" trace {printable(trace)}" if trace else ""))


def line(what: Target, seen: int, bound: int | None) -> str:
    kind, name = what
    if bound is None:
        return f"{kind} {name} seen {seen} bound overload"
    return f"{kind} {name} seen {seen} bound {bound} ratio {ratio_text(seen, bound)}"


def tell_phase(search: WorstSearch, target: Target) -> None:
    """What was seen of a task where the busy window begins at the worst phase of its clocks."""
    if target not in search.phased.found:
        return
    phases, seen = search.phased.found[target]
    where = ",".join(f"{clock}:{at}" for clock, at in phases.moments.items())
    say(f"phase {line(target, seen, search.bounds[target])} clocks {where}")


def targets_of(
    options: WorstOptions, bounds: dict[Target, int | None], view: SystemView
) -> tuple[list[Target], list[Target]]:
    """What is searched for: one task, or a path after its tasks, or all that have a bound; and what of it is told."""
    if options.all:
        every = [what for what, bound in bounds.items() if bound is not None]
        return every, every
    target = ("task", options.task or "") if options.path is None else ("path", options.path)
    kind, name = target
    if target not in bounds:
        raise Fault(
            f"{options.file} has no {kind} {name};"
            f" it has {', '.join(sorted(one for what, one in bounds if what == kind)) or 'none'}"
        )
    before = [("task", one) for one in view.paths[name].tasks] if kind == "path" else []
    return [*dict.fromkeys(before), target], [target]


def say(text: str) -> None:
    """A line of the table, as soon as it is there."""
    print(text, flush=True)


def tell(search: WorstSearch, told: list[Target]) -> Shown:
    """A line for each target that is told, when it was looked for, and once more where another search saw more; what
    was seen."""
    rows: Shown = {}
    for target in search.run():
        if target in told and target in search.best.found:
            rows[target] = search.best.found[target][0]
            say(line(target, rows[target], search.bounds[target]))
            tell_phase(search, target)
    for target, seen in rows.items():
        if search.best.found[target][0] > seen:
            rows[target] = search.best.found[target][0]
            say(line(target, rows[target], search.bounds[target]))
    return rows


def tell_sum(rows: Shown, bounds: dict[Target, int | None]) -> None:
    """What the table comes to."""
    ratios = [Fraction(seen, bound) for target, seen in rows.items() if (bound := bounds[target])]
    if ratios:
        reached = sum(ratio == 1 for ratio in ratios)
        middle, least = (ratio_text(*it.as_integer_ratio()) for it in (statistics.median(ratios), min(ratios)))
        say(f"middle ratio {middle}, least {least}, {reached} of {len(ratios)} bounds reached")


def keep(options: WorstOptions, judge: Judge, best: Best, rows: Shown) -> None:
    """Writes the traces that are asked for, and tells which jobs are late in them."""
    if options.keep:
        try:
            os.makedirs(options.keep, exist_ok=True)
        except OSError as fault:
            raise Fault(f"--keep {options.keep}: no folder can be made there: {fault.strerror}")
        name = os.path.splitext(os.path.basename(options.file))[0]
        for number, (trace, shown) in enumerate(cover(judge, best, list(rows)), 1):
            to = os.path.join(options.keep, f"{name}.worst{number}.csv")
            write(to, trace)
            tell_late(judge, trace, shown, to)
    if not options.all:
        for target, seen in rows.items():
            trace = rows_of(judge.view, *shortest(judge, *best.found[target][1:], {target: seen}))
            if options.to:
                write(options.to, trace)
            tell_late(judge, trace, [target], options.to)
            if options.draw:
                draw_target(options, judge, trace, target)


def draw_target(options: WorstOptions, judge: Judge, trace: list[str], target: Target) -> None:
    """Draws the run of a trace, with what is late in it beside its bound."""
    kind, name = target
    report = os.path.join(judge.folder, "report.txt")
    with open(report, "w", encoding="ascii") as it:
        it.write(judge.known.report.text)
    draw_run(options, trace, judge.folder, report=report, longest=f"path:{name}" if kind == "path" else name)


def perform(options: WorstOptions, folder: str) -> int:
    """The whole of a call; its status."""
    known = analysed(options.program, options.file)
    bounds = targets_in(known.report)
    targets, told = targets_of(options, bounds, known.view)
    judge = Judge(known, folder, options.jobs)

    def interrupted(*_: object) -> None:
        if judge.interrupt.is_set():
            raise KeyboardInterrupt
        judge.interrupt.set()

    for it in (signal.SIGINT, signal.SIGTERM):
        signal.signal(it, interrupted)
    search = WorstSearch(judge, options, targets)
    rows = tell(search, told)
    if options.all and not judge.interrupt.is_set():
        tell_sum(rows, bounds)
    try:
        keep(options, judge, search.best, rows)
    except LokwurmiError:
        # a call of `schedule` that the interrupt of a terminal ended
        if not judge.interrupt.is_set():
            raise
    if judge.interrupt.is_set():
        print(
            f"lokwurmi worst: interrupted in search {search.place + 1} of {len(targets)}:"
            " what is written was seen by then",
            file=sys.stderr,
        )
        return INTERRUPTED
    if search.cut:
        print(f"{TIME_WAS_UP} in the search of {search.cut} of {len(targets)}: {MORE_TIME}", file=sys.stderr)
    return 0


def find_worst(options: WorstOptions) -> int:
    """Looks for late runs, and tells what was found; its status."""
    check_folders(options.to, options.draw)
    if options.draw:
        need("matplotlib")
    # before the search there is nothing to keep
    signal.signal(signal.SIGTERM, signal.default_int_handler)
    with tempfile.TemporaryDirectory() as folder:
        return perform_chain(options, folder) if options.chain else perform(options, folder)
