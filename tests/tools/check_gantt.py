#!/usr/bin/env python3
"""Tries `lokwurmi gantt` over the recorded schedules of examples/, and jobs in schedules of random systems. Outside the
gate.

Bars lie where the rows say, on the lane of their resource, with a mark where each job comes and one where it is done,
and a job is red exactly where it is later than its bound. The passage of a path that took longest is the one by the
step rules, and is drawn with its stretch. The jobs and passages in schedules of random systems are those of the step
rules, followed tick by tick, jobs of queues begin in the order in which they came, and strips stand where jobs hold
locks, no two of one lock at a time. What isn't a schedule is refused.

    python3 -m tests.tools.check_gantt
"""
import glob
import importlib.util
import os
import random
import sys
import tempfile

from lokwurmi.model.view import SystemView
from lokwurmi_tools.runs.jobs_in_run import held_in, jobs_in, passages_in, read_schedule, read_trace, waits_in
from lokwurmi_tools.shared.report import latencies_in, read_report
from lokwurmi_tools.shared.system_file import read_system
from tests.rules.runs import Run, passages, replayed
from tests.support.calls import TOP, hold, reader_of, run, tell, written
from tests.support.pictures import gantt, lines_of
from tests.support.systems import random_system, random_trace

if not importlib.util.find_spec("matplotlib"):
    sys.exit("check_gantt.py: matplotlib isn't here: apt-get install python3-matplotlib, for /usr/bin/python3")

os.chdir(TOP)


def check_gantt(room, name):
    """The chart of a recorded schedule of an example."""
    file, schedule, trace, report = (
        f"examples/{name}.{end}" for end in ("toml", "schedule.csv", "trace.csv", "report.txt")
    )
    system = read_system(file)
    on = {name: it.on for name, it in system.tasks.items()}
    rows = [(task, int(start), int(end)) for task, start, end in (line.split(",") for line in lines_of(schedule))]
    jobs = jobs_in(system, read_schedule(schedule, system), read_trace(trace))
    for line in lines_of(f"examples/{name}.run.txt"):
        if line.startswith("task "):
            words = line.split()
            worst = max((done - came for came, done in jobs[words[1]] if done is not None), default="none")
            hold(
                [str(len(jobs[words[1]])), str(worst)] == [words[3], words[7]],
                f"gantt {name}: the jobs of {words[1]}: {jobs[words[1]]}",
            )
    texts, bars, marks = gantt(room, file, schedule, "--trace", trace, "--report", report)
    hold(
        marks == sum(1 + (done is not None) for several in jobs.values() for _, done in several),
        f"gantt {name}: {marks} marks",
    )
    hold(
        set(on.values()) <= set(texts)
        and "a job comes" in texts
        and "later than its bound" not in texts
        and ("a region ends, the job goes on" in texts) == (name in ("cooperative", "regions")),
        f"gantt {name}: it says {texts}",
    )
    hold_bars(name, system, rows, bars)


def hold_bars(name, system, rows, bars):
    """Holds the bars of a chart: the first and the last tell how long a tick is."""
    on = {name: it.on for name, it in system.tasks.items()}
    first, last = min(start for _, start, _ in rows), max(end for _, _, end in rows)
    left = min(x for x, _, _ in bars)
    tick = (max(x for _, x, _ in bars) - left) / (last - first)
    lanes = sorted({y for _, _, y in bars})
    order = [name for name in system.resources if name in {on[task] for task, _, _ in rows}]
    wanted = sorted(
        (left + (start - first) * tick, left + (end - first) * tick, lanes[order.index(on[task])])
        for task, start, end in rows
    )
    hold(
        len(bars) == len(wanted) and all(abs(a - b) < 0.6 for pair in zip(bars, wanted) for a, b in zip(*pair)),
        f"gantt {name}: its bars are {bars}, and not {wanted}",
    )


def check_longest(room, name):
    """The passage of each path of an example that took longest: the first of these, by the step rules, with its
    stretch."""
    file, schedule, trace, report = (
        f"examples/{name}.{end}" for end in ("toml", "schedule.csv", "trace.csv", "report.txt")
    )
    system, bounds = read_system(file), latencies_in(read_report(report))
    run_of_it = replayed(file, trace)
    rows = [(int(start), int(end)) for _, start, end in (line.split(",") for line in lines_of(schedule))]
    for path in list(system.paths.values())[:2]:
        times = passages(run_of_it, path.tasks)
        if not times:
            continue
        took = max(times)
        came = run_of_it.jobs[path.tasks[0]][times.index(took)]["arrival"]
        words = [file, schedule, "--trace", trace, "--report", report, "--longest", f"path:{path.name}"]
        texts, bars, _ = gantt(room, *words)
        bound = bounds[path.name]
        told = f"path {path.name}: {took}" + (f", bound {bound}" if bound is not None else "")
        hold(told in texts, f"gantt {name} --longest {path.name}: {texts}, and not {told}")
        more = max(1, round(took * 0.04))
        shown = sum(start < came + took + more and end > max(0, came - more) for start, end in rows)
        hold(len(bars) == shown, f"gantt {name} --longest {path.name}: {len(bars)} bars, and not {shown}")
        hold(
            len(gantt(room, *words, "--from", "0")[1]) == len(rows),
            f"gantt {name} --longest {path.name} --from 0: the whole run",
        )


def check_jobs():
    """The jobs and passages of random systems, by their schedules and traces."""
    draw = random.Random(1)
    for number in range(100):
        system = random_system(draw)
        trace = random_trace(draw, system)
        run_of_it = Run(system, trace)
        view = SystemView.of(system)
        jobs = jobs_in(view, [tuple(it) for it in run_of_it.segments], trace)
        hold(
            jobs == {name: [(it["arrival"], it["end"]) for it in several] for name, several in run_of_it.jobs.items()},
            f"gantt: the jobs of random system {number}",
        )
        hold_waits(number, view, jobs, run_of_it, trace)
        hold_locks(number, view, run_of_it, trace)
        for path in system["path"]:
            took = [it.took() for it in passages_in(view, jobs, trace[0], path["tasks"])]
            hold(took == passages(run_of_it, path["tasks"]), f"gantt: the passages of random system {number}: {took}")


def hold_locks(number, view, run_of_it, trace):
    """Holds the strips of critical sections: each is within a bar of its task, and two tasks have none of one lock at
    once."""
    segments = [tuple(it) for it in run_of_it.segments]
    several = held_in(view, segments, trace)
    hold(set(several) == {name for name, it in view.tasks.items() if it.locks}, f"gantt: the locks of system {number}")
    ticks = {}
    for name, parts in several.items():
        for it in parts:
            within = any(who == name and start <= it.start and it.end <= end for who, start, end in segments)
            hold(within, f"gantt: {it} of {name} in random system {number}")
            for tick in range(it.start, it.end):
                other = ticks.setdefault((view.tasks[name].on, it.lock, tick), name)
                hold(other == name, f"gantt: {name} and {other} in random system {number}: {it}")


def hold_waits(number, view, jobs, run_of_it, trace):
    """Holds the waits in queues: each is from when a job came to when it began, in the order in which they came, and
    from then on it had each tick."""
    waits = waits_in(view, [tuple(it) for it in run_of_it.segments], trace, jobs)
    queues = [name for name, it in view.resources.items() if it.kind == "fifo"]
    hold(set(waits) == {task for on in queues for task in view.on(on)}, f"gantt: the queues of random system {number}")
    for on in queues:
        several = sorted(it for task in view.on(on) for it in waits[task])
        begun = [began for _, began in several]
        hold(begun == sorted(begun), f"gantt: a queue of random system {number}: {several}")
        for task in view.on(on):
            took = [job["end"] - began for (_, began), job in zip(waits[task], run_of_it.jobs[task])]
            had = [job["had"] for job in run_of_it.jobs[task]]
            hold(took == had, f"gantt: {task} of random system {number} took {took}, and not {had}")


CHAINS = ["examples/crossing_chains.toml", "examples/crossing_chains.schedule.csv"]
TRACE = ["--trace", "examples/crossing_chains.trace.csv"]
RING = """format = 1
resource = [{ name = "ring", kind = "tdma", gap = 8 }]
source = [{ name = "s", period = 40 }]
task = [{ name = "t", on = "ring", after = "s", best = 3, worst = 3, slot = 2 }]
"""


LOCKS = """format = 4
resource = [{ name = "ecu", kind = "ceiling" }]
source = [{ name = "s", period = 40 }, { name = "r", period = 40 }]
task = [
  { name = "a", on = "ecu", after = "s", best = 3, worst = 3, priority = 1, locks = [
    { name = "x", start = 1, length = 1 },
  ] },
  { name = "b", on = "ecu", after = "r", best = 5, worst = 5, priority = 2, locks = [
    { name = "x", start = 0, length = 4 },
    { name = "y", start = 1, length = 2 },
  ] },
]
"""


QUEUE = """format = 4
resource = [{ name = "gate", kind = "fifo" }]
source = [{ name = "s", period = 40 }, { name = "r", period = 40 }]
task = [
  { name = "a", on = "gate", after = "s", best = 3, worst = 3 },
  { name = "b", on = "gate", after = "r", best = 5, worst = 5 },
]
"""


def lower_report(room):
    """A report with a bound that a job is above."""
    with open("examples/crossing_chains.report.txt", encoding="ascii") as it:
        return written(room, "lower.txt", it.read().replace("best 5 worst 30", "best 5 worst 25"))


def check_late(room):
    """What is marked and cut out."""
    chains, trace, lower = CHAINS, TRACE, lower_report(room)
    texts, _, _ = gantt(room, *chains, *trace, "--report", lower)
    hold(
        "later than its bound" in texts and [it for it in texts if "bound " in it] == ["a1: 30, bound 25"],
        f"gantt, a late job: {texts}",
    )
    cut = written(room, "cut.csv", "b1,0,20\nb2,20,40\nb1,100,120\n")
    texts, _, _ = gantt(room, chains[0], cut, *trace, "--report", "examples/crossing_chains.report.txt")
    hold([it for it in texts if "bound " in it] == ["a1: not done, bound 30"], f"gantt, a job that isn't done: {texts}")
    texts, bars, _ = gantt(room, *chains, *trace, "--report", "examples/crossing_chains.report.txt", "--longest", "b1")
    hold("b1: 20, bound 30" in texts, f"gantt --longest b1: {texts}")
    texts, bars, _ = gantt(room, *chains, "--from", "100", "--until", "130")
    hold(
        len(bars) == 2 and "b1" in texts and "a1" not in texts and "it is done" not in texts,
        f"gantt, a part: {texts} {bars}",
    )
    with open(chains[1], encoding="ascii") as it:
        hold(gantt(room, chains[0], "-", given=it.read()) == gantt(room, *chains), "gantt: what comes in")
    texts, _, marks = gantt(
        room,
        written(room, "ring.toml", RING),
        written(room, "ring.csv", "t,6,8\nt,16,17\n"),
        "--trace",
        written(room, "ring.trace.csv", "event,s,3\nphase,ring,4\n"),
    )
    hold("gap" in texts and marks == 2, f"gantt, a TDMA resource: {texts}")
    locks, rows = written(room, "locks.toml", LOCKS), written(room, "locks.csv", "b,1,5\na,5,8\nb,8,9\n")
    came = ["--trace", written(room, "locks.trace.csv", "event,r,1\nevent,s,2\n")]
    for words in (came, []):
        texts, bars, marks = gantt(room, locks, rows, *words)
        hold(("it holds a lock" in texts) == bool(words), f"gantt, locks: {texts} {bars} {marks}")
    queue, rows = written(room, "queue.toml", QUEUE), written(room, "queue.csv", "b,1,6\na,6,9\n")
    for events, waits in (("event,r,1\nevent,s,2\n", True), ("event,r,1\nevent,s,6\n", False)):
        texts, bars, marks = gantt(room, queue, rows, "--trace", written(room, "queue.trace.csv", events))
        is_told = ("it waits in a queue" in texts) == waits
        hold(is_told and len(bars) == 2 and marks == 4, f"gantt, a queue: {texts} {bars} {marks}")


def check_refused(room):
    """What is refused, and what is told then."""
    chains, trace, lower = CHAINS, TRACE, lower_report(room)
    for said, words in (
        ("name a SCHEDULE, or a trace", chains[:1]),
        ("--report wants --trace", [*chains, "--report", lower]),
        ("--longest wants --trace", [*chains, "--longest", "a1"]),
        ("no task of this name", [*chains, *trace, "--longest", "a3"]),
        ("has no tick", [*chains, "--from", "5", "--until", "5"]),
        ('row 2: no task is called "z"', [chains[0], written(room, "z.csv", "a1,0,1\nz,1,2\n")]),
        ("row 1: START, 1, isn't below END, 1", [chains[0], written(room, "e.csv", "a1,1,1\n")]),
        ("row 1: `x` isn't 1 to 10 digits", [chains[0], written(room, "n.csv", "a1,x,1\n")]),
        ("can't be called", [chains[0], *trace, "--program", os.path.join(room, "nothing")]),
    ):
        done = run("gantt", *words, "--to", os.path.join(room, "refused.svg"))
        hold(done.returncode == 1 and said in done.stderr, f"gantt {words}: {done.stderr}")
    # a program that has no such command refuses its words
    done = run("gantt", chains[0], *trace, "--program", written_program(room), "--to", os.path.join(room, "no.svg"))
    hold(done.returncode == 10 and "status 10: words refused" in done.stderr, f"gantt without schedule: {done.stderr}")


def written_program(room):
    """A program that accepts no words."""
    program = written(room, "program", "#!/bin/sh\necho words refused\nexit 10\n")
    os.chmod(program, 0o755)
    return program


def main():
    reader_of(__doc__, "", "the programs, and matplotlib").parse_args()
    with tempfile.TemporaryDirectory() as room:
        for schedule in sorted(glob.glob("examples/*.schedule.csv")):
            check_gantt(room, os.path.basename(schedule).removesuffix(".schedule.csv"))
            check_longest(room, os.path.basename(schedule).removesuffix(".schedule.csv"))
        check_late(room)
        check_refused(room)
    check_jobs()
    tell()


if __name__ == "__main__":
    main()
