#!/usr/bin/env python3
"""Tries `lokwurmi worst`. Outside the gate; takes some minutes, and no network.

For the examples whose bounds are known to be reached it has to find them. What it prints is what `simulate` sees under
the trace that it writes, and of all tasks and paths under the traces that it keeps; the job and the ticks that it tells
are those of the run by the step rules of check_runs.py, followed tick by tick. A path by itself is seen to take as long
as in the table of all, and the trace of one target is as short as what is kept of it. Rows come while the search goes
on, and how far it is comes into a pipe too; after an interrupt what was found is there, and the status is 130. The same
call gives the same answer, and what it can't take is told in a line.

    python3 -m tests.tools.check_worst [--program PROGRAM]
"""
import argparse
import functools
import os
import re
import signal
import subprocess
import tempfile
import time

from tests.rules.runs import replayed, system_in
from tests.support.calls import TOP, hold, run, tell, tool, written
from tests.support.pictures import lines_of

TOOL = "worst"
# Whose bound has to be reached, or which ratio it has to have at least.
KNOWN = [
    ("two_tasks.toml", ["--all"], 1),
    ("long_window.toml", ["--all"], 1),
    ("tdma.toml", ["--all"], 1),
    ("round_robin.toml", ["--all"], 1),
    ("crossing_chains.toml", ["--all"], 1),
    ("regions.toml", ["--all"], 1),
    ("can_bus.toml", ["m3"], 1),
    ("can_bus.toml", ["--path", "d3"], 1),
    ("sae_can.toml", ["--all", "--seconds", "600"], 0.998),
    ("queue.toml", ["record", "--tries", "64"], 0.977),
    # a frame of lower priority lacks a tick, where the busy window begins at the worst phase
    ("offsets.toml", ["pressure", "--tries", "64"], 0.997),
    ("offsets.toml", ["doors", "--tries", "64"], 1),
]
# Words that aren't taken, and what the line says.
REFUSED = [
    (
        ["crossing_chains.toml", "a1", "--tries", "1000000", "--seconds", "3600", "--to", "/nowhere/it.csv"],
        "/nowhere/it.csv: can't be written: there is no folder /nowhere; make it first",
    ),
    (["two_tasks.toml", "c"], "no task c; it has a, b"),
    (["two_tasks.toml", "--path", "p"], "no path p; it has none"),
    (["two_tasks.toml"], "name a task, or --path NAME, or --all"),
    (["two_tasks.toml", "a", "--all"], "name a task, or --path NAME, or --all"),
    (["two_tasks.toml", "a", "--tries", "0"], "at least 1"),
    (["two_tasks.toml", "a", "--keep", "folder"], "--keep wants --all"),
]
# Systems whose tables are compared with single calls.
COMPARED = ["crossing_chains.toml", "pycpa_first.toml", "two_activators.toml", "sensor_fusion.toml"]
ROW = re.compile(r"^((?:task|path) \S+) seen (\d+) ", re.M)
LATE_TASK = re.compile(r"^late task (\S+) job (\d+) from (\d+) to (\d+) trace (.*)$", re.M)
LATE_PATH = re.compile(r"^late path (\S+) passage (\d+) from (\d+) to (\d+) jobs (\S+) trace (.*)$", re.M)
PROGRESS = re.compile(
    r"^lokwurmi worst: \d+ of \d+, (task|path) \S+: seen \d+ of \d+, \d+ of \d+ tries, some \S+ (s|min|h) to go$"
)


def example(name):
    return os.path.join(TOP, "examples", name)


def called(words, program):
    """The words of a call."""
    return [*tool(TOOL), example(words[0]), *words[1:], "--program", program]


def call(words, program):
    """A call, which ends by its tries: on a busy machine the clock would end it before, where no other is asked for."""
    clock = [] if "--seconds" in words else ["--seconds", "3600"]
    done = run(TOOL, example(words[0]), *words[1:], *clock, "--program", program)
    return done.returncode, done.stdout, done.stderr


def seen_in(name, traces, program):
    """The latest of each task and path that `simulate` sees under some traces."""
    seen = {}
    for trace in traces:
        run = subprocess.run([program, "simulate", example(name), trace], capture_output=True, text=True, check=False)
        for what, worst in re.findall(r"^((?:task|path) \S+) .* worst (\d+)$", run.stdout, re.M):
            seen[what] = max(seen.get(what, 0), int(worst))
    return seen


def rows_in(told):
    """What a table says was seen: of what stands there twice, the second."""
    return {what: int(worst) for what, worst in ROW.findall(told)}


def traces_in(folder):
    return [os.path.join(folder, it) for it in sorted(os.listdir(folder))] if os.path.isdir(folder) else []


def check_times(name, what, seen, jobs, told):
    """When a job came, and when one was done, as is told of them; between lies what was seen."""
    times = jobs[0]["arrival"], jobs[1]["end"]
    hold(times == tuple(map(int, told)), f"{name}: {what}: {times}, and not {told}")
    hold(times[1] - times[0] == seen, f"{name}: {what} was seen to take {seen}: {times}")


def check_late(name, told):
    """The jobs and ticks that are told, by the step rules: each row of the table has its line."""
    system, rows, late = system_in(example(name)), rows_in(told), []
    run_of = functools.cache(lambda trace: replayed(example(name), trace))
    for task, number, came, done, trace in LATE_TASK.findall(told):
        job = run_of(trace).jobs[task][int(number) - 1]
        check_times(name, f"job {number} of {task}", rows[f"task {task}"], (job, job), (came, done))
        late.append(f"task {task}")
    for path, number, came, done, numbers, trace in LATE_PATH.findall(told):
        run = run_of(trace)
        steps = [(task, int(place) - 1) for task, place in (it.split(":") for it in numbers.split(","))]
        way = next(it["tasks"] for it in system["path"] if it["name"] == path)
        linked = all(run.jobs[task][place]["cause"] == before for before, (task, place) in zip(steps, steps[1:]))
        hold(
            [it[0] for it in steps] == way and linked and steps[0][1] == int(number) - 1,
            f"{name}: the jobs of {path}: {numbers}",
        )
        ends = [run.jobs[task][place] for task, place in (steps[0], steps[-1])]
        check_times(name, f"passage {number} of {path}", rows[f"path {path}"], ends, (came, done))
        late.append(f"path {path}")
    hold(sorted(late) == sorted(rows), f"{name}: {late} are told of as late, and the rows are {sorted(rows)}")


def check_known(program):
    for name, words, least in KNOWN:
        status, told, _ = call([name, *words], program)
        ratios = [float(ratio) for ratio in re.findall(r" ratio (\S+)$", told, re.M)]
        hold(status == 0 and ratios and min(ratios) >= least, f"{name} {' '.join(words)}: {told}")


def check_one(program):
    """The trace of one target, and the same call twice."""
    with tempfile.TemporaryDirectory() as folder:
        trace = os.path.join(folder, "trace.csv")
        words = ["pycpa_first.toml", "report", "--to", trace, "--seed", "3", "--tries", "200"]
        first, second = call(words, program), call(words, program)
        hold(first[:2] == second[:2], f"two calls differ: {first} {second}")
        seen = seen_in(words[0], [trace], program)
        hold(
            rows_in(first[1]) == {"task report": seen.get("task report")},
            f"the trace doesn't show what was seen: {first[1]} {seen}",
        )
        check_late(words[0], first[1])


def check_page(program):
    """The lines that docs/TIGHTNESS.md shows are those of its call."""
    with open(os.path.join(TOP, "docs", "TIGHTNESS.md"), encoding="utf-8") as it:
        shown = re.search(r"^```\n(task b seen .*\n(?:late .*\n)+)```", it.read(), re.M)
    with tempfile.TemporaryDirectory() as folder:
        told = call(["long_window.toml", "b", "--to", os.path.join(folder, "worst.trace.csv")], program)[1].replace(
            folder + "/", ""
        )
    hold(shown and told == shown[1], f"docs/TIGHTNESS.md shows {shown and shown[1]}, and it is {told}")


def check_all(name, program):
    """A table with its traces, and each path and task of it by itself."""
    with tempfile.TemporaryDirectory() as folder:
        kept, trace = os.path.join(folder, "kept"), os.path.join(folder, "trace.csv")
        told = call([name, "--all", "--tries", "100", "--keep", kept], program)[1]
        rows, traces = rows_in(told), traces_in(kept)
        hold(
            rows and rows == seen_in(name, traces, program), f"{name}: what is kept doesn't show what was seen: {told}"
        )
        check_late(name, told)
        for what, seen in rows.items():
            kind, one = what.split()
            words = [name, *(["--path", one] if kind == "path" else [one]), "--tries", "100", "--to", trace]
            alone = call(words, program)[1]
            hold(kind == "task" or rows_in(alone)[what] >= seen, f"{name}: {what} alone: {alone}, and of all {seen}")
            shown = [it for it in traces if seen_in(name, [it], program).get(what) == seen]
            if rows_in(alone)[what] == seen:
                least = min(len(lines_of(it)) for it in shown)
                hold(
                    len(lines_of(trace)) <= least,
                    f"{name}: {what} has {len(lines_of(trace))} rows alone, and kept it has {least}",
                )
            hold(
                seen_in(name, [trace], program)[what] == rows_in(alone)[what],
                f"{name}: {what}: its trace doesn't show {alone}",
            )
            check_late(name, alone)


def check_interrupt(number, program):
    """A table that is interrupted after its third row: what was found by then is there."""
    with tempfile.TemporaryDirectory() as folder:
        words = called(["car_network.toml", "--all", "--keep", folder], program)
        with subprocess.Popen(words, stdout=subprocess.PIPE, stderr=subprocess.PIPE, text=True) as it:
            told = "".join(it.stdout.readline() for _ in range(3))
            hold(
                len(rows_in(told)) == 3 and it.poll() is None,
                f"{number.name}: rows don't come while it looks for more: {told}",
            )
            it.send_signal(number)
            # `communicate` would lose a row that was read together with these
            rest, said = it.stdout.read(), it.stderr.read()
        hold(it.returncode == 130, f"{number.name}: status {it.returncode}")
        last = said.splitlines()[-1] if said else ""
        hold(
            "Traceback" not in said and last.startswith("lokwurmi worst: interrupted in search "),
            f"{number.name}: {said}",
        )
        rows, seen = rows_in(told + rest), seen_in("car_network.toml", traces_in(folder), program)
        hold(
            all(seen.get(what) == worst for what, worst in rows.items()),
            f"{number.name}: what is kept doesn't show the table: {rows}",
        )
        check_late("car_network.toml", told + rest)


def check_progress(program):
    """How far it is, into a pipe; then an interrupt: what one target has by then is written."""
    with tempfile.TemporaryDirectory() as folder:
        trace = os.path.join(folder, "trace.csv")
        words = called(
            ["pycpa_first.toml", "--path", "polled", "--tries", "1000000", "--seconds", "600", "--to", trace], program
        )
        with subprocess.Popen(words, stdout=subprocess.PIPE, stderr=subprocess.PIPE, text=True) as it:
            lines = [it.stderr.readline().rstrip("\n") for _ in range(2)]
            hold(all(PROGRESS.match(line) for line in lines), f"how far it is: {lines}")
            it.send_signal(signal.SIGINT)
            told, _ = it.communicate()
        hold(it.returncode == 130, f"one target: status {it.returncode}")
        hold(
            rows_in(told) == {}
            or rows_in(told)["path polled"] == seen_in("pycpa_first.toml", [trace], program)["path polled"],
            told,
        )
        done = call(["pycpa_first.toml", "--path", "polled", "--tries", "1000000", "--seconds", "2"], program)
        hold(
            done[0] == 0 and "the time was up before all tries were made in the search of 1 of 3" in done[2],
            f"the time: {done}",
        )


# how long a search may go on after its time, on a busy machine too: by its tries alone it would take hours
MORE_SECONDS = 60
SECONDS = 3
# a program that takes longer for each replay than a search may take for all of them
SLOW = """#!/bin/sh
case $1 in simulate | schedule) sleep 0.5 ;; esac
exec "$PROGRAM" "$@"
"""


def check_seconds(program):
    """A search ends some seconds after its time at the latest, in each of its forms and with a slow program too."""
    with tempfile.TemporaryDirectory() as room:
        slow = written(room, "slow", SLOW)
        os.chmod(slow, 0o755)
        trace, folder = os.path.join(room, "trace.csv"), os.path.join(room, "traces")
        for words in (
            ["car_network.toml", "act3", "--to", trace],
            ["car_network.toml", "--path", "chain9", "--to", trace],
            ["car_network.toml", "--all"],
            ["car_network.toml", "--all", "--keep", folder],
            ["camera_brake.toml", "--chain", "capture,detect,send,request,decide,act", "--to", trace],
            ["camera_brake.toml", "--chain", "capture,detect,send", "--what", "age", "--to", trace],
        ):
            more = ["--seconds", str(SECONDS), "--tries", "1000000", "--jobs", "2"]
            began = time.monotonic()
            done = run(TOOL, example(words[0]), *words[1:], *more, "--program", slow, env={"PROGRAM": program})
            took = time.monotonic() - began
            hold(done.returncode == 0, f"{words}: status {done.returncode}, {done.stderr[-300:]}")
            hold(took <= SECONDS + MORE_SECONDS, f"{words}: {took:.1f} s with --seconds {SECONDS}")
            hold(done.stdout, f"{words}: nothing is told")


def check_refused(program):
    for words, line in REFUSED:
        status, told, said = call(words, program)
        hold(status and not told and line in said and "Traceback" not in said, f"{words}: {status} {told} {said}")


def main():
    reader = argparse.ArgumentParser(description=__doc__, formatter_class=argparse.RawDescriptionHelpFormatter)
    reader.add_argument("--program", default=os.path.join(TOP, "lokwurmi"), help="lokwurmi above this folder if absent")
    program = os.path.abspath(reader.parse_args().program)
    check_refused(program)
    check_one(program)
    check_page(program)
    for name in COMPARED:
        check_all(name, program)
    check_progress(program)
    check_seconds(program)
    for number in (signal.SIGINT, signal.SIGTERM):
        check_interrupt(number, program)
    check_known(program)
    tell()


if __name__ == "__main__":
    main()
