#!/usr/bin/env python3
"""Tries what the Python tools tell and draw of chains that read registers. Outside the gate; needs matplotlib, and no
network.

`lokwurmi` is a stand-in by the plain rules (tests/support/stand_in.py), so that nothing is built. What
`lokwurmi effects` tells of runs of a small system must be what the rules see of them, by each rule of reading; where a
source stays away it must say so, and what is beyond a bound must be told. `lokwurmi graph` has a dotted line for each
register, `lokwurmi gantt` the latest reaction and the oldest data, and what `lokwurmi worst` finds must be seen in the
trace that it writes, whose sources stay near, and in the picture that it draws of that run. What isn't taken is told in
a line.

    python3 -m tests.tools.check_chain_tools
"""
import os
import re
import sys
import tempfile
import tomllib

from lokwurmi_tools.runs.effect_chain_in_run import READINGS
from tests.rules import effect_chains
from tests.rules.bounds import activators_of
from tests.rules.runs import replayed, system_in
from tests.rules.runs import trace_in as plain_trace
from tests.support.calls import TOP, hold, python_with, reader_of, run, tell, written
from tests.support.stand_in import stand_in

os.chdir(TOP)
ENDS = (".toml", ".chains.toml", ".schedule.csv", ".trace.csv")
FILE, CHAINS, SCHEDULE, TRACE = (f"examples/camera_brake{end}" for end in ENDS)
# a system whose runs are short enough to be followed tick by tick, and its chains that are tried
SMALL = "examples/effects.toml"
SMALL_CHAINS = (("sense", "filter", "act"), ("sense", "act"), ("act", "sense", "filter"))
PYTHON = python_with("matplotlib") or sys.exit("check_chain_tools.py: the package matplotlib isn't here")


def called(name, *words, **more):
    """A call of a tool, by the Python that has what it needs."""
    return run(name, *words, python=PYTHON, **more)


def trace_in(room, left_out=None):
    """A trace of the small system whose sources stay near, or with an event of `slow` left out."""
    rows = [f"event,fast,{time}" for time in range(3, 140, 10)]
    rows += [f"event,slow,{time}" for time in range(4, 140, 20) if time != left_out]
    rows += ["exec,sense,1", "exec,filter,2", "exec,act,1"]
    return written(room, f"trace{left_out}.csv", "".join(row + "\n" for row in rows))


def check_told(program, trace, tasks):
    """The table of effects: the numbers by each rule of reading, and the bounds."""
    done = called("effects", SMALL, trace, *tasks, "--program", program)
    hold(done.returncode == 0 and "all sources stay near" in done.stdout, f"effects {tasks}: {done.stderr}")
    seen = replayed(SMALL, trace)
    for reading, words in READINGS.items():
        most = effect_chains.Observed(seen.system, seen, reading).greatest(tasks)[0]
        row = re.search(rf"^  jobs read {words}  +(\d+) \S+ +(\d+) \S+ +(\d+) \S+$", done.stdout, re.M)
        wanted = [most[it] for it in effect_chains.ASKED]
        hold(row and [int(it) for it in row.groups()] == wanted, f"{tasks} read {words}: {wanted}\n{done.stdout}")
    with open(SMALL, encoding="utf-8") as it:
        limits = effect_chains.Bounds(it.read()).limits(tasks)
    row = re.search(r"^  bound in every run +(\d+) +(\d+) +(\d+)$", done.stdout, re.M)
    wanted = [limits[it] for it in effect_chains.ASKED]
    hold(row and [int(it) for it in row.groups()] == wanted, f"the bounds of {tasks}")


def check_effects(room, program):
    trace = trace_in(room)
    for tasks in SMALL_CHAINS:
        check_told(program, trace, tasks)
    with open(CHAINS, "rb") as it:
        names = [it["name"] for it in tomllib.load(it)["chain"]]
    words = ["--chains", CHAINS, "--schedule", SCHEDULE, "--program", program, "--late", "none"]
    done = called("effects", FILE, TRACE, *words)
    hold(re.findall(r"^chain (\w+):", done.stdout, re.M) == names, f"effects --chains: {done.stderr}")
    done = called("effects", SMALL, trace_in(room, 64), *SMALL_CHAINS[0], "--program", program)
    hold("source slow doesn't stay near: events at 44 and 84, 20 apart at most" in done.stdout, done.stdout)
    hold("MAY BE BEYOND" in done.stdout and done.returncode == 0, "effects, where a source stays away")
    done = called("effects", SMALL, trace, *SMALL_CHAINS[0], "--program", program, env={"LESS": "1"})
    hold("BEYOND THE BOUND: reaction" in done.stdout and done.returncode == 1, f"beyond: {done.stdout}")


def check_pictures(room, program):
    with open(CHAINS, "rb") as it:
        chains = tomllib.load(it)["chain"]
    after = {it["name"]: activators_of(it) for it in system_in(FILE)["task"]}
    steps = {step for it in chains for step in zip(it["tasks"], it["tasks"][1:]) if step[0] not in after[step[1]]}
    text = called("graph", "--registers", CHAINS, FILE).stdout
    hold(set(re.findall(r'"task (\S+)" -> "task (\S+)" \[style = "dotted"', text)) == steps, "graph --registers")
    picture, trace = os.path.join(room, "chain.svg"), trace_in(room)
    seen = replayed(SMALL, trace)
    for reading, words in READINGS.items():
        asked = ["--chain", ",".join(SMALL_CHAINS[0]), "--reading", reading, "--program", program, "--to", picture]
        done = called("gantt", SMALL, "--trace", trace, *asked)
        most = effect_chains.Observed(seen.system, seen, reading).greatest(SMALL_CHAINS[0])[0]
        with open(picture, encoding="utf-8") as it:
            text = it.read()
        for what in ("reaction", "age"):
            told = f"{what} {most[what]} of " in text and f"where jobs read {words}" in text
            hold(told, f"gantt, {what}, {reading}: {done.stderr}")
    # by times a bound has a tick more for each wait: two of the reaction time, and one of the age
    called("gantt", SMALL, "--trace", trace, *asked, "--tick", "1ms")
    with open(SMALL, encoding="utf-8") as it:
        limits = effect_chains.Bounds(it.read()).limits(SMALL_CHAINS[0])
    with open(picture, encoding="utf-8") as it:
        text = it.read()
    for what, count in (("reaction", 2), ("age", 1)):
        hold(
            f" of {limits[what] + count}ms" in text, f"gantt --tick: the bound of {what} is {limits[what]} and {count}"
        )
    named = ["--chains", CHAINS, "--chain", "slip", "--program", program, "--to", picture]
    done = called("gantt", FILE, SCHEDULE, "--trace", TRACE, *named)
    hold(done.returncode == 0, f"gantt --chains: {done.stderr}")


def check_worst(room, program):
    trace, tasks, drawn = os.path.join(room, "late.csv"), SMALL_CHAINS[0], os.path.join(room, "late.svg")
    named = ["--chains", "examples/effects.chains.toml", "--chain", "brake", "--program", program]
    sources = system_in(SMALL)["source"]
    for what in effect_chains.ASKED:
        done = called("worst", SMALL, *named, "--what", what, "--tries", "30", "--to", trace, "--draw", drawn)
        seen = replayed(SMALL, trace)
        most = effect_chains.Observed(seen.system, seen, "whenever").greatest(tasks)[0][what]
        told = f"chain {','.join(tasks)} {what} seen {most} bound " in done.stdout
        hold(told, f"worst --what {what}: {done.stdout}{done.stderr}, in the trace {most}")
        events = plain_trace(trace)[0]
        near = all(effect_chains.stays_near(it, events.get(it["name"], [])) for it in sources)
        hold(near, f"worst --what {what}: a source doesn't stay near")
        check_drawn(named, trace, what, most, drawn)
    by_tasks = ["--chain", ",".join(tasks), "--what", what, "--tries", "30", "--to", trace, "--program", program]
    hold(called("worst", SMALL, *by_tasks).stdout == done.stdout, "worst: a chain by its tasks")


def check_drawn(named, trace, what, most, drawn):
    """The picture of the run that was found: what is reached beside its bound, and nothing else of the chain. The same
    trace drawn by gantt is the same picture."""
    again = f"{drawn}.again.svg"
    with open(SMALL, encoding="utf-8") as it:
        bound = effect_chains.Bounds(it.read()).limits(SMALL_CHAINS[0])[what]
    with open(drawn, encoding="utf-8") as it:
        text = it.read()
    is_told = f"{what} {most} of {bound}, where jobs read at the worst time" in text
    alone = all(f">{other} " not in text for other in effect_chains.ASKED if other != what)
    hold(is_told and alone, f"worst --draw, {what}: {most} of {bound}")
    called("gantt", SMALL, "--trace", trace, *named, "--what", what, "--to", again)
    with open(again, encoding="utf-8") as it:
        hold(it.read() == text, f"worst --draw, {what}: gantt draws something else")


def check_refused(room, program):
    """Words that aren't taken, with what is said."""
    bad = written(room, "bad.toml", 'format = 1\nchain = [{ name = "a", tasks = ["act"], reaction = 0 }]\n')
    drawn = [FILE, SCHEDULE, "--trace", TRACE, "--to", "x.svg"]
    for name, words, said in (
        ("effects", [FILE, TRACE], "name the tasks of a chain"),
        ("effects", [FILE, TRACE, "nobody"], "has no task nobody"),
        ("effects", [FILE, TRACE, "--chains", bad], 'bad.toml: line 2: chain "a": `reaction` is 0, below 1'),
        ("effects", [FILE, TRACE, "--chains", "nothing.toml"], "nothing.toml: can't be read"),
        ("gantt", [*drawn, "--chain", "act,no"], "has no task no"),
        ("gantt", [*drawn, "--chains", CHAINS, "--chain", "no"], "is no chain no"),
        ("gantt", [FILE, "x.csv", "--chain", "act", "--to", "x.svg"], "--chain wants --trace"),
        ("gantt", [*drawn, "--what", "age"], "--what wants --chain"),
        ("worst", [FILE, "--chain", "act,no"], "has no task no"),
        ("worst", [FILE, "--chains", CHAINS, "--chain", "no"], "is no chain no"),
        ("worst", [FILE, "act", "--chains", CHAINS], "--chains wants --chain"),
        ("worst", [FILE, "act", "--draw", "x.gif"], "a picture's name ends with"),
        ("worst", [FILE, "--all", "--draw", "x.svg"], "--to and --draw want one task, path or chain"),
    ):
        done = called(name, *words, "--program", program)
        is_told = done.returncode and said in done.stderr and "Traceback" not in done.stderr
        hold(is_told, f"{name} {words}: {done.stderr}")


def main():
    reader = reader_of(__doc__, "", "matplotlib, and nothing that is built")
    reader.parse_args()
    with tempfile.TemporaryDirectory() as room:
        program = stand_in(room)
        for check in (check_effects, check_pictures, check_worst, check_refused):
            check(room, program)
    tell()


if __name__ == "__main__":
    main()
