#!/usr/bin/env python3
"""Tries what `lokwurmi explain` tells to help a path, over random systems. Outside the gate; takes some minutes, and no
network.

The systems are those of check_reports.py: all kinds, in every other one tasks with up to three activators, and in
every other pair regions.
Which changes have to be tried for a path is worked out here once more: each number by which its tasks wait, a tenth
less or more, or one place. Each of them must be there once, and what is told of it is what `analyse` says of a file of
its own with that number: the path's time, and which paths miss their deadline or have no bound that hadn't missed it or
had one.

    python3 -m tests.tools.check_helps [NUMBER of systems, 400 if absent] [NUMBER to begin with, 0 if absent]
"""
import copy
import os
import re
import tempfile
import tomllib

from lokwurmi_tools.search.helpful_changes import helps_for, lines_of_helps
from lokwurmi_tools.shared.analysed import analysed
from lokwurmi_tools.shared.system_text import toml_of
from tests.rules import bounds, locks
from tests.support import systems
from tests.support.calls import TOP, answer, built, faults, hold, range_of, run, tell, written

PROGRAM = built("cpa_cli")
TOOL = "explain"

# a system with a path that is late by a region, and one that isn't
LATE = """format = 4
resource = [{ name = "cpu", kind = "preemptive" }]
source = [{ name = "often", period = 100 }]
task = [
  { name = "high", on = "cpu", after = "often", best = 1, worst = 2, priority = 1 },
  { name = "low", on = "cpu", after = "often", best = 1, worst = 20, priority = 2, region = 10 },
]
path = [{ name = "soon", tasks = ["high"], deadline = 5 }, { name = "later", tasks = ["low"], deadline = 50 }]
"""


def made(number):
    """A random system with executions in place of payloads, and a deadline for each path, so that some are missed."""
    system = tomllib.loads(systems.random_file(number))
    for it, task in zip(system["task"], bounds.System(toml_of(system)).tasks.values()):
        it.update(best=task["best"], worst=task["worst"])
        it.pop("payload", None)
        it.pop("extended", None)
    for it in system.get("path", []):
        it["deadline"] = 100 + 40 * (number % 9)
    return system


def entry(system, part, name):
    return next(it for it in system[part] if it["name"] == name)


def with_numbers(system, part, name, **numbers):
    """The system with other numbers of an entry."""
    other = copy.deepcopy(system)
    entry(other, part, name).update(numbers)
    return other


def shorter(system, name):
    """A task's greatest execution by a tenth, its least one no longer than that."""
    it = entry(system, "task", name)
    worst = it["worst"] - max(1, it["worst"] // 10)
    return with_numbers(system, "task", name, worst=worst, best=min(it["best"], worst)) if worst else None


def slower(system, name):
    """A source's period by a tenth."""
    period = entry(system, "source", name)["period"]
    return with_numbers(system, "source", name, period=period + max(1, period // 10))


def exchanged(system, name, other):
    """Two priorities exchanged."""
    one, two = (entry(system, "task", it)["priority"] for it in (name, other))
    return with_numbers(with_numbers(system, "task", name, priority=two), "task", other, priority=one)


def resized(system, name, sign):
    """A slot by a tenth."""
    slot = entry(system, "task", name)["slot"]
    slot += sign * max(1, slot // 10)
    return with_numbers(system, "task", name, slot=slot) if slot else None


def wanted_for(system, rules, name):
    """The changes for a task: what becomes of the system with each."""
    task, kind = entry(system, "task", name), entry(system, "resource", entry(system, "task", name)["on"])["kind"]
    mates = [it for it in system["task"] if it["on"] == task["on"] and it is not task]
    ranked = kind in ("preemptive", "can", "ceiling")
    before = [it for it in mates if kind in ("round-robin", "fifo") or ranked and it["priority"] < task["priority"]]
    lower = [it for it in mates if ranked and it["priority"] > task["priority"]]
    found = {("worst", it["name"]): shorter(system, it["name"]) for it in [task, *before]}
    ceilings = locks.ceilings_of([task, *mates]) if kind == "ceiling" else {}

    def blocks(it):
        return it["worst"] if kind == "can" else locks.blocking(task, [it], ceilings)

    for it in sorted(lower, key=lambda it: -blocks(it))[:1]:
        other = shorter(system, it["name"])
        # one that is shorter and still as long as its region or its section holds up others as before
        if kind == "can" or other and blocks(entry(other, "task", it["name"])) < blocks(it):
            found["worst", it["name"]] = other
    for source in {source for it in before for source in rules.sources_of(it["name"])}:
        found["period", source] = slower(system, source)
    if ranked and before:
        other = max(before, key=lambda it: it["priority"])
        found["priority", name] = exchanged(system, name, other["name"])
    if kind in ("round-robin", "tdma"):
        found["longer", name] = resized(system, name, 1)
        found |= {("shorter", it["name"]): resized(system, it["name"], -1) for it in mates}
    return {key: it for key, it in found.items() if it}


def report_of(system):
    """The times of paths, and what is late or has no bound, by a report that is read here once more."""
    text = answer(PROGRAM, toml_of(system), "analyse")[1]
    times = re.findall(r"^path (\S+) .*?worst (\S+)", text, re.M)
    paths = {name: None if it == "overload" else int(it) for name, it in times}
    bad = {f"path {name} misses its deadline" for name in re.findall(r"^path (\S+) .* missed$", text, re.M)}
    bad |= {f"path {name} has no bound" for name, it in paths.items() if it is None}
    return paths, bad | {f"task {name} has no bound" for name in re.findall(r"^task (\S+) .*overload$", text, re.M)}


def key_of(system, told):
    """Which of the wanted changes one is."""
    if told["kind"] != "slot":
        return told["kind"], told["name"]
    return "longer" if told["then"] > told["now"] else "shorter", told["name"]


def check_path(what, system, analysis, path):
    """Each change for a path."""
    wanted, rules = {}, bounds.System(toml_of(system))
    for name in entry(system, "path", path)["tasks"]:
        wanted |= wanted_for(system, rules, name)
    several, (paths, known) = helps_for(analysis, path), report_of(system)
    lines_of_helps(several)
    told = {key_of(system, it.told()): it.told() for it in several}
    same = set(told) == set(wanted) and len(told) == len(several)
    hold(same, f"{what}: {sorted(told)}, and not {sorted(wanted)}", "changes")
    for key in set(told) & set(wanted):
        times, bad = report_of(wanted[key])
        now, then = (float("inf") if it is None else it for it in (paths[path], times[path]))
        effect = "same" if then == now else "longer" if then > now else "shorter"
        same = (told[key]["worst"], told[key]["effect"]) == (times[path], effect)
        said = f"{what}: {told[key]} {times[path]} {bad - known}"
        hold(same and set(told[key]["harms"]) == bad - known, said, key[0])
    order = [float("inf") if it.worst is None else it.worst for it in several]
    hold(order == sorted(order), f"{what}: {order}", "order")


def check_call():
    """What a call prints."""
    file = os.path.join(TOP, "examples", "crossing_chains.toml")
    text = run(TOOL, "--program", PROGRAM, file, "--path", "pb").stdout
    hold("of 5 changes by a tenth (at least a tick) or one place, each tried alone:" in text, text, "calls")
    hold(re.search(r"b1 before a2 +40 +-10, but then path pa misses its deadline\n", text), text, "calls")
    hold("0 more make it shorter, 0 longer, 1 neither" in text and "changes of the model" in text, text, "calls")
    with tempfile.TemporaryDirectory() as room:
        late = written(room, "late.toml", LATE)
        text = run(TOOL, "--program", PROGRAM, late, "--path", "soon").stdout
        hold(
            "  it waits for the region of low, which is not among these changes; with the key left" in text,
            text,
            "calls",
        )
        hold(f"lokwurmi sensitivity {late} --only region says how long it may be" in text, text, "calls")
        hold("region of low" not in run(TOOL, "--program", PROGRAM, late, "--path", "later").stdout, "later", "calls")


def main():
    numbers = range_of(__doc__, 400)
    with tempfile.TemporaryDirectory() as room:
        for number in numbers:
            system = made(number)
            file = written(room, "system.toml", toml_of(system))
            analysis = analysed(PROGRAM, file)
            for path in analysis.view.paths:
                check_path(f"system {number}, path {path}", system, analysis, path)
            if len(faults) > 5:
                break
    check_call()
    tell(f"{len(numbers)} systems, ")


if __name__ == "__main__":
    main()
