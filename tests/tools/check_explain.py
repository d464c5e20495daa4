#!/usr/bin/env python3
"""Tries `lokwurmi explain` over random systems. Outside the gate; takes about a minute for 5,000 of them, and no
network.

The systems are those of check_reports.py: all kinds, chains that come back, jitter, paths, and in every other one
tasks with up to three activators. Of each task with a bound the parts, less when the job came, must be the bound that
the proved program has written, and of each path its greatest time. Each part is worked out here once more, by the rules
as check_reports.py has them: how many jobs of a rival come in the window, which frame blocks, how many turns and slots
there are, and when the job came. That no job of the window answers later is told by the bound itself; that none before
it is as late is tried on preemptive and TDMA resources. Of a task whose own busy window has no end the rival since
which it hasn't is tried by the proved program: on a resource of its own, with the streams of the report as sources, the
task has the bounds that are told with the rivals before that one, and none with it. The parts of effect chains are held
against the plain rules of these, over one of 20 systems. What the program prints and draws of the examples is looked
at, a report with another bound must be told as an error, and what isn't taken is refused in a line.

    python3 -m tests.tools.check_explain [NUMBER of systems, 5000 if absent] [NUMBER to begin with, 0 if absent]
"""
import collections
import contextlib
import io
import json
import os
import re
import subprocess
import sys
import tempfile
from unittest import mock

from lokwurmi_tools.bounds.bound_texts import lines_of_path, lines_of_task
from lokwurmi_tools.bounds.explained import Explained
from lokwurmi_tools.shared import progress
from lokwurmi_tools.shared.analysed import analysed
from lokwurmi_tools.shared.system_text import toml_of
from tests.rules import bounds as plain
from tests.rules import locks
from tests.support import systems
from tests.support.calls import (
    NEEDS_PROGRAM,
    TOP,
    answer,
    built,
    example_systems,
    faults,
    hold,
    python_with,
    range_of,
    run,
    tell,
    written,
)
from tests.tools.explained_chains import check_chain_faults, check_chain_picture, check_chain_texts, check_random_chains

PROGRAM = built("cpa_cli")
TOOL = "explain"
RANKED = ("preemptive", "can", "ceiling")
# by what a task of lower priority may hold up others, by the kind of the resource
UNDER = {"can": ("frame",), "preemptive": ("region",), "ceiling": ("region", "section")}


def mates_of(told, rules):
    """The other tasks of its resource."""
    return [it for it in rules.tasks if it != told["task"] and rules.tasks[it]["on"] == told["on"]]


def blocked_by(told, rules):
    """The tasks of lower priority that may hold up a task, and for how long: a frame on a bus, or a region or a section
    after its first tick."""
    mates, mine = {it: rules.tasks[it] for it in mates_of(told, rules)}, rules.tasks[told["task"]].get("priority")
    if told["kind"] not in RANKED:
        return {}
    lower = {it: task for it, task in mates.items() if task["priority"] > mine}
    if told["kind"] == "can":
        return {it: task["worst"] for it, task in lower.items()}
    if told["kind"] == "ceiling":
        own, ceilings = rules.tasks[told["task"]], locks.ceilings_of([*mates.values(), rules.tasks[told["task"]]])
        several = {it: locks.blocking(own, [task], ceilings) for it, task in lower.items()}
        return {it: ticks for it, ticks in several.items() if ticks}
    return {it: plain.stretch_of(task) - 1 for it, task in lower.items() if plain.stretch_of(task) > 1}


def wanted_by_priority(told, rules, bounds, window):
    """What blocks, and the jobs of those that go before, the most urgent first."""
    is_bus, resource = told["kind"] == "can", rules.resources[told["on"]]
    mates, mine = {it: rules.tasks[it] for it in mates_of(told, rules)}, rules.tasks[told["task"]]["priority"]
    lower = blocked_by(told, rules)
    longest = max(lower.values(), default=0)
    wanted = [("blocking", it, 1, longest) for it in lower if lower[it] == longest][:1]
    ahead = resource.get("bit", 1) if is_bus else 0
    for _, it in sorted((task["priority"], it) for it, task in mates.items() if task["priority"] < mine):
        jobs = plain.most_events(rules.input_of(it, bounds), window + ahead)
        wanted.append(("rival", it, jobs, mates[it]["worst"]))
    return wanted


def wanted_in_turns(told, rules, bounds, window, rounds):
    """The jobs or the turns of the others on a ring, whichever are less."""
    wanted = []
    for it in mates_of(told, rules):
        other, come = rules.tasks[it], rules.input_of(it, bounds)
        is_endless = come is None or bounds[it] == plain.OVERLOAD
        count = plain.OVERLOAD if is_endless else plain.most_events(come, window + bounds[it])
        is_less = count * other["worst"] <= rounds * other["slot"]
        wanted.append(("rival", it, count, other["worst"]) if is_less else ("turns", it, rounds, other["slot"]))
    return wanted


def wanted_parts(told, rules, bounds):
    """What the parts should be: the kind of each, of whom it is, how many there are, and how long each is."""
    name, job, kind = told["task"], told["job"], told["kind"]
    task, gap = rules.tasks[name], rules.resources[told["on"]].get("gap")
    window = job["done"] - (task["worst"] if kind == "can" else 0)
    rounds = plain.ceiling(job["number"] * task["worst"], task["slot"]) if "slot" in task else 0
    own = ("own", name, job["number"], task["worst"])
    if kind in RANKED:
        return [own, *wanted_by_priority(told, rules, bounds, window)]
    if kind == "round-robin":
        return [own, *wanted_in_turns(told, rules, bounds, window, rounds)]
    if kind == "fifo":
        return [own, *wanted_in_queue(told, rules, bounds, job["window"])]
    slots = [("slot", it, rounds, rules.tasks[it]["slot"]) for it in mates_of(told, rules)]
    return [own, *slots, *([("gap", told["on"], rounds, gap)] if gap else [])]


def wanted_in_queue(told, rules, bounds, window):
    """The jobs of all others of a queue up to the last tick of a window."""
    come = {it: plain.most_events(rules.input_of(it, bounds), window) for it in mates_of(told, rules)}
    return [("rival", it, jobs, rules.tasks[it]["worst"]) for it, jobs in come.items()]


def check_parts(what, told, rules, bounds):
    """The parts of a task, by the rules as check_reports.py has them."""
    name, job, parts, model = told["task"], told["job"], told["parts"], rules.input_of(told["task"], bounds)
    comes = sum(it["ticks"] for it in parts) == job["done"] and job["done"] - job["came"] == told["bound"]
    hold(comes and all(it["ticks"] == it["count"] * it["each"] for it in parts), f"{what}: {parts} {job}", "sums")
    if told["kind"] == "fifo":
        comes = job["came"] == job["window"] - 1 and job["number"] == plain.most_events(model, job["window"])
        hold(comes and job["number"] <= job["of"], f"{what}: {job}", "came")
        if job["window"] <= 1000:
            hold(is_first_window(told, rules, bounds), f"{what}: a shorter window than {job} leaves as much", "first")
    else:
        hold(job["came"] == plain.least_time(model, job["number"]), f"{what}: it came at {job['came']}", "came")
    if told["kind"] in ("preemptive", "ceiling", "tdma"):
        hold(is_first(told, rules, bounds), f"{what}: an earlier job than {job} is as late", "first")
    wanted = wanted_parts(told, rules, bounds)
    same = [(it["kind"], it["of"], it["count"], it["each"]) for it in parts] == wanted
    hold(same, f"{what}: {parts}, and not {wanted}", "parts")
    hold(all(0 <= it["burst"] <= it["count"] for it in parts), f"{what}: {parts}", "parts")
    same = [it["under"] in (UNDER[told["kind"]] if it["kind"] == "blocking" else ("",)) for it in parts]
    hold(all(same), f"{what}: {parts}", "parts")
    hold(all(is_by_lock(told, it, rules) for it in parts), f"{what}: {parts}", "locks")
    streams = told["streams"]
    same = [(it["period"], it["jitter"], it["distance"]) for it in streams] == model
    hold(same and [it["source"] for it in streams] == rules.sources_of(name), f"{what}: {streams}", "streams")
    sums = [it["jitter"] == sum(ticks for _, ticks in it["of"]) and it["source"] == it["of"][0][0] for it in streams]
    hold(all(sums), f"{what}: {streams}", "streams")


def is_by_lock(told, part, rules):
    """Whether a part tells a lock where it is a section, whose length and ceiling make it."""
    if part["under"] != "section":
        return "lock" not in part
    other, mates = rules.tasks[part["of"]], [rules.tasks[it] for it in (told["task"], *mates_of(told, rules))]
    is_high = locks.ceilings_of(mates)[part["lock"]] <= rules.tasks[told["task"]]["priority"]
    lengths = [it["length"] for it in other["locks"] if it["name"] == part["lock"]]
    return is_high and part["each"] in [min(it, other["worst"]) - 1 for it in lengths]


def is_first(told, rules, bounds):
    """Whether each job before the one that is told answers sooner, on a preemptive or a TDMA resource."""
    name, kind = told["task"], told["kind"]
    task, resource, model = rules.tasks[name], rules.resources[told["on"]], rules.input_of(name, bounds)
    mates = [it for it in rules.tasks if it != name and rules.tasks[it]["on"] == told["on"]]
    higher = [
        it for it in mates if kind in ("preemptive", "ceiling") and rules.tasks[it]["priority"] < task["priority"]
    ]
    blocking = max(blocked_by(told, rules).values(), default=0)
    away = resource.get("gap", 0) + sum(rules.tasks[it]["slot"] for it in mates) if kind == "tdma" else 0
    for jobs in range(1, told["job"]["number"]):
        own = jobs * task["worst"]
        fixed = blocking + own + (plain.ceiling(own, task["slot"]) * away if away else 0)
        window = plain.least_window(lambda w: fixed + rules.work(higher, bounds, w), 0, told["job"]["done"])
        if window - plain.least_time(model, jobs) >= told["bound"]:
            return False
    return True


def is_first_window(told, rules, bounds):
    """Whether each window shorter than the one that is told leaves less at the end of its last tick but one."""
    several = [told["task"], *mates_of(told, rules)]

    def left(window):
        return rules.work(several, bounds, window) - (window - 1)

    return all(left(window) < told["bound"] for window in range(1, told["job"]["window"]))


def sections_for(view, name, other):
    """Those sections of a lower task that may hold up a task, and of that task itself one of a tick with each lock of
    such sections."""
    on, rank = view.tasks[name].on, view.tasks[name].rank
    of = [other] if other != name else view.lower(name)
    found = [it for low in of for it in view.tasks[low].locks if view.ceiling(on, it.name) <= rank]
    if other == name:
        return [{"name": it, "start": 0, "length": 1} for it in sorted({it.name for it in found})]
    return [{"name": it.name, "start": it.start, "length": it.length} for it in found]


def alone(explained, name, rivals):
    """What the proved program says of a task with some rivals on a resource of its own, each after its streams as
    sources. The frames or the regions below it block it still."""
    parts, view = explained.parts, explained.view
    kind, lower = view.kind(name), view.lower(name)
    resource = next(it for it in view.values["resource"] if it["name"] == view.tasks[name].on)
    system = {"format": 4, "resource": [resource | {"name": "r"}], "source": [], "task": []}
    for it in [name, *rivals, *lower]:
        several = [(1_000_000_000, 0, 0)] if it in lower else parts.inputs[it]
        names = [f"{it}.s{k}" for k in range(len(several))]
        for source, (period, jitter, distance) in zip(names, several):
            model = {"period": period, "jitter": jitter, "distance": min(distance, period)}
            system["source"].append({"name": source} | model)
        numbers = {"best": 1, "worst": view.tasks[it].worst}
        rank = {} if kind == "fifo" else {"priority": view.tasks[it].priority}
        region = {"region": view.tasks[it].region} if kind in ("preemptive", "ceiling") and it != name else {}
        held = sections_for(view, name, it) if kind == "ceiling" and it not in rivals else []
        told = {"locks": held} if held else {}
        system["task"].append({"name": it, "on": "r", "after": names} | numbers | rank | region | told)
    return re.search(rf"^task {name} .* worst (\S+)$", answer(PROGRAM, toml_of(system), "analyse")[1], re.M)[1]


def check_overload(what, told, explained):
    """Since which rival a busy window has no end."""
    crowd, name = told["overload"], told["task"]
    hold(abs(sum(crowd["loads"].values()) - crowd["load"]) < 1e-9 and crowd["causes"], f"{what}: {crowd}", "overload")
    if crowd["why"] != "own" or told["kind"] not in (*RANKED, "fifo"):
        return
    rivals = [it.name for it in explained.parts.before(name)]
    place = 0 if crowd["since"] == name else rivals.index(crowd["since"]) + 1
    if crowd["unbounded"]:
        others = all(explained.parts.inputs[it] is not None for it in rivals[: place - 1])
        hold(explained.parts.inputs[crowd["since"]] is None and others, f"{what}: {crowd}", "since")
        return
    hold(alone(explained, name, rivals[:place]) == "overload", f"{what}: it has a bound with {rivals[:place]}", "since")
    for count, step in enumerate(crowd["settled"] or []):
        with_it = (rivals[count - 1] if count else None, alone(explained, name, rivals[:count]))
        hold((step["with"], str(step["bound"])) == with_it, f"{what}: {step}", "since")
    hold(crowd["settled"] is None or len(crowd["settled"]) == place, f"{what}: {crowd}", "since")


def check_task(what, name, explained, rules, bounds):
    """What is told of a task, and which job of its window is the latest."""
    told = explained.task(name)
    lines_of_task(told)
    if told["bound"] is None:
        hold(explained.parts.latest(name) is None, f"{what}: the parts have a bound", "overload")
        check_overload(what, told, explained)
        return told["kind"], "overload"
    check_parts(what, told, rules, bounds)
    return told["kind"], "first" if told["job"]["number"] == 1 else "later"


def check_path(what, name, explained):
    """The parts of a path."""
    told = explained.path(name)
    lines_of_path(told)
    if told["worst"] is not None:
        waits = sum(it["ticks"] for it in told["waits"])
        hold(told["own"] + waits - told["before"] == told["worst"], f"{what}: {told}", "paths")


def explained_by(file):
    """What there is to tell of a system file."""
    known = analysed(PROGRAM, file)
    return Explained(known.view, known.report)


def check_system(number, text, room):
    """Each task and each path of a random system."""
    explained, rules = explained_by(written(room, "system.toml", text)), plain.System(text)
    found = {name: plain.OVERLOAD if it.overload else it.worst for name, it in explained.report.tasks.items()}
    latest = [check_task(f"system {number}, task {name}", name, explained, rules, found) for name in rules.tasks]
    for name in explained.view.paths:
        check_path(f"system {number}, path {name}", name, explained)
    hold(not explained.faults, f"system {number}: {explained.faults}", "faults")
    return latest


def check_random(numbers, room):
    latest, several, regions = collections.Counter(), 0, 0
    for number in numbers:
        text = systems.random_file(number)
        several += "after = [" in text
        regions += "region = " in text
        latest.update(check_system(number, text, room))
        if len(faults) > 5:
            break
    which = ", ".join(f"{kind} {which} {latest[kind, which]}" for kind, which in sorted(latest))
    print(
        f"{len(numbers)} random systems, {several} with several activators, {regions} with regions;"
        f" whose job is the latest: {which}"
    )


def ticks_of(word):
    return None if word == "overload" else int(word)


def check_told_of(file, told):
    """What is told of an example: the bounds and times of its report, and the least deadline of each task."""
    lines = [line.split() for line in answer_of(file).splitlines()]
    bounds = [(it[1], ticks_of(it[-1])) for it in lines if it[0] == "task"]
    hold([(it["task"], it["bound"]) for it in told["tasks"]] == bounds, f"{file}: the bounds", "examples")
    times = [(it[1], ticks_of(it[5])) for it in lines if it[0] == "path"]
    hold([(it["path"], it["worst"]) for it in told["paths"]] == times, f"{file}: the paths", "examples")
    with_deadline = [it for it in told["paths"] if it["deadline"] is not None]
    for it in told["tasks"]:
        over = [path for path in with_deadline if it["task"] in [one["task"] for one in path["tasks"]]]
        least = min((path["deadline"] for path in over), default=None)
        hold((it["deadline"] and it["deadline"]["ticks"]) == least, f"{file}: of {it['task']}", "examples")
    return [it[1] for it in lines[:-1]]


def called(python, *words):
    """A call of the tool with the program that is tried, whose letters are UTF-8."""
    return run(TOOL, "--program", PROGRAM, *words, python=python, env={"PYTHONIOENCODING": "utf-8"})


def check_examples(python, room):
    for file in (os.path.join(TOP, it) for it in example_systems()):
        done = called(python, file, "--all", "--json")
        told = json.loads(done.stdout)
        hold(done.returncode == 0 and not done.stderr and not told["faults"], f"{file}: {done.stderr}", "examples")
        names, text = check_told_of(file, told), called(python, file, "--all").stdout
        are_told = [re.search(rf"^(path )?{re.escape(it)}(:| on )", text, re.M) for it in names]
        hold(all(are_told), f"{file}: a task or a path isn't told", "examples")
        for word, several in (("task", told["tasks"]), ("path", told["paths"])):
            for it in several[:1] + [one for one in several if one.get("bound", 0) is None][:1]:
                check_picture(python, room, file, word, it)
        check_picture(python, room, file, "all", told)


def answer_of(file):
    return subprocess.run([PROGRAM, "analyse", file], capture_output=True, text=True, check=False).stdout


def check_picture(python, room, file, word, told):
    picture = os.path.join(room, "picture.svg")
    if os.path.exists(picture):
        os.remove(picture)
    words = ["--all"] if word == "all" else [told["task"]] if word == "task" else ["--path", told["path"]]
    done = called(python, file, *words, "--to", picture)
    tasks = told["tasks"] if word != "task" else [told]
    if word != "task" and all(it["bound"] is None for it in tasks):
        hold(done.returncode == 1 and "nothing to draw" in done.stderr, f"{file} {words}: {done.stderr}", "pictures")
        return
    hold(done.returncode == 0 and not done.stderr, f"{file} {words}: {done.stderr}", "pictures")
    if not os.path.exists(picture):
        return
    with open(picture, encoding="utf-8") as it:
        texts = re.findall(r"<text[^>]*>([^<]*)</text>", it.read())
    stripped, said = [it.strip() for it in texts], f"{file} {words}: {texts}"
    if word != "task":
        named = [f"{it['on']}  {it['task']}" in texts for it in tasks]
        hold(all(named) and all(str(it["bound"]) in stripped for it in tasks if it["bound"]), said, "pictures")
    elif told["bound"] is not None:
        sums = [f"{it['count']} · {it['each']} = {it['ticks']}" for it in told["parts"]]
        hold(all(any(it in text for text in texts) for it in sums), said, "pictures")
        hold({it["of"] for it in told["parts"]} <= set(texts), said, "pictures")
    else:
        hold(set(told["overload"]["loads"]) <= set(texts), said, "pictures")


def check_worked():
    """Cases that are worked out by hand: whom a region of lower priority holds up, by how much."""
    for name, task, wanted in (
        ("cooperative", "control", [("own", "control", 1, 2), ("blocking", "log", 1, 4)]),
        ("cooperative", "log", [("own", "log", 1, 20), ("rival", "control", 3, 2)]),
        ("regions", "a", [("own", "a", 1, 3), ("blocking", "c", 1, 3)]),
        ("regions", "b", [("own", "b", 1, 4), ("blocking", "c", 1, 3), ("rival", "a", 1, 3)]),
        ("regions", "c", [("own", "c", 1, 9), ("rival", "a", 3, 3), ("rival", "b", 2, 4)]),
        ("queue", "record", [("own", "record", 3, 12), ("rival", "video", 10, 116)]),
        ("locks", "motor", [("own", "motor", 1, 150), ("blocking", "diagnose", 1, 89)]),
        ("locks", "receive", [("own", "receive", 1, 80), ("blocking", "diagnose", 1, 119), ("rival", "motor", 1, 150)]),
        (
            "queue",
            "packed",
            [("own", "packed", 3, 150), ("rival", "wheel_passed", 1, 50), ("rival", "button_passed", 1, 50)],
        ),
    ):
        told = explained_by(os.path.join(TOP, "examples", f"{name}.toml")).task(task)
        found = [(it["kind"], it["of"], it["count"], it["each"]) for it in told["parts"]]
        hold(found == wanted, f"{name}.toml, {task}: {found}, and not {wanted}", "worked")
        lines = lines_of_task(told)
        is_told = any(re.search("the rest of a (region|section) of lower priority", it) for it in lines)
        hold(is_told == ("blocking" in [it[0] for it in wanted]), f"{name}.toml, {task}: {lines}", "worked")


def check_errors(python, room):
    """A report that isn't the program's is told as an error."""
    two = os.path.join(TOP, "examples", "two_tasks.toml")
    for old, new, said in (
        ("worst 10", "worst 11", "b: the parts come to 7 + 3 - 0 = 10, and its bound is 11"),
        (
            "task a cpu period 10 jitter 0 distance 0 best 1 worst 3",
            "task a cpu period 10 jitter 0 distance 0 best 1 worst 4",
            "a: the parts come to 3 - 0 = 3, and its bound is 4",
        ),
    ):
        other = written(room, "other", f"#!/bin/sh\n'{PROGRAM}' \"$@\" | sed 's/{old}/{new}/'\n")
        os.chmod(other, 0o755)
        done = run(TOOL, two, "--all", "--program", other, python=python)
        hold(
            done.returncode == 1 and f"an error of this tool: {said}" in done.stderr,
            f"{new}: {done.returncode} {done.stderr}",
            "told",
        )


def check_told(python, room):
    """What isn't taken is refused, and a terminal without blocks gets others."""
    two, crossing = (os.path.join(TOP, "examples", it) for it in ("two_tasks.toml", "crossing_chains.toml"))
    for words, said in (
        ([two], "name a task, or --path PATH, or --all"),
        ([two, "a", "--all"], "name a task, or --path PATH, or --all"),
        ([two, "c"], "there is no task c; it has a, b"),
        ([crossing, "pb"], "pb is a path: write --path pb"),
        ([crossing, "--path", "a1"], "a1 is a task: write it without --path"),
        ([two, "--path", "p"], "there is no path p; it has none"),
        ([two, "a", "--to", "picture.gif"], "a picture's name ends with .svg, .png or .pdf"),
        ([written(room, "empty.toml", "format = 1\n"), "--all"], "empty.toml has no task"),
        ([written(room, "bad.toml", "format = 3\n"), "--all"], "bad.toml:1:10: the format 3 isn't known"),
    ):
        done = called(python, *words)
        is_told = done.returncode > 0 and said in done.stderr and "Traceback" not in done.stderr
        hold(is_told, f"{words}: {done.returncode} {done.stderr}", "told")
    done = run(TOOL, two, "b", "--program", PROGRAM, python=python, env={"PYTHONIOENCODING": "ascii"})
    hold(
        done.returncode == 0 and "#####" in done.stdout,
        f"a terminal without blocks: {done.stdout} {done.stderr}",
        "told",
    )


def check_progress():
    """How far it is, where that takes long: all lines of it, as though each came late."""
    known = analysed(PROGRAM, str(TOP / "examples" / "two_tasks.toml"))
    heard = io.StringIO()
    with mock.patch.object(progress, "ELSEWHERE", 0.0), contextlib.redirect_stderr(heard):
        Explained(known.view, known.report, tool="lokwurmi explain").tasks(known.view.tasks)
    wanted = [f"lokwurmi explain: {it} of 2 tasks are explained" for it in (1, 2)]
    hold(heard.getvalue().splitlines() == wanted, f"progress: {heard.getvalue()}", "told")


def main():
    numbers = range_of(__doc__, 5000, NEEDS_PROGRAM)
    python = python_with("matplotlib")
    with tempfile.TemporaryDirectory() as room:
        check_random(numbers, room)
        check_random_chains(numbers[::20], room)
        check_chain_texts(room, PROGRAM)
        check_chain_faults(room, PROGRAM)
        if python:
            check_chain_picture(python, room, PROGRAM)
        check_worked()
        if python:
            check_examples(python, room)
        check_errors(python or sys.executable, room)
        check_told(python or sys.executable, room)
    check_progress()
    tell(without="" if python else ", without what is drawn: matplotlib is not here")


if __name__ == "__main__":
    main()
