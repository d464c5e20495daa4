#!/usr/bin/env python3
"""Tries `lokwurmi sensitivity` over random systems. Outside the gate; takes a minute or two, and no network.

The systems are those of check_reports.py with longer periods, in every other one with tasks that have up to three
activators, in every other pair with regions, and with deadlines that are met, with more or less to spare. What is told
of each number is tried by files of their own, which say the system with that number moved, and by `analyse` of each: at
the value that is told, and at some in between, all holds, and one step beyond it, and at some further ones, it doesn't,
where there are such values; what is told to come first beyond it is what the report says. With --deadlines what is told
of an execution is what `lokwurmi slack` says. Of a bus whose executions take longer the bit is as before. With a goal a
path is held against that. With deadlines of effect chains what these take is worked out by the plain rules; all values
of a period up to what is told are tried, since a chain may be late and in time again, and periods move longer too. Then
the tool is called as it is from outside.

    python3 -m tests.tools.check_sensitivity [NUMBER of systems, 150 if absent] [NUMBER to begin with, 0 if absent]
"""
import json
import os
import random
import re
import tempfile
import tomllib

from lokwurmi_tools.search import margin_question, margins
from lokwurmi_tools.search.chain_goals import ChainGoals
from lokwurmi_tools.shared import progress
from lokwurmi_tools.shared.analysed import analysed
from lokwurmi_tools.shared.system_text import toml_of
from tests.rules import bounds, effect_chains, locks
from tests.support import chain_texts, systems
from tests.support.calls import (
    NEEDS_PROGRAM,
    TOP,
    answer,
    built,
    faults,
    hold,
    python_with,
    range_of,
    run,
    tell,
    written,
)

PROGRAM = built("cpa_cli")
# searches that are made here tell nothing
progress.TERMINAL = progress.ELSEWHERE = float("inf")
TOOL = "sensitivity"


def made(number):
    """A random system that holds, by deadlines alone or by all that counts, or None."""
    pick = random.Random(number)
    system = tomllib.loads(systems.random_file(number))
    longer = pick.choice((1, 3, 8))
    for it in system["source"]:
        it["period"] *= longer
    tasks = set()
    for it in system.get("path", []):
        it.pop("deadline", None)
        tasks.update(it["tasks"])
    # a path for some of the other tasks
    for it in system["task"]:
        if it["name"] not in tasks and pick.random() < 0.5:
            system.setdefault("path", []).append({"name": f"alone.{it['name']}", "tasks": [it["name"]]})
    for path, worst in re.findall(
        r"^path (\S+) best \d+ worst (\d+) ", answer(PROGRAM, toml_of(system), "analyse")[1], re.M
    ):
        if pick.random() < 0.8:
            next(it for it in system["path"] if it["name"] == path)["deadline"] = int(worst) + pick.randint(
                0, int(worst)
            )
    return system


def without_payloads(system):
    """Gives frames the executions that follow from their payloads, in place of these."""
    on = {it["name"]: it for it in system["resource"]}
    for it in system["task"]:
        it["best"], it["worst"] = bounds.execution_of(it, on[it["on"]])
        it.pop("payload", None)
        it.pop("extended", None)


def moved(system, number, steps):
    """The system with a number moved by so many steps."""
    other = tomllib.loads(toml_of(system))
    if number.kind in ("execution", "speed"):
        without_payloads(other)
    if number.kind == "execution":
        next(it for it in other["task"] if it["name"] == number.name)["worst"] += steps
    elif number.kind == "region":
        it = next(it for it in other["task"] if it["name"] == number.name)
        other["format"], it["region"] = 4, it.get("region", 1) + steps
    elif number.kind == "section":
        section_of(other, number.name)["length"] += steps
    elif number.kind == "speed":
        for it in other["task"]:
            if it["on"] == number.name:
                it["worst"] = bounds.ceiling(it["worst"] * (1000 + steps), 1000)
    else:
        it = next(it for it in other["source"] if it["name"] == number.name)
        it["period"] += {"period": -steps, "longer-period": steps}.get(number.kind, 0)
        it["jitter"] = it.get("jitter", 0) + (steps if number.kind == "jitter" else 0)
        it["distance"] = min(it.get("distance", 0), it["period"])
    return other


def section_of(system, name):
    """The section of a task that is told by its task, its lock, and where it begins if there are more of the lock, and
    where it is over if more begin there."""
    task, lock, begin, end = re.fullmatch(r"(\S+) with (\S+?)(?: from (\d+))?(?: to (\d+))?", name).groups()
    several = next(it for it in system["task"] if it["name"] == task)["locks"]
    several = [it for it in several if it["name"] == lock and begin in (None, str(it["start"]))]
    return next(it for it in several if end in (None, str(it["start"] + it["length"])))


def some_chains(number, system):
    """Some chains of a system, with deadlines that are met, with more or less to spare; none where one has no bound."""
    pick, names = random.Random(f"chains of {number}"), [it["name"] for it in system["task"]]
    text = toml_of(system)
    rules, chains = limits_of(text, answer(PROGRAM, text, "analyse")[1]), []
    for place in range(pick.randint(1, 3)):
        tasks = [pick.choice(names) for _ in range(pick.randint(1, 4))]
        limits = rules.limits(tasks)
        if bounds.OVERLOAD not in limits.values():
            asked = (limits[what] + pick.randint(0, limits[what]) for what in effect_chains.ASKED)
            chains.append((f"c{place}", tasks, *(it if pick.random() < 0.6 else None for it in asked)))
    return chains


def limits_of(text, report):
    """The rules of chains over a system, at the bounds of its report."""
    told = re.findall(r"^task (\S+) .* worst (\S+)$", report, re.M)
    known = {name: bounds.OVERLOAD if worst == "overload" else int(worst) for name, worst in told}
    return effect_chains.Bounds(text, known)


def late_chains(text, report, chains):
    """Which deadlines of chains aren't met, by the plain rules."""
    rules, found = limits_of(text, report), []
    for name, tasks, *deadlines in chains:
        limits = rules.limits(tasks)
        for what, deadline in zip(effect_chains.ASKED, deadlines):
            if deadline is not None and limits[what] > deadline:
                found.append(f"chain {name} {what}")
    return found


def judged(system, goals, deadlines, chains=()):
    """What doesn't hold of a system, by its report, read here once more, and by the rules of chains."""
    status, text = answer(PROGRAM, toml_of(system), "analyse")
    if status not in (0, 1, 2):
        return [f"status {status}: {text}"]
    found = []
    for name, worst, deadline in re.findall(r"^path (\S+) best \d+ worst (\S+) deadline (\S+)", text, re.M):
        limit = goals.get(name, None if deadline == "-" else int(deadline))
        if limit is not None and (worst == "overload" or int(worst) > limit):
            found.append(f"path {name}")
    endless = [f"task {name}" for name in re.findall(r"^task (\S+) .* worst overload$", text, re.M)]
    late = late_chains(toml_of(system), text, chains) if chains else []
    return found + ([] if deadlines else endless) + late


def check_regions(what, system, rows, least):
    """The tasks whose regions move: those that may hold up another, and by more than now."""
    kinds, wanted = {it["name"]: it["kind"] for it in system["resource"]}, {}
    for it in system["task"]:
        is_so = kinds[it["on"]] in ("preemptive", "ceiling") and not it.get("locks")
        mates = [one for one in system["task"] if one["on"] == it["on"] and is_so]
        has_above = any(one["priority"] < it["priority"] for one in mates)
        if has_above and least <= it.get("region", 1) < it["worst"]:
            wanted[it["name"]] = it["worst"]
    found = {it.name: it.value + it.most for it in rows}
    hold(found == wanted, f"{what}: regions {found}, and not {wanted}", "regions")


def check_sections(what, system, rows):
    """The sections that move: those that hold up a more urgent task, by as many ticks as the job has, and as there are
    up to the end of one around it, and to the next."""
    wanted, tasks = [], system["task"]
    for task in (it for it in tasks if it.get("locks")):
        ceilings = locks.ceilings_of([it for it in tasks if it["on"] == task["on"]])
        above = [it["priority"] for it in tasks if it["on"] == task["on"] and it["priority"] < task["priority"]]
        for at, it in enumerate(task["locks"]):
            end, most = it["start"] + it["length"], task["worst"] - it["length"]
            for begin, last in ((b, e) for place, (_, b, e) in enumerate(locks.sections_of(task)) if place != at):
                most = min(most, last - end if begin <= it["start"] and end <= last else most)
                most = min(most, begin - end if end <= begin else most)
            if most > 0 and any(ceilings[it["name"]] <= rank for rank in above):
                wanted.append((it["length"], it["length"] + most))
    found = sorted((it.value, it.value + it.most) for it in rows)
    hold(found == sorted(wanted), f"{what}: sections {found}, and not {sorted(wanted)}", "sections")


def check_system(number, system, room, deadlines, goals):
    """Each number of a system, by files of its own."""
    file = written(room, "system.toml", toml_of(system))
    question = margin_question.MarginQuestion(analysed(PROGRAM, file), goals, deadlines)
    first = judged(system, goals, deadlines)
    now = question.now()
    hold(
        now.holds() == (not first) and now.first() == first, f"system {number}: {now.first()}, and not {first}", "first"
    )
    if first:
        return False
    pick = random.Random(number)
    answers = margins.answers_of(question, margin_question.KINDS, 1)
    # those that are asked for by themselves, of a tick too
    regions = margins.answers_of(question, ("region",), 1)
    for rows, least in ((answers, 2), (regions, 1)):
        check_regions(f"system {number}", system, [it for it, _ in rows if it.kind == "region"], least)
    check_sections(f"system {number}", system, [it for it, _ in answers if it.kind == "section"])
    for it, told in answers + regions:
        check_number(f"system {number}", system, it, told, (goals, deadlines), pick)
    check_deadlines(f"system {number}", system, margins.rows_of(question, ["deadline"], 1), goals, deadlines)
    return True


def check_number(name, system, it, told, asked, pick):
    """How far a number of a system may move: up to there all holds that is asked for, and beyond it something doesn't;
    the execution of a task is what `slack` tells."""
    goals, deadlines = asked
    what = f"{name}, {it.kind} {it.name}, deadlines {deadlines}, goals {goals}: {told}\n{toml_of(system)}"

    def late(steps):
        return judged(moved(system, it, steps), goals, deadlines)

    good = {told.steps, *(pick.randint(0, told.steps) for _ in range(2))}
    hold(all(not late(steps) for steps in good), f"{what}: with {sorted(good)} not all holds", it.kind)
    hold(told.ends == (told.steps < it.most), f"{what}: how it ends", it.kind)
    if told.ends:
        hold(late(told.steps + 1) == told.first != [], f"{what}: beyond it", it.kind)
        bad = [pick.randint(told.steps + 1, min(it.most, 3 * told.steps + 1)) for _ in range(2)]
        hold(all(late(steps) for steps in bad), f"{what}: with {bad} all holds", it.kind)
    if it.kind == "execution" and deadlines and not goals:
        wanted = (0, f"slack {it.name} {told.steps} next {'missed' if told.ends else 'limit'}\n")
        found = answer(PROGRAM, toml_of(system), "slack", it.name)
        hold(found == wanted, f"{what}: {found}", "slack")


def check_deadlines(name, system, rows, goals, deadlines):
    """How short each deadline may be: with it all holds, and with a tick less its path is late."""
    for it in rows:
        goal = goals | {it["name"]: it["last"]}
        hold(
            not judged(system, goal, deadlines)
            and judged(system, goal | {it["name"]: it["last"] - 1}, deadlines) == [f"path {it['name']}"],
            f"{name}: {it}",
            "deadline",
        )


def called(python, *words):
    """A call of the tool with the program that is tried, whose letters are UTF-8."""
    return run(TOOL, "--program", PROGRAM, *words, python=python, env={"PYTHONIOENCODING": "utf-8"})


def values_up_to(pick, steps):
    """So many values, or some of them, and those at the end."""
    few = {steps, max(0, steps - 1), *(pick.randint(0, steps) for _ in range(10))}
    return range(steps + 1) if steps <= 12 else sorted(few)


def check_with_chains(number, system, chains, room):
    """Each number of a system with chains, by files of its own; a period at all values up to what is told."""
    file = written(room, "chained.toml", toml_of(system))
    listed, pick = written(room, "listed.toml", chain_texts.text_of(chains)), random.Random(number)
    known = analysed(PROGRAM, file)
    question = margin_question.MarginQuestion(known, {}, True, ChainGoals(known, listed))
    now = question.now().first()
    hold(now == judged(system, {}, True, chains), f"system {number} with chains: {now}", "chains first")
    if now:
        return
    for it, told in margins.answers_of(question, margin_question.KINDS, 1):
        what = f"system {number}, {it.kind} {it.name}, chains {chains}: {told}\n{toml_of(system)}"
        asked = lambda steps: judged(moved(system, it, steps), {}, True, chains)  # noqa: B023
        good = values_up_to(pick, told.steps) if it.kind in margin_question.PERIODS else (told.steps,)
        hold(not any(asked(steps) for steps in good), f"{what}: up to there not all holds", f"chains {it.kind}")
        hold(told.ends == (told.steps < it.most), f"{what}: how it ends", f"chains {it.kind}")
        if told.ends:
            beyond = asked(told.steps + 1)
            hold(beyond == told.first != [], f"{what}: beyond it {beyond}", f"chains {it.kind}")
    wanted = {f"{name} {what}" for name, _, *limits in chains for what, it in zip(effect_chains.ASKED, limits) if it}
    rows = {it["name"] for it in margins.rows_of_deadlines(question) if it["first"][0].startswith("chain ")}
    hold(rows == wanted, f"system {number}: the deadlines of chains are {rows}", "chains deadline")


# with a period of 10, 9, 8 and 7 ticks the chain a, b takes 9 + 4 + 99 + 9 = 121, 120, 7 + 4 + 99 + 13 = 123 and 122
AGAIN = """format = 1
resource = [{ name = "cpu", kind = "preemptive", limit = 500 }]
source = [{ name = "s", period = 10 }, { name = "r", period = 100 }]
task = [
  { name = "a", on = "cpu", after = "s", best = 1, worst = 4, priority = 1 },
  { name = "b", on = "cpu", after = "r", best = 1, worst = 5, priority = 2 },
]
"""


def check_late_and_again(room):
    """A chain that is late with a shorter period, and in time with a still shorter one: the first that is late counts,
    though the tool tries the other before it."""
    file = written(room, "again.toml", AGAIN)
    listed = written(room, "again.chains.toml", chain_texts.text_of([("c", ["a", "b"], 122, None, None)]))
    done = run(TOOL, "--program", PROGRAM, file, "--chains", listed, "--only", "period")
    hold(re.search(r"^period of s +10 +9 +-10.0 % +chain c reaction$", done.stdout, re.M), done.stdout, "calls")
    for period, takes in ((10, 121), (9, 120), (8, 123), (7, 122)):
        limits = effect_chains.Bounds(AGAIN.replace("period = 10 ", f"period = {period} ")).limits(["a", "b"])
        hold(limits["reaction"] == takes, f"with a period of {period}: {limits}", "calls")


def check_chain_calls(room):
    """What the tool writes of chains, and what it says of files that aren't taken."""
    file = os.path.join(TOP, "examples", "effects.toml")
    good = written(room, "good.toml", chain_texts.text_of([("show", ["sense", "act"], 50, None, None)]))
    done = run(TOOL, "--program", PROGRAM, file, "--chains", good, "--only", "longer-period", "--only", "deadline")
    # the wait of act is 20 + 5 - 1 = 24, and its reaction 9 + 3 + 24 + 9 = 45: five ticks more are 50
    hold(re.search(r"^period of slow +20 +25 +\+25.0 % +chain show reaction$", done.stdout, re.M), done.stdout, "calls")
    hold(re.search(r"^deadline of show reaction +50 +45 ", done.stdout, re.M), done.stdout, "calls")
    hold("hold if sources stay near: a source that falls silent" in done.stdout, "the premise", "calls")
    told = json.loads(run(TOOL, "--program", PROGRAM, file, "--chains", good, "--only", "deadline", "--json").stdout)
    hold(told["premise"] == "if sources stay near" and told["chains_file"] == good, f"{told}", "calls")
    late = written(room, "late.toml", chain_texts.text_of([("a", ["act"], None, None, None), ("b", ["act"], 9, 9, 9)]))
    bad = written(room, "bad.toml", chain_texts.text_of([("a", ["nobody"], None, None, None)]))
    never = os.path.join(TOP, "examples", "overload.toml")
    endless = written(room, "endless.toml", chain_texts.text_of([("never", ["a1", "b1"], 500, None, None)]))
    # the wait of act is 24, its response 9
    for words, status, said in (
        ([file, "--chains", late], 3, f"{late}: line 4: chain b reaction: 33, 24 too late, of 9\n"),
        ([never, "--chains", endless, "--deadlines"], 3, "line 3: chain never reaction: no bound, of 500"),
        ([file, "--chains", bad], 18, "chains refused reason 5 chain 1"),
        ([file, "--chains", bad], 18, "bad.toml:3:"),
        ([file, "--chains", os.path.join(room, "nothing.toml")], 11, "cannot read"),
        ([file, "--only", "longer-period"], 1, "--only longer-period wants --chains"),
    ):
        done = run(TOOL, "--program", PROGRAM, *words)
        is_told = said in done.stderr and "Traceback" not in done.stderr
        hold(done.returncode == status and is_told, f"{words}: {done.returncode} {done.stderr}", "calls")


def check_calls(python, room):
    """What the tool writes and draws."""
    sae, picture = os.path.join(TOP, "examples", "sae_can.toml"), os.path.join(room, "picture.svg")
    done = called(python, sae, "--deadlines", "--to", picture)
    hold(done.returncode == 0 and not done.stderr, f"sae_can.toml: {done.stderr}", "calls")
    hold(
        re.search(r"^greatest execution of m16 +600 +800 +\+33\.3 %  path d8$", done.stdout, re.M), done.stdout, "calls"
    )
    shares = [float(it.replace("+", "").replace("-", "")) for it in re.findall(r"([+-][\d.]+) %", done.stdout)]
    hold(shares == sorted(shares) and len(shares) == 17 * 4 + 1, f"the order of the table: {shares}", "calls")
    with open(picture, encoding="utf-8") as it:
        texts = re.findall(r"<text[^>]*>([^<]*)</text>", it.read())
    hold(
        "executions on can" in texts and any("the 40 tightest of 69" in text for text in texts),
        f"the chart: {texts}",
        "calls",
    )
    told = json.loads(called(python, sae, "--only", "period", "--only", "speed", "--json", "--jobs", "1").stdout)
    again = json.loads(called(python, sae, "--only", "period", "--only", "speed", "--json", "--jobs", "3").stdout)
    hold(
        told["numbers"] == again["numbers"] and {it["kind"] for it in told["numbers"]} == {"period", "speed"},
        "the number of jobs is in the answer",
        "calls",
    )


# a queue, whose bounds use no clock: the periods of its sources stay all the same
CLOCKED = """format = 4
resource = [{ name = "q", kind = "fifo" }]
source = [{ name = "s", period = 10, clock = "c" }, { name = "r", period = 10, clock = "c", offset = 5 }]
task = [
  { name = "a", on = "q", after = "s", best = 1, worst = 2 },
  { name = "b", on = "q", after = "r", best = 1, worst = 1 },
]
path = [{ name = "p", tasks = ["a"], deadline = 1200 }]
"""


def check_shares(python, clocked):
    """No share is told above what it is: 1197 of 1200 ticks are 99.75 percent. That periods on clocks stay is told."""
    done = called(python, clocked, "--only", "deadline")
    hold(re.search(r"^deadline of p +1200 +3 +-99\.7 %", done.stdout, re.M), done.stdout, "calls")
    for words in ([], ["--json"]):
        done = called(python, clocked, "--only", "deadline", *words)
        hold("periods of sources on a clock aren't moved" in done.stdout, done.stdout, "calls")


def check_refused(python, clocked):
    """What the tool doesn't take, and where nothing may move."""
    sae = os.path.join(TOP, "examples", "sae_can.toml")
    for words, status, said in (
        ([sae, "--to", "/nowhere/it.svg"], 1, "/nowhere/it.svg: can't be written: there is no folder /nowhere"),
        (
            [os.path.join(TOP, "examples", "crossing_chains.toml")],
            3,
            "nothing may move, as this doesn't hold now: path pb",
        ),
        (
            [os.path.join(TOP, "examples", "overload.toml")],
            3,
            "nothing may move, as this doesn't hold now: path pa, task a1, task a2, task b1, task b2",
        ),
        (
            [os.path.join(TOP, "examples", "cooperative.toml"), "--goal", "control_in_time=5"],
            3,
            "path control_in_time; regions can't be shorter than now in this search: leave the key region out, and",
        ),
        ([os.path.join(TOP, "examples", "crossing_chains.toml"), "--goal", "pb=50", "--only", "speed"], 0, ""),
        ([sae, "--goal", "d99=5"], 1, "there is no path d99; it has d17"),
        ([sae, "--goal", "d9"], 1, "a goal is PATH=DEADLINE"),
        ([sae, "--goal", "d9=0"], 1, "a goal is PATH=DEADLINE"),
        ([sae, "--to", "picture.gif"], 1, "a picture's name ends with"),
        ([sae, "--jobs", "0"], 1, "at least 1 job"),
        ([sae, "--only", "speed", "--only", "section"], 1, "--only section: no critical section may be longer"),
        ([sae, "--only", "region"], 1, "--only region: no region may be longer"),
        ([os.path.join(TOP, "examples", "two_tasks.toml"), "--only", "deadline"], 1, "no path has a deadline"),
        ([clocked, "--only", "period"], 1, "there is no source on no clock; periods of sources on a clock aren't"),
    ):
        done = called(python, *words)
        hold(
            done.returncode == status and said in done.stderr and "Traceback" not in done.stderr,
            f"{words}: {done.returncode} {done.stderr}",
            "calls",
        )


def main():
    numbers = range_of(__doc__, 150, NEEDS_PROGRAM)
    python, held = python_with("matplotlib"), 0
    with tempfile.TemporaryDirectory() as room:
        for number in numbers:
            system = made(number)
            if number % 2 == 0 and (chains := some_chains(number, system)):
                check_with_chains(number, system, chains, room)
            held += check_system(number, system, room, number % 3 != 0, {})
            paths = [it["name"] for it in system.get("path", []) if "deadline" in it]
            if paths and number % 4 == 0:
                held += check_system(
                    number,
                    system,
                    room,
                    True,
                    {paths[0]: 2 * next(it["deadline"] for it in system["path"] if it["name"] == paths[0])},
                )
            if len(faults) > 3:
                break
        check_chain_calls(room)
        check_late_and_again(room)
        if python:
            clocked = written(room, "clocked.toml", CLOCKED)
            check_calls(python, room)
            check_shares(python, clocked)
            check_refused(python, clocked)
    without = "" if python else ", without calls: matplotlib is not here"
    tell(f"{len(numbers)} systems, {held} times all held; ", without)


if __name__ == "__main__":
    main()
