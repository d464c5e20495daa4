#!/usr/bin/env python3
"""Tries `lokwurmi offsets` over small systems of which all ways to place the sources are tried by the plain rules.
Outside the gate.

Of each system with clocks the rules (tests/rules) say what all bounds are by each way to place its sources, and what is
best: least without a bound, then least late, then the least sum of shares. Where the tool says that all ways were
tried, its answer has to cost as much; of a search that may try fewer it is counted how often it does. The bounds that
it tells before and after have to be those of the rules, by the edits that it writes. Sources that are kept, other
clocks and a grid have to be heeded, the same call has to give the same answer by one job and by two, and an end by time
or by an interrupt the best up to there. Before that come a case worked out by hand, and calls that are refused.

    python3 -m tests.tools.check_choose_offsets [NUMBER of systems, 20 if absent] [NUMBER to begin with, 0 if absent]
"""
import copy
import itertools
import json
import os
import random
import signal
import subprocess
import time

from lokwurmi_tools.shared.system_text import toml_of
from tests.rules.bounds import System
from tests.support.calls import NEEDS_PROGRAM, TOP, built, check_all, hold, run, tool, written

PROGRAM = built("cpa_cli")
PARTS = 1_000_000_000
# up to so many ways are followed by the rules
MOST_WAYS = 130
HAND = (
    'format = 4\nresource = [{ name = "r", kind = "preemptive" }]\n'
    'source = [{ name = "s", period = 10, clock = "c" }, { name = "q", period = 10, clock = "c" }]\n'
    'task = [{ name = "a", on = "r", after = "s", best = 4, worst = 4, priority = 1 },'
    ' { name = "b", on = "r", after = "q", best = 3, worst = 3, priority = 2 }]\n'
    'path = [{ name = "p", tasks = ["b"], deadline = 5 }]\n'
)
WITHOUT = HAND.replace(', clock = "c"', "")
# words behind a file, and what is said; the status is 1
REFUSED = (
    (WITHOUT, [], "no source is on a clock: write format = 4"),
    (HAND, ["--clock", "d"], "--clock d: there is no such clock; there are c"),
    (HAND, ["--keep", "a"], "--keep a: there is no such source; on clocks are s, q"),
    (
        HAND.replace('clock = "c" }, {', 'clock = "c" }, { name = "w", period = 3 }, {', 1),
        ["--keep", "w"],
        ": line 3: ",
    ),
    (HAND, ["--keep", "s", "--keep", "q"], "all sources on c are kept"),
    (
        HAND.replace('period = 10, clock = "c" }]', 'period = 10, clock = "d" }]'),
        [],
        "no bound depends on offsets on c",
    ),
    (HAND, ["--grid", "0"], "--grid 0: write a number from 1 up"),
    (HAND, ["--tries", "0"], "--tries 0: write a number from 1 up"),
    (HAND, ["--seconds", "0"], "--seconds 0: write a number above 0"),
    (HAND, ["--output", "/nowhere/it.txt"], "/nowhere/it.txt: can't be written: there is no folder"),
    (HAND, ["--draw", "it.gif"], "it.gif: a picture's name ends with"),
)


def drawn_sources(draw):
    """Four or five sources at most, on one clock or two."""
    clocks = [("c", draw.choice((6, 8, 10)))] + ([("d", draw.choice((4, 5, 6)))] if draw.random() < 0.5 else [])
    sources = []
    for clock, base in clocks:
        for _ in range(draw.randint(2, 3) if clock == "c" else 2):
            period = base * draw.choice((1, 1, 2))
            sources.append({"name": f"s{len(sources)}", "period": period, "jitter": draw.choice((0, 0, 1, 2))})
            sources[-1] |= {"clock": clock, "offset": draw.choice((0, draw.randrange(period)))}
    return sources


def drawn(number):
    """A small system whose sources can be placed in few ways: a task for each on a processor or a bus, and of every
    other system two that these start on another one."""
    draw = random.Random(f"choose offsets {number}")
    while True:
        sources = drawn_sources(draw)
        resources = [{"name": "r", "kind": draw.choice(("preemptive", "can")), "limit": 400}]
        ranks = draw.sample(range(len(sources)), len(sources))
        worst = [draw.choice((1, 1, 2, 3)) for _ in sources]
        tasks = [
            {"name": f"t{k}", "on": "r", "after": it["name"], "best": draw.randint(1, worst[k]), "worst": worst[k]}
            | {"priority": ranks[k]}
            for k, it in enumerate(sources)
        ]
        paths = [{"name": f"p{k}", "tasks": [f"t{k}"], "deadline": worst[k] + draw.randint(0, 4)} for k in range(2)]
        if number % 2:
            resources.append({"name": "q", "kind": "preemptive", "limit": 400})
            numbers = {"best": 1, "worst": 2}
            tasks += [{"name": f"u{k}", "on": "q", "after": f"t{k}", "priority": k} | numbers for k in range(2)]
            paths[1] |= {"tasks": ["t1", "u1"], "deadline": worst[1] + 2 + draw.randint(0, 6)}
        system = {"format": 4, "resource": resources, "source": sources, "task": tasks, "path": paths}
        is_full = sum(cost / it["period"] for cost, it in zip(worst, sources)) > 1
        if not is_full and len(list(ways(system, {it["name"]: 1 for it in sources}))) <= MOST_WAYS:
            return system


def ways(system, steps):
    """All ways to place some sources, by the step that each has; where all of a clock move its first one stays."""
    moving = [it for it in system["source"] if it["name"] in steps]
    first = {}
    for it in system["source"]:
        first.setdefault(it["clock"], it["name"])
    fixed = set()
    for clock, name in first.items():
        mine = [it for it in system["source"] if it["clock"] == clock]
        if all(steps.get(it["name"]) == 1 for it in mine):
            fixed.add(name)
    several = [it for it in moving if it["name"] not in fixed]
    for offsets in itertools.product(*(range(0, it["period"], steps[it["name"]]) for it in several)):
        yield {it["name"]: offset for it, offset in zip(several, offsets)}


def placed(system, offsets):
    """The system with other offsets."""
    made = copy.deepcopy(system)
    for it in made["source"]:
        it["offset"] = offsets.get(it["name"], it["offset"])
    return made


def bounds_by_rules(text):
    """The bounds of tasks and paths that count, by the plain rules, each with its deadline or period."""
    rules = System(text)
    found, in_time = {}, set()
    worst = {}
    for line in rules.report()[0].splitlines():
        words = line.split()
        if words[0] in ("task", "path"):
            told = words[words.index("worst") + 1] if "worst" in words else "overload"
            worst[words[0], words[1]] = int(told) if told.isdigit() else None
    for it in rules.paths:
        if "deadline" in it:
            found["path", it["name"]] = worst["path", it["name"]], it["deadline"]
            in_time.update(it["tasks"])
    for name in rules.tasks:
        if name not in in_time:
            period = min(rules.sources[it][0] for it in rules.sources_of(name))
            found["task", name] = worst["task", name], period
    endless = sum(it is None for (kind, _), it in worst.items() if kind == "task")
    return found, endless


def cost_by_rules(text):
    """What a system costs: bounds that aren't there, what is late, and the sum of shares."""
    found, endless = bounds_by_rules(text)
    known = [(kind, bound, whole) for (kind, _), (bound, whole) in found.items() if bound is not None]
    late = sum((bound - whole) * PARTS // whole for kind, bound, whole in known if kind == "path" and bound > whole)
    lacking = endless + len(found) - len(known)
    return lacking, late, sum(bound * PARTS // whole for _, bound, whole in known)


def asked(file, *words):
    """The status of the tool, its answer, and the edits of the script beside it."""
    script = f"{file}.script"
    done = run("offsets", "--program", PROGRAM, file, "--json", "--output", script, *words)
    hold(done.stdout.startswith("{"), f"{file} {words}: {done.returncode} {done.stdout} {done.stderr}", "calls")
    with open(script, encoding="utf-8") as it:
        edits = [line.split() for line in it if not line.startswith("#")]
    told = json.loads(done.stdout)
    hold(edits == [it.split() for it in told["edits"]], f"{file}: {edits} and not {told['edits']}", "scripts")
    return done.returncode, told, {name: int(offset) for _, name, offset in edits}


def check_answer(what, system, answer, steps):
    """The bounds that are told, by the rules, and whether the edits are as was asked for. Gives the cost."""
    status, told, offsets = answer
    texts = {"before": toml_of(system), "after": toml_of(placed(system, offsets))}
    for when, text in texts.items():
        known, _ = bounds_by_rules(text)
        rows = {(it["kind"], it["name"]): (it[when], it["limit"]) for it in told["bounds"]}
        hold(rows == known, f"{what}: {when}: {rows} and not {known}\n{text}", "bounds")
        cost = tuple(told["costs"][when].values())
        hold(cost == cost_by_rules(text), f"{what}: {when}: it costs {cost}, and not {cost_by_rules(text)}", "costs")
    after = cost_by_rules(texts["after"])
    hold((status == 0) == (after[:2] == (0, 0)), f"{what}: status {status} of {after}", "statuses")
    hold(all(name in steps and it % steps[name] == 0 for name, it in offsets.items()), f"{what}: {offsets}", "grids")
    return after


def check_system(folder, number, tally):
    """All ways by the tool, and by the rules; and a search that may try fewer."""
    system = drawn(number)
    file = written(folder, f"system{number}.toml", toml_of(system))
    steps = {it["name"]: 1 for it in system["source"]}
    best = min(cost_by_rules(toml_of(placed(system, it))) for it in ways(system, steps))
    what = f"system {number}"
    whole = asked(file, "--jobs", 2)
    after = check_answer(what, system, whole, steps)
    hold(whole[1]["all_tried"] and after == best, f"{what}: {after}, and the best is {best}\n{toml_of(system)}", "best")
    few = asked(file, "--tries", 25, "--jobs", 1)
    again = asked(file, "--tries", 25, "--jobs", 2)
    hold(few == again, f"{what}: the same call by two jobs: {few} {again}", "repeats")
    found = check_answer(f"{what}, 25 tries", system, few, steps)
    hold(found <= cost_by_rules(toml_of(system)), f"{what}: {found} is worse than before", "searches")
    tally["searched"] += 1
    tally["best"] += found == best
    check_some(folder, number, system)


def check_some(folder, number, system):
    """A source that is kept, a clock alone, and a grid of two ticks."""
    draw = random.Random(f"some {number}")
    sources = system["source"]
    kept = draw.choice(sources)["name"]
    file = written(folder, f"some{number}.toml", toml_of(system))
    steps = {it["name"]: 1 for it in sources if it["name"] != kept and it["clock"] == "c"}
    if steps:
        best = min(cost_by_rules(toml_of(placed(system, it))) for it in ways(system, steps))
        answer = asked(file, "--keep", kept, "--clock", "c")
        after = check_answer(f"some {number}, {kept} kept", system, answer, steps)
        hold(after == best, f"some {number}, {kept} kept: {after}, and the best is {best}", "best")
    steps = {it["name"]: 2 for it in sources}
    best = min(cost_by_rules(toml_of(placed(system, it))) for it in ways(system, steps))
    answer = asked(file, "--grid", 2)
    after = check_answer(f"some {number}, by twos", system, answer, steps)
    # by sources that stay odd it may cost less
    odd = [it["name"] for it in sources if it["offset"] % 2]
    moved = [name for name in answer[2] if name in odd]
    hold(after == best and len(moved) == len(odd), f"some {number}, by twos: {after}, and the best is {best}", "best")


def check_hand(folder):
    """A task of 3 ticks below one of 4, both with period 10: 3 where it comes 4 ticks later, and 7 at the same time."""
    answer = asked(written(folder, "hand.toml", HAND))
    rows = [(it["name"], it["before"], it["after"]) for it in answer[1]["bounds"]]
    hold(rows == [("p", 7, 3), ("a", 4, 4)], f"by hand: {rows}", "by hand")
    hold(answer[0] == 0 and answer[1]["all_tried"] and answer[1]["tries"] == 11, f"by hand: {answer}", "by hand")
    done = run("offsets", "--program", PROGRAM, written(folder, "hand.toml", HAND))
    hold("hold if sources on a clock keep their distances" in done.stderr, done.stderr, "by hand")
    hold(
        "path p" in done.stderr and "all 10 ways to place these sources were tried" in done.stderr,
        done.stderr,
        "by hand",
    )
    script = written(folder, "hand.script", done.stdout)
    told = subprocess.run(
        [PROGRAM, "session", f"{folder}/hand.toml", script], capture_output=True, text=True, check=False
    )
    hold("path p best 3 worst 3 deadline 5 met" in told.stdout, f"{done.stdout}{told.stdout}", "by hand")


def check_refused(folder):
    """Calls that are refused, and what they say."""
    for number, (text, words, said) in enumerate(REFUSED):
        done = run("offsets", "--program", PROGRAM, written(folder, f"refused{number}.toml", text), *words)
        hold(done.returncode == 1 and said in done.stderr, f"{words}: {done.returncode} {done.stderr}", "refused")
        hold(not done.stdout, f"{words}: {done.stdout}", "refused")
    done = run("offsets", "--program", PROGRAM, written(folder, "form.toml", HAND.replace("format = 4", "format = 2")))
    hold(done.returncode == 14 and "clock" in done.stderr, f"format 2: {done.returncode} {done.stderr}", "refused")
    full = HAND.replace("worst = 4", "worst = 9")
    done = run("offsets", "--program", PROGRAM, written(folder, "full.toml", full))
    hold(done.returncode == 3 and "the utilisation of r is 120.0 %" in done.stderr, done.stderr, "refused")


def check_ends(folder):
    """An end by time, and by an interrupt, which tells the best up to there."""
    with open(os.path.join(TOP, "examples", "offsets.toml"), encoding="utf-8") as it:
        file = written(folder, "ends.toml", it.read())
    words = ["--program", PROGRAM, file, "--tries", "1000000", "--json", "--output", f"{folder}/ends.script"]
    began = time.monotonic()
    done = run("offsets", *words, "--seconds", "2")
    hold(done.returncode == 0 and json.loads(done.stdout)["tries"] > 1, f"{done.returncode} {done.stderr}", "ends")
    hold(time.monotonic() - began < 60, f"2 seconds took {time.monotonic() - began:.0f}", "ends")
    # once it has told how far it is it has looked at some
    with subprocess.Popen(
        tool("offsets") + words, stdout=subprocess.PIPE, stderr=subprocess.PIPE, text=True, start_new_session=True
    ) as work:
        assert work.stderr
        work.stderr.readline()
        os.killpg(work.pid, signal.SIGINT)
        text, said = work.communicate(timeout=120)
    hold(
        work.returncode == 130 and "interrupted: this is the best up to there" in said,
        f"{work.returncode} {said}",
        "ends",
    )
    hold(text and json.loads(text)["tries"] > 1, f"an interrupt: {text}", "ends")


if __name__ == "__main__":
    COUNTED = "of {searched} searches of 25 tries {best} find the best; "
    check_all(__doc__, 20, NEEDS_PROGRAM, [check_hand, check_refused, check_ends], check_system, COUNTED)
