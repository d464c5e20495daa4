#!/usr/bin/env python3
"""Compares what the program says of locks under priority ceilings with the rules followed plainly (tests/rules).
Outside the gate.

Random systems have such resources alone, or beside other kinds, with sections nested and apart, regions, chains that
come back, several activators, and bursts. Of each: the report; runs, followed tick by tick, what `simulate`,
`buffers` and `schedule` write of them, what `audit` says of the schedule and of one that is changed, that no response
is beyond its bound, that no two tasks hold one lock, and that none with it runs meanwhile; that an order of `assign`
meets the deadlines of its tasks, and where there is none that the file's and some others don't; edits in scripts,
with those that are refused; and that `hammer` finds nothing beyond. Before them come bounds and runs worked out by
hand, and files that are refused. Of all systems of two tasks of up to three ticks each, with a section or a region,
the plain rules are held against each other: each bound is the greatest response of a run.

    python3 -m tests.against_rules.check_locks [NUMBER of systems, 1000 if absent] [NUMBER to begin with, 0 if absent]
"""
import itertools
import random
import re

from tests.against_rules.check_queues import takes
from tests.rules.bounds import System
from tests.rules.runs import Run, plain
from tests.support import beside_rules
from tests.support.calls import NEEDS_PROGRAM, built, check_all, hold, outcome, written
from tests.support.lock_systems import system_with_locks
from tests.support.queue_systems import some_edit
from tests.support.systems import file_of


def lock_file(tasks, periods=(1000,), form=4, kind="ceiling", more=""):
    """A file with tasks on one resource, each after the source of its number, or after the last one, and with its
    number as priority; all are told by their keys."""
    rows = [f'[[resource]]\nname = "r"\nkind = "{kind}"', more]
    rows += [f'[[source]]\nname = "s{k}"\nperiod = {it}' for k, it in enumerate(periods)]
    for k, it in enumerate(tasks):
        # a task may tell these itself
        keys = {"on": '"r"', "after": f'"s{min(k, len(periods) - 1)}"', "priority": k}
        if kind in ("fifo", "round-robin", "tdma"):
            del keys["priority"]
        told = "".join(f"{key} = {value}\n" for key, value in keys.items() if f"\n{key} = " not in "\n" + it)
        rows.append(f'[[task]]\nname = "{"abcdef"[k]}"\n{told}{it}')
    return "\n".join([f"format = {form}", *rows, ""])


def held(*several):
    """The key of sections, each told by its lock, where it begins and how long it is."""
    rows = (f'{{ name = "{name}", start = {start}, length = {length} }}' for name, start, length in several)
    return f"\nlocks = [{', '.join(rows)}]"


# tasks of 2, 5 and 8 ticks: the first and the last use lock x, the last two lock y
THREE = [takes(2) + held(("x", 0, 2)), takes(5) + held(("y", 1, 3)), takes(8) + held(("x", 1, 4), ("y", 6, 9))]
ON_CLOCK = ['100\nclock = "c"', '100\nclock = "c"\noffset = 50', "100"]
WORKED = [
    # b is blocked by the rest of the section with y, which doesn't go on beyond the end of its job
    ("two locks", lock_file(THREE, (10, 20, 100)), {"a": 5, "b": 16, "c": 17}),
    ("no lock", lock_file([takes(2), takes(5), takes(8)], (10, 20, 100)), {"a": 2, "b": 7, "c": 17}),
    (
        "a task between the users of a lock",
        lock_file([takes(1) + held(("x", 0, 1)), takes(2), takes(9) + held(("x", 2, 5))]),
        {"a": 5, "b": 7, "c": 12},
    ),
    (
        "a ceiling that is less urgent",
        lock_file([takes(1), takes(2) + held(("x", 0, 1)), takes(9) + held(("x", 2, 5))]),
        {"a": 1, "b": 7, "c": 12},
    ),
    ("a lock of one task", lock_file([takes(1), takes(9) + held(("x", 0, 9))]), {"a": 1, "b": 10}),
    (
        "the longest of several sections, not their sum",
        lock_file([takes(1) + held(("x", 0, 1)), takes(9) + held(("x", 0, 3), ("x", 4, 2), ("x", 7, 2))]),
        {"a": 3, "b": 10},
    ),
    (
        "the longest of several tasks, not their sum",
        lock_file([takes(1) + held(("x", 0, 1)), takes(9) + held(("x", 0, 3)), takes(9) + held(("x", 5, 4))]),
        {"a": 4, "b": 13, "c": 19},
    ),
    ("a section of a tick", lock_file([takes(1) + held(("x", 0, 1)), takes(9) + held(("x", 3, 1))]), {"a": 1, "b": 10}),
    (
        "a section longer than its job",
        lock_file([takes(1) + held(("x", 0, 1)), takes(4) + held(("x", 1, 50))]),
        {"a": 4, "b": 5},
    ),
    (
        "a section that never begins, which counts",
        lock_file([takes(1) + held(("x", 0, 1)), takes(4) + held(("x", 4, 3))]),
        {"a": 3, "b": 5},
    ),
    (
        "a section within another",
        lock_file(
            [takes(1) + held(("x", 0, 1)), takes(2) + held(("y", 0, 1)), takes(9) + held(("y", 1, 7), ("x", 3, 2))]
        ),
        {"a": 2, "b": 9, "c": 12},
    ),
    ("a region", lock_file([takes(1), takes(20) + "\nregion = 5"]), {"a": 5, "b": 21}),
    ("a region as long as the job", lock_file([takes(1), takes(3) + "\nregion = 5"]), {"a": 3, "b": 4}),
    (
        "a region below a section",
        lock_file([takes(1) + held(("x", 0, 1)), takes(9) + held(("x", 0, 3)), takes(9) + "\nregion = 4"]),
        {"a": 4, "b": 13, "c": 19},
    ),
    ("no locks told", lock_file([takes(1) + "\nlocks = []", takes(3)]), {"a": 1, "b": 4}),
    (
        "sources on a clock",
        lock_file([takes(5), takes(7) + held(("x", 0, 1)), takes(9) + held(("x", 0, 4))], ON_CLOCK),
        {"a": 5, "b": 10, "c": 16},
    ),
    (
        "a chain within a resource",
        lock_file([takes(2) + held(("x", 0, 1)), 'after = "a"\n' + takes(3), takes(4) + held(("x", 0, 3))], (50,)),
        # a comes up to 4 late with best 1, so that b comes up to 3 late
        {"a": 4, "b": 7, "c": 9},
    ),
]
# of tasks, and when jobs of each come, who runs when
FOLLOWED = [
    (
        # c has had a tick of its section by 4, and keeps b waiting; a came before that
        lock_file([takes(2) + held(("x", 0, 1)), takes(2), takes(6) + held(("x", 1, 3))], (100, 100, 100)),
        {"s2": [0], "s0": [1], "s1": [4]},
        "c,0,1\na,1,3\nc,3,6\nb,6,8\nc,8,10\n",
    ),
    (
        # as urgent as a, and within its section, b goes on
        lock_file([takes(2) + held(("x", 0, 1)), takes(5) + held(("x", 0, 3))], (100, 100)),
        {"s1": [0], "s0": [2]},
        "b,0,3\na,3,5\nb,5,7\n",
    ),
    (
        # behind the inner section the ceiling is that of the outer one: a goes on, b doesn't
        lock_file(
            [takes(1) + held(("x", 0, 1)), takes(1) + held(("y", 0, 1)), takes(6) + held(("y", 0, 5), ("x", 1, 2))],
            (9, 9, 9),
        ),
        {"s2": [0], "s0": [2], "s1": [2]},
        "c,0,3\na,3,4\nc,4,6\nb,6,7\nc,7,8\n",
    ),
    (
        # between two sections that follow one another the lock is given back
        lock_file([takes(1) + held(("x", 0, 1)), takes(6) + held(("x", 0, 2), ("x", 2, 3))], (9, 9)),
        {"s1": [0], "s0": [1]},
        "b,0,2\na,2,3\nb,3,7\n",
    ),
    (
        # regions of two ticks
        lock_file([takes(1), takes(5) + "\nregion = 2"], (20, 20)),
        {"s1": [0], "s0": [3]},
        "b,0,4\na,4,5\nb,5,6\n",
    ),
]
ONE, LOCK = takes(3), held(("x", 0, 1))
OTHER = '[[resource]]\nname = "q"\nkind = "ceiling"'
ELSEWHERE = 'on = "q"\nbest = 1\nworst = 3'
REFUSED = [
    (lock_file([ONE]), ""),
    (lock_file([ONE], form=2), "reason 1 resource 1"),
    (lock_file([ONE], form=1), "reason 1 resource 1"),
    (lock_file([ONE + LOCK], form=2, kind="preemptive"), "reason 1 task 1"),
    (lock_file([ONE + "\nlocks = []"], form=2, kind="preemptive"), "reason 1 task 1"),
    *[
        (lock_file([ONE, ONE + f"\nlocks = {it}"]), "reason 1 task 2")
        for it in (
            '"x"',
            "1",
            '["x"]',
            "[[]]",
            "{}",
            '[{ name = "x", start = 0 }]',
            '[{ name = "x", length = 1 }]',
            "[{ start = 0, length = 1 }]",
            '[{ name = "x", start = 0, length = 1, ceiling = 1 }]',
            "[{ name = 1, start = 0, length = 1 }]",
            '[{ name = "x", start = "0", length = 1 }]',
            '[{ name = "x", start = 0, length = 1.0 }]',
            '[{ name = "x", start = true, length = 1 }]',
            '[{ name = "x", start = 0, length = 1 }, 1]',
        )
    ],
    (lock_file([ONE + held(("x", 0, 0))]), "reason 2 task 1"),
    (lock_file([ONE + held(("x", -1, 1))]), "reason 2 task 1"),
    (lock_file([ONE + held(("x", 10_000_000, 10_000_000), ("y", 0, 1))]), ""),
    (lock_file([ONE + held(("x", 10_000_001, 1))]), "reason 2 task 1"),
    (lock_file([ONE + held(("y", 0, 1), ("x", 0, 10_000_001))]), "reason 2 task 1"),
    (lock_file([ONE + "\nregion = 10000001"]), "reason 2 task 1"),
    (lock_file([ONE + held(("x y", 0, 1))]), "reason 3 task 1"),
    (lock_file([ONE + held(("x", 0, 1), ("", 0, 1))]), "reason 3 task 1"),
    (lock_file([ONE + held(("n" * 64, 0, 1))]), ""),
    (lock_file([ONE + held(("n" * 65, 0, 1))]), "reason 3 task 1"),
    (lock_file([ONE + held(("a", 0, 1), ("r", 0, 1), ("s0", 0, 1))]), ""),
    (lock_file([ONE + "\nslot = 1"]), "reason 9 task 1"),
    (lock_file(["payload = 1"]), "reason 9 task 1"),
    (lock_file(["payload = 1\nextended = true"]), "reason 9 task 1"),
    (lock_file([ONE], more="gap = 1"), "reason 9 resource 1"),
    (lock_file([ONE], more="bit = 1"), "reason 9 resource 1"),
    (lock_file([ONE], more="rate = 1"), "reason 9 resource 1"),
    (lock_file([ONE + LOCK], kind="preemptive"), "reason 9 task 1"),
    (lock_file([ONE + LOCK], kind="can"), "reason 9 task 1"),
    (lock_file([ONE + LOCK], kind="fifo"), "reason 9 task 1"),
    (lock_file([ONE + "\nslot = 1" + LOCK], kind="round-robin"), "reason 9 task 1"),
    (lock_file([ONE + "\nslot = 1" + LOCK], kind="tdma"), "reason 9 task 1"),
    *[(lock_file([ONE + "\nlocks = []"], kind=kind), "") for kind in ("preemptive", "can", "fifo")],
    (lock_file([ONE + "\nslot = 1\nlocks = []"], kind="tdma"), ""),
    (lock_file([ONE, ONE + "\npriority = 0"]), "reason 8 task 2"),
    (lock_file([ONE]).replace("priority = 0\n", ""), "reason 9 task 1"),
    (lock_file([ONE + held(*(("x", k, 1) for k in range(64)))]), ""),
    (lock_file([ONE + held(*(("x", k, 1) for k in range(65)))]), "reason 16 task 1"),
    (lock_file([ONE + LOCK + "\nregion = 1"]), ""),
    (lock_file([ONE + LOCK + "\nregion = 2"]), "reason 16 task 1"),
    (lock_file([ONE + "\nlocks = []\nregion = 2"]), ""),
    (lock_file([ONE, ONE + held(("x", 0, 2), ("y", 1, 2))]), "reason 16 task 2"),
    (lock_file([ONE, ONE + held(("x", 1, 2), ("y", 0, 2))]), "reason 16 task 2"),
    (lock_file([ONE, ONE + held(("x", 1, 2), ("x", 0, 2))]), "reason 16 task 2"),
    (lock_file([ONE + held(("x", 0, 2), ("y", 0, 3), ("z", 2, 1), ("x", 2, 1))]), ""),
    (lock_file([ONE + held(("x", 0, 4), ("y", 4, 2), ("z", 1, 3), ("z", 5, 1))]), ""),
    (lock_file([ONE + held(("x", 0, 4), ("y", 4, 2), ("z", 1, 4))]), "reason 16 task 1"),
    (lock_file([ONE + LOCK, ELSEWHERE + LOCK], more=OTHER), "reason 16 task 2"),
    (lock_file([ONE + LOCK, ELSEWHERE + held(("y", 0, 1))], more=OTHER), ""),
    (lock_file([ONE + LOCK, ELSEWHERE, ONE + LOCK], more=OTHER), ""),
    (lock_file([ONE + LOCK, ELSEWHERE, ONE, ELSEWHERE.replace("1", "2", 1) + LOCK], more=OTHER), "reason 16 task 4"),
    # reason 16 comes behind all others
    (lock_file([ONE + held(("x", 0, 2), ("y", 1, 2))], ('1\nclock = "c"', '4097\nclock = "c"')), "reason 15 source 2"),
]


def check_by_hand(folder):
    """Bounds and runs worked out by hand, and files that are refused."""
    beside_rules.check_bounds(folder, WORKED)
    beside_rules.check_refused(folder, REFUSED)
    for text, events, told in FOLLOWED:
        trace = "".join(f"event,{source},{time}\n" for source, times in events.items() for time in times)
        file = written(folder, "worked.toml", text)
        wrote = outcome(built("cpa_cli"), "schedule", file, written(folder, "worked.csv", trace))
        hold(wrote == (told, 0), f"{text}{trace}{wrote[0]}", "worked runs")


def shapes(worst):
    """What a task of so many ticks may have: nothing, a region, or a section."""
    yield {"region": 1, "locks": []}
    yield from ({"region": it, "locks": []} for it in range(2, worst + 1))
    for start in range(worst):
        for length in range(1, worst - start + 1):
            yield {"region": 1, "locks": [{"name": "x", "start": start, "length": length}]}


def check_all_small(_):
    """Of all systems of two small tasks, whose jobs come at any times, the bounds are the greatest responses."""
    each = [{"best": it, "worst": it} | shape for it in (1, 2, 3) for shape in shapes(it)]
    for pair in itertools.product(each, repeat=2):
        tasks = [
            it | {"name": name, "on": "r", "after": [f"s{name}"], "priority": rank}
            for rank, (name, it) in enumerate(zip("ab", pair))
        ]
        sources = [{"name": f"s{it}", "period": 100, "jitter": 0, "distance": 0} for it in "ab"]
        system = {
            "resource": [{"name": "r", "kind": "ceiling", "gap": 0}],
            "source": sources,
            "task": tasks,
            "path": [],
        }
        bounds, seen = System(file_of(system)).least_solution(), {"a": 0, "b": 0}
        for later in range(-4, 5):
            events = {"sa": [max(0, later)], "sb": [max(0, -later)]}
            run = Run(plain(system), (events, {"a": [], "b": []}, {}))
            seen = {
                name: max(most, run.jobs[name][0]["end"] - run.jobs[name][0]["arrival"]) for name, most in seen.items()
            }
        hold(seen == bounds, f"{pair}: runs reach {seen}, and the bounds are {bounds}", "small systems")


def meets(system, ranks, deadlines):
    """Whether tasks with these priorities are within their deadlines, by the rules."""
    tasks = [it | {"priority": ranks.get(it["name"], it["priority"])} for it in system["task"]]
    bounds = System(file_of(system | {"task": tasks})).least_solution()
    return all(bounds[name] <= most for name, most in deadlines.items())


def check_orders(folder, number, system, on, tally):
    """What `assign` answers of a resource whose tasks have deadlines, each alone."""
    draw, tasks = random.Random(f"orders {number} {on}"), [it for it in system["task"] if it["on"] == on]
    deadlines = {it["name"]: draw.randint(it["worst"], 40) for it in tasks if draw.random() < 0.8}
    paths = [{"name": f"p{name}", "tasks": [name], "deadline": most} for name, most in deadlines.items()]
    wrote, status = outcome(
        built("cpa_cli"), "assign", written(folder, "orders.toml", file_of(system | {"path": paths})), on
    )
    what, names = f"system {number}: assign {on} with {deadlines}", {it["name"] for it in system["task"]}
    if any(names.intersection(it["after"]) for it in tasks):
        hold((wrote, status) == ("assign refused 3\n", 18), f"{what}: {wrote}", "orders")
        return
    ranks = {name: int(rank) for name, rank in re.findall(r"^priority (\S+) (\d+)$", wrote, re.M)}
    given = sorted(it["priority"] for it in tasks)
    tally["none" if status else "ordered"] += 1
    if status == 0:
        hold(sorted(ranks.values()) == given, f"{what}: other numbers: {wrote}", "orders")
        hold(meets(system, ranks, deadlines), f"{what}: late by {wrote}", "orders")
        return
    hold((wrote, status) == (f"none {on}\n", 3), f"{what}: {wrote}", "orders")
    for several in [given] + [draw.sample(given, len(given)) for _ in range(3)]:
        other = {it["name"]: rank for it, rank in zip(tasks, several)}
        hold(not meets(system, other, deadlines), f"{what}: none, but {other} meets", "orders")


def check_system(folder, number, tally):
    draw = random.Random(f"locks {number}")
    system = system_with_locks(draw)
    beside_rules.check_system(folder, draw, number, system, some_edit, "ceiling", tally)
    for it in system["resource"]:
        if it["kind"] == "ceiling":
            check_orders(folder, number, system, it["name"], tally)


if __name__ == "__main__":
    COUNTED = (
        "{reached} of {bounds} bounds under ceilings are reached by a run; {ordered} orders, and {none} times none; "
    )
    check_all(__doc__, 1000, NEEDS_PROGRAM, [check_by_hand, check_all_small], check_system, COUNTED)
