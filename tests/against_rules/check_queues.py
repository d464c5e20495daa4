#!/usr/bin/env python3
"""Compares what the program says of queues with the rules followed plainly (tests/rules). Outside the gate.

Random systems have queues alone, or beside other kinds, with chains that come back, several activators, and bursts. Of
each: the report; runs, followed tick by tick, what `simulate`, `buffers` and `schedule` write of them, what `audit`
says of the schedule and of one that is changed, and that no response is beyond its bound; `assign`; edits in scripts,
with those that are refused; and that `hammer` finds nothing beyond. Before them come bounds and lengths of frames
worked out by hand, and files that are refused.

    python3 -m tests.against_rules.check_queues [NUMBER of systems, 1000 if absent] [NUMBER to begin with, 0 if absent]
"""
import random

from tests.rules.bounds import OVERLOAD, System
from tests.support import beside_rules
from tests.support.beside_rules import PROGRAM
from tests.support.calls import NEEDS_PROGRAM, check_all, hold, outcome, written
from tests.support.queue_systems import some_edit, system_with_queues


def queue_file(tasks, sources=("period = 10",), resource="", form=4, kind="fifo", more=""):
    """A file with tasks on one resource, each after the source of its number, or after the last one; all are told by
    their keys."""
    rows = [f'[[resource]]\nname = "r"\nkind = "{kind}"\n{resource}', more]
    rows += [f'[[source]]\nname = "s{k}"\n{it}' for k, it in enumerate(sources)]
    for k, it in enumerate(tasks):
        after = "" if "after" in it else f'after = "s{min(k, len(sources) - 1)}"\n'
        rows.append(f'[[task]]\nname = "{"abcdef"[k]}"\non = "r"\n{after}{it}')
    return "\n".join([f"format = {form}", *rows, ""])


def takes(worst, best=1):
    return f"best = {best}\nworst = {worst}"


def payload(size):
    return f"payload = {size}"


BURST = "period = 30\njitter = 27\ndistance = 3"
ENDLESS = '[[resource]]\nname = "p"\nkind = "preemptive"\nlimit = 60\n[[source]]\nname = "q"\nperiod = 2'
FULL = '\n[[task]]\nname = "z"\non = "p"\nafter = "q"\nbest = 1\nworst = 3\npriority = 1'
WORKED = [
    ("one alone", queue_file([takes(3)]), {"a": 3}),
    ("two that come at once", queue_file([takes(4), takes(3)]), {"a": 7, "b": 7}),
    ("three by their jitter", queue_file([takes(2)], ["period = 5\njitter = 10"]), {"a": 6}),
    # the second of the burst comes 3 ticks after the first, and waits for its other 7
    ("the second of a burst", queue_file([takes(10)], [BURST]), {"a": 17}),
    ("another beside the burst", queue_file([takes(10), takes(1)], [BURST, "period = 100"]), {"a": 18, "b": 18}),
    ("too full", queue_file([takes(6), takes(5)]), {"a": OVERLOAD, "b": OVERLOAD}),
    ("just full", queue_file([takes(6), takes(4)]), {"a": 10, "b": 10}),
    ("longer than its limit", queue_file([takes(4), takes(3)], resource="limit = 6"), {"a": OVERLOAD, "b": OVERLOAD}),
    ("as long as its limit", queue_file([takes(4), takes(3)], resource="limit = 7"), {"a": 7, "b": 7}),
    # a comes back to the queue as b: best 1 and bound 7, so that b comes up to 6 late
    ("a chain within a queue", queue_file([takes(4), 'after = "a"\n' + takes(3)]), {"a": 7, "b": 7}),
    (
        "an input without a bound",
        queue_file([takes(1), 'after = "z"\n' + takes(1)], more=ENDLESS) + FULL.lstrip("\n") + "\n",
        {"a": OVERLOAD, "b": OVERLOAD, "z": OVERLOAD},
    ),
    (
        "frames on a port of 100 bits in a tick",
        queue_file([payload(1000), takes(9)], ["period = 1000"], "rate = 100"),
        {"a": 93, "b": 93},
    ),
    (
        "sources on a clock, which tell nothing on a queue",
        queue_file([takes(4), takes(3)], ['period = 10\nclock = "c"', 'period = 10\nclock = "c"\noffset = 5'], form=4),
        {"a": 7, "b": 7},
    ),
]
# bytes of a frame, bits in a tick, and the least and the greatest ticks: 672 bits are the fewest, 12,304 the most
LENGTHS = [
    (0, 1, 672, 672),
    (46, 672, 1, 1),
    (47, 672, 1, 2),
    (46, 100, 6, 7),
    (1500, 1, 12304, 12304),
    (1500, 100, 123, 124),
    (1500, 672, 18, 19),
]
ONE = "period = 1000000"
REFUSED = [
    (queue_file([takes(1)], form=1), "reason 1 resource 1"),
    (queue_file([takes(1)], form=2), "reason 1 resource 1"),
    (
        queue_file(["best = 1\nworst = 1\npriority = 1"], kind="preemptive", resource="rate = 1", form=2),
        "reason 1 resource 1",
    ),
    (queue_file([takes(1)]), ""),
    (queue_file([takes(1)], resource="rate = 0"), "reason 2 resource 1"),
    (queue_file([takes(1)], resource="rate = -1"), "reason 2 resource 1"),
    (queue_file([takes(1)], resource="rate = 1"), ""),
    (queue_file([takes(1)], resource="rate = 672"), ""),
    (queue_file([takes(1)], resource="rate = 673"), "reason 2 resource 1"),
    (queue_file([takes(1)], resource='rate = "1"'), "reason 1 resource 1"),
    (queue_file([takes(1)], resource="rate = 1.0"), "reason 1 resource 1"),
    (queue_file([takes(1)], resource="gap = 0"), "reason 9 resource 1"),
    (queue_file([takes(1)], resource="bit = 1"), "reason 9 resource 1"),
    (queue_file([takes(1) + "\npriority = 1"], kind="preemptive", resource="rate = 1"), "reason 9 resource 1"),
    (queue_file([takes(1) + "\npriority = 1"], kind="can", resource="rate = 1"), "reason 9 resource 1"),
    (queue_file([takes(1) + "\nslot = 1"], kind="tdma", resource="rate = 1"), "reason 9 resource 1"),
    (queue_file([takes(1) + "\nslot = 1"], kind="round-robin", resource="rate = 1"), "reason 9 resource 1"),
    (queue_file([takes(1) + "\npriority = 1"]), "reason 9 task 1"),
    (queue_file([takes(1) + "\nslot = 1"]), "reason 9 task 1"),
    (queue_file([takes(1), takes(1) + "\nregion = 1"]), "reason 9 task 2"),
    (queue_file([payload(0) + "\nextended = false"], [ONE]), "reason 9 task 1"),
    (queue_file([payload(0) + "\nextended = true"], [ONE]), "reason 9 task 1"),
    (queue_file([takes(1) + "\nextended = true"], [ONE]), "reason 1 task 1"),
    (queue_file([payload(0)], [ONE]), ""),
    (queue_file([payload(1500)], [ONE]), ""),
    (queue_file([payload(1501)], [ONE]), "reason 2 task 1"),
    (queue_file([payload(-1)], [ONE]), "reason 2 task 1"),
    (queue_file([payload(1) + "\nbest = 1"], [ONE]), "reason 1 task 1"),
    (queue_file(["best = 1"], [ONE]), "reason 1 task 1"),
    (queue_file([""], [ONE]), "reason 1 task 1"),
    (queue_file([takes(1, 2)], [ONE]), "reason 10 task 1"),
    (queue_file([payload(8) + "\npriority = 1"], [ONE], kind="can"), ""),
    (queue_file([payload(9) + "\npriority = 1"], [ONE], kind="can"), "reason 9 task 1"),
    (queue_file([payload(1500) + "\npriority = 1"], [ONE], kind="can"), "reason 9 task 1"),
    (queue_file([payload(1501) + "\npriority = 1"], [ONE], kind="can"), "reason 2 task 1"),
    (queue_file([payload(9) + "\npriority = 1"], [ONE], kind="can", form=2), "reason 2 task 1"),
    (queue_file([payload(1) + "\npriority = 1"], [ONE], kind="preemptive"), "reason 9 task 1"),
    (queue_file([payload(1) + "\nslot = 1"], [ONE], kind="round-robin"), "reason 9 task 1"),
]


def check_by_hand(folder):
    """Bounds and lengths worked out by hand, and files that are refused."""
    beside_rules.check_bounds(folder, WORKED)
    beside_rules.check_refused(folder, REFUSED)
    for size, rate, best, worst in LENGTHS:
        text = queue_file([payload(size)], [ONE], f"rate = {rate}")
        wrote = outcome(PROGRAM, "analyse", written(folder, "worked.toml", text))[0].splitlines()[0]
        is_so = wrote.endswith(f" best {best} worst {worst}")
        hold(is_so, f"{size} bytes at {rate} bits in a tick: {wrote}", "lengths of frames")
    draw = random.Random(1)
    for _ in range(100):
        text = queue_file([payload(draw.randint(0, 1500))], [ONE], f"rate = {draw.randint(1, 672)}")
        wrote = outcome(PROGRAM, "analyse", written(folder, "worked.toml", text))
        hold(wrote == System(text).report(), f"{text}: {wrote[0]}", "lengths of frames")


def check_system(folder, number, tally):
    draw = random.Random(f"queues {number}")
    system = system_with_queues(draw)
    beside_rules.check_system(folder, draw, number, system, some_edit, "fifo", tally)
    beside_rules.check_orders(folder, number, system, "fifo", 2)


if __name__ == "__main__":
    COUNTED = "{reached} of {bounds} bounds on queues are reached by a run; "
    check_all(__doc__, 1000, NEEDS_PROGRAM, [check_by_hand], check_system, COUNTED)
