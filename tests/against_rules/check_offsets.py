#!/usr/bin/env python3
"""Compares what the program says of sources on clocks with the rules followed plainly, from every start of a busy
window (tests/rules/clocks.py). Outside the gate.

Random systems have two kinds with priorities, and rings and slots beside them, clocks whose periods differ, chains that
come back, several activators, jitters and regions. Of each: the report; that no bound is above that without clocks; the
runs of traces that come by the clocks, which may have run for any time before, and that none is beyond a bound; which
traces are refused, and by which event; `offset` and `source` in scripts, with the edits that are refused; and that
`hammer` finds nothing beyond. Before them come cases worked out by hand, and files that are refused.

    python3 -m tests.against_rules.check_offsets [NUMBER of systems, 1000 if absent] [NUMBER to begin with, 0 if absent]
"""
import copy
import random

from tests.rules.bounds import System, bounds_in
from tests.rules.clocks import clocks_of, first_off
from tests.rules.edits import MOST_TICKS, is_too_long
from tests.rules.runs import Run, least_apart, simulated_text
from tests.support import beside_rules
from tests.support.beside_rules import PROGRAM
from tests.support.calls import NEEDS_PROGRAM, check_all, hold, outcome, written
from tests.support.clocked_systems import system_on_clocks, trace_on_clocks, without_clocks
from tests.support.systems import file_of, rows_of

# a task of 3 ticks below one of 4, both with period 10: by how much later its source is, its bound
LATER = {5: 3, 4: 3, 3: 4, 2: 5, 1: 6, 0: 7}


def two_tasks(*sources, kind="preemptive", form=4):
    """A task of 4 ticks above one of 3, each after a source of its own, which is told by its keys."""
    first, second = (", ".join(f"{key} = {value}" for key, value in it.items()) for it in sources)
    return (
        f'format = {form}\nresource = [{{ name = "r", kind = "{kind}" }}]\n'
        f'source = [{{ name = "s", {first} }}, {{ name = "q", {second} }}]\n'
        'task = [{ name = "a", on = "r", after = "s", best = 4, worst = 4, priority = 1 },'
        ' { name = "b", on = "r", after = "q", best = 3, worst = 3, priority = 2 }]\n'
    )


def on_clock(period=10, offset=None, clock='"c"'):
    return {"period": period, "clock": clock} | ({} if offset is None else {"offset": offset})


# two tasks by their sources, and the bound of the second; that of the first is its execution
SOURCES = {f"{offset} ticks later": ((on_clock(), on_clock(offset=offset)), it) for offset, it in LATER.items()} | {
    "on another clock": ((on_clock(), on_clock(offset=5, clock='"d"')), 7),
    "on no clock": ((on_clock(), {"period": 10}), 7),
    "of half as many": ((on_clock(), on_clock(20, 15)), 3),
    "of half as many, at once": ((on_clock(), on_clock(20, 10)), 7),
    "of twice as many": ((on_clock(20), on_clock(10, 5)), 3),
    "of twice as many, at once": ((on_clock(20), on_clock(10, 0)), 7),
}
WORKED = [(what, two_tasks(*sources), {"a": 4, "b": bound}) for what, (sources, bound) in SOURCES.items()]
WORKED += [("on a bus", two_tasks(on_clock(), on_clock(offset=5), kind="can"), {"a": 7, "b": 3})]
REFUSED = [
    (two_tasks(on_clock(), {"period": 10, "offset": 5}), "reason 1 source 2"),
    (two_tasks(on_clock(), on_clock(offset=10)), "reason 2 source 2"),
    (two_tasks(on_clock(), on_clock(offset=-1)), "reason 2 source 2"),
    (two_tasks(on_clock(offset=9), on_clock(clock='"c c"')), "reason 3 source 2"),
    (two_tasks(on_clock(clock='""'), on_clock()), "reason 3 source 1"),
    (two_tasks(on_clock(clock="1"), on_clock()), "reason 1 source 1"),
    (two_tasks(on_clock(offset='"1"'), on_clock()), "reason 1 source 1"),
    (two_tasks(on_clock(), on_clock(), form=2), "reason 1 source 1"),
    (two_tasks({"period": 10}, on_clock(), form=1), "reason 1 source 2"),
    (two_tasks(on_clock(99991), on_clock(99989)), "reason 15 source 2"),
    (two_tasks(on_clock(MOST_TICKS), on_clock(MOST_TICKS)), ""),
    (two_tasks(on_clock(MOST_TICKS), on_clock(3)), "reason 15 source 2"),
    (two_tasks(on_clock(100), on_clock(409_500)), ""),
    (two_tasks(on_clock(100), on_clock(409_600)), "reason 15 source 2"),
    (two_tasks(on_clock(100), on_clock(409_600, clock='"d"')), ""),
]


def check_by_hand(folder):
    """Bounds worked out by hand, and files that are refused for their clocks."""
    beside_rules.check_bounds(folder, WORKED)
    beside_rules.check_refused(folder, REFUSED)


def told_of(system, trace):
    """By which line a trace is refused that obeys in its executions; nothing where it isn't."""
    events = trace[0]
    for source in system["source"]:
        times = events[source["name"]]
        for n, time in enumerate(times):
            for i in range(n):
                if time < times[i] + least_apart(source, n - i + 1):
                    return f"trace disobeys source {source['name']} times {times[i]} {time}\n"
    found = first_off(system["source"], events)
    return f"trace disobeys clock {found[0]} {found[1]}\n" if found else ""


def disturbed(draw, trace):
    """A trace of which some events may not come by their clocks any more."""
    events = copy.deepcopy(trace[0])
    name = draw.choice([it for it, times in events.items() if times] or list(events))
    times, way = events[name], draw.randrange(4)
    place, by = draw.randrange(len(times) + 1), draw.randint(1, 4)
    if way == 0:
        times[place:] = [it + by for it in times[place:]]
    elif way == 1 and place < len(times):
        del times[place]
    elif way == 2 and place < len(times):
        times[place] += by
    elif all(it >= by for it in times):
        times[:] = [it - by for it in times]
    events[name] = sorted(times)
    return events, *trace[1:]


def check_traces(folder, draw, number, system, bounds):
    """Runs of traces that obey, and traces of which some don't."""
    for _ in range(3):
        trace = trace_on_clocks(draw, system)
        for it in (trace, disturbed(draw, trace)):
            refused = told_of(system, it)
            wrote = outcome(PROGRAM, "simulate", f"{folder}/system.toml", written(folder, "t.csv", rows_of(it)))
            if refused:
                told = refused, 17
            else:
                run = Run(system, it)
                told = simulated_text(system, run), 0
                late = [
                    (name, job)
                    for name, jobs in run.jobs.items()
                    for job in jobs
                    if job["end"] - job["arrival"] > bounds[name]
                ]
                hold(not late, f"system {number}: beyond a bound: {late[:1]}", "runs")
            kind = "traces refused" if refused else "traces"
            hold(wrote == told, f"system {number}: a trace: {wrote} and not {told}:\n{rows_of(it)}", kind)


def some_edit(draw, system):
    """An edit of a source, most often of its offset."""
    source = draw.choice(system["source"])
    name = draw.choice([source["name"]] * 12 + ["t0", "zz"])
    if draw.random() < 0.7:
        period = source["period"]
        return ["offset", name, str(draw.choice((0, *(draw.randrange(period) for _ in range(3)), period, 2 * 10**9)))]
    period = draw.choice((source["period"], max(1, source["period"] // 2), 2 * source["period"], 4099))
    others = [it for it in system["source"] if it is not source]
    there = [*others, source | {"period": period}]
    if period == 4099 and "clock" in source and not is_too_long(there, source["clock"]):
        # to follow each start of so long a cycle takes too long
        period = source["period"]
    numbers = (period, draw.choice((0, source["jitter"])), draw.choice((0, period, period + 1)))
    return ["source", name, *map(str, numbers)]


def check_system(folder, number, tally):
    draw = random.Random(f"offsets {number}")
    system = system_on_clocks(draw)
    bounds = bounds_in(beside_rules.check_report(folder, number, system))
    plain = System(file_of(without_clocks(system))).least_solution()
    above = [it for it in bounds if bounds[it] > plain[it]]
    hold(not above, f"system {number}: {above[:1]} has a bound above that without clocks", "systems")
    tally["bounds"] += len(bounds)
    tally["lower"] += sum(bounds[it] < plain[it] for it in bounds)
    check_traces(folder, draw, number, system, bounds)
    beside_rules.check_hammer(folder, number)
    if max(clocks_of(system["source"]).values(), default=1) <= 72:
        beside_rules.check_edits(folder, draw, number, system, some_edit)


if __name__ == "__main__":
    COUNTED = "{lower} of {bounds} bounds are lower by clocks; "
    check_all(__doc__, 1000, NEEDS_PROGRAM, [check_by_hand], check_system, COUNTED)
