#!/usr/bin/env python3
"""Measures how long `simulate`, `buffers`, `audit` and `schedule` take from their files to the text, and how much
memory.

Makes traces as text and prints a line a case: the least time of some calls, the peak memory, the last line.

- chain: 200,000 events of one source through a chain of ten tasks over eight resources of all kinds, which are
  2,000,000 jobs and end at the horizon or before;
- far event and near events: a TDMA resource with two events, 10,000,000 ticks apart, and with two that are near; their
  times differ by what the reading of a few bytes takes, as no step is made for a tick in which nothing changes;
- burst: 3,900 events of one source at once, which 512 tasks of one processor follow: 1,996,800 jobs that all wait;
- car network: the network of a car with all its sources at their periods, over 1,000,000 ticks.

Each case goes to `simulate` and to `buffers`; the chain also to `audit`, with the first 200,000 segments of its run as
the schedule, as many as one may have, and with one of which the first is wrong. So that it is seen what an audit takes
beside its trace and its schedule, chains of ten tasks and of one and the burst go to it with an empty schedule.

The chain goes to `schedule` too, and so do (apart) tasks on 2, 8, 32 and 64 processors that have nothing to do with
each other: its time grows with the number of resources. These lines tell the seconds of a processor that one call
takes.

    python3 -m bench.time_simulate [NAME ..]
"""
import os
import tomllib

from bench.timing import least_over, names_of, spent_over
from tests.rules.runs import Run
from tests.support.calls import NEEDS_PROGRAM, TOP, built

PROGRAM = os.path.join(TOP, "crates/cpa_cli/out/cpa_cli")
PROGRAM = built("cpa_cli")

CHAIN_KINDS = ["preemptive", "can", "round-robin", "tdma", "preemptive", "can", "round-robin", "tdma"]


def chain(tasks=10):
    """So many tasks in a chain over eight resources, two of each kind; ten have two tasks each on the first two."""
    text = ["format = 1", "resource = ["]
    text += [f'{{ name = "r{r}", kind = "{kind}" }},' for r, kind in enumerate(CHAIN_KINDS)]
    text += ["]", 'source = [{ name = "s", period = 50 }]', "task = ["]
    for k in range(tasks):
        kind = CHAIN_KINDS[k % 8]
        turn = "slot = 4" if kind in ("round-robin", "tdma") else f"priority = {k}"
        after = f"t{k - 1}" if k else "s"
        text.append(f'{{ name = "t{k}", on = "r{k % 8}", after = "{after}", best = 1, worst = 4, {turn} }},')
    text += ["]", 'path = [{ name = "whole", tasks = [' + ", ".join(f'"t{k}"' for k in range(tasks)) + "] }]"]
    rows = "".join(f"event,s,{50 * n}\n" for n in range(200_000))
    return "\n".join(text) + "\n", rows


def chain_schedule(system):
    """The first 200,000 segments of that run: from tick 1,000 on the same 100 ticks come again and again."""
    lists = tomllib.loads(system)
    for resource in lists["resource"]:
        resource["gap"] = 0
    phases = {resource["name"]: 0 for resource in lists["resource"]}
    run = Run(lists, ({"s": [50 * n for n in range(40)]}, {task["name"]: [] for task in lists["task"]}, phases))
    segments = [it for it in run.segments if it[1] < 1000]
    again = [it for it in run.segments if 1000 <= it[1] < 1100]
    turn = 0
    while len(segments) < 200_000:
        segments += [[task, start + 100 * turn, end + 100 * turn] for task, start, end in again]
        turn += 1
    return "".join(f"{task},{start},{end}\n" for task, start, end in segments[:200_000])


TDMA = """format = 1
resource = [{ name = "ring", kind = "tdma", gap = 8 }]
source = [{ name = "s", period = 40 }]
task = [{ name = "t", on = "ring", after = "s", best = 3, worst = 3, slot = 2 }]
"""


def burst():
    """One processor with 512 tasks, all of which follow each event of one source."""
    text = ["format = 1", 'resource = [{ name = "cpu", kind = "preemptive" }]']
    text += ['source = [{ name = "s", period = 10, jitter = 1_000_000 }]', "task = ["]
    text += [f'{{ name = "t{k}", on = "cpu", after = "s", best = 1, worst = 1, priority = {k} }},' for k in range(512)]
    return "\n".join(text) + "\n]\n", "event,s,0\n" * 3900


def apart(resources):
    """Five tasks, one after the other, on each of so many processors: some 950,000 jobs, which don't wait for other
    processors."""
    text = ["format = 1", "resource = ["]
    text += [f'{{ name = "r{r}", kind = "preemptive" }},' for r in range(resources)]
    text += ["]", "source = ["]
    text += [f'{{ name = "s{r}", period = 50 }},' for r in range(resources)]
    text += ["]", "task = ["]
    for r in range(resources):
        for k in range(5):
            after = f"t{r}_{k - 1}" if k else f"s{r}"
            text.append(
                f'{{ name = "t{r}_{k}", on = "r{r}", after = "{after}", best = 1, worst = {1 + r % 3},'
                f" priority = {k} }},"
            )
    rows = [f"event,s{r},{50 * n + r % 7}\n" for r in range(resources) for n in range(190_000 // resources)]
    return "\n".join(text) + "\n]\n", "".join(rows)


def car():
    with open(os.path.join(TOP, "examples/car_network.toml")) as file:
        system = file.read()
    rows = []
    for line in system.splitlines():
        line = line.strip()
        if line.startswith("{ name = ") and "period" in line:
            name = line.split('"')[1]
            period = int(line.split("period = ")[1].split()[0].strip(",}"))
            rows += [f"event,{name},{time}\n" for time in range(0, 1_000_001, period)]
    return system, "".join(rows)


CASES = {
    "chain": chain,
    "far event": lambda: (TDMA, "event,s,0\nevent,s,10000000\n"),
    "near events": lambda: (TDMA, "event,s,0\nevent,s,40\n"),
    "burst": burst,
    "car network": car,
}


def show(what, seconds, peak, last):
    print(f"{what:22} {seconds:.3f} s {peak:6.1f} MB  {last}")


def main():
    wanted = names_of(__doc__, [*CASES, "apart"], NEEDS_PROGRAM)
    for name in wanted:
        for command in ("simulate", "buffers") if name in CASES else ():
            show(f"{command} {name}", *least_over([PROGRAM, command], CASES[name](), 5))
    if "chain" in wanted:
        system, trace = chain()
        schedule = chain_schedule(system)
        show("audit chain", *least_over([PROGRAM, "audit"], (system, trace, schedule), 5))
        show("audit wrong", *least_over([PROGRAM, "audit"], (system, trace, schedule.replace(",0,", ",1,", 1)), 5))
        show("audit chain, empty", *least_over([PROGRAM, "audit"], (system, trace, ""), 5))
        show("audit one task, empty", *least_over([PROGRAM, "audit"], (*chain(1), ""), 5))
        show("schedule chain", *least_over([PROGRAM, "schedule"], (system, trace), 5))
    if "burst" in wanted:
        show("audit burst, empty", *least_over([PROGRAM, "audit"], (*burst(), ""), 5))
    if "apart" in wanted:
        for resources in (2, 8, 32, 64):
            seconds, _, peak, last = spent_over([PROGRAM, "schedule"], apart(resources))
            show(f"schedule apart, {resources}", seconds, peak, last)


if __name__ == "__main__":
    main()
