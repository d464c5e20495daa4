#!/usr/bin/env python3
"""Measures how long `lokwurmi analyse` takes with sources on clocks, and by how much bounds are lower by them.

The systems are:

- bus-100: 100 frames of 8 bytes from ten stations with a clock each, on a bus of 500 kbit/s, with periods of 10, 20,
  50, 100, 500 and 1,000 ms and drawn offsets; a tick is 2 us. The load is 0.58.
- tasks-512, tasks-64: tasks on one processor and one clock, with four periods and drawn offsets, at a load of 0.7.
- clocks-512: 512 tasks of eight clocks.

Prints a line a system: the least seconds of three calls, of one processor, those without the clocks, the peak memory in
megabytes, and the sum of the bounds as a share of that without the clocks. The first two that it names have bounds, and
it ends with 1 where one is passed.

    python3 -m bench.time_offsets [NAME ..]
"""
import random
import re
import sys
import tempfile

from bench.timing import names_of, passes, spent_over
from tests.support.calls import built, outcome, written
from tests.support.large_systems import document

PROGRAM = built("cpa_cli")
# seconds and megabytes that a call may take at most
BOUNDS = {"bus-100": (1.0, 200), "tasks-512": (1.0, 200)}
# ticks of 2 us, and of a hundred frames how many have each
PERIODS = {5_000: 5, 10_000: 15, 25_000: 25, 50_000: 35, 250_000: 10, 500_000: 10}


def source(draw, k, period, clock):
    return f'{{ name = "s{k}", period = {period}, clock = "{clock}", offset = {draw.randrange(period)} }}'


def bus(seed=1):
    """A hundred frames from ten stations; shorter periods have the higher priority."""
    draw = random.Random(seed)
    periods = [period for period, count in PERIODS.items() for _ in range(count)]
    sources = [source(draw, k, period, f"station{draw.randrange(10)}") for k, period in enumerate(periods)]
    tasks = [f'{{ name = "f{k}", on = "can", after = "s{k}", payload = 8, priority = {k} }}' for k in range(100)]
    return document(['{ name = "can", kind = "can" }'], sources, tasks)


def processor(count, clocks, seed=1):
    """So many tasks of some clocks, with periods of 1, 2, 5 and 10 times a base, and drawn executions."""
    draw, base, load = random.Random(seed), 100_000, 0.7
    several = sorted(draw.choice((1, 2, 5, 10)) * base for _ in range(count))
    shares = [draw.uniform(0.5, 1.5) for _ in range(count)]
    worst = [max(1, int(load * share / sum(shares) * period)) for share, period in zip(shares, several)]
    sources = [source(draw, k, period, f"clock{k % clocks}") for k, period in enumerate(several)]
    tasks = [
        f'{{ name = "t{k}", on = "cpu", after = "s{k}", best = {it}, worst = {it}, priority = {k} }}'
        for k, it in enumerate(worst)
    ]
    return document(['{ name = "cpu", kind = "preemptive", limit = 10_000_000 }'], sources, tasks)


SYSTEMS = {
    "bus-100": bus,
    "tasks-512": lambda: processor(512, 1),
    "tasks-64": lambda: processor(64, 1),
    "clocks-512": lambda: processor(512, 8),
}


def sum_of_bounds(text):
    """The sum of the bounds of a system, all of which are numbers."""
    with tempfile.TemporaryDirectory() as folder:
        report, _ = outcome(PROGRAM, "analyse", written(folder, "system.toml", text))
    return sum(int(line.split()[-1]) for line in report.splitlines() if line.startswith("task "))


def main():
    """Times the systems that are asked for; gives whether one passes its bounds."""
    passed = False
    for name in names_of(__doc__, list(SYSTEMS)):
        text = SYSTEMS[name]()
        plain = re.sub(r', clock = "\w+", offset = \d+', "", text)
        seconds, _, memory, last = min(spent_over([PROGRAM, "analyse"], [text]) for _ in range(3))
        without = min(spent_over([PROGRAM, "analyse"], [plain]) for _ in range(3))[0]
        share = sum_of_bounds(text) / sum_of_bounds(plain)
        print(
            f"{name:<12}{seconds:8.3f} s, without clocks {without:.3f} s, {memory:.1f} MB, bounds {share:.2f}: {last}",
            flush=True,
        )
        passed |= passes(name, BOUNDS.get(name), seconds, memory)
    return passed


if __name__ == "__main__":
    sys.exit(main())
