#!/usr/bin/env python3
"""Measures how much of the bounds is left by offsets: by drawn ones, by two known heuristics, and after the search of
`lokwurmi offsets`, which begins with the second of them.

The heuristics are the dissimilar offsets of Goossens ("Scheduling of Offset Free Systems", 2003): of each two sources,
those with the greatest common divisor of their periods first, one lies half of that behind the other; and that of
Grenier, Havet and Navet (2008): the middle of the longest stretch in which least comes.

Networks have 50 or 100 frames of 8 bytes from ten stations with a clock each, on a bus of 250 or 500 kbit/s, at a load
of about 0.55. Periods are 10 to 1,000 ms, as in bench/time_offsets.py, stations and offsets are drawn; a tick is 2 us,
and offsets are whole milliseconds.

Prints a line a network: the sum of the bounds, each as a share of its period, in percent of that without clocks, and
how many offsets were tried; at the end of each size the mean. With 0 SECONDS there is no search.

    python3 -m bench.choose_offsets [SECONDS a search, 60 if absent] [NETWORKS of each size, 3] [--frames 50]
"""
import itertools
import json
import math
import random
import re
import statistics
import tempfile
import tomllib

from bench.time_offsets import PERIODS
from lokwurmi.model.view import SystemView
from lokwurmi_tools.search.clock_places import Clocks, Grid
from tests.support.calls import NEEDS_PROGRAM, add_number, built, outcome, reader_of, run, written
from tests.support.large_systems import document

PROGRAM = built("cpa_cli")
# ticks of a millisecond
GRID = 500
# by how much fewer frames of each period there are than PERIODS has, and as much longer a bit is
PARTS = {50: 2, 100: 1}


def network(frames, seed):
    """A bus of ten stations; shorter periods have the higher priority."""
    draw = random.Random(f"{frames} frames {seed}")
    part = PARTS[frames]
    # odd counts are rounded up and down by turns, so that all together are right
    counts = [(count + k % part) // part for k, count in enumerate(PERIODS.values())]
    periods = [period for period, count in zip(PERIODS, counts) for _ in range(count)]
    periods += [list(PERIODS)[2]] * (frames - len(periods))
    sources = [
        f'{{ name = "s{k}", period = {it}, clock = "station{draw.randrange(10)}",'
        f" offset = {draw.randrange(0, it, GRID)} }}"
        for k, it in enumerate(sorted(periods[:frames]))
    ]
    tasks = [f'{{ name = "f{k}", on = "can", after = "s{k}", payload = 8, priority = {k} }}' for k in range(frames)]
    return document([f'{{ name = "can", kind = "can", bit = {part} }}'], sources, tasks)


def dissimilar(sources):
    """Offsets of the sources of a clock: of two that share most one lies half of that behind the other."""
    offsets = {}
    pairs = sorted(itertools.combinations(sources, 2), key=lambda it: -math.gcd(it[0]["period"], it[1]["period"]))
    for one, other in pairs:
        if other["name"] in offsets:
            one, other = other, one
        if other["name"] not in offsets:
            half = math.gcd(one["period"], other["period"]) // 2 // GRID * GRID
            offsets[other["name"]] = (offsets.setdefault(one["name"], 0) + half) % other["period"]
    return offsets


def shares(folder, text):
    """The sum of the bounds of a network, each as a share of its period."""
    told = outcome(PROGRAM, "analyse", written(folder, "other.toml", text))[0]
    return sum(int(worst) / int(period) for period, worst in re.findall(r"period (\d+) .* worst (\d+)$", told, re.M))


def placed(text, offsets):
    """A network by other offsets; a source that has none of these has 0."""
    return re.sub(r'(name = "(s\d+)".*?offset = )\d+', lambda it: f"{it[1]}{offsets.get(it[2], 0)}", text)


def by_heuristics(text):
    """A network by the offsets of each heuristic: the dissimilar ones, and those spread evenly."""
    view, clocks = SystemView.of(tomllib.loads(text)), {}
    for it in tomllib.loads(text)["source"]:
        clocks.setdefault(it["clock"], []).append(it)
    apart = {name: it for several in clocks.values() for name, it in dissimilar(several).items()}
    free = [name for clock in view.clocks_in_bounds for name in view.clocks[clock]]
    return placed(text, apart), placed(text, Clocks(view, free, Grid(GRID)).spread())


def searched(folder, text, seconds):
    """What the search leaves of the bounds of a network, as a share of those without clocks, and its tries."""
    more = ["--grid", GRID, "--tries", 1_000_000, "--seconds", seconds, "--json", "--output", f"{folder}/script"]
    told = json.loads(run("offsets", "--program", PROGRAM, written(folder, "network.toml", text), *more).stdout)
    return told["costs"]["after"]["shares"] / told["costs"]["without_clocks"]["shares"], told["tries"]


def measured(text, seconds):
    """What is left of the bounds of a network by each way, in percent, and how many offsets the search tried."""
    with tempfile.TemporaryDirectory() as folder:
        whole = shares(folder, re.sub(r', clock = "\w+", offset = \d+', "", text))
        row = [shares(folder, it) / whole for it in (text, *by_heuristics(text))]
        after, tries = searched(folder, text, seconds) if seconds else (None, 0)
    return [100 * it for it in (row if after is None else [*row, after])], tries


def main():
    reader = reader_of(__doc__, "60 3", NEEDS_PROGRAM)
    add_number(reader, "seconds", 60, "how long a search takes; 0 for the heuristics alone")
    add_number(reader, "networks", 3, "how many networks there are of each size")
    reader.add_argument("--frames", type=int, choices=PARTS, help="networks of this size alone")
    words = reader.parse_args()
    for frames in [words.frames] if words.frames else PARTS:
        rows = []
        for seed in range(words.networks):
            row, tries = measured(network(frames, seed), words.seconds)
            rows.append(row)
            show(f"{frames} frames, network {seed}", row, f", {tries} tries" if tries else "")
        if rows:
            show(f"{frames} frames, mean of {len(rows)}", [statistics.mean(it) for it in zip(*rows)], "")


def show(head, row, tail):
    says = ", ".join(f"{way} {it:.1f} %" for way, it in zip(("drawn", "dissimilar", "evenly", "search"), row))
    print(f"{head}: {says}{tail}", flush=True)


if __name__ == "__main__":
    main()
