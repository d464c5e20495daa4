#!/usr/bin/env python3
"""Times a campaign of hammer on 1, 2, .. processors, up to all of this machine, beside one call of hammer. Outside the
gate.

    python3 -m bench.time_campaign [--traces N] [--call K] [--rounds R] [--program PROGRAM] [FILE]

FILE is examples/car_network.toml if absent.

Each line has the processors, which scheduler, workers and calls share; the least seconds of R campaigns over N traces
in calls of K, and of R calls of hammer over as many traces, at most 10,000; and how many times as fast each is as on
one processor. The last line is what a campaign of one trace takes on all of them, which is the start and the end of the
workers.
"""
import argparse
import os
import subprocess
import time

from tests.support.calls import TOP, tool


def seconds(places, command):
    """How long a call takes on some of the processors."""
    start = time.perf_counter()
    subprocess.run(["taskset", "-c", ",".join(map(str, places)), *command], capture_output=True, check=True)
    return time.perf_counter() - start


def main():
    reader = argparse.ArgumentParser(
        description="Times a campaign of hammer on 1, 2, .. processors, beside one call of hammer."
    )
    reader.add_argument("file", nargs="?", default=os.path.join(TOP, "examples", "car_network.toml"))
    reader.add_argument("--traces", type=int, default=10000)
    reader.add_argument("--call", type=int, default=250)
    reader.add_argument("--rounds", type=int, default=2)
    reader.add_argument("--program", default=os.path.join(TOP, "crates", "cpa_cli", "out", "cpa_cli"))
    words = reader.parse_args()
    hammer = [*tool("campaign"), "hammer", words.file, "--program", words.program]
    campaign = [*hammer, "--traces", str(words.traces), "--call", str(words.call)]
    one = [words.program, "hammer", words.file, "1", str(min(words.traces, 10000))]
    places = sorted(os.sched_getaffinity(0))
    counts = range(1, len(places) + 1)
    print(f"load before it: {os.getloadavg()[0]:.1f}, on {len(places)} processors", flush=True)
    found = {(count, name): [] for count in counts for name in ("campaign", "one")}
    for _ in range(words.rounds):
        for count in counts:
            found[count, "campaign"].append(seconds(places[:count], campaign))
            found[count, "one"].append(seconds(places[:count], one))
    print(
        "| Processors | A campaign, seconds | times as fast | One call, seconds | times as fast |\n"
        "|---|---|---|---|---|"
    )
    for count in counts:
        figures = [
            (min(found[count, name]), min(found[1, name]) / min(found[count, name])) for name in ("campaign", "one")
        ]
        print(f"| {count} | " + " | ".join(f"{took:.1f} | {fast:.2f}" for took, fast in figures) + " |")
    print(
        f"a campaign of one trace: {seconds(places, [*hammer, '--traces', '1']):.1f} s;"
        f" load after it: {os.getloadavg()[0]:.1f}"
    )


main()
