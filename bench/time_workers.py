#!/usr/bin/env python3
"""Measures how long the search for the least solution takes by so many workers, and how long a shared board takes.

Takes the systems of time_analyse.py that settle soon, and more of 64 processors with 512 tasks in cycles, which leave
so many of 1000 ticks to spare: with one to spare the least urgent tasks have busy windows of thousands of jobs.
`cpa_bench searches` reads each once, and searches by one thread without a board, and by 1, 2 and 4 workers. Prints a
line a system: the least microseconds of a search of many, taken in turns, and how many times as fast two workers are as
one. The last line is the least time in which a board of 512 words opens, has 64 seats and closes.

    python3 -m bench.time_workers [NAME ..]
    python3 -m bench.time_workers count [NAME ..]

With `count` valgrind counts the instructions of a search instead, in millions: on one thread without a board, by one
worker, and by two on the busier and on the other thread.
"""
import os
import re
import subprocess
import tempfile

from bench.time_analyse import in_chains, place_in_cycles, systems
from tests.support.calls import TOP, reader_of

PROGRAM = os.path.join(TOP, "crates/cpa_bench/out/cpa_bench")
WORKERS = (0, 1, 2, 4)
SPARE = (200, 100, 50, 20, 10, 5, 1)


def heavy(spare):
    """64 processors with eight tasks each, one of each step of 64 chains; of 1000 ticks all but so many are used."""

    def numbers_of(chain, step):
        return f"best = 60, worst = {(1000 - spare - step + 7) // 8}, priority = {64 * step + chain}"

    kind = 'kind = "preemptive", limit = 10000000'
    return "\n".join(in_chains(lambda _: kind, lambda _: 1000, place_in_cycles, numbers_of)) + "\n"


def made():
    chosen = {name: make for name, make in systems().items() if "climbs" not in name}
    for spare in SPARE:
        chosen[f"spare-{spare}"] = lambda spare=spare: heavy(spare)
    return chosen


def least(workers, times, path):
    """The least nanoseconds of a search."""
    done = subprocess.run(
        [PROGRAM, "searches", str(times), str(workers), *path], capture_output=True, text=True, check=True
    )
    words = done.stdout.split()
    assert words[1] == "true", done.stdout
    return int(words[3])


def time_search(path):
    found = dict.fromkeys(WORKERS, 10**12)
    first = least(0, 1, [path])
    times = max(1, min(200, 200_000_000 // first))
    for _ in range(5):
        for workers in WORKERS:
            found[workers] = min(found[workers], least(workers, times, [path]))
    return found


def counts(workers, times, path, folder):
    """The instructions of each thread."""
    out = os.path.join(folder, "out")
    for name in os.listdir(folder):
        if name.startswith("out"):
            os.remove(os.path.join(folder, name))
    command = ["valgrind", "--tool=callgrind", "--separate-threads=yes", f"--callgrind-out-file={out}"]
    subprocess.run([*command, PROGRAM, "searches", str(times), str(workers), path], capture_output=True, check=True)
    totals = []
    for name in sorted(os.listdir(folder)):
        if name.startswith("out-"):
            with open(os.path.join(folder, name)) as file:
                totals.append(sum(int(n) for n in re.findall(r"^totals: (\d+)", file.read(), re.M)))
    return totals


def count_search(path, folder):
    """A search, as a third of what three more cost; all threads but the calling one are taken together."""
    found = []
    for workers in (0, 1, 2):
        few, many = counts(workers, 1, path, folder), counts(workers, 4, path, folder)
        own = (many[0] - few[0]) / 3
        others = (sum(many[1:]) - sum(few[1:])) / 3
        found += [own] if workers < 2 else [max(own, others), min(own, others)]
    return found


def main():
    systems_made = made()
    known = ", ".join(systems_made)
    reader = reader_of(__doc__, "count", "the program cpa_bench, and for count valgrind")
    says = f"a system, all if absent: {known}; or before them count, which counts instructions"
    reader.add_argument("names", metavar="NAME", nargs="*", help=says)
    names = reader.parse_args().names
    counting = bool(names) and names[0] == "count"
    names = names[1:] if counting else names
    subprocess.run(["rt", "run"], cwd=os.path.join(TOP, "crates/cpa_bench"), capture_output=True, check=False)
    print(f"processors: {os.cpu_count()}")
    with tempfile.TemporaryDirectory() as folder:
        path = os.path.join(folder, "sys")
        for name, make in systems_made.items():
            if names and name not in names:
                continue
            with open(path, "w") as file:
                file.write(make())
            if counting:
                print(
                    f"{name}: " + ", ".join(f"{number / 1e6:.3f}" for number in count_search(path, folder)), flush=True
                )
                continue
            found = time_search(path)
            print(
                f"{name}: "
                + ", ".join(f"{workers} workers {found[workers] / 1000:.0f}" for workers in WORKERS)
                + f"; 1 of none {found[1] / found[0]:.2f}, 2 as fast as 1 {found[1] / found[2]:.2f}",
                flush=True,
            )
    if not counting:
        print(f"board: {least(0, 1000, []) / 1000:.1f} microseconds")


if __name__ == "__main__":
    main()
