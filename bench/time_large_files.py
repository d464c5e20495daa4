#!/usr/bin/env python3
"""Measures how long the program takes to judge system files of the greatest size.

Makes files of at most 1,048,576 bytes with as many tasks as fit, all on one resource, or with one long list of
activators, alone and with as many paths as fit that need its last name, and runs `lokwurmi analyse` on each. The time
is that of the whole call: start, reading, TOML, judging. Prints a line a file: its shape, its tasks, its bytes, the
least time of five calls in seconds, and the line that refuses it.

    python3 -m bench.time_large_files [FOLDER for the files]
"""
import os
import subprocess
import time

from bench.timing import folder_of
from tests.support.calls import NEEDS_PROGRAM, TOP, written

MOST = 1_048_576
HEAD = 'format=2\nresource=[{name="c",kind="preemptive"}]\nsource=[{name="s",period=9}]\ntask=[\n'

SHAPES = {
    # each task after the source
    "flat": lambda k, n: "s",
    # each task after the one before it
    "chain": lambda k, n: f"t{k - 1}" if k else "s",
    # each task after the one behind it, so that the first chain is the longest
    "chain from the end": lambda k, n: f"t{k + 1}" if k + 1 < n else "s",
    # a ring of all tasks
    "ring": lambda k, n: f"t{(k + 1) % n}",
    # layers of 16 tasks, each after all of the layer before
    "layers": lambda k, n: [f"t{j}" for j in range(k - k % 16 - 16, k - k % 16)] if k >= 16 else "s",
    # the same, begun anew after 32 layers, so that no chain is too long
    "low layers": lambda k, n: [f"t{j}" for j in range(k - k % 16 - 16, k - k % 16)] if k % 512 >= 16 else "s",
    # a task that names the source as often as there is room
    "one list": lambda k, n: ["s"] * 200_000 if k == 0 else "s",
}


def line(k, after, priority):
    names = f'"{after}"' if isinstance(after, str) else "[" + ",".join(f'"{name}"' for name in after) + "]"
    return f'{{name="t{k}",on="c",after={names},best=1,worst=1,priority={priority}}},\n'


def text(shape, same):
    n = 30_000
    while True:
        tasks = "".join(line(k, SHAPES[shape](k, n), 1 if same else k) for k in range(n))
        whole = HEAD + tasks + "]\n"
        if len(whole) <= MOST:
            return n, whole
        n -= -(-(len(whole) - MOST) * n // len(whole))


def paths_over_a_list():
    """One task after 125,000 names and another task, and paths over both."""
    tasks = line(0, "s", 0) + line(1, ["s"] * 125_000 + ["t0"], 1)
    whole = HEAD + tasks + "]\npath=[\n"
    row = '{{name="p{:05}",tasks=["t0","t1"]}},\n'.format
    rows = [row(k) for k in range((MOST - len(whole) - 2) // len(row(0)))]
    return 2, whole + "".join(rows) + "]\n"


def task_after_a_list():
    """One task, which names the source as often as there is room for."""
    names = (MOST - len(HEAD) - 100) // len('"s",')
    return 1, HEAD + line(0, ["s"] * names, 0) + "]\n"


def main():
    program = os.path.join(TOP, "lokwurmi")
    folder = folder_of(__doc__, NEEDS_PROGRAM)
    print(f"processors: {os.cpu_count()}")
    made = [(shape.replace(" ", "_"), lambda shape=shape: text(shape, False)) for shape in SHAPES]
    made.append(("flat_one_priority", lambda: text("flat", True)))
    made += [("task_after_a_list", task_after_a_list), ("paths_over_a_list", paths_over_a_list)]
    for name, make in made:
        n, whole = make()
        path = written(folder, name + ".toml", whole)
        times = []
        for _ in range(5):
            start = time.perf_counter()
            done = subprocess.run([program, "analyse", path], capture_output=True, text=True)
            times.append(time.perf_counter() - start)
        print(
            f"{name}: {n} tasks, {len(whole)} bytes, {min(times):.3f} s, {done.returncode} {done.stdout.strip()[:60]}"
        )


if __name__ == "__main__":
    main()
