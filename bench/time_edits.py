#!/usr/bin/env python3
"""Measures how long large scripts take to read, and how long edits take to apply.

Makes a system of 512 tasks after 128 sources with 128 paths, all with names of 64 bytes that differ at their ends
alone, and scripts over it: of 1,048,576 bytes with 10,000 edits, of 1,048,576 bytes in one line of short words, and of
many edits of one sort. `cpa_bench edits` loads each alone, reads it, and applies its edits. Prints a line a script and
way: the least time of five calls, and the peak memory of a call.

    python3 -m bench.time_edits [FOLDER for the files]
"""
import os

from bench.timing import folder_of, show
from tests.support.calls import TOP, built, written

MOST = 1_048_576
EDITS = 10_000
SOURCES, TASKS, CHAIN = 128, 512, 32


def name(letter, number):
    return letter.ljust(64 - len(str(number)), "_") + str(number)


def after(task):
    """Chains of 32 tasks, but for the last 32 tasks, which are after sources."""
    if task % CHAIN == 0 or task >= TASKS - CHAIN:
        return name("s", task % SOURCES)
    return name("t", task - 1)


def system():
    """512 tasks on 64 processors after 128 sources; each of 128 paths has a whole chain of 32 tasks."""
    lines = ["format = 1"]
    lines += [f'[[resource]]\nname = "{name("r", r)}"\nkind = "preemptive"' for r in range(64)]
    lines += [f'[[source]]\nname = "{name("s", k)}"\nperiod = 1000' for k in range(SOURCES)]
    lines += [
        f'[[task]]\nname = "{name("t", i)}"\non = "{name("r", i % 64)}"\nafter = "{after(i)}"\nbest = 1\n'
        f"worst = 9\npriority = {i}"
        for i in range(TASKS)
    ]
    chains = TASKS // CHAIN - 1
    for k in range(128):
        first = k % chains * CHAIN
        tasks = ", ".join(f'"{name("t", first + n)}"' for n in range(CHAIN))
        lines.append(f'[[path]]\nname = "{name("p", k)}"\ntasks = [{tasks}]')
    return "\n".join(lines) + "\n"


def full():
    """Edits of executions, filled up with blanks."""
    rows = [f'exec {name("t", k % TASKS)} 1 {k % 1000 + 1}' for k in range(EDITS)]
    length = MOST // EDITS - 1
    rows = [row.ljust(length) for row in rows]
    rows[0] = rows[0].ljust(MOST - (length + 1) * (EDITS - 1) - 1)
    return "\n".join(rows) + "\n"


def edits(sort):
    """As many edits of a sort as a script can have. Each `remove` takes the task at place 480, and an `add` brings it
    back at the end."""
    moved = [TASKS - CHAIN + k % CHAIN for k in range(3_500)]
    rows = {
        "exec": f'exec {name("t", TASKS - 1)} 1 9\n' * EDITS,
        "priority": f'priority {name("t", TASKS - 1)} {TASKS - 1}\n' * EDITS,
        "swap": f'swap {name("t", TASKS - 1)} {name("t", TASKS - 65)}\n' * 7_500,
        "source": f'source {name("s", SOURCES - 1)} 1000 5 3\n' * EDITS,
        "move": "".join(
            f'remove {name("t", i)}\nadd {name("t", i)} {name("r", i % 64)} {after(i)} 1 9 {i}\n' for i in moved
        ),
    }
    return rows[sort]


def main():
    folder = folder_of(__doc__)
    bench = built("cpa_bench")
    large = written(folder, "large.toml", system())
    car = os.path.join(TOP, "examples/car_network.toml")
    scripts = [(large, "full", full()), (large, "wide", "x " * (MOST // 2))]
    scripts += [(large, sort, edits(sort)) for sort in ("exec", "priority", "swap", "source", "move")]
    scripts.append((car, "car", "exec act0 100 250\n" * EDITS))
    print(f"processors: {os.cpu_count()}")
    for described, which, text in scripts:
        path = written(folder, which + ".edits", text)
        for way in ("load", "read", "apply"):
            show(f"{which} {len(text)} bytes, {way}", [bench, "edits", way, described, path])


if __name__ == "__main__":
    main()
