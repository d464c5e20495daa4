#!/usr/bin/env python3
"""Measures how long large traces take to read and to judge, and how much memory that takes.

Makes a system of 512 tasks after 128 sources, all with names of 64 bytes, and traces over it: one of 16,777,216 bytes
with 200,000 rows, which names all sources and tasks, one of 16,777,216 bytes in one row, and traces with up to 200,000
events of one source, of which one breaks the rule at the last two events alone. `cpa_bench traces` loads each alone,
reads it, and judges it once or a hundred times. Prints a line a file and way: the least time of five calls, and the
peak memory of a call.

    python3 -m bench.time_traces [FOLDER for the files]
"""
import os

from bench.time_edits import name
from bench.timing import folder_of, show
from tests.support.calls import built, written

MOST = 16_777_216
ROWS = 200_000
SOURCES, TASKS = 128, 512


def system():
    """512 tasks on 64 processors after 128 sources."""
    lines = ["format = 1"]
    lines += [f'[[resource]]\nname = "{name("r", r)}"\nkind = "preemptive"' for r in range(64)]
    lines += [f'[[source]]\nname = "{name("s", k)}"\nperiod = 1\njitter = 1000000000' for k in range(SOURCES - 1)]
    lines += [f'[[source]]\nname = "{name("s", SOURCES - 1)}"\nperiod = 50\njitter = 1000\ndistance = 4']
    lines += [
        f'[[task]]\nname = "{name("t", i)}"\non = "{name("r", i % 64)}"\nafter = "{name("s", i % SOURCES)}"\n'
        f"best = 1\nworst = 9\npriority = {i}"
        for i in range(TASKS)
    ]
    return "\n".join(lines) + "\n"


def full():
    """Events and executions in turn, in quotes, with leading zeros."""
    short = ROWS * 84 - MOST
    rows = []
    for row in range(ROWS):
        digits = 8 if row < short else 9
        if row % 2:
            rows.append(f'"exec","{name("t", row * 7 % TASKS)}",{"5".zfill(digits)}\n')
        else:
            rows.append(f'event,"{name("s", row * 3 % (SOURCES - 1))}",{str(row * 50).zfill(digits + 1)}\n')
    return "".join(rows)


def wide():
    """One row whose middle field takes all the room."""
    return "event," + "x" * (MOST - 8) + ",0"


def events(count, last):
    """So many events of one source, and the time of the last."""
    source = name("s", SOURCES - 1)
    return "".join(f"event,{source},{50 * n}\n" for n in range(count - 1)) + f"event,{source},{last}\n"


def main():
    folder = folder_of(__doc__)
    reader = built("cpa_bench")
    described = written(folder, "system.toml", system())
    traces = [("full", full()), ("wide", wide())]
    traces += [(f"events{count}", events(count, 50 * count)) for count in (50_000, 100_000, 200_000)]
    traces.append(("breach", events(ROWS, 50 * (ROWS - 2) + 1)))
    print(f"processors: {os.cpu_count()}")
    for which, text in traces:
        path = written(folder, which + ".csv", text)
        for way in ("load", "read", "judge", "judge-100-times"):
            show(f"{which} {len(text)} bytes, {way}", [reader, "traces", way, described, path])


if __name__ == "__main__":
    main()
