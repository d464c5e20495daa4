#!/usr/bin/env python3
"""Measures how long large system files take to read, and how much memory that takes.

Makes a file of nearly 1,048,576 bytes with 512 tasks and long comments, the largest allowed system with names of 64
bytes, and a file with as many tasks as fit. `cpa_bench reading` loads each file alone, reads it as TOML alone, and
reads it as a system, and `lokwurmi analyse` does all of its work. Prints a line a file and way: the least time of five
calls, and the peak memory of a call.

    python3 -m bench.time_reading [FOLDER for the files]
"""
import os

from bench.timing import folder_of, show
from tests.support.calls import built, written

MOST = 1_048_576


def comments():
    """512 tasks on 64 processors, each with a long comment."""
    lines = ["format = 1"]
    lines += [f'[[resource]]\nname = "cpu{r}"\nkind = "preemptive"' for r in range(64)]
    lines += [f'[[source]]\nname = "source{k}"\nperiod = {1000 + k}' for k in range(128)]
    text = "\n".join(lines) + "\n"
    tasks = [
        f'[[task]]\nname = "task{i}"\non = "cpu{i % 64}"\nafter = "source{i % 128}"\nbest = 1\n'
        f"worst = {1 + i % 90}\npriority = {i}\n"
        for i in range(512)
    ]
    room = (MOST - len(text) - sum(map(len, tasks))) // 512 - 3
    return text + "".join("# " + "x" * room + "\n" + task for task in tasks)


def name(letter, number):
    return (letter + str(number)).ljust(64, "_")


def largest():
    """All lists full: chains of 32 tasks, and paths over whole chains."""
    chains = 16
    text = "format = 1\n"
    kinds = [
        '"preemptive", limit = 10000000',
        '"round-robin", limit = 10000000',
        '"tdma", gap = 1000000',
        '"can", bit = 1000',
    ]
    text += (
        "resource = [\n"
        + "".join(f'{{ name = "{name("r", r)}", kind = {kinds[r % 4]} }},\n' for r in range(64))
        + "]\n"
    )
    text += (
        "source = [\n"
        + "".join(
            f'{{ name = "{name("s", k)}", period = 1000000000, jitter = 1000000000, distance = 1000000 }},\n'
            for k in range(128)
        )
        + "]\n"
    )
    text += "task = [\n"
    for i in range(512):
        after = name("t", i - 1) if i % 32 else name("s", i // 32)
        kind = i % 64 % 4
        turn = f"slot = {1 + i}" if kind in (1, 2) else f"priority = {i}"
        text += (
            f'{{ name = "{name("t", i)}", on = "{name("r", i % 64)}", after = "{after}", best = 1,'
            f" worst = 1000000, {turn} }},\n"
        )
    text += "]\npath = [\n"
    for k in range(128):
        begin = 32 * (k % chains)
        tasks = ", ".join(f'"{name("t", i)}"' for i in range(begin, begin + 32))
        text += f'{{ name = "{name("p", k)}", tasks = [{tasks}], deadline = 1000000000 }},\n'
    return text + "]\n"


def many():
    """As many tasks as fit, which are refused by their number."""
    text = 'format=1\nresource=[{name="c",kind="preemptive"}]\nsource=[{name="s",period=9}]\ntask=[\n'
    lines, size = [text], len(text) + 2
    while True:
        line = f'{{name="t{len(lines)}",on="c",after="s",best=1,worst=1,priority={len(lines)}}},\n'
        if size + len(line) > MOST:
            return "".join(lines) + "]\n"
        lines.append(line)
        size += len(line)


def main():
    folder = folder_of(__doc__)
    reader, program = built("cpa_bench"), built("cpa_cli")
    print(f"processors: {os.cpu_count()}")
    for make in (comments, largest, many):
        text = make()
        path = written(folder, make.__name__ + ".toml", text)
        ways = [(way, [reader, "reading", way, path]) for way in ("load", "toml", "system")]
        ways.append(("analyse", [program, "analyse", path]))
        for way, command in ways:
            show(f"{make.__name__} {len(text)} bytes, {way}", command)


if __name__ == "__main__":
    main()
