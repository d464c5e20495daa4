#!/usr/bin/env python3
"""Measures how long `lokwurmi session` takes.

Prints a line a case, from the least time of 5 to 200 calls: the peak memory, the last line.

- car network: 10,000 edits of the greatest execution of a task on the network of a car, each of which reaches all eight
  resources, and 100 reports;
- one of 64: 512 tasks on 64 processors, 63 of which depend on each other by chains; edits of the last one. What an edit
  costs is the difference between a session of 1,000 edits and one of none, divided by them; what an analysis costs is a
  session of none less a call that refuses the same file with a fault at its end: so the making of the system and one
  report count with the analysis.

    python3 -m bench.time_sessions
"""
import os

from bench.timing import least_over

TOP = os.path.join(os.path.dirname(os.path.abspath(__file__)), "..")
PROGRAM = os.path.join(TOP, "crates/cpa_cli/out/cpa_cli")
EDITS = 1_000


def car():
    """Executions that rise and fall in turn."""
    with open(os.path.join(TOP, "examples/car_network.toml")) as file:
        system = file.read()
    rows = []
    for k in range(10_000):
        rows.append(f"exec act0 100 {101 + k * 7 % 100}")
        if k % 100 == 0:
            rows.append("report")
    return system, "\n".join(rows[:10_000]) + "\n"


def largest(worst):
    """Chains of 32 tasks over 63 processors, which all depend on each other, and 8 tasks on a processor beside them."""
    text = ["format = 1"]
    text += [f'[[resource]]\nname = "r{r}"\nkind = "preemptive"' for r in range(64)]
    text += [f'[[source]]\nname = "s{k}"\nperiod = {9973 + 2 * k}' for k in range(128)]
    for i in range(504):
        after = f"t{i - 1}" if i % 32 else f"s{i // 32}"
        text.append(
            f'[[task]]\nname = "t{i}"\non = "r{i % 63}"\nafter = "{after}"\nbest = 1\nworst = {worst}\n'
            f"priority = {i // 63}"
        )
    for i in range(8):
        text.append(
            f'[[task]]\nname = "u{i}"\non = "r63"\nafter = "s{100 + i}"\nbest = 1\nworst = {worst}\npriority = {i}'
        )
    return "\n".join(text) + "\n"


def timed(system, script, calls=5):
    return least_over([PROGRAM, "session"], (system, script), calls)


def main():
    seconds, peak, last = timed(*car())
    print(f"car network  {seconds:.3f} s {peak:6.1f} MB  {last}")
    system = largest(300)
    reading, _, _ = timed(system + "[[path]]\n", "", 200)
    none, _, last = timed(system, "", 200)
    rows = "\n".join(f"exec u1 1 {299 - k % 2}" for k in range(EDITS)) + "\n"
    many, _, _ = timed(system, rows, 20)
    analysis, edit = none - reading, (many - none) / EDITS
    print(
        f"one of 64    fresh call {none * 1e3:.1f} ms, of it analysis {analysis * 1e3:.1f} ms; "
        f"edit {edit * 1e3:.3f} ms, "
        f"which is 1/{none / edit:.0f} of the call and 1/{analysis / edit:.0f} of the analysis  {last}"
    )


if __name__ == "__main__":
    main()
