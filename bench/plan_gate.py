#!/usr/bin/env python3
"""How long the gate takes on so many processors, by the seconds of docs/times.csv: what each crate's proofs, the proofs
of its tests and its edits took one processor. Proofs begin where all below is proved, tests and edits too; a crate with
several edits is proved once more before them. What has the longest way to go is taken first, as `rt ci` does. Programs
and tests are run at the end, which takes a minute or two and isn't counted.

    python3 -m bench.plan_gate
    python3 -m bench.plan_gate --processors 2
"""
import argparse
import csv
import heapq
from collections.abc import Sequence
from typing import NamedTuple

from lokwurmi_tools.launcher.crates import listed
from tests.support.calls import TOP

KINDS = ("proofs", "tests", "edits")


class Part(NamedTuple):
    """A part of the gate: its seconds, and the parts that come before it."""

    seconds: float
    after: list[str]


def rows() -> dict[str, dict[str, int]]:
    """The seconds of each crate, and how many edits it has."""
    with open(f"{TOP}/docs/times.csv", encoding="utf-8", newline="") as file:
        return {row.pop("crate"): {key: int(told or 0) for key, told in row.items()} for row in csv.DictReader(file)}


def parts_of(uses: dict[str, list[str]], table: dict[str, dict[str, int]]) -> dict[str, Part]:
    """The parts of the gate, those of a crate behind the proofs of what it uses."""
    found = {}
    for name, below in uses.items():
        row, proofs = table.get(name, {}), [f"{it} proofs" for it in below]
        found[f"{name} proofs"] = Part(row.get("proofs", 0), proofs)
        found[f"{name} tests"] = Part(row.get("tests", 0), proofs)
        seconds, count = row.get("edits", 0), row.get("edit_count", 0)
        first = min(seconds, row.get("proofs", 0)) if count > 1 else seconds
        found[f"{name} seed"] = Part(first, proofs)
        for number in range(count if count > 1 else 0):
            behind = [f"{name} proofs", f"{name} tests", f"{name} seed"]
            found[f"{name} edit {number}"] = Part((seconds - first) / count, behind)
    return found


def ways(parts: dict[str, Part]) -> dict[str, float]:
    """How long it is from the begin of each part to the end of the last that waits for it."""
    found = {name: it.seconds for name, it in parts.items()}
    for name in reversed(list(parts)):
        for below in parts[name].after:
            found[below] = max(found[below], parts[below].seconds + found[name])
    return found


def clock(parts: dict[str, Part], processors: int) -> float:
    """Seconds until all parts are done, where whatever is free takes the ready part with the longest way to go."""
    way, waits = ways(parts), {name: len(it.after) for name, it in parts.items()}
    behind: dict[str, list[str]] = {name: [] for name in parts}
    for name, it in parts.items():
        for below in it.after:
            behind[below].append(name)
    ready = [(-way[name], name) for name, count in waits.items() if not count]
    heapq.heapify(ready)
    running: list[tuple[float, str]] = []
    now = 0.0
    while ready or running:
        while ready and len(running) < processors:
            name = heapq.heappop(ready)[1]
            heapq.heappush(running, (now + parts[name].seconds, name))
        now, done = heapq.heappop(running)
        for name in behind[done]:
            waits[name] -= 1
            if not waits[name]:
                heapq.heappush(ready, (-way[name], name))
    return now


def told(several: Sequence[int]) -> str:
    """The minutes of each kind of part, and those by the clock on so many processors."""
    uses, table = listed(), rows()
    parts = parts_of(uses, table)
    kinds = ", ".join(f"{sum(it.get(kind, 0) for it in table.values()) / 60:.0f} for {kind}" for kind in KINDS)
    lines = [f"{clock(parts, it) / 60:.0f} minutes by the clock on {it}" for it in several]
    return "\n".join([f"minutes of one processor: {kinds}", *lines])


def main() -> None:
    reader = argparse.ArgumentParser(description=__doc__, formatter_class=argparse.RawDescriptionHelpFormatter)
    reader.add_argument("--processors", metavar="N", type=int, help="so many alone; else one, two and four")
    chosen = reader.parse_args()
    if chosen.processors is not None and chosen.processors < 1:
        reader.error("--processors takes a number from 1 up")
    if missing := sorted(set(listed()) - set(rows())):
        reader.error(f"docs/times.csv has no row of {', '.join(missing)}")
    print(told([chosen.processors] if chosen.processors else (1, 2, 4)))


if __name__ == "__main__":
    main()
