"""How long a build takes: seconds of each crate's proofs, from docs/times.csv, and how many are proved at a time."""
from __future__ import annotations

import csv
import os
import time
from pathlib import Path

from lokwurmi_tools.launcher.crates import Graph
from lokwurmi_tools.launcher.paths import TOP

TIMES = TOP / "docs" / "times.csv"
# seconds where they aren't told
UNKNOWN = 60
# MiB of free memory that a crate's proof needs
ROOM = 4096


def seconds_told() -> dict[str, int]:
    """Seconds that the proofs of a crate took one processor elsewhere."""
    try:
        with open(TIMES, encoding="utf-8", newline="") as it:
            rows = [(row["crate"], row["proofs"] or "") for row in csv.DictReader(it)]
    except (OSError, KeyError):
        return {}
    return {name: int(seconds) for name, seconds in rows if seconds.isdigit() and int(seconds) > 0}


def clock(seconds: float) -> str:
    """0:07, 12:34 or 1:02:03."""
    minutes, rest = divmod(int(seconds), 60)
    hours, minutes = divmod(minutes, 60)
    return f"{hours}:{minutes:02}:{rest:02}" if hours else f"{minutes}:{rest:02}"


class Plan:
    """What is done, what is left by the seconds told, and a rough guess by how fast it went here."""

    def __init__(self, graph: Graph, jobs: int, done: set[str]):
        told = seconds_told()
        self.graph, self.jobs, self.done = graph, jobs, done
        self.weight = {it: told.get(it, UNKNOWN) for it in graph.order}
        self.queue = graph.queue
        self.begun = time.monotonic()
        self.planned = self.left_by_weights()
        self.guess()

    @property
    def so_far(self) -> float:
        return time.monotonic() - self.begun

    def left_by_weights(self) -> int:
        """Seconds that are left, as `rt all` hands crates out: whatever gets free takes the next, and waits for what
        that uses."""
        free = [0] * self.jobs
        end: dict[str, int] = {}
        for it in self.queue:
            end[it] = 0
            if it in self.done:
                continue
            first = free.index(min(free))
            start = max([free[first], *(end[below] for below in self.graph.uses[it])])
            free[first] = end[it] = start + self.weight[it]
        return max(end.values(), default=0)

    def guess(self) -> None:
        """Guesses anew how much is left: by the weights, and the more is done, by how fast it went here."""
        left = self.left_by_weights()
        self.guessed_at = time.monotonic()
        self.guessed = left * (self.so_far + 300) / (self.planned - left + 300)

    def rough_rest(self) -> str:
        rest = self.guessed - (time.monotonic() - self.guessed_at)
        # a crate that takes longer than was guessed
        rest = max(rest, self.guessed / 8)
        return f"some {int(rest + 30) // 60} minutes to go" if rest >= 90 else "about a minute to go"

    def under_way(self, current: str) -> str:
        """The crates that are under way: the one that rt named last, or those that rt has taken up and that wait for
        no other."""
        waiting = [it for it in self.queue if it not in self.done][: self.jobs]
        found = (
            [current] if current else [it for it in waiting if all(below in self.done for below in self.graph.uses[it])]
        )
        more = f" and {len(found) - 3} more" if len(found) > 3 else ""
        return ", ".join(found[:3]) + more


def number_in(path: str, column: int = 0) -> int | None:
    """A number in a file of the system, where there is one."""
    try:
        word = Path(path).read_text(encoding="utf-8").split()[column]
    except (OSError, IndexError):
        return None
    return int(word) if word.isdigit() else None


def field_in(path: str, name: str) -> int | None:
    """The number behind a name in a file of the system."""
    try:
        lines = Path(path).read_text(encoding="utf-8").splitlines()
    except OSError:
        return None
    return next((int(words[1]) for words in map(str.split, lines) if len(words) > 1 and words[0] == name), None)


def free_memory() -> int:
    """MiB that are free, for this group of processes too."""
    free = (field_in("/proc/meminfo", "MemAvailable:") or 0) // 1024
    limit, held = number_in("/sys/fs/cgroup/memory.max"), field_in("/sys/fs/cgroup/memory.stat", "anon")
    if limit is not None and held is not None:
        free = min(free, (limit - held) >> 20)
    return free


def at_a_time() -> int:
    """How many crates are proved at a time: one for each processor, and for each 4 GiB of memory that is free."""
    asked = os.environ.get("LOKWURMI_JOBS", "")
    if asked.isdigit() and 1 <= int(asked) <= 99:
        return int(asked)
    jobs = len(os.sched_getaffinity(0))
    quota, period = number_in("/sys/fs/cgroup/cpu.max"), number_in("/sys/fs/cgroup/cpu.max", 1)
    if quota and period:
        jobs = min(jobs, quota // period)
    return max(1, min(jobs, free_memory() // ROOM))
