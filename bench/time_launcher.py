#!/usr/bin/env python3
"""Times calls by the script `lokwurmi` beside calls of the program itself, and beside an earlier version of the script.

The calls take turns, so that what else runs on the machine meets all alike; told are the medians, by the clock and of
the time that processors worked, what each takes beyond the program, and the ratios. The program has to be built.
Outside the gate.

    python3 -m bench.time_launcher --calls 200 --than 132bc4f
"""
from __future__ import annotations

import os
import shutil
import statistics
import subprocess
import sys
import tempfile
import time
from dataclasses import dataclass, field

from tests.support.calls import NEEDS_PROGRAM, TOP, reader_of, written

PROGRAM = os.path.join(TOP, "crates", "cpa_cli", "out", "cpa_cli")
REFUSED = 'format = 1\nsource = [{ name = "s", perod = 10 }]\n'
UNUSED = 'format = 1\nsource = [{ name = "s", period = 10 }]\n'


@dataclass
class Way:
    """A way of calling the program, and how long its calls took."""

    what: str
    words: list[str]
    environment: dict[str, str] = field(default_factory=dict)
    times: list[float] = field(default_factory=list)
    worked: list[float] = field(default_factory=list)

    def call(self) -> None:
        start = time.perf_counter()
        it = subprocess.Popen(
            self.words,
            stdin=subprocess.DEVNULL,
            stdout=subprocess.DEVNULL,
            stderr=subprocess.DEVNULL,
            env=os.environ | self.environment,
        )
        _, status, used = os.wait4(it.pid, 0)
        it.returncode = os.waitstatus_to_exitcode(status)
        if it.returncode >= 70:
            sys.exit(f"{self.words[0]} ended with {it.returncode}")
        self.times.append(time.perf_counter() - start)
        self.worked.append(used.ru_utime + used.ru_stime)

    @property
    def median(self) -> float:
        return statistics.median(self.times) * 1000

    @property
    def work(self) -> float:
        """The median of the time that processors worked for it."""
        return statistics.median(self.worked) * 1000


def earlier(folder: str, revision: str) -> str:
    """The script as it was, above the same crates."""
    for name in ("crates", "docs"):
        os.symlink(os.path.join(TOP, name), os.path.join(folder, name))
    # with its time, so that it isn't newer than the program
    shutil.copy2(os.path.join(TOP, "crates.txt"), folder)
    git = ["git", "-C", TOP]
    there = subprocess.run(
        [*git, "ls-tree", "--name-only", revision], capture_output=True, text=True, check=True
    ).stdout.split()
    parts = [it for it in ("lokwurmi", "tools", "python") if it in there]
    archive = subprocess.run([*git, "archive", revision, *parts], stdout=subprocess.PIPE, check=True)
    subprocess.run(["tar", "-x", "-C", folder], input=archive.stdout, check=True)
    return os.path.join(folder, "lokwurmi")


def ways_in(folder: str, revision: str | None) -> list[Way]:
    launcher, file = os.path.join(TOP, "lokwurmi"), os.path.join(TOP, "examples", "car_network.toml")
    quiet = {"LOKWURMI_QUIET": "1"}
    ways = [
        Way("the program itself", [PROGRAM, "analyse", file]),
        Way("lokwurmi, quiet", [launcher, "analyse", file], quiet),
        Way("lokwurmi", [launcher, "analyse", file]),
    ]
    ways.append(Way("lokwurmi, with a notice", [launcher, "analyse", written(folder, "unused.toml", UNUSED)]))
    ways.append(Way("lokwurmi, with a refusal", [launcher, "analyse", written(folder, "refused.toml", REFUSED)]))
    if revision:
        # without a toolchain, so that it never builds
        path = [it for it in os.environ["PATH"].split(os.pathsep) if not os.path.exists(os.path.join(it, "rt"))]
        words = [earlier(folder, revision), "analyse", file]
        ways.append(Way(f"lokwurmi of {revision}", words, {"PATH": os.pathsep.join(path)}))
    return ways


def main() -> None:
    reader = reader_of(__doc__, "--calls 200 --than 132bc4f", NEEDS_PROGRAM)
    reader.add_argument("--calls", metavar="N", type=int, default=200, help="how many calls each; 200 if absent")
    reader.add_argument("--than", metavar="REVISION", help="an earlier commit, whose script is called too")
    words = reader.parse_args()
    if not os.access(PROGRAM, os.X_OK):
        sys.exit(f"{PROGRAM} isn't built yet: call ./lokwurmi analyse examples/two_tasks.toml first")
    with tempfile.TemporaryDirectory() as folder:
        ways = ways_in(folder, words.than)
        for number in range(words.calls):
            for way in ways:
                way.call()
            if number % 50 == 49:
                print(f"{number + 1} of {words.calls} rounds", file=sys.stderr, flush=True)
    alone = ways[0]
    print(
        "| Call | Median, ms | Beyond the program | Processor, ms | Beyond the program |",
        "|---|---|---|---|---|",
        sep="\n",
    )
    for way in ways:
        print(
            f"| {way.what} | {way.median:.1f} | {way.median - alone.median:.1f} | {way.work:.1f} |"
            f" {way.work - alone.work:.1f} |"
        )
    for way in ways[1:3] if words.than else []:
        clock, work = (ways[-1].median - alone.median) / (way.median - alone.median), (ways[-1].work - alone.work) / (
            way.work - alone.work
        )
        print(
            f"{way.what}: {ways[-1].what} takes {clock:.1f} times as long beyond the program, and {work:.1f} times the"
            " work"
        )


if __name__ == "__main__":
    main()
