#!/usr/bin/env python3
"""Compares `chain` and `chains` with rules written down plainly, and holds their bounds against runs. Outside the gate.

Random small systems of all kinds and all formats get random traces that obey, and in which the events of a source
that isn't sporadic stay near: any two are at most as far apart as its period and jitter say. A chain is a list of
tasks, mostly none of which starts the next. Of each run the greatest reaction, latency, age and time for which data is
held are found over ALL reading times of its jobs, and none may be beyond the bound; for jobs that read in ticks in
which they run, none beyond those of --while-running. So are those of jobs that read at their arrival, start or end,
where lokwurmi_tools/runs/effect_chain_in_run.py must find the same as the plain rules here do. How many are the bound
to the tick is counted.

Text and status of the program must be those of the rules, for chains and for files of chains with deadlines and
without, and each fault of words and files must be refused. With --no-program the rules alone are held against runs, and
nothing is built.

    python3 -m tests.against_rules.check_effects --systems 1000 --seed 1
    python3 -m tests.against_rules.check_effects --no-program --systems 200
    python3 -m tests.against_rules.check_effects --chains 20000
    python3 -m tests.against_rules.check_effects --take 1          # a tick less than each bound: this must fail
"""
import argparse
import os
import random
import sys
import tempfile
import time
from collections import Counter

from lokwurmi.model.view import SystemView
from lokwurmi.refusals.silence import ASKED, AskedChain, silences_in
from lokwurmi_tools.runs.effect_chain_in_run import RunOfJobs, gaps_in, seen_of
from tests.rules import runs
from tests.rules.bounds import OVERLOAD
from tests.rules.chain_files import refusal_of
from tests.rules.effect_chains import READINGS, Bounds, Observed, told_chains
from tests.support import chain_texts
from tests.support.calls import built, outcome, written
from tests.support.systems import KINDS, chains_in, file_of, near_trace, rows_of, small_system

# words that aren't taken: FILE and CHAINS stand for files that are; and what is written, with the status
REFUSED_WORDS = [
    (["FILE"], "words refused", 10),
    (["FILE", ""], "words refused", 10),
    (["FILE", "t0", "-t0"], "words refused", 10),
    (["FILE", *["t0"] * 33], "words refused", 10),
    (["FILE", "nobody"], "chain refused 1", 18),
    (["FILE", "t0", "nobody", "no"], "chain refused 2", 18),
    (["--while-running", "FILE", "t0", "--while-running"], "words refused", 10),
    (["FILE", "--while-running", "t0"], "words refused", 10),
]


def stop(what, system, told, wrote):
    sys.exit(f"{what} differs:\n{file_of(system)}\nby the rules:\n{told}\nby the program:\n{wrote}")


class Programs:
    """The program of both commands."""

    def __init__(self, folder):
        self.folder, self.program = folder, built("cpa_cli")
        self.file = os.path.join(folder, "system.toml")

    def begin(self, system):
        written(self.folder, "system.toml", file_of(system))

    def compare_chain(self, system, bounds, chain, tally):
        for is_running in (False, True):
            words = (self.file, *chain)
            # the word stands first or last
            option = ("--while-running",) if is_running else ()
            words = (*option, *words) if len(chain) % 2 else (*words, *option)
            told = bounds.text_of(chain, "same-source" if is_running else "")
            wrote = outcome(self.program, "chain", *words)
            if told != wrote:
                stop(f"chain {' '.join(words)}", system, told, wrote)
            tally["texts of chain" + "".join(" " + it for it in option)] += 1

    def compare_chains(self, system, bounds, chains, draw, tally):
        listed = [(f"c{k}", tasks, *deadlines(draw, bounds, tasks)) for k, tasks in enumerate(chains)]
        self.judge(system, chain_texts.text_of(listed), told_chains(bounds, listed))
        tally["files of chains"] += 1
        tally["verdicts"] += 3 * len(listed)
        for _ in range(3):
            text = chain_texts.damaged(draw, listed)
            refusal = refusal_of(text, bounds.rules.tasks)
            if refusal:
                self.judge(system, text, self.refused(*refusal))
                tally[f"files refused for reason {refusal[0]}"] += 1

    def refused(self, reason, place):
        """The line and the status of a file of chains that is refused."""
        if reason == "toml":
            return f"not TOML {os.path.join(self.folder, 'chains.toml')}\n", 13
        part = f"chain {place}" if place else "file 0"
        return f"chains refused reason {reason} {part}\n", 18

    def judge(self, system, text, told):
        """What `chains` says of a file with this text."""
        file = written(self.folder, "chains.toml", text)
        wrote = outcome(self.program, "chains", self.file, file)
        if told != wrote:
            stop(f"chains of the file\n{text}\n", system, told, wrote)

    def refuse(self, system, tally):
        """Faults of words and names."""
        self.begin(system)
        for words, line, status in REFUSED_WORDS:
            wrote = outcome(self.program, "chain", *(self.file if it == "FILE" else it for it in words))
            if wrote != (line + "\n", status):
                stop(f"chain {' '.join(words)}", system, (line, status), wrote)
            tally["refusals"] += 1


def deadlines(draw, bounds, tasks):
    """Deadlines of reaction, age and held: none, or near the bound."""
    for bound in (bounds.reaction(tasks), bounds.age(tasks), bounds.held(tasks)):
        near = 50 if bound == OVERLOAD else bound
        yield draw.choice((None, near, max(1, near - 1), near + 1, draw.randint(1, 2 * near)))


class Tally:
    """What was tried, how often a bound was reached, and how near runs came to it."""

    def __init__(self, take):
        self.counts, self.take = Counter(), take
        self.nearest, self.by_length = {}, {}

    def hold(self, what, chain, most, limit, registers):
        """Whether a greatest time is within its bound."""
        if limit == OVERLOAD:
            return True
        key = (what, len(chain), registers)
        self.nearest[what] = max(self.nearest.get(what, 0), most / limit)
        self.by_length[key] = max(self.by_length.get(key, (0, 0, 0)), (most / limit, most, limit))
        self.counts[f"{what} reached"] += most == limit
        return most <= limit - self.take

    def show(self, by_length):
        for what, count in sorted(self.counts.items()):
            print(f"{what}: {count:,}")
        parts = ", ".join(f"{what} {it:.4f}" for what, it in sorted(self.nearest.items()))
        print(f"greatest part of the bound: {parts}")
        for key in sorted(self.by_length) if by_length else ():
            ratio, ticks, limit = self.by_length[key]
            print(f"  {key[0]}, tasks {key[1]}, by register {key[2]}: {ticks} of {limit}, {ratio:.3f}")


def check_tool(system, run, chain, reading, most):
    """What lokwurmi_tools/runs/effect_chain_in_run.py finds in the schedule of a run is what the rules do."""
    found = seen_of(run, chain, reading).latest
    told = {what: late.ticks() for what, late in found.items() if late}
    wanted = {what: ticks for what, ticks in most.items() if what != "latency"}
    if told != wanted:
        stop(f"lokwurmi_tools/runs/effect_chain_in_run.py, {' '.join(chain)}, read {reading}", system, wanted, told)


def check_silences(system, bounds, chains, tally):
    """Which bounds of chains are open since a task waits for a sporadic source: those, and no other, that have numbers
    where no source is sporadic, and some of those that have none there either."""
    view = SystemView.of(system)
    steady = system | {"source": [it | {"sporadic": False} for it in system["source"]]}
    without = Bounds(file_of(steady))
    for chain in chains:
        for is_running in (False, True):
            several = silences_in(view, [AskedChain("", chain)], is_running)
            told = {what for it in several for what in it.bounds[""]}
            word = "same-source" if is_running else ""
            now, then = bounds.limits(chain, word), without.limits(chain, word)
            opened = {what for what in ASKED if now[what] == OVERLOAD != then[what]}
            if not opened <= told or any(now[what] != OVERLOAD for what in told):
                stop(f"lokwurmi/refusals/silence.py, {' '.join(chain)}", system, opened, told)
            tally["bounds that a sporadic source leaves open" + " while running" * is_running] += len(told)


def check_run(system, bounds, chains, trace, tally):
    """One run: no chain of it is beyond its bounds, whenever its jobs read."""
    run, view = runs.Run(system, trace), SystemView.of(system)
    assert not gaps_in(view, trace[0])
    by_tool = RunOfJobs(view, [tuple(it) for it in run.segments], trace)
    for reading in READINGS:
        seen = Observed(system, run, reading)
        running = reading == "running"
        for chain in chains:
            most, counts = seen.greatest(chain)
            check_tool(system, by_tool, chain, reading, most)
            tally.counts[f"lokwurmi_tools/runs/effect_chain_in_run.py, {reading}"] += 1
            if reading not in ("whenever", "running"):
                continue
            limits = bounds.limits(chain, "same-source" if running else "")
            registers = sum(bounds.kind(*it) == "register" for it in zip(chain, chain[1:]))
            for what, ticks in most.items():
                name = what + (" while running" if running else "")
                tally.counts[name] += counts[what]
                if not tally.hold(name, chain, ticks, limits[what], registers):
                    files = f"{file_of(system)}\n{rows_of(trace)}"
                    sys.exit(f"{name} of {' '.join(chain)} is {ticks}, beyond {limits[what]} - {tally.take}:\n{files}")
            tally.counts["chains in runs" + (" while running" if running else "")] += 1


def check_system(draw, traces, programs, tally):
    system = small_system(draw, ("preemptive",) if draw.random() < 0.2 else KINDS)
    bounds = Bounds(file_of(system))
    tasks = {it["name"]: it for it in system["task"]}
    chains = chains_in(draw, tasks)
    tally.counts["systems"] += 1
    tally.counts["chains"] += len(chains)
    tally.counts["systems of format 2"] += any(len(it["after"]) > 1 for it in tasks.values())
    tally.counts["systems with sporadic sources"] += any(it.get("sporadic") for it in system["source"])
    check_silences(system, bounds, chains, tally.counts)
    if programs:
        programs.begin(system)
        for chain in chains:
            programs.compare_chain(system, bounds, chain, tally.counts)
        programs.compare_chains(system, bounds, chains, draw, tally.counts)
    for chain in chains:
        tally.counts["chains with overload"] += OVERLOAD in bounds.limits(chain).values()
        for it in zip([None, *chain], chain):
            tally.counts["steps " + bounds.kind(*it, "same-source")] += 1
    if all(bounds.latency(chain) == OVERLOAD == bounds.age(chain) for chain in chains):
        return
    for _ in range(traces):
        check_run(system, bounds, chains, near_trace(draw, system), tally)
        tally.counts["runs"] += 1


def asked_for():
    reader = argparse.ArgumentParser(description=__doc__, formatter_class=argparse.RawDescriptionHelpFormatter)
    reader.add_argument(
        "--no-program",
        action="store_true",
        help="only the rules against runs, and lokwurmi_tools/runs/effect_chain_in_run.py",
    )
    reader.add_argument("--systems", type=int, default=500, help="how many systems (500)")
    reader.add_argument(
        "--chains", type=int, default=0, help="as many systems as have so many chains, in place of that"
    )
    reader.add_argument("--traces", type=int, default=3, help="how many traces of each (3)")
    reader.add_argument("--seed", type=int, default=1, help="another number makes other systems (1)")
    reader.add_argument("--take", type=int, default=0, help="ticks taken from each bound (0); with 1 it must fail")
    reader.add_argument("--by-length", action="store_true", help="also how near runs came by the length of the chain")
    return reader.parse_args()


class Progress:
    """How far it is: on a terminal in place, into a pipe at each tenth."""

    def __init__(self, asked):
        self.count, self.what = (asked.chains, "chains") if asked.chains else (asked.systems, "systems")
        self.began, self.tenth = time.monotonic(), 0

    def goes_on(self, tally):
        """Whether it isn't done yet, which it tells."""
        done = tally.counts[self.what]
        text = f"{done} of {self.count} {self.what}, {time.monotonic() - self.began:.0f} s"
        if sys.stderr.isatty():
            print(f"\r\033[K{text}", end="" if done < self.count else "\n", file=sys.stderr, flush=True)
        elif 10 * done >= self.count * (self.tenth + 1):
            self.tenth = 10 * done // self.count
            print(text, file=sys.stderr, flush=True)
        return done < self.count


def main():
    asked = asked_for()
    draw, tally, progress = random.Random(asked.seed), Tally(asked.take), Progress(asked)
    with tempfile.TemporaryDirectory() as folder:
        programs = None if asked.no_program else Programs(folder)
        if programs:
            programs.refuse(small_system(random.Random(0)), tally.counts)
        while progress.goes_on(tally):
            check_system(draw, asked.traces, programs, tally)
    tally.show(asked.by_length)


if __name__ == "__main__":
    main()
