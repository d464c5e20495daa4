#!/usr/bin/env python3
"""Measures what tasks with several activators cost: processor time and memory of `analyse`, `session` and `simulate`.

Makes systems of 512 tasks, each with up to 32 streams, on 64 resources that depend on each other in cycles:

- chains: 64 chains of 8 tasks, the first of each after 32 sources, so that every task has 32 streams;
- trees: eight steps of 64 tasks, each after two of the step before, until after five steps a task has 32 streams;
- ladders: 16 chains of 32 tasks, each after the task before it and a source, so that streams come one by one up to 32;
- sources: 512 tasks, each after 32 sources; here no resource depends on another one;
- one: the chains with one source each, in format 1, beside which the others may be seen.

The busiest resource is used by --load per cent: at 30 all of them settle, at 50 the ladders climb until they are
overloaded. `session` makes edits of one task's execution that rise and fall in turn, with a report at the end;
`simulate` replays as many events of all sources as 2,000,000 jobs allow. `analyse` and `session` run by each number of
workers. Prints a line a call: seconds of processors and of the clock, both the least of some calls, peak memory, the
last line of the text.

    python3 -m bench.time_activators                                   all systems and commands
    python3 -m bench.time_activators chains trees --kind can           two of them, on CAN buses
    python3 -m bench.time_activators ladders --load 60 --workers 1 2 4 8
    python3 -m bench.time_activators one chains --commands simulate --calls 1
    python3 -m bench.time_activators chains --write FOLDER             writes its files, and calls nothing
"""
import argparse
import os
import sys
import tempfile

from bench.time_analyse import KINDS, place_in_cycles
from bench.timing import spent
from tests.support.calls import TOP

PROGRAM = os.path.join(TOP, "crates/cpa_cli/out/cpa_cli")
RESOURCES, SOURCES, TASKS, MOST_JOBS = 64, 128, 512, 2_000_000


def sources_from(first, count):
    return [f"s{(first + k) % SOURCES}" for k in range(count)]


def chains(many=32):
    """Per task its resource and its activators."""
    rows = []
    for c in range(64):
        for k in range(8):
            rows.append((place_in_cycles(c, k), [f"t{8 * c + k - 1}"] if k else sources_from(2 * c, many)))
    return rows


def trees():
    rows = []
    for step in range(8):
        for c in range(64):
            before = [f"t{64 * (step - 1) + (c + n * 2 ** step) % 64}" for n in range(2 if step < 5 else 1)]
            rows.append((place_in_cycles(c, step), before if step else sources_from(2 * c, 2)))
    return rows


def ladders():
    rows = []
    for c in range(16):
        for k in range(32):
            source = f"s{(8 * c + k) % SOURCES}"
            rows.append(((c + 5 * k) % RESOURCES, [source] + ([f"t{32 * c + k - 1}"] if k else [])))
    return rows


def sources():
    return [(k % RESOURCES, sources_from(k, 32)) for k in range(TASKS)]


SHAPES = {"one": lambda: chains(1), "chains": chains, "trees": trees, "ladders": ladders, "sources": sources}


def streams_of(rows):
    """How many streams each task has: an activator that is a task stands before it."""
    streams = []
    for _, after in rows:
        streams.append(sum(streams[int(name[1:])] if name[0] == "t" else 1 for name in after))
    return streams


def source_counts(rows):
    """How many streams of all tasks come from each source."""
    reached, counts = [], [0] * SOURCES
    for _, after in rows:
        own = [source for name in after for source in (reached[int(name[1:])] if name[0] == "t" else [int(name[1:])])]
        reached.append(own)
        for source in own:
            counts[source] += 1
    return counts


def worst_of(task):
    return 10 + 7 * task % 13


def period_of(rows, streams, load):
    """The period with which the busiest resource is used by so many per cent."""
    work = [0] * RESOURCES
    for task, (resource, _) in enumerate(rows):
        work[resource] += streams[task] * worst_of(task)
    return max(work) * 100 // load


def system(rows, kind, period):
    text = [f"format = {1 if all(len(after) == 1 for _, after in rows) else 2}", "resource = ["]
    text += [f'{{ name = "r{r}", kind = "{kind}", limit = 10000000 }},' for r in range(RESOURCES)]
    text += ["]", "source = ["]
    text += [f'{{ name = "s{k}", period = {period + 10 * k}, jitter = {50 * (k % 9)} }},' for k in range(SOURCES)]
    text += ["]", "task = ["]
    for task, (resource, after) in enumerate(rows):
        names = ", ".join(f'"{name}"' for name in after)
        worst = worst_of(task)
        turn = f"slot = {worst}" if kind in ("round-robin", "tdma") else f"priority = {task}"
        text.append(
            f'{{ name = "t{task}", on = "r{resource}", after = {names if len(after) == 1 else f"[{names}]"},'
            f" best = {worst // 2}, worst = {worst}, {turn} }},"
        )
    return "\n".join(text + ["]"]) + "\n"


def script(edits):
    return "".join(f"exec t{TASKS - 1} 1 {worst_of(TASKS - 1) - k % 2}\n" for k in range(edits))


def trace(rows, period):
    """Events of all sources at their periods, up to the end of traces or as many as there may be jobs."""
    counts = source_counts(rows)
    events = min(MOST_JOBS // sum(counts), 200_000 // SOURCES, 10_000_000 // (period + 10 * SOURCES) + 1)
    return "".join(f"event,s{k},{n * (period + 10 * k)}\n" for k in range(SOURCES) for n in range(events))


def measure(label, command, calls):
    runs = [spent(command) for _ in range(calls)]
    processor, clock = (min(run[place] for run in runs) for place in (0, 1))
    print(
        f"{label:34} {processor:8.3f} s of processors, {clock:8.3f} s, {runs[0][2]:7.1f} MB  {runs[0][3]}", flush=True
    )


def words():
    parser = argparse.ArgumentParser(description=__doc__, formatter_class=argparse.RawDescriptionHelpFormatter)
    parser.add_argument("systems", nargs="*", metavar="SYSTEM", help="of " + ", ".join(SHAPES) + "; all if absent")
    parser.add_argument("--kind", choices=KINDS, default="preemptive", help="of all resources (default: %(default)s)")
    parser.add_argument(
        "--load", type=int, default=30, metavar="PER_CENT", help="of the busiest resource (default: %(default)s)"
    )
    parser.add_argument(
        "--commands", nargs="+", choices=("analyse", "session", "simulate"), default=["analyse", "session", "simulate"]
    )
    parser.add_argument(
        "--workers", nargs="+", type=int, default=[1, 4], metavar="N", help="of analyse and session (default: 1 4)"
    )
    parser.add_argument("--edits", type=int, default=200, metavar="N", help="of a session (default: %(default)s)")
    parser.add_argument(
        "--calls", type=int, default=5, metavar="N", help="of which the least time is told (default: %(default)s)"
    )
    parser.add_argument("--write", metavar="FOLDER", help="write the files there, and call nothing")
    chosen = parser.parse_args()
    if not set(chosen.systems) <= set(SHAPES):
        parser.error(f"a system is one of {', '.join(SHAPES)}")
    return chosen


def write_files(folder, name, chosen):
    """Writes the three files of a system, and answers their paths."""
    rows = SHAPES[name]()
    streams = streams_of(rows)
    period = period_of(rows, streams, chosen.load)
    texts = {
        "toml": system(rows, chosen.kind, period),
        "script.txt": script(chosen.edits),
        "trace.csv": trace(rows, period),
    }
    paths = []
    for ending, text in texts.items():
        paths.append(os.path.join(folder, f"{name}.{ending}"))
        with open(paths[-1], "w", encoding="ascii") as file:
            file.write(text)
    print(
        f"{name}: {len(rows)} tasks, {sum(streams)} streams, at most {max(streams)} of a task; periods from {period}",
        flush=True,
    )
    return paths


def measure_all(paths, chosen):
    toml, edits, rows = paths
    for command in chosen.commands:
        if command == "simulate":
            measure("  simulate", [PROGRAM, "simulate", toml, rows], chosen.calls)
            continue
        files = [toml, edits] if command == "session" else [toml]
        label = f"  session, {chosen.edits} edits" if command == "session" else "  analyse"
        for workers in chosen.workers:
            measure(f"{label}, workers {workers}", [PROGRAM, command, *files, "--workers", str(workers)], chosen.calls)


def main():
    chosen = words()
    if not chosen.write and not os.path.exists(PROGRAM):
        sys.exit(f"{PROGRAM} isn't there: build it by ./lokwurmi first")
    print(f"processors: {os.cpu_count()}")
    with tempfile.TemporaryDirectory() as folder:
        for name in chosen.systems or SHAPES:
            paths = write_files(chosen.write or folder, name, chosen)
            if not chosen.write:
                measure_all(paths, chosen)


if __name__ == "__main__":
    main()
