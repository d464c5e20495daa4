#!/usr/bin/env python3
"""Counts the instructions of whole calls of `analyse` on the car network, on the largest systems of each kind, on
systems with all tasks on one resource, and on tasks with several activators. For each program it prints those of the
call, those of what follows reading and judging (the call's less those of a call that refuses the same file with a path
over an unknown task at its end), and those of the analysis alone, without the report. Then it counts calls of
`simulate` on some of these systems, with events of all sources at their periods.

    python3 -m bench.count_instructions [PROGRAM ..]
    python3 -m bench.count_instructions BEFORE AFTER --most 2

It wants valgrind. Programs are builds of this repository at several commits (crates/cpa_cli/out/cpa_cli); without one
it takes the present build. The same program and file give the same count, whatever else the machine does. All systems
are of format 1 or 2, which each build reads. With --most it ends with 1 where a call of the last program takes more
instructions than one of the first, by more than so many per cent, or writes another text.
"""
import os
import subprocess
import sys
import tempfile
import tomllib

from bench import time_activators
from bench.time_analyse import PROGRAM, systems
from tests.support.calls import NEEDS_PROGRAM, reader_of, written

# of cpa_fix; in older builds it stood in a module `analysis` of cpa_run or cpa_cli
ANALYSIS = ("::solving::least_bounds", "::analysis::least_bounds")
# a processor counts `rep stosb` as one instruction, and valgrind each byte that it clears: so glibc clears by vectors
CLEARS_BY_VECTORS = {"GLIBC_TUNABLES": "glibc.cpu.x86_rep_stosb_threshold=10000000"}
# which systems are simulated, and how many ticks of them
SIMULATED, TICKS = ("car-network", "preemptive-in-order", "mixed-in-order", "preemptive-activators"), 100_000


def with_activators(kind):
    """512 tasks with up to 32 streams each."""
    rows = time_activators.trees()
    period = time_activators.period_of(rows, time_activators.streams_of(rows), 30)
    return time_activators.system(rows, kind, period)


def made():
    """The systems by name, each with what makes it, but for those that climb."""
    found = {name: make for name, make in systems().items() if "climb" not in name}
    for kind in ("preemptive", "can"):
        found[f"{kind}-activators"] = lambda kind=kind: with_activators(kind)
    return found


def traced(system):
    """A trace of a system: events of each source at its period."""
    rows = []
    for it in tomllib.loads(system)["source"]:
        rows += [f"event,{it['name']},{time}\n" for time in range(0, TICKS, it["period"])]
    return "".join(rows)


def count(program, folder, *words):
    """The instructions of a call, and what it writes."""
    done = subprocess.run(
        ["valgrind", "--tool=callgrind", f"--callgrind-out-file={folder}/out", program, *words],
        capture_output=True,
        text=True,
        env=os.environ | CLEARS_BY_VECTORS,
    )
    line = [line for line in done.stderr.splitlines() if "refs" in line][-1]
    return int(line.split(":")[-1].replace(",", "")), done.stdout


def analysis(folder):
    """The instructions of the last call's analysis."""
    done = subprocess.run(
        ["callgrind_annotate", "--inclusive=yes", "--threshold=100", f"{folder}/out"], capture_output=True, text=True
    )
    lines = [line for line in done.stdout.splitlines() if any(name in line for name in ANALYSIS)]
    return int(lines[0].split()[0].replace(",", "")) if lines else 0


def refused(system):
    """The same file with a path over an unknown task at its end."""
    path = '{ name = "refused", tasks = ["nothing"] }'
    if "\npath = [" in system:
        return system.rstrip()[:-1] + path + "]\n"
    return system + f"path = [{path}]\n"


def measure(program, whole, part, folder):
    """The instructions of a call, of what follows judging, and of the analysis, and the report."""
    call, report = count(program, folder, "analyse", whole)
    alone = analysis(folder)
    return call, call - count(program, folder, "analyse", part)[0], alone, report


def more_than(counts, texts, most):
    """Whether the last program takes more than the first, by more than so many per cent, or writes another text."""
    is_more = most is not None and 100 * counts[-1] > (100 + most) * counts[0]
    return is_more or most is not None and texts[0] != texts[-1]


def tell(name, columns, counts, texts, most):
    """A line of a call of each program: its columns, how the last compares with the first, and what is wrong."""
    numbers = "".join(f"{it:14,}" for it in columns)
    share = f"  {100 * counts[-1] / counts[0] - 100:+.2f} %" if len(counts) > 1 else ""
    same = "" if len(set(texts)) == 1 else "  other texts"
    wrong = more_than(counts, texts, most)
    print(f"{name:32}{numbers}{share}{same}{'  too many' if wrong else ''}", flush=True)
    return wrong


def main():
    reader = reader_of(__doc__, "", f"valgrind, and {NEEDS_PROGRAM}")
    reader.add_argument(
        "programs", metavar="PROGRAM", nargs="*", help="builds of several commits; the present one if absent"
    )
    reader.add_argument("--most", metavar="PER_CENT", type=float, help="how many more the last program may take")
    words = reader.parse_args()
    programs, wrong = words.programs or [PROGRAM], 0
    with tempfile.TemporaryDirectory() as folder:
        for name, make in made().items():
            whole, part = written(folder, "system.toml", make()), written(folder, "refused.toml", refused(make()))
            found = [measure(program, whole, part, folder) for program in programs]
            columns = [number for *numbers, _ in found for number in numbers]
            wrong += tell(name, columns, [it[0] for it in found], [it[-1] for it in found], words.most)
        for name in SIMULATED:
            system = made()[name]()
            files = written(folder, "system.toml", system), written(folder, "trace.csv", traced(system))
            found = [count(program, folder, "simulate", *files) for program in programs]
            counts = [number for number, _ in found]
            wrong += tell(f"simulate {name}", counts, counts, [text for _, text in found], words.most)
    sys.exit(1 if wrong else 0)


if __name__ == "__main__":
    main()
