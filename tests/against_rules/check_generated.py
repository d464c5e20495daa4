#!/usr/bin/env python3
"""Compares `generate`, `load` and `hammer` with what docs/FILES.md says of generated systems and generated traces.
Outside the gate.

Systems and traces are made here once more, by the generator written down plainly. Of each generated system `generate`
must write a file that says the same, and `load` the sum of the bounds that `analyse` writes of it. Of each example, and
of random systems whose tasks have up to three activators, and in every other one regions, `hammer` must write what
`simulate` does of each generated trace, taken together.

    python3 -m tests.against_rules.check_generated [NUMBER to begin with, 0 if absent]
"""
import sys
import tempfile
import tomllib

from tests.rules.generated import generated_system, generated_trace
from tests.support.calls import NEEDS_PROGRAM, TOP, add_number, built, example_systems, outcome, reader_of, written
from tests.support.systems import random_file

PROGRAM = built("cpa_cli")


def call(*words):
    return outcome(PROGRAM, *words)


def lines_of(text, first):
    return [line.split() for line in text.splitlines() if line.startswith(first + " ")]


def compare(what, wrote, told):
    if wrote != told:
        sys.exit(f"{what} differs:\nby the page:\n{told}\nby the program:\n{wrote}")


def hammer(folder, file, number, traces):
    """Holds a call of `hammer` against those of `simulate` that it takes together, over traces written to a file."""
    with open(file, "rb") as it:
        system = tomllib.load(it)
    bounds = {line[1]: line[-1] for line in lines_of(call("analyse", file)[0], "task")}
    jobs, worst = dict.fromkeys(bounds, 0), dict.fromkeys(bounds, "none")
    for place in range(traces):
        trace = written(folder, "trace.csv", generated_trace(system, number, place))
        for line in lines_of(call("simulate", file, trace)[0], "task"):
            jobs[line[1]] += int(line[3])
            if line[7] != "none":
                worst[line[1]] = int(line[7]) if worst[line[1]] == "none" else max(worst[line[1]], int(line[7]))
    told = "".join(f"task {it} jobs {jobs[it]} worst {worst[it]} bound {bounds[it]}\n" for it in bounds)
    told += f"summary traces {traces} jobs {sum(jobs.values())} beyond 0\n"
    compare(f"hammer {file} {number} {traces}", call("hammer", file, number, traces), (told, 0))


def main():
    reader = reader_of(__doc__, "7", NEEDS_PROGRAM)
    add_number(reader, "first", 0, "the number to begin with, which makes other systems")
    begin = reader.parse_args().first
    compared = hammered = 0
    with tempfile.TemporaryDirectory() as room:
        for number in (*range(begin, begin + 5), 4294967295):
            for size in (0, 1, 2, 5, 9, 40, 128):
                text, status = call("generate", number, size)
                compare(f"generate {number} {size}", (tomllib.loads(text), status), (generated_system(number, size), 0))
                file = written(room, "system.toml", text)
                report, status = call("analyse", file)
                bounds = sum(int(line[-1]) for line in lines_of(report, "task") if line[-1] != "overload")
                told = f"load number {number} size {size} bounds {bounds}\n{report.splitlines()[-1]}\n"
                compare(f"load {number} {size}", call("load", number, size), (told, status))
                compared += 1
        for example in example_systems():
            for traces in (1, 4, 7):
                hammer(room, TOP / example, begin + traces, traces)
                hammered += 1
        for place in range(begin, begin + 40):
            hammer(room, written(room, "system.toml", random_file(2 * place + 1)), place, 2)
            hammered += 1
    print(f"{compared} generated systems and {hammered} calls of hammer alike")


if __name__ == "__main__":
    main()
