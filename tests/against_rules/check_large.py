#!/usr/bin/env python3
"""Compares the reports of `lokwurmi analyse` with those of the rules over systems of 500 to 8,000 tasks, and tries each
limit of each format at its last value and one past it.

The rules are those of tests/rules/bounds_of_many.py, which are first compared with those of tests/rules/bounds.py over
random small systems. The limits are those of docs/FILES.md. Prints what differs, else how many were tried.

    python3 -m tests.against_rules.check_large [NUMBER of small systems, 200 if absent]
"""
import tempfile

from tests.rules.bounds import System
from tests.rules.bounds_of_many import LargeSystem
from tests.support.calls import NEEDS_PROGRAM, add_number, built, hold, outcome, reader_of, tell, written
from tests.support.large_systems import buses, one_bus, one_processor, queueing, taking_turns, with_locks
from tests.support.systems import random_file

PROGRAM = built("cpa_cli")

SYSTEMS = {
    "500 frames on ten buses": lambda: buses(500),
    "2,000 frames on ten buses": lambda: buses(2000),
    "4,000 frames on ten buses": lambda: buses(4000),
    "1,000 frames on one bus": lambda: one_bus(1000),
    "8,000 frames on one bus": lambda: one_bus(8000),
    "1,000 frames on one bus that is nearly full": lambda: one_bus(1000, 0.999),
    "500 frames on one bus that is too full": lambda: one_bus(500, 1.001),
    "1,000 tasks on one processor": lambda: one_processor(1000),
    "8,000 tasks on one processor": lambda: one_processor(8000),
    "1,000 tasks under round robin": lambda: taking_turns(1000, "round-robin"),
    "8,000 tasks under TDMA": lambda: taking_turns(8000, "tdma"),
    "4,000 tasks with locks": lambda: with_locks(4000),
    "1,000 frames in queues": lambda: queueing(),
    "1,000 frames in queues that are nearly or too full": lambda: queueing(0.97),
}
# the most entries of each list, the greatest numbers, and the most bytes, in formats 1 and 2 and in format 4
COUNTS = {"resource": (64, 128), "source": (128, 8192), "task": (512, 8192), "path": (128, 2048)}
EXECUTION, LIMIT, BYTES = (1_000_000, 10_000_000), (10_000_000, 100_000_000), (1_048_576, 16_777_216)


def entries(form, counts, resource="", task=""):
    """A file with so many entries in each list, whose first resource and task have more to say."""
    lines = [f"format = {form}"]
    for k in range(counts["resource"]):
        lines.append(f'[[resource]]\nname = "r{k}"\nkind = "preemptive"\n{resource if k == 0 else ""}')
    lines += [f'[[source]]\nname = "s{k}"\nperiod = 1000000000' for k in range(counts["source"])]
    for k in range(counts["task"]):
        times = task if k == 0 and task else "best = 1\nworst = 1\npriority = 0"
        lines.append(
            f'[[task]]\nname = "t{k}"\non = "r0"\nafter = "s0"\n{times.replace("priority = 0", f"priority = {k}")}'
        )
    lines += [f'[[path]]\nname = "p{k}"\ntasks = ["t0"]' for k in range(counts["path"])]
    return "\n".join(lines) + "\n"


def try_file(folder, what, text, refused):
    """Whether a file is accepted, or refused with a line."""
    status, line = (14, f"system refused {refused}\n") if refused else (0, "")
    wrote = outcome(PROGRAM, "analyse", written(folder, "system.toml", text))
    is_so = wrote == (line, status) if refused else wrote[1] in (0, 1, 2)
    hold(is_so, f"{what}: {wrote[0][:100]!r}, status {wrote[1]}, and not {line!r}, {status}", "limits")


def try_counts(folder, form, place):
    """Each list with as many entries as it may have, and one more."""
    few = {"resource": 1, "source": 1, "task": 1, "path": 1}
    for part, several in COUNTS.items():
        for count in (several[place], several[place] + 1):
            refused = f"reason 12 {part} {count}" if count > several[place] else ""
            try_file(folder, f"format {form}, {count} of {part}", entries(form, few | {part: count}), refused)


def try_numbers(folder, form, place):
    """Each number at the greatest that it may be, and one past it."""
    one = {"resource": 1, "source": 1, "task": 1, "path": 1}
    most, longest = EXECUTION[place], LIMIT[place]
    for more in (0, 1):
        refused = {part: f"reason 2 {part} 1" if more else "" for part in ("resource", "task")}
        files = {
            "limit": (entries(form, one, f"limit = {longest + more}"), "resource"),
            "worst": (entries(form, one, task=f"best = 1\nworst = {most + more}\npriority = 0"), "task"),
            "slot": (
                entries(form, one, task=f"best = 1\nworst = 1\nslot = {most + more}").replace("preemptive", "tdma"),
                "task",
            ),
            "gap": (
                entries(form, one, f"gap = {most + more}", "best = 1\nworst = 1\nslot = 1").replace(
                    "preemptive", "tdma"
                ),
                "resource",
            ),
        }
        if form == 4:
            files["region"] = (
                entries(form, one, task=f"best = 1\nworst = 1\npriority = 0\nregion = {most + more}"),
                "task",
            )
        for key, (text, part) in files.items():
            try_file(folder, f"format {form}, {key} past by {more}", text, refused[part])


def try_bytes(folder, form, place):
    """A file of as many bytes as it may have, and of one more."""
    text = entries(form, {"resource": 1, "source": 1, "task": 1, "path": 1})
    for more in (0, 1):
        name = written(folder, "long.toml", text + "#" * (BYTES[place] + more - len(text)))
        wrote = outcome(PROGRAM, "analyse", name)
        is_so = wrote == (f"too long {name}\n", 12) if more else wrote[1] == 0
        hold(is_so, f"format {form}, {BYTES[place] + more} bytes: {wrote[0][:100]!r}, status {wrote[1]}", "limits")


def main():
    reader = reader_of(__doc__, "50", NEEDS_PROGRAM)
    add_number(reader, "count", 200, "how many small systems both rules are asked for")
    words = reader.parse_args()
    for number in range(words.count):
        text = random_file(number)
        hold(LargeSystem(text).report() == System(text).report(), f"both rules differ:\n{text}", "small systems")
    with tempfile.TemporaryDirectory() as folder:
        for form, place in ((1, 0), (2, 0), (4, 1)):
            try_counts(folder, form, place)
            try_numbers(folder, form, place)
            try_bytes(folder, form, place)
        for name, made in SYSTEMS.items():
            text = made()
            told, wrote = LargeSystem(text).report(), outcome(PROGRAM, "analyse", written(folder, "large.toml", text))
            first = next((it for it in zip(told[0].split("\n"), wrote[0].split("\n")) if it[0] != it[1]), told)
            hold(told == wrote, f"{name}: by the rules and by the program {first}", "large systems")
    tell()


if __name__ == "__main__":
    main()
