#!/usr/bin/env python3
"""Holds the answers of `lokwurmi slack` against `lokwurmi analyse`, over random systems.

The systems are those of check_reports.py, with all kinds and paths over two tasks, in every other one with tasks
that have up to three activators, and every task of each is asked for. In three of four the deadlines are made anew, so
that all are met, with more or less to spare. With as many ticks as are told all deadlines have to be met, with one more
not, or the execution is the greatest there is; and where there is none, one has to be missed already. One worker and
two have to answer alike. Ends with 1 at the first answer that doesn't fit.

    python3 -m tests.against_rules.check_slack [NUMBER of systems, 300 if absent] [NUMBER to begin with, 0 if absent]
"""
import random
import re
import sys

from tests.rules.bounds import System
from tests.support.calls import answer, built, range_of
from tests.support.systems import random_file

PROGRAM = built("cpa_cli")


def most_of(text):
    """The greatest execution in the format of a system."""
    return 10_000_000 if text.startswith("format = 4\n") else 1_000_000


def holds(text):
    return not re.search(r"^path .* (missed|unknown)$", answer(PROGRAM, text, "analyse")[1], re.M)


def with_executions(text):
    """The system with the executions of frames in place of their payloads."""
    for name, it in System(text).tasks.items():
        times = f"best = {it['best']}\nworst = {it['worst']}"
        text = re.sub(rf'(name = "{name}"\n.*\n.*\n)payload = \d+', rf"\g<1>{times}", text)
    return text


def relaxed(text, number):
    """The system with deadlines that are met, and none where a path has no bound."""
    pick = random.Random(number)
    for path, worst in re.findall(r"^path (\S+) best \d+ worst (\S+)", answer(PROGRAM, text, "analyse")[1], re.M):
        deadline = "" if worst == "overload" else f"\ndeadline = {int(worst) + pick.randint(0, int(worst))}"
        text = re.sub(rf'(name = "{path}"\ntasks = .*)\ndeadline = \d+', rf"\g<1>{deadline}", text)
    return text


def longer(text, task, ticks):
    """The system with so many ticks more for the task, and its greatest execution by then."""
    form = rf'(name = "{task}"\n(?:.*\n){{3}}worst = )(\d+)'
    worst = int(re.search(form, text)[2]) + ticks
    return re.sub(form, rf"\g<1>{worst}", text), worst


def fits(text, task, got):
    if got == (3, f"slack {task} none\n"):
        return not holds(text)
    told = re.fullmatch(rf"slack {task} (\d+) next (missed|limit)\n", got[1])
    if got[0] or not told:
        return False
    most, (system, worst) = most_of(text), longer(text, task, int(told[1]))
    if worst > most or not holds(system):
        return False
    return worst == most if told[2] == "limit" else worst < most and not holds(longer(text, task, int(told[1]) + 1)[0])


def main():
    numbers = range_of(__doc__, 300)
    ends = {"missed": 0, "limit": 0, "none": 0}
    several = 0
    for number in numbers:
        text = with_executions(random_file(number))
        if number % 4:
            text = relaxed(text, number)
        several += "after = [" in text
        for task in re.findall(r'^name = "(t\d+)"', text, re.M):
            got = answer(PROGRAM, text, "slack", task)
            if not fits(text, task, got) or answer(PROGRAM, text, "slack", task, "--workers", "2") != got:
                print(f"system {number}, task {task}: {got}\n{text}")
                sys.exit(1)
            ends[got[1].split()[-1]] += 1
    print(
        f"{len(numbers)} systems, {several} with several activators; answers that end with missed, limit and none:"
        f" {list(ends.values())}"
    )


if __name__ == "__main__":
    main()
