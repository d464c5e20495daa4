#!/usr/bin/env python3
"""Compares the reports of `lokwurmi analyse` with those of the rules written down plainly, over random systems.

The rules are those of tests/rules/bounds.py. Systems have all kinds of resource, chains that come back to a resource,
jitter of several periods, and paths; in every other one tasks have up to three activators, and in every other pair
there are regions and queues. Prints the first file whose report or status differs, else how many were alike.

    python3 -m tests.against_rules.check_reports [NUMBER of systems, 1000 if absent] [NUMBER to begin with, 0 if absent]
"""
import sys
import tempfile

from tests.rules.bounds import System
from tests.support.calls import built, outcome, range_of, written
from tests.support.systems import random_file

PROGRAM = built("cpa_cli")


def main():
    numbers = range_of(__doc__, 1000)
    statuses = [0, 0, 0]
    with tempfile.TemporaryDirectory() as folder:
        for number in numbers:
            text = random_file(number)
            told = System(text).report()
            wrote = outcome(PROGRAM, "analyse", written(folder, "system.toml", text))
            if wrote != told:
                sys.exit(f"system {number} differs:\n{text}\nby the rules:\n{told}\nby the program:\n{wrote}")
            statuses[told[1]] += 1
    print(f"{len(numbers)} reports alike, with status 0, 1, 2: {statuses}")


if __name__ == "__main__":
    main()
