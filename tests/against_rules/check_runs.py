#!/usr/bin/env python3
"""Compares `simulate`, `buffers`, `audit` and `schedule` with runs that are followed plainly, tick by tick. Outside the
gate.

Random systems with all kinds of resource, in every other one of which tasks have regions, get random traces that
obey. The step rules are followed plainly once more (tests/rules/runs.py): what is seen of each task, how many jobs are
pending at each time, and who gets which tick, and from which job each one comes. `buffers` must tell those peaks, none
of them above its bound, and each bound must be the most events of the task's streams in its greatest response; no
response is above that, and neither is the work that is pending in a queue.
`audit` must take the schedule that was recorded here, and of one with a row changed, left out, added or exchanged it
must tell the first place that differs, with what is expected there. `schedule` must write the schedule that was
recorded here, and of that `audit` must say that it is the run's.

    python3 -m tests.against_rules.check_runs [NUMBER of systems, 300 if absent] [NUMBER to begin with, 0 if absent]
"""
import random

from tests.support import beside_rules
from tests.support.calls import NEEDS_PROGRAM, check_all
from tests.support.systems import random_system, random_trace


def check_system(folder, number, _):
    draw = random.Random(number)
    system = random_system(draw)
    report = beside_rules.check_report(folder, number, system)
    beside_rules.check_run(folder, draw, number, system, report, random_trace(draw, system))


if __name__ == "__main__":
    check_all(__doc__, 300, NEEDS_PROGRAM, [], check_system, "")
