#!/usr/bin/env python3
"""Measures how long `lokwurmi analyse` takes with systems of format 4, and how much memory.

Frames have 8 bytes on buses of 500 kbit/s, a tick is 1 us, periods spread evenly by their logarithm over three powers
of ten, and shorter ones have the higher priority. Windows end at the greatest limit. The systems are:

- buses-N: N frames on 10 buses at a load of 0.55, and 2·N tasks in all. A third of the frames is sent by a gateway, by
  a task of it after a frame of another bus; each other frame is sent by a task on one of 40 processors.
- one-bus-N, one-processor-N: N tasks on one bus, and on one processor, at a load of 0.55.
- near-full-N: N frames on one bus at a load of 0.999.
- locks-N: N tasks on 16 processors under ceilings at a load of 0.55, with up to three locks each.

Prints a line a system: its tasks, the least seconds of some calls, of one processor, the peak memory in megabytes, and
the last line of the report. The first two that it names have bounds, and it ends with 1 where one is passed.

    python3 -m bench.time_large [NAME ..]
"""
import sys

from bench.timing import names_of, passes, spent_over
from tests.support.calls import built
from tests.support.large_systems import buses, one_bus, one_processor, with_locks

PROGRAM = built("cpa_cli")
# seconds and megabytes that a call may take at most
BOUNDS = {"buses-2000": (0.3, 200), "one-bus-8000": (6.0, 200)}
SYSTEMS = {
    "buses-2000": lambda: buses(2000),
    "one-bus-8000": lambda: one_bus(8000),
    "buses-500": lambda: buses(500),
    "buses-4000": lambda: buses(4000),
    "one-bus-2000": lambda: one_bus(2000),
    "one-processor-2000": lambda: one_processor(2000),
    "one-processor-8000": lambda: one_processor(8000),
    "near-full-2000": lambda: one_bus(2000, 0.999),
    "locks-2000": lambda: with_locks(2000),
    "locks-8000": lambda: with_locks(8000),
}


def main():
    """Times the systems that are asked for; gives whether one passes its bounds."""
    passed = False
    for name in names_of(__doc__, list(SYSTEMS)):
        text = SYSTEMS[name]()
        calls = [spent_over([PROGRAM, "analyse"], [text]) for _ in range(3)]
        seconds, _, memory, last = min(calls)
        count = text.count("worst =") + text.count("payload =")
        print(f"{name:<20}{count:>6} tasks {len(text):>9} bytes {seconds:8.3f} s {memory:7.1f} MB  {last}", flush=True)
        passed |= passes(name, BOUNDS.get(name), seconds, memory)
    return passed


if __name__ == "__main__":
    sys.exit(main())
