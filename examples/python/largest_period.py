#!/usr/bin/env python3
"""Says which periods a source may have: none that misses a deadline, and none by which a chain is too slow.

    python3 examples/python/largest_period.py examples/effects.toml slow sense filter act --reaction 60

The smallest period is found by a binary search: with a longer one no bound rises. The largest is found by halving, too,
and exactly: the reaction time of a chain is a sum of waits, which rise with the period, and of bounds, which fall. So
where the waits of the shorter end and the bounds of the longer end are above the limit, no period between is within it.
Bounds are proved; that they don't rise with the period is argued in docs/NETWORKS.md. All times are in ticks.
"""
import argparse
import sys
from collections.abc import Callable
from functools import cache
from pathlib import Path

# the package of this repository, where none is installed
sys.path.append(str(Path(__file__).resolve().parents[2] / "python/src"))
from lokwurmi import LokwurmiError, System  # noqa: E402

MOST = 1_000_000_000
# the waits of a chain together, and the bounds of its tasks together
Parts = tuple[int, int]


def smallest_met(system: System, source: str) -> int | None:
    """The smallest period with which all deadlines are met and each task has a bound, or None."""
    changed = system.copy()

    def is_met(period: int) -> bool:
        changed.sources[source].period = period
        return changed.analyse().ok

    least = max(1, system.ticks(system.sources[source], "distance") or 0)
    low, high = least, max(least, system.ticks(system.sources[source], "period") or 1)
    while not is_met(high):
        if high >= MOST:
            return None
        low, high = high + 1, min(2 * high, MOST)
    while low < high:
        middle = (low + high) // 2
        low, high = (low, middle) if is_met(middle) else (middle + 1, high)
    return low


def largest_within(parts: Callable[[int], Parts | None], limit: int, low: int, high: int) -> int | None:
    """The largest period from low to high with which waits and bounds together are at most a limit, or None."""
    at_high = parts(high)
    if at_high is not None and sum(at_high) <= limit:
        return high
    at_low = parts(low)
    if low == high or at_low is None or at_high is None or at_low[0] + at_high[1] > limit:
        return None
    middle = (low + high) // 2
    upper = largest_within(parts, limit, middle + 1, high)
    return upper if upper is not None else largest_within(parts, limit, low, middle)


def parts_of(system: System, source: str, chain: list[str]) -> Callable[[int], Parts | None]:
    """A function that splits the reaction time of a chain for each period of a source; None where there is no bound."""
    changed = system.copy()

    @cache
    def parts(period: int) -> Parts | None:
        changed.sources[source].period = period
        found = changed.chain(chain)
        bounds = [it.response for it in found.steps]
        if found.reaction is None or None in bounds:
            return None
        together = sum(it for it in bounds if it is not None)
        return found.reaction - together, together

    return parts


def asked_for() -> argparse.Namespace:
    """The words of the call."""
    reader = argparse.ArgumentParser(description=__doc__, formatter_class=argparse.RawDescriptionHelpFormatter)
    reader.add_argument("file", metavar="FILE", help="a system file")
    reader.add_argument("source", metavar="SOURCE", help="the source whose period is looked for")
    reader.add_argument("chain", metavar="TASK", nargs="+", help="the tasks of a chain, in the order of the data")
    reader.add_argument("--reaction", metavar="TICKS", type=int, required=True, help="the longest reaction time")
    return reader.parse_args()


def main() -> None:
    """Searches both ends, and prints them."""
    asked = asked_for()
    try:
        system = System.from_file(asked.file)
        if asked.source not in system.sources:
            sys.exit(f"{asked.file}: no source {asked.source}: the sources are {', '.join(system.sources)}")
        low = smallest_met(system, asked.source)
        if low is None:
            sys.exit(f"no period of {asked.source} meets all deadlines")
        # a chain whose source has a longer period than the limit waits for longer than that, if it hangs on the source
        high = max(low, min(asked.reaction + 1, MOST))
        largest = largest_within(parts_of(system, asked.source, asked.chain), asked.reaction, low, high)
    except (OSError, LokwurmiError) as fault:
        sys.exit(str(fault))
    print(f"all deadlines are met from a period of {low} on")
    if largest is None:
        sys.exit(f"no period of {low} to {high} has a reaction time of at most {asked.reaction}")
    print(f"the largest period with a reaction time of at most {asked.reaction} is {largest}")


if __name__ == "__main__":
    main()
