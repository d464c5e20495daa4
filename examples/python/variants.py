#!/usr/bin/env python3
"""Tries variants of a system, whose greatest executions are drawn at random, and says how many meet all deadlines.

    python3 examples/python/variants.py examples/crossing_chains.toml --variants 1000 --seed 1

Each greatest execution is drawn from 70 to 130 % of what the file has. The time that a variant takes stands on
standard error. With --session each variant is a few edits of one session, which keeps the bounds that they can't reach.
"""
import argparse
import sys
import time
from collections import Counter
from collections.abc import Iterator
from pathlib import Path
from random import Random

# the package of this repository, where none is installed
sys.path.append(str(Path(__file__).resolve().parents[2] / "python/src"))
from lokwurmi import LokwurmiError, System, default_engine  # noqa: E402
from lokwurmi_tools.shared.progress import Progress  # noqa: E402

LEAST, GREATEST = 70, 130
Bounds = dict[str, int | None]


def variants(system: System, count: int, seed: int) -> Iterator[dict[str, int]]:
    """So many variants: greatest executions by task, in ticks."""
    draw = Random(seed)
    ranges = {it.name: system.execution(it) for it in system.tasks.values() if it.payload is None}
    for _ in range(count):
        yield {name: max(best, worst * draw.randint(LEAST, GREATEST) // 100) for name, (best, worst) in ranges.items()}


def by_analyses(system: System, count: int, seed: int) -> Iterator[tuple[str, Bounds]]:
    """The verdict and the bounds of the paths of each variant: each is analysed anew."""
    changed = system.copy()
    for worst in variants(system, count, seed):
        for name, ticks in worst.items():
            changed.tasks[name].worst = ticks
        report = changed.analyse()
        yield report.verdict.value, {name: it.worst for name, it in report.paths.items()}


def by_session(system: System, count: int, seed: int) -> Iterator[tuple[str, Bounds]]:
    """The same by edits of one session."""
    with system.session() as session:
        for worst in variants(system, count, seed):
            for name, ticks in worst.items():
                session.exec(name, worst=ticks)
            report = session.report()
            yield report.verdict.value, dict(session.latencies)


def span(bounds: list[int | None]) -> str:
    """The least and the greatest of some bounds."""
    numbers = [it for it in bounds if it is not None]
    without = len(bounds) - len(numbers)
    text = f"{min(numbers)} to {max(numbers)}" if numbers else "never bounded"
    return text + (f", and {without} times no bound" if without and numbers else "")


def asked_for() -> argparse.Namespace:
    """The words of the call."""
    reader = argparse.ArgumentParser(description=__doc__, formatter_class=argparse.RawDescriptionHelpFormatter)
    reader.add_argument("file", metavar="FILE", help="a system file")
    reader.add_argument("--variants", type=int, default=1000, help="how many (1000)")
    reader.add_argument("--seed", type=int, default=1, help="what they are drawn from (1)")
    reader.add_argument("--session", action="store_true", help="make edits of one session")
    return reader.parse_args()


def main() -> None:
    """Tries the variants, and sums them up."""
    asked = asked_for()
    verdicts: Counter[str] = Counter()
    paths: dict[str, list[int | None]] = {}
    progress, begun = Progress("variants"), time.perf_counter()
    try:
        system = System.from_file(asked.file)
        way = by_session if asked.session else by_analyses
        for place, (verdict, bounds) in enumerate(way(system, asked.variants, asked.seed), 1):
            verdicts[verdict] += 1
            for name, bound in bounds.items():
                paths.setdefault(name, []).append(bound)
            progress.show(f"{place} of {asked.variants}{progress.left(place / asked.variants)}")
    except (OSError, LokwurmiError) as fault:
        sys.exit(str(fault))
    took = time.perf_counter() - begun
    progress.clear()
    print(f"{asked.variants} variants: " + ", ".join(f"{verdicts[it]} {it}" for it in ("met", "missed", "overload")))
    for name, found in paths.items():
        print(f"path {name}: {span(found)}, deadline {system.paths[name].deadline or 'none'}")
    print(f"{1000 * took / max(asked.variants, 1):.3f} ms a variant, by {default_engine()!r}", file=sys.stderr)


if __name__ == "__main__":
    main()
