#!/usr/bin/env python3
"""Draws how the bounds of all paths rise with the greatest execution of one task, beside their deadlines.

    python3 examples/python/chart.py examples/crossing_chains.toml b2 --up-to 40 --to chart.svg

It needs matplotlib: apt-get install python3-matplotlib. A line ends where a path has no bound any more.
"""
import argparse
import sys
from pathlib import Path

# the package of this repository, where none is installed
sys.path.append(str(Path(__file__).resolve().parents[2] / "python/src"))
from lokwurmi import LokwurmiError, System  # noqa: E402

Curves = dict[str, list[int | None]]


def curves(system: System, task: str, executions: list[int]) -> Curves:
    """The bounds of each path, for each of some greatest executions of a task."""
    found: Curves = {name: [] for name in system.paths}
    with system.session() as session:
        for worst in executions:
            session.exec(task, worst=worst)
            for name, bound in session.latencies.items():
                found[name].append(bound)
    return found


def draw(system: System, task: str, executions: list[int], found: Curves, file: str) -> None:
    """Writes the picture."""
    try:
        from matplotlib.figure import Figure
    except ImportError:
        sys.exit("this needs matplotlib: apt-get install python3-matplotlib")
    figure = Figure(figsize=(7, 4), layout="constrained")
    axes = figure.add_subplot()
    for name, bounds in found.items():
        heights = [float("nan") if it is None else it for it in bounds]
        (line,) = axes.plot(executions, heights, drawstyle="steps-mid", label=f"path {name}")
        deadline = system.ticks(system.paths[name], "deadline")
        if deadline is not None:
            axes.axhline(deadline, color=line.get_color(), linestyle=":", label=f"deadline of {name}")
    axes.set_xlabel(f"greatest execution of {task}, in ticks")
    axes.set_ylabel("worst-case latency, in ticks")
    axes.set_ylim(bottom=0)
    axes.legend()
    figure.savefig(file)


def asked_for() -> argparse.Namespace:
    """The words of the call."""
    reader = argparse.ArgumentParser(description=__doc__, formatter_class=argparse.RawDescriptionHelpFormatter)
    reader.add_argument("file", metavar="FILE", help="a system file with paths")
    reader.add_argument("task", metavar="TASK", help="the task whose greatest execution rises")
    reader.add_argument("--up-to", metavar="TICKS", type=int, help="up to which; twice what the file has if absent")
    reader.add_argument("--to", metavar="PICTURE", required=True, help="the picture: .svg, .png or .pdf")
    return reader.parse_args()


def main() -> None:
    """Works out the curves, and draws them."""
    asked = asked_for()
    try:
        system = System.from_file(asked.file)
        if asked.task not in system.tasks or system.tasks[asked.task].payload is not None:
            sys.exit(f"{asked.file}: {asked.task} is no task with best and worst")
        best, worst = system.execution(asked.task)
        executions = list(range(best, (asked.up_to or 2 * worst) + 1))
        draw(system, asked.task, executions, curves(system, asked.task, executions), asked.to)
    except (OSError, LokwurmiError) as fault:
        sys.exit(str(fault))


if __name__ == "__main__":
    main()
