"""Draws a clock below a Gantt chart: when the events of its sources came in the run, and what work came by it."""
from typing import Any, NamedTuple

from lokwurmi_tools.pictures.clock_curve import CURVE, ROW, draw_stack, in_unit, plain
from lokwurmi_tools.pictures.colours import FAINT, INK, shades
from lokwurmi_tools.pictures.plotting import Line2D, legend_above
from lokwurmi_tools.runs.clock_cycle import ClockCycle, Lead, in_parts
from lokwurmi_tools.shared.times import Scale
from lokwurmi_tools.shared.types import Times

# how a line is drawn where a cycle begins
DOTS = (0, (2, 2))


class ClockInRun(NamedTuple):
    """A clock, the events of a run, and for how long it may have run when that begins."""

    clock: ClockCycle
    events: Times
    leads: list[Lead]

    def heights(self) -> list[float]:
        """How high its rows and its curve are in inches."""
        return [ROW * len(self.clock.sources) + 0.3, 0.7 * CURVE]

    def begins(self, start: int, until: int) -> list[int]:
        """When a cycle begins in a stretch of time, as late as the events allow."""
        if not self.leads:
            return []
        first = -self.leads[0][0] % self.clock.cycle
        skipped = max(0, start - first) // self.clock.cycle * self.clock.cycle
        return [it for it in range(first + skipped, until, self.clock.cycle) if it >= start]

    def begins_text(self, scale: Scale) -> str:
        """What a line is where a cycle begins, and how much of that the events leave open."""
        low, high = self.leads[0]
        sooner = f", or up to {scale.text(high - low)} before" if high > low else ""
        others = f", or at {len(self.leads) - 1} more places" if len(self.leads) > 1 else ""
        return f"a cycle of {self.clock.name} begins{sooner}{others}"


def hues_in_run(clock: ClockCycle) -> dict[str, str]:
    """The colour of each source: that of the first task that it starts."""
    colour, view = shades(clock.view), clock.view
    return {name: colour[view.successors(name)[0]] if view.successors(name) else FAINT for name in clock.sources}


def loads_in_run(run: ClockInRun, start: int, until: int) -> dict[str, list[int]]:
    """The work that the events of each source brought in each part of the time, on all resources."""
    clock, found = run.clock, {}
    for name in clock.sources:
        work = sum(clock.work(name, it) for it in clock.resources())
        found[name] = in_parts(run.events.get(name, ()), work, start, until, clock.part)
    return found


def draw_clock_in_run(axes: list[Any], run: ClockInRun, start: int, until: int, scale: Scale) -> None:
    """The rows of its sources, and below them the work that came in parts of the time."""
    rows, curve = axes
    hue, clock = hues_in_run(run.clock), run.clock
    for place, name in enumerate(clock.sources):
        times = [at for at in run.events.get(name, ()) if start <= at <= until]
        rows.scatter(times, [place] * len(times), marker="|", s=60, color=hue[name], linewidths=1.8, zorder=3)
    rows.set_ylim(len(clock.sources) - 0.4, -0.6)
    rows.set_yticks(range(len(clock.sources)), clock.sources, fontsize=7, color=INK)
    draw_stack(curve, loads_in_run(run, start, until), hue, (start, until, clock.part))
    curve.set_ylim(0, None)
    curve.set_ylabel("work that came", fontsize=7, color=INK)
    in_unit(curve, scale)
    for it in axes:
        plain(it)
        it.tick_params(axis="y", labelsize=7)
        for at in run.begins(start, until):
            it.axvline(at, color=INK, linewidth=0.8, linestyle=DOTS, zorder=1)
    rows.tick_params(length=0)
    if run.leads:
        line = Line2D([], [], color=INK, linewidth=0.8, linestyle=DOTS)
        legend_above(rows, [line], [run.begins_text(scale)], labelcolor=INK)
    rows.set_title(f"clock {clock.name}, work in each {scale.text(clock.part)}", fontsize=8, loc="left", color=INK)
    rows.xaxis.grid(True, color=FAINT, linewidth=0.4, alpha=0.35)
