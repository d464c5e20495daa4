"""Draws a clock over its cycle: the releases of its sources, and the work that comes by it, as a curve for each
resource that it feeds."""
from collections.abc import Mapping
from typing import Any

from lokwurmi_tools.pictures.colours import FAINT, INK
from lokwurmi_tools.pictures.plotting import Line2D, Patch, bare, begun, legend_above
from lokwurmi_tools.runs.clock_cycle import ClockCycle
from lokwurmi_tools.shared.times import Scale

# one for each source, and again
HUES = ["#1b6ca8", "#b5541c", "#2e7d4f", "#7b4fa3", "#a3862a", "#a83254", "#2a8c8c", "#5b6770", "#8c5a2a", "#4f63c9"]
# how high a row of a source is in inches, and a curve
ROW, CURVE = 0.2, 1.7


def hues_on(clock: ClockCycle) -> dict[str, str]:
    """A colour for each source of a clock."""
    return {name: HUES[place % len(HUES)] for place, name in enumerate(clock.sources)}


def drawn_clock(clock: ClockCycle, scale: Scale, width: float = 9.0) -> Any:
    """The figure of a clock."""
    resources, rows = clock.resources(), ROW * len(clock.sources) + 0.25
    heights = [rows, *[CURVE] * len(resources)]
    look = {"sharex": True, "squeeze": False, "height_ratios": heights, "figsize": (width, sum(heights) + 0.75)}
    figure, axes = begun(1 + len(resources), 1, **look)
    releases, *curves = (it[0] for it in axes)
    draw_releases(releases, clock)
    for it, resource in zip(curves, resources):
        draw_loads(it, clock, resource, scale)
    last = curves[-1] if curves else releases
    last.set_xlim(0, clock.cycle)
    unit = scale.units(last, clock.cycle)
    last.set_xlabel(f"{unit} into a cycle of {clock.name}", fontsize=8, color=INK)
    last.ticklabel_format(axis="x", style="plain", useOffset=False) if scale.tick is None else None
    whole = f"clock {clock.name}: a cycle of {scale.length(clock.cycle)}, where no event is late"
    releases.set_title(whole, fontsize=9, loc="left", color=INK)
    return figure


def plain(axes: Any) -> None:
    """How edges and numbers look."""
    bare(axes)
    axes.tick_params(labelsize=8, color=FAINT, labelcolor=INK)
    for spine in axes.spines.values():
        spine.set_color(FAINT)


def draw_releases(axes: Any, clock: ClockCycle) -> None:
    """A row for each source: when its events come, and up to when by its jitter."""
    hue = hues_on(clock)
    for place, name in enumerate(clock.sources):
        times, jitter = list(clock.releases(name)), clock.view.sources[name].jitter
        if jitter:
            axes.hlines(
                [place] * len(times), times, [at + jitter for at in times], color=hue[name], linewidth=3, alpha=0.4
            )
        axes.scatter(times, [place] * len(times), marker="|", s=70, color=hue[name], linewidths=1.6, zorder=3)
    axes.set_ylim(len(clock.sources) - 0.4, -0.6)
    axes.set_yticks(range(len(clock.sources)), clock.sources, fontsize=7)
    plain(axes)
    axes.tick_params(axis="y", length=0, labelsize=7)
    axes.spines["left"].set_visible(False)
    axes.xaxis.grid(True, color=FAINT, linewidth=0.4, alpha=0.35)
    axes.set_axisbelow(True)


def draw_loads(axes: Any, clock: ClockCycle, resource: str, scale: Scale) -> None:
    """The work that comes on a resource in each part of the cycle, one source on the other, and how much is left of all
    if nothing else comes."""
    draw_stack(axes, clock.loads(resource), hues_on(clock), (0, clock.cycle, clock.part))
    points = clock.left(resource)
    axes.plot([at for at, _ in points], [it for _, it in points], color=INK, linewidth=1, zorder=4)
    axes.set_ylim(0, None)
    axes.set_ylabel(f"work on {resource}", fontsize=8, color=INK)
    in_unit(axes, scale)
    plain(axes)
    at, most = clock.fullest(resource)
    says = f"comes in each {scale.text(clock.part)}: at most {scale.text(most)}, first from {scale.text(at)} on"
    marks = [Patch(color=FAINT), Line2D([], [], color=INK, linewidth=1)]
    legend_above(axes, marks, [says, "left, if nothing else came"], labelcolor=INK)


def draw_stack(
    axes: Any, loads: Mapping[str, list[int]], hue: Mapping[str, str], stretch: tuple[int, int, int]
) -> None:
    """The work in the parts of a stretch of time as steps, one source on the other: from when until when, and how long
    each part is."""
    start, until, part = stretch
    edges = [min(until, it) for it in range(start, until + part, part)]
    below = [0] * (len(edges) - 1)
    for name, several in loads.items():
        tops = [one + other for one, other in zip(below, several)]
        axes.stairs(tops, edges, baseline=below, fill=True, color=hue[name], linewidth=0, zorder=2)
        below = tops


def in_unit(axes: Any, scale: Scale) -> None:
    """The numbers of an axis of work as times, where ticks have one."""
    if scale.tick is not None:
        axes.yaxis.set_major_formatter(lambda at, _: scale.text(int(at)) if at == int(at) else "")
