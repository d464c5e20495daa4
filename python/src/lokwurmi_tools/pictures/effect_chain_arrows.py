"""Draws the latest reaction of a chain and its oldest data into a Gantt chart, for lokwurmi gantt: the jobs of both,
and an arrow from the end of each, which writes, to when the next one reads."""
from collections.abc import Sequence
from typing import Any, NamedTuple

from lokwurmi_tools.pictures.colours import PAPER
from lokwurmi_tools.pictures.plotting import Rectangle
from lokwurmi_tools.runs.effect_chain_in_run import NEVER, Late, RunOfJobs, Watch, seen_of
from lokwurmi_tools.shared.times import Scale

# the latest reaction, and the oldest data at an end and in the register, which are dashed besides, so that one isn't
# taken for the other without colours; where nothing is asked for the first two are marked
LOOKS = {
    "reaction": ("#c2185b", "solid", 0.05),
    "age": ("#00695c", (0, (3, 2)), -0.05),
    "held": ("#4a3fa0", (0, (1, 1)), 0.0),
}
MARKED = ("reaction", "age")
# a bar's height, and how far above the middle of its lane an arrow goes along, in parts of a lane
BAR, OVER = 0.44, -0.42


class Marked(NamedTuple):
    """What is marked, a reaction or an age: from when to when, its jobs, when each of them but the first reads, and its
    bound."""

    what: str
    late: Late
    tasks: list[str]
    reads: list[int]
    bound: int | None
    rule: str


def read_times(run: RunOfJobs, watch: Watch, late: Late, what: str) -> list[int]:
    """When each job of a chain but the first reads: as it comes where the one before started it, and otherwise the
    first time that the rule of reading leaves it."""
    found, way = [], list(zip(watch.tasks, late.jobs))
    for (before, k), (name, n) in zip(way, way[1:]):
        done, job = watch.windows[before].done, run.jobs[name][n]
        until = done[k + 1] - 1 if what != "reaction" and k + 1 < len(done) else NEVER
        times = [(max(done[k], first), min(until, last)) for first, last in watch.windows[name].times[n]]
        can = [first for first, last in times if first <= last]
        found.append(job.came if job.cause == (before, k) or not can else can[0])
    return found


def marked_in(
    run: RunOfJobs, tasks: list[str], reading: str, bounds: dict[str, int | None], rule: str, what: str | None = None
) -> list[Marked]:
    """The latest reaction and the oldest data of a chain in a run, where there are any, or what of it is asked for."""
    seen, watch = seen_of(run, tasks, reading), Watch(run, tasks, reading)
    several = [(it, late) for it in ((what,) if what else MARKED) if (late := seen.latest[it])]
    return [Marked(what, it, tasks, read_times(run, watch, it, what), bounds.get(what), rule) for what, it in several]


def draw_frames(axes: Any, places: dict[str, int], run: RunOfJobs, it: Marked) -> None:
    colour, style, more = LOOKS[it.what]
    for name, k in zip(it.tasks, it.late.jobs):
        for start, end in run.jobs[name][k].parts:
            y, high = places[name] - (BAR + more) / 2, BAR + more
            look = {"facecolor": "none", "edgecolor": colour, "linestyle": style, "linewidth": 1.3, "zorder": 5}
            axes.add_patch(Rectangle((start, y), end - start, high, **look))


def draw_arrows(axes: Any, places: dict[str, int], run: RunOfJobs, it: Marked) -> None:
    """From the edge of the bar of what writes to that of what reads; on one lane over it."""
    colour, style, more = LOOKS[it.what]
    look = {"color": colour, "linestyle": style, "linewidth": 1.3}
    head = {"arrowstyle": "-|>", "shrinkA": 0, "shrinkB": 0, "mutation_scale": 8}
    for before, k, name, read in zip(it.tasks, it.late.jobs, it.tasks[1:], it.reads):
        high, low, done = places[before], places[name], run.jobs[before][k].done
        if high == low and done == read:
            continue
        side = (BAR if low > high else -BAR) / 2
        start, end = (done, high + side), (read, low - side if low != high else low + side)
        if high == low:
            over = high + OVER + more
            axes.plot([done, done, read], [high + side, over, over], zorder=8, solid_joinstyle="round", **look)
            start = (read, over)
        axes.annotate("", xytext=start, xy=end, arrowprops=head | look, zorder=8, annotation_clip=True)


def draw_whole(axes: Any, places: dict[str, int], it: Marked, y: float, scale: Scale) -> None:
    """A line below all lanes from when to when, with what it is, and faint ones up to where it begins and ends."""
    colour, style, _ = LOOKS[it.what]
    since, until = it.late.since, it.late.until
    axes.plot([since, until], [y, y], color=colour, linestyle=style, linewidth=1.3, zorder=6)
    axes.plot([since, until], [y, y], color=colour, linestyle="none", marker="|", markersize=7, zorder=6)
    for time, name in ((since, it.tasks[0]), (until, it.tasks[-1])):
        axes.plot([time, time], [places[name] - BAR / 2, y], color=colour, linewidth=0.7, alpha=0.45, zorder=1.6)
    bound = "" if it.bound is None else f" of {scale.text(it.bound)}"
    text = f"{it.what} {scale.text(until - since)}{bound}, where jobs read {it.rule}"
    look = {"facecolor": PAPER, "edgecolor": "none", "pad": 1.2}
    middle = {"ha": "center", "va": "center", "clip_on": True}
    axes.text((since + until) / 2, y, text, fontsize=7, color=colour, zorder=7, bbox=look, **middle)


def draw_marked(
    axes: Any, places: dict[str, int], run: RunOfJobs, marked: Sequence[Marked], below: float, scale: Scale
) -> None:
    """All that is marked, with a line for each from `below` on."""
    for row, it in enumerate(marked):
        draw_frames(axes, places, run, it)
        draw_arrows(axes, places, run, it)
        draw_whole(axes, places, it, below + 0.42 * row, scale)
