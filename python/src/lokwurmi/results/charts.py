"""Charts of results, by matplotlib; this module is imported where a chart is asked for. `lokwurmi chart` writes that of
a report."""
from collections.abc import Mapping, Sequence
from fractions import Fraction
from typing import TYPE_CHECKING, Any

import matplotlib
from matplotlib.backends.backend_agg import FigureCanvasAgg
from matplotlib.figure import Figure
from matplotlib.lines import Line2D
from matplotlib.patches import Patch

from lokwurmi.model.clocks import PREMISE
from lokwurmi.results.axes import LATE, SIDE_BY_SIDE, Scale, bare, legend_above

if TYPE_CHECKING:
    from lokwurmi.model.clocks import Clock
    from lokwurmi.model.units import Time
    from lokwurmi.results.reports import PathReport, Report, Schedule, TaskReport

_LEAST, _GREATEST, _MISSED = "#9dbfd9", SIDE_BY_SIDE[0], "#d9822b"
_NONE = {"color": "white", "edgecolor": LATE, "hatch": "////", "linewidth": 0.8}


class Chart(Figure):
    """A figure of matplotlib, which notebooks show also without pyplot."""

    def _repr_png_(self) -> bytes:
        import io

        room = io.BytesIO()
        self.savefig(room, format="png", dpi=110)
        return room.getvalue()


def _parts(heights: Sequence[float], height: float) -> tuple[Chart, list[Any]]:
    """An empty chart of some height, and its parts, one below the other, of heights in this relation."""
    figure = Chart(figsize=(8.0, height), layout="constrained", facecolor="white")
    FigureCanvasAgg(figure)
    axes = figure.subplots(len(heights), 1, height_ratios=heights, squeeze=False)[:, 0]
    for it in axes:
        bare(it)
    return figure, list(axes)


def _scale(tick: "Time | None") -> Scale:
    return Scale(None if tick is None else tick.nanoseconds)


def _rows(axes: Any, names: Sequence[str]) -> None:
    axes.set_yticks(range(len(names)), names, fontsize=7)
    axes.set_ylim(len(names) - 0.4, -0.6)
    axes.tick_params(axis="x", labelsize=8)
    axes.xaxis.label.set_size(8)


def _bars(
    axes: Any, entries: "Sequence[TaskReport | PathReport]", hues: Sequence[str], scale: Scale, last: int = 0
) -> None:
    """A bar each: light to its least time, dark to its greatest, hatched over the whole width where there is none; up
    to the tick `last` at least."""
    width = max([1, last, *(it.worst or 0 for it in entries)]) * 1.03
    for place, (entry, hue) in enumerate(zip(entries, hues)):
        worst = entry.worst
        if worst is None:
            axes.barh(place, width, height=0.7, **_NONE)
        else:
            axes.barh(place, worst, height=0.7, color=hue)
            axes.barh(place, entry.best, height=0.7, color="white", alpha=0.55)
        text = "overload" if worst is None else scale.text(worst)
        axes.text(width * 1.01, place, text, va="center", fontsize=7, color=LATE if worst is None else "black")
    axes.set_xlim(0, width)
    scale.axis(axes, round(width))


def _draw_paths(axes: Any, paths: "Mapping[str, PathReport]", scale: Scale) -> None:
    entries = list(paths.values())
    hues = [_MISSED if it.verdict.value == "missed" else _GREATEST for it in entries]
    _bars(axes, entries, hues, scale, max(it.deadline or 0 for it in entries))
    _rows(axes, list(paths))
    for place, it in enumerate(entries):
        if it.deadline is not None:
            axes.plot([it.deadline] * 2, [place - 0.42, place + 0.42], color="black", linewidth=1.6)
    axes.set_title("Paths from end to end", fontsize=9, loc="left")
    legend = [
        Patch(color=_GREATEST),
        Patch(color=_MISSED),
        Patch(color=_LEAST),
        Patch(facecolor="white", edgecolor=LATE, hatch="////"),
        Line2D([], [], color="black", marker="|", linestyle="none", markersize=9),
    ]
    texts = ["in time, or no deadline", "missed", "light: best time", "no bound", "deadline"]
    legend_above(axes, legend, texts, columnspacing=0.9, handlelength=1.6, handletextpad=0.5)


def _draw_tasks(axes: Any, tasks: "Mapping[str, TaskReport]", scale: Scale) -> None:
    resources = list(dict.fromkeys(it.on for it in tasks.values()))
    entries = sorted(tasks.values(), key=lambda it: resources.index(it.on))
    hues = [SIDE_BY_SIDE[resources.index(it.on) % len(SIDE_BY_SIDE)] for it in entries]
    _bars(axes, entries, hues, scale)
    _rows(axes, [f"{it.on}  {it.name}" for it in entries])
    axes.set_title("Bounds of the response times of the tasks, resource by resource", fontsize=9, loc="left")


def report_chart(report: "Report", tick: Fraction | None = None, with_tasks: bool = True) -> Chart:
    """A bar for each path, beside the deadlines, and for each task. `tick` is in nanoseconds, where the report has no
    tick of its own."""
    scale = _scale(report.tick) if tick is None else Scale(tick)
    parts = [it for it in (report.paths, report.tasks if with_tasks else {}) if it]
    heights = [max(1.2, len(it) * 0.16) for it in parts] or [1.2]
    figure, axes = _parts(heights, sum(heights) + 1.1 * len(heights))
    for place, it in zip(axes, parts):
        if it is report.paths:
            _draw_paths(place, report.paths, scale)
        else:
            _draw_tasks(place, report.tasks, scale)
    if report.clocks:
        figure.supxlabel(PREMISE, fontsize=7)
    return figure


def schedule_chart(schedule: "Schedule") -> Chart:
    """A Gantt chart: a row for each task that runs, and a colour for each resource."""
    names = list(schedule.on) or list(dict.fromkeys(name for name, _, _ in schedule.rows))
    resources = list(dict.fromkeys(schedule.on.get(name, "") for name in names))
    colours = matplotlib.colormaps["tab10"]
    figure, (axes,) = _parts([1], 1.2 + 0.3 * max(len(names), 1))
    for place, name in enumerate(names):
        parts = [(start, end - start) for task, start, end in schedule.rows if task == name]
        colour = colours(resources.index(schedule.on.get(name, "")) % 10)
        axes.broken_barh(parts, (place - 0.35, 0.7), facecolors=colour)
    _rows(axes, [f"{name} ({schedule.on[name]})" if name in schedule.on else name for name in names])
    axes.set_xlim(0, max(schedule.end, 1))
    _scale(schedule.tick).axis(axes, max(schedule.end, 1))
    axes.set_title("Who runs", loc="left")
    return figure


def clock_chart(clock: "Clock", cycles: int = 1) -> Chart:
    """When the sources of a clock come in so many cycles: a row for each, and a bar for each event from its earliest
    time to its latest."""
    releases, end = clock.releases(cycles), cycles * clock.cycle
    names = list(clock.sources)
    last = max([end, *(it.latest for it in releases)])
    figure, (axes,) = _parts([1], 1.5 + 0.3 * len(names))
    for place, name in enumerate(names):
        own = [it for it in releases if it.source == name]
        bars = [(it.earliest, max(it.latest - it.earliest, last / 1000)) for it in own]
        axes.broken_barh(bars, (place - 0.3, 0.6), facecolors=_LEAST)
        axes.vlines([it.earliest for it in own], place - 0.38, place + 0.38, color=_GREATEST, linewidth=1.6)
    for turn in range(1, cycles + 1):
        axes.axvline(turn * clock.cycle, color=LATE, linewidth=0.8, linestyle=":")
    _rows(axes, [f"{name} + {_scale(clock.tick).text(offset)}" for name, offset in clock.offsets.items()])
    axes.set_xlim(-last / 100, last * 1.01)
    _scale(clock.tick).axis(axes, last)
    axes.set_title(f"When sources on clock {clock.name} come after its start", fontsize=9, loc="left")
    marks = [Line2D([], [], color=_GREATEST, marker="|", linestyle="none", markersize=9), Patch(color=_LEAST)]
    legend_above(axes, marks, ["at its offset", "up to its jitter later"])
    figure.supxlabel(PREMISE, fontsize=7)
    return figure
