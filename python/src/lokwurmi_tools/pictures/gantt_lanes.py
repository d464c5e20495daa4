"""Draws a Gantt chart: lanes with the bars of who ran, the marks of jobs, and what took longest or was late."""
from collections.abc import Iterator, Sequence
from itertools import islice
from typing import Any, NamedTuple

from lokwurmi.model.view import ResourceRow, SystemView
from lokwurmi.results.axes import LATE
from lokwurmi_tools.pictures.clock_lanes import ClockInRun, draw_clock_in_run
from lokwurmi_tools.pictures.colours import FAINT, INK, PALE, PAPER, hues, letters_on, shades
from lokwurmi_tools.pictures.effect_chain_arrows import Marked, draw_marked
from lokwurmi_tools.pictures.plotting import Line2D, LineCollection, Patch, PatchCollection, Rectangle, begun
from lokwurmi_tools.runs.effect_chain_in_run import RunOfJobs
from lokwurmi_tools.runs.jobs_in_run import Held
from lokwurmi_tools.shared.times import Scale
from lokwurmi_tools.shared.types import Jobs, Schedule, Segment

MOST_SLOTS, MOST_NAMES = 400, 24
# the bars, the slots behind them, and where the marks of jobs are, in parts of a lane
BAR, BAND, CAME, DONE, BELOW = 0.44, 0.68, -0.34, 0.34, 0.5
# how high the strip of a critical section is, and how many are drawn one within the other
STRIP, MOST_STRIPS = 0.11, 2


class DrawnJob(NamedTuple):
    """A job: when it came, and when it was done, None where it wasn't; `last` is then the end of the run. The job of
    its task before it was done at `after`."""

    name: str
    came: int
    done: int | None
    last: int
    after: int | None
    bound: int | None

    def took(self) -> int:
        """How long it took until it was done, or has taken by the end of the run."""
        return self.last - self.came


class Overdue(NamedTuple):
    """A job that took longer than its bound, or that is pending at the end of the run though this is past: since
    `past`."""

    job: DrawnJob
    bound: int
    past: int


class Longest(NamedTuple):
    """What took longest: the name of a task or a path, its jobs, when the first came and the last was done, and the
    bound."""

    name: str
    jobs: list[DrawnJob]
    came: int
    done: int
    bound: int | None
    is_path: bool


class GanttChart(NamedTuple):
    """What is drawn, in the time from `start` to `until`, and how its times are told."""

    view: SystemView
    rows: Schedule
    jobs: Jobs
    late: list[Overdue]
    phases: dict[str, int]
    start: int
    until: int
    scale: Scale = Scale()
    # where jobs go on from one region to the next
    points: dict[str, list[int]] = {}
    # from when to when the jobs of a queue waited
    waits: dict[str, list[Segment]] = {}
    # when jobs ran within critical sections
    held: dict[str, list[Held]] = {}

    def lanes(self) -> list[ResourceRow]:
        """The resources that have tasks."""
        return [it for name, it in self.view.resources.items() if self.view.on(name)]

    def ends(self) -> dict[str, list[int]]:
        """Where regions end that are marked: of the tasks that don't have too many of them."""
        found = {name: [it for it in times if self.start < it < self.until] for name, times in self.points.items()}
        return {name: times for name, times in found.items() if 0 < len(times) <= MOST_SLOTS}

    def waiting(self) -> dict[str, list[Segment]]:
        """The waits that are seen, of the tasks of queues."""
        found = {
            name: [it for it in several if it[0] < it[1] and it[0] < self.until and it[1] > self.start]
            for name, several in self.waits.items()
        }
        return {name: several for name, several in found.items() if several}

    def holding(self) -> dict[str, list[Held]]:
        """The parts within critical sections that are seen, of the tasks that don't have too many of them."""
        found = {
            name: [it for it in several if it.start < self.until and it.end > self.start]
            for name, several in self.held.items()
        }
        return {name: several for name, several in found.items() if 0 < len(several) <= MOST_SLOTS}

    def place(self) -> dict[str, int]:
        """The lane of each task."""
        lane = {it.name: k for k, it in enumerate(self.lanes())}
        return {name: lane[it.on] for name, it in self.view.tasks.items()}


def slots(view: SystemView, ring: str, phase: int, start: int, until: int) -> Iterator[tuple[str | None, int, int]]:
    """The slots of a TDMA resource in this time, each with its task; the gap has None."""
    turns: list[tuple[str | None, int]] = [(name, view.tasks[name].turn) for name in view.on(ring)]
    turns.append((None, view.resources[ring].gap))
    time = start - (start + phase) % view.cycle(ring)
    while time < until:
        for name, ticks in turns:
            if ticks and time + ticks > start and time < until:
                yield name, max(time, start), min(time + ticks, until)
            time += ticks


def draw_slots(axes: Any, chart: GanttChart, colour: dict[str, str]) -> None:
    gap: dict[str, Any] = {"facecolor": "none", "edgecolor": FAINT, "hatch": "////", "linewidth": 0, "alpha": 0.6}
    places = {it.name: place for place, it in enumerate(chart.lanes())}
    for ring in chart.view.rings():
        several = slots(chart.view, ring, chart.phases.get(ring, 0), chart.start, chart.until)
        place, bands = places[ring], list(islice(several, MOST_SLOTS + 1))
        for name, start, end in bands if len(bands) <= MOST_SLOTS else ():
            look = {"facecolor": colour[name], "alpha": 0.16, "linewidth": 0} if name else gap
            axes.add_patch(Rectangle((start, place - BAND / 2), end - start, BAND, **look))


def draw_bars(axes: Any, chart: GanttChart, colour: dict[str, str], unit: float) -> None:
    """The segments, with the names of their tasks where there is room: a letter is about 4 points wide, and a point
    `unit` ticks."""
    place = chart.place()
    bars: dict[str, list[Segment]] = {}
    for name, start, end in chart.rows:
        bars.setdefault(name, []).append((max(start, chart.start), min(end, chart.until)))
    ends = chart.ends()
    for name, several in bars.items():
        boxes = [Rectangle((start, place[name] - BAR / 2), end - start, BAR) for start, end in several]
        axes.add_collection(PatchCollection(boxes, facecolor=colour[name], edgecolor=PAPER, linewidth=0.4, zorder=2))
        wide = (4 * len(name) + 4) * unit
        for start, end in several:
            if end - start > wide:
                cuts = [start, *(it for it in ends.get(name, []) if start < it < end), end]
                draw_name(axes, name, place[name], cuts, wide, colour[name])


def draw_name(axes: Any, name: str, y: float, cuts: list[int], wide: float, colour: str) -> None:
    """The name of a task in the first region of a segment that has room for it, or else over the lines between them."""
    roomy = [(begin, end) for begin, end in zip(cuts, cuts[1:]) if end - begin > wide]
    start, end = roomy[0] if roomy else (cuts[0], cuts[-1])
    axes.text(
        (start + end) / 2,
        y,
        name,
        ha="center",
        va="center",
        fontsize=6.5,
        color=letters_on(colour),
        zorder=4,
        clip_on=True,
        bbox=None if roomy else {"facecolor": colour, "linewidth": 0, "pad": 0.8, "clip_on": True},
    )


def draw_points(axes: Any, chart: GanttChart) -> None:
    """A line between two regions of a job."""
    place = chart.place()
    for name, times in chart.ends().items():
        y = place[name]
        lines = [[(it, y - BAR / 2), (it, y + BAR / 2)] for it in times]
        axes.add_collection(LineCollection(lines, colors=PAPER, linewidths=1.1, zorder=3))


def draw_sections(axes: Any, chart: GanttChart, unit: float) -> None:
    """Within the bar of a job a dark strip for each critical section, from its lower edge on, an inner one above an
    outer one, with the name of the lock where there is room: a letter is about 3 points wide."""
    place = chart.place()
    for name, several in chart.holding().items():
        for it in several:
            start, end = max(it.start, chart.start), min(it.end, chart.until)
            y = place[name] + BAR / 2 - STRIP * (1 + min(it.depth, MOST_STRIPS - 1))
            axes.add_patch(
                Rectangle((start, y), end - start, STRIP, facecolor=INK, edgecolor=PAPER, linewidth=0.4, zorder=3)
            )
            if end - start > (3 * len(it.lock) + 3) * unit:
                look = {"ha": "center", "va": "center", "fontsize": 4.6, "color": PAPER, "zorder": 4, "clip_on": True}
                axes.text((start + end) / 2, y + STRIP / 2, it.lock, **look)


def draw_jobs(axes: Any, chart: GanttChart, colour: dict[str, str]) -> None:
    place = chart.place()
    for name, several in chart.jobs.items():
        for times, where, mark in (
            ([came for came, _ in several], CAME, "v"),
            ([done for _, done in several if done is not None], DONE, "^"),
        ):
            times = [it for it in times if chart.start <= it <= chart.until]
            axes.scatter(
                times,
                [place[name] + where] * len(times),
                marker=mark,
                s=17,
                color=colour[name],
                linewidths=0,
                zorder=3,
                clip_on=False,
            )


def draw_waits(axes: Any, chart: GanttChart, colour: dict[str, str]) -> None:
    """On a queue a line from where a job comes to where it begins. What came first begins first, so none cross."""
    place = chart.place()
    for name, several in chart.waiting().items():
        y = place[name]
        lines = [[(came, y + CAME), (began, y - BAR / 2)] for came, began in several]
        axes.add_collection(LineCollection(lines, colors=colour[name], linewidths=0.9, zorder=2.5))


def draw_outline(axes: Any, chart: GanttChart, job: DrawnJob, colour: str) -> None:
    """A frame around the segments of a job: those of its task after the job before."""
    y = chart.place()[job.name]
    for name, start, end in chart.rows:
        start = max(start, chart.start, job.came if job.after is None else job.after)
        end = min(end, job.last, chart.until)
        if name == job.name and start < end:
            axes.add_patch(
                Rectangle(
                    (start, y - BAR / 2), end - start, BAR, facecolor="none", edgecolor=colour, linewidth=1.4, zorder=5
                )
            )


def draw_late(axes: Any, chart: GanttChart) -> None:
    place = chart.place()
    for it, bound, past in chart.late:
        y = place[it.name]
        axes.add_collection(
            LineCollection(
                [[(max(past, chart.start), y + 0.26), (min(it.last, chart.until), y + 0.26)]],
                colors=LATE,
                linewidths=2.6,
                zorder=5,
            )
        )
        axes.add_collection(LineCollection([[(past, y - 0.3), (past, y + 0.3)]], colors=LATE, linewidths=1.2, zorder=5))
        draw_outline(axes, chart, it, LATE)
        took = "not done" if it.done is None else chart.scale.text(it.took())
        axes.text(
            min(it.last, chart.until),
            y + BELOW,
            f"{it.name}: {took}, bound {chart.scale.text(bound)}",
            ha="right",
            va="center",
            fontsize=6.5,
            color=LATE,
            zorder=6,
        )


def draw_span(axes: Any, came: int, done: int, bound: int | None, y: float, text: str, whole: bool = False) -> None:
    """A line from where something came to its end, and a dotted one to its bound, with a text in its middle; of a whole
    passage the bound may be outside of the picture."""
    end = done if bound is None else max(done, came + bound)
    axes.plot([came, done], [y, y], color=INK, linewidth=1.2, marker="|", markersize=6, zorder=6)
    if end > done:
        axes.plot([done, end], [y, y], color=INK, linewidth=1, linestyle=":", zorder=6)
        axes.plot([end], [y], color=INK, marker="|", markersize=6, zorder=6)
    if text:
        look = {"facecolor": PAPER, "edgecolor": "none", "pad": 1.2}
        axes.text(
            (came + (done if whole else end)) / 2,
            y,
            text,
            ha="center",
            va="center",
            fontsize=7,
            color=INK,
            zorder=7,
            bbox=look,
            clip_on=True,
        )


def draw_longest(axes: Any, chart: GanttChart, longest: Longest, unit: float) -> None:
    """What took longest: each job is framed, with a line of its own, and of a path one more below all lanes for the
    whole."""
    told = chart.scale.text(longest.done - longest.came) + (
        f", bound {chart.scale.text(longest.bound)}" if longest.bound is not None else ""
    )
    if not longest.is_path:
        draw_outline(axes, chart, longest.jobs[0], INK)
        draw_span(
            axes,
            longest.came,
            longest.done,
            longest.bound,
            chart.place()[longest.name] + BELOW,
            f"{longest.name}: {told}",
        )
        return
    for job in longest.jobs:
        draw_outline(axes, chart, job, INK)
        took = chart.scale.text(job.took())
        names = (f"{job.name}: {took}", took)
        # a letter is about 4.4 points wide
        text = next((it for it in names if job.took() / unit > 4.4 * (len(it) + 2)), "")
        draw_span(axes, job.came, job.last, None, chart.place()[job.name] + BELOW, text)
    for before, after in zip(longest.jobs, longest.jobs[1:]):
        ends = [chart.place()[it.name] + BELOW for it in (before, after)]
        axes.plot([after.came] * 2, ends, color=INK, linewidth=0.8, linestyle=(0, (2, 2)), zorder=1.5)
    draw_span(
        axes,
        longest.came,
        longest.done,
        longest.bound,
        len(chart.lanes()) - 0.1,
        f"path {longest.name}: {told}",
        whole=True,
    )


def draw_frame(axes: Any, chart: GanttChart, below: float = 0.0) -> None:
    """The lanes, and below them room for as many parts of one."""
    lanes = chart.lanes()
    axes.set_xlim(chart.start, max(chart.until, chart.start + 1))
    axes.set_ylim(len(lanes) - 0.36 + below, -0.58)
    axes.set_yticks(range(len(lanes)), [f"{it.name}\n{it.kind}" for it in lanes], fontsize=8, color=INK)
    axes.hlines(
        [k + 0.5 for k in range(len(lanes) - 1)], chart.start, chart.until, color=FAINT, linewidth=0.4, alpha=0.6
    )
    axes.tick_params(axis="x", labelsize=8, color=FAINT, labelcolor=INK)
    axes.tick_params(axis="y", length=0)
    axes.xaxis.grid(True, color=FAINT, linewidth=0.4, alpha=0.35)
    axes.set_axisbelow(True)
    axes.ticklabel_format(axis="x", style="plain", useOffset=False)
    chart.scale.axis(axes, chart.until)
    axes.xaxis.label.set(size=8, color=INK)
    for side, spine in axes.spines.items():
        spine.set_visible(side == "bottom")
        spine.set_color(FAINT)


def tasks_in_legend(chart: GanttChart, colour: dict[str, str]) -> list[tuple[Any, str]]:
    """The tasks that ran, or where there are many the paths, each with its colour."""
    ran = {row[0] for row in chart.rows}
    names = [name for name in chart.view.tasks if name in ran]
    if len(names) <= MOST_NAMES:
        return [(Patch(color=colour[name]), name) for name in names]
    on_paths, paths = hues(chart.view), dict[str, list[str]]()
    for path in chart.view.paths.values():
        paths.setdefault(on_paths[path.tasks[0]], []).append(path.name)
    entries = [(Patch(color=hue), ", ".join(several)) for hue, several in paths.items()]
    return entries + [(Patch(color=PALE[0]), "tasks on no path")] * any(name not in on_paths for name in names)


def marks_in_legend(chart: GanttChart) -> list[tuple[Any, str]]:
    """The marks that are there."""
    entries: list[tuple[Any, str]] = []
    if chart.jobs:
        entries += [
            (Line2D([], [], color=INK, marker=mark, linestyle="none", markersize=4), text)
            for mark, text in (("v", "a job comes"), ("^", "it is done"))
        ]
    if chart.waiting():
        entries.append((Line2D([], [], color=INK, linewidth=0.9), "it waits in a queue"))
    if chart.ends():
        line = Line2D([], [], color=PAPER, marker="|", linestyle="none", markersize=7, markeredgewidth=1.1)
        entries.append(((Patch(color=FAINT), line), "a region ends, the job goes on"))
    if chart.holding():
        entries.append((Patch(color=INK), "it holds a lock"))
    if any(chart.view.resources[it].gap for it in chart.view.rings()):
        entries.append((Patch(facecolor="none", edgecolor=FAINT, hatch="////", linewidth=0), "gap"))
    if chart.late:
        entries.append((Line2D([], [], color=LATE, linewidth=2.6), "later than its bound"))
    return entries


def draw_legend(axes: Any, chart: GanttChart, colour: dict[str, str], width: float) -> None:
    """The tasks and the marks, in as many columns as there is room for in so many inches."""
    entries = tasks_in_legend(chart, colour) + marks_in_legend(chart)
    if not entries:
        return
    room, wide = (width - 0.8) * 72, [len(text) * 4.1 + 24 for _, text in entries]
    columns = len(entries) if sum(wide) <= room else max(1, min(len(entries), int(room / max(wide))))
    where = {"loc": "lower left", "bbox_to_anchor": (0, 1), "borderaxespad": 0.2, "columnspacing": 1.1}
    look = {"handlelength": 1.2, "handletextpad": 0.5, "frameon": False, "labelcolor": INK}
    axes.legend(*zip(*entries), fontsize=7, ncols=columns, **where, **look)


def begun_with(chart: GanttChart, width: float, below: float, clock: ClockInRun | None) -> tuple[Any, list[Any]]:
    """The figure of a chart with room for so many parts of a lane below it, and its axes: those of the lanes, and with
    a clock two more."""
    height = 0.62 * (max(1, len(chart.lanes())) + below) + 1.25
    if clock is None:
        figure, axes = begun(figsize=(width, height))
        return figure, [axes]
    heights = [height, *clock.heights()]
    figure, several = begun(3, 1, sharex=True, height_ratios=heights, figsize=(width, sum(heights) + 0.4))
    return figure, list(several)


def drawn(
    chart: GanttChart,
    width: float = 10.0,
    longest: Longest | None = None,
    run: RunOfJobs | None = None,
    marked: Sequence[Marked] = (),
    clock: ClockInRun | None = None,
) -> Any:
    """The figure of a chart, with what took longest in it, what is marked of a chain in its run, and a clock below."""
    colour = shades(chart.view)
    unit = (chart.until - chart.start) / (width * 72)
    below = (0.5 if longest and longest.is_path else 0.0) + 0.45 * len(marked)
    figure, (axes, *others) = begun_with(chart, width, below, clock)
    draw_slots(axes, chart, colour)
    draw_bars(axes, chart, colour, unit)
    draw_points(axes, chart)
    draw_sections(axes, chart, unit)
    draw_waits(axes, chart, colour)
    draw_jobs(axes, chart, colour)
    draw_late(axes, chart)
    if longest:
        draw_longest(axes, chart, longest, unit)
    if run:
        first = len(chart.lanes()) - 0.1 + (0.5 if longest and longest.is_path else 0.0)
        draw_marked(axes, chart.place(), run, marked, first, chart.scale)
    draw_frame(axes, chart, below)
    draw_legend(axes, chart, colour, width)
    if clock:
        draw_clock_in_run(others, clock, chart.start, chart.until, chart.scale)
        # the times stand below all
        others[-1].set_xlabel(axes.get_xlabel(), fontsize=8, color=INK)
        axes.set_xlabel("")
    return figure
