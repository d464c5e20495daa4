"""How many events at most start a task in a window of each length, its streams one on the other; or a clock over its
cycle."""
from dataclasses import dataclass
from fractions import Fraction

from lokwurmi.model.event_models import first_windows, input_of, label_of, most_events
from lokwurmi.results.axes import SIDE_BY_SIDE
from lokwurmi_tools.pictures.clock_curve import drawn_clock
from lokwurmi_tools.pictures.plotting import bare, begun, check_name, save
from lokwurmi_tools.runs.clock_cycle import clock_of
from lokwurmi_tools.shared.faults import Fault
from lokwurmi_tools.shared.packages import need
from lokwurmi_tools.shared.report import bounds_in, report_of
from lokwurmi_tools.shared.system_file import read_system
from lokwurmi_tools.shared.times import Scale
from lokwurmi_tools.shared.types import Stream

# how many events a curve goes up to: each is a step
MOST_EVENTS = 4_000_000


@dataclass(frozen=True, slots=True)
class CurveOptions:
    """The task of a system whose streams are drawn, at the bounds of a report, up to a window in ticks, None for twice
    the longest period; `beside` is a stream more, and `tick` in nanoseconds. Or the `clock` that is drawn."""

    file: str
    report: str | None = None
    task: str | None = None
    clock: str | None = None
    to: str | None = None
    window: int | None = None
    beside: list[int] | None = None
    tick: Fraction | None = None


def draw(
    streams: list[Stream], names: list[str], beside: Stream | None, window: int, picture: str, title: str, scale: Scale
) -> None:
    # between two of these windows no stream gets room for one more event
    every = [*streams, *([beside] if beside else [])]
    windows = sorted({0, window, *(it for stream in every for it in first_windows(stream, window))})
    figure, axes = begun(figsize=(8, 3.6))
    heights = [[most_events(stream, it) for it in windows] for stream in streams]
    hues = [SIDE_BY_SIDE[k % len(SIDE_BY_SIDE)] for k in range(len(streams))]
    axes.stackplot(windows, heights, labels=names, colors=hues, step="post", linewidth=0)
    if beside:
        axes.step(
            windows,
            [most_events(beside, it) for it in windows],
            where="post",
            color="black",
            linewidth=1.4,
            label="period {}, jitter {}, distance {}".format(*beside),
        )
    axes.set_xlim(0, window)
    axes.set_ylim(0, None)
    axes.set_xlabel(f"length of the window in {scale.units(axes, window)}", fontsize=8)
    axes.set_ylabel("events at most", fontsize=8)
    axes.tick_params(labelsize=8)
    axes.yaxis.get_major_locator().set_params(integer=True)
    bare(axes)
    axes.set_title(title, fontsize=9, loc="left")
    # the stream on top comes first
    handles, texts = axes.get_legend_handles_labels()
    axes.legend(handles[::-1], texts[::-1], fontsize=7, loc="upper left", frameon=False)
    save(figure, picture)


def draw_curve(options: CurveOptions) -> None:
    """Writes the picture of the streams that start a task, or that of a clock."""
    need("matplotlib")
    name = options.clock or options.task or ""
    picture = options.to or name + ".svg"
    check_name(picture)
    if options.clock is None:
        draw_streams(options, name, picture)
        return
    clock = clock_of(read_system(options.file), name, options.file)
    save(drawn_clock(clock, Scale(options.tick)), picture)


def draw_streams(options: CurveOptions, name: str, picture: str) -> None:
    """Writes the picture of the streams that start a task."""
    view = read_system(options.file)
    report = report_of(view, options.file, options.report or "")
    if name not in view.tasks:
        raise Fault(f"{name}: no task of {options.file} has this name")
    if options.window is not None and options.window < 1 or options.beside and options.beside[0] < 1:
        raise Fault("a window and a period are at least 1")
    streams = input_of(view, bounds_in(report), name)
    if streams is None:
        raise Fault(f"{name}: what starts it has no bound")
    period, jitter, distance = options.beside or (0, 0, 0)
    beside = (period, jitter, distance) if options.beside else None
    window = options.window or 2 * max(it[0] for it in [*streams, *([beside] if beside else [])])
    if (events := sum(most_events(it, window) for it in [*streams, *([beside] if beside else [])])) > MOST_EVENTS:
        raise Fault(f"a window of {window} ticks has {events} events, and a curve takes {MOST_EVENTS}: --window TICKS")
    labels = [label_of(it) for it in view.ways_to(name)]
    draw(streams, labels, beside, window, picture, f"Events that start {name}", Scale(options.tick))
