"""The pictures of a page: the graph of a system, and a run of it as a Gantt chart; and what the run shows."""
import io
import os
import re
from collections.abc import Sequence
from typing import NamedTuple

from lokwurmi.model.entries import Chain
from lokwurmi.model.view import SystemView
from lokwurmi.results.reports import Run
from lokwurmi_tools.page.page_options import PageOptions
from lokwurmi_tools.page.system_tables import PageSystem
from lokwurmi_tools.pictures.colours import FAINT, INK, PAPER
from lokwurmi_tools.pictures.system_graph import drawn_by_dot, graph
from lokwurmi_tools.runs.jobs_in_run import read_schedule, read_trace, schedule_by
from lokwurmi_tools.shared.program import written_by
from lokwurmi_tools.shared.report import bounds_in, run_in
from lokwurmi_tools.shared.types import Schedule, Trace, Values

# a system with more tasks than this is drawn without those that stand alone, and of a longer run the first part
MOST_DRAWN, MOST_SEGMENTS = 40, 3000
# the least size of a letter of the graph, in pixels
LEAST_LETTERS = 9.5


def inline(svg: str) -> str:
    """A picture for a place within the page: without its head, and without names of namespaces and comments."""
    svg = re.sub(r'\sxmlns(:\w+)?="[^"]*"', "", svg[svg.index("<svg") :])
    return re.sub(r"<metadata>.*?</metadata>", "", re.sub(r"<!--.*?-->\n?", "", svg, flags=re.S), flags=re.S)


def with_letters(svg: str) -> str:
    """The graph, no narrower than its smallest letters can be read, however wide the page is: it can be moved there."""
    width = re.search(r'<svg width="([\d.]+)pt"', svg)
    letters = [float(it) for it in re.findall(r'font-size="([\d.]+)"', svg)]
    if not width or not letters:
        return svg
    least = float(width[1]) * LEAST_LETTERS / min(letters)
    return svg.replace("<svg ", f'<svg style="min-width:{least:.0f}px" ', 1)


def with_words(svg: str) -> str:
    """A picture whose ink, paper and faint lines are those of the page."""
    for colour, word in ((INK, "currentColor"), (PAPER, "var(--card)"), (FAINT, "var(--faint)")):
        svg = svg.replace(colour, word)
    return svg


def picture_of_graph(system: PageSystem, registers: Sequence[Chain]) -> tuple[str, bool]:
    """The graph, with who reads what whom wrote in some chains, and whether tasks that stand alone are left out."""
    chains = len(system.view.tasks) > MOST_DRAWN
    text = graph(system.view, system.report, chains, registers, system.scale)
    return with_letters(inline(drawn_by_dot(text, "svg").decode())), chains


class SeenRun(NamedTuple):
    """The run of a trace: what `simulate` observes of it, its schedule, the trace, and what `audit` says of a recorded
    schedule."""

    observed: Run
    schedule: Schedule
    trace: Trace
    audit: str | None


def picture_of_run(system: PageSystem, seen: SeenRun, start: int | None, until: int | None) -> Values:
    """The Gantt chart, whose ink and paper are those of the page, and what is on it."""
    from lokwurmi_tools.pictures.gantt_chart import chart_of
    from lokwurmi_tools.pictures.gantt_lanes import drawn

    whole = system.view, seen.schedule, seen.trace, bounds_in(system.report)
    chart = chart_of(*whole, start, until, system.scale)
    cut = len(chart.rows) > MOST_SEGMENTS
    if cut:
        until = max(chart.rows[MOST_SEGMENTS][1], (start or 0) + 1)
        chart = chart_of(*whole, start, until, system.scale)
    # a page has room to the right: the bars of a lane stay apart
    width = min(40.0, max(12.0, len(chart.rows) / max(1, len(chart.lanes())) / 3))
    to = io.StringIO()
    drawn(chart, width).savefig(to, format="svg", transparent=True, metadata={"Date": None})
    svg = with_words(inline(to.getvalue()))
    came = sum(chart.start <= time <= chart.until for several in chart.jobs.values() for time, _ in several)
    return {
        "svg": svg,
        "shown": len(chart.rows),
        "of": len(seen.schedule),
        "came": came,
        "late": len(chart.late),
        "fits": width <= 16,
        "start": chart.start,
        "until": chart.until,
        "cut": cut or len(chart.rows) < len(seen.schedule),
    }


def seen_run(options: PageOptions, view: SystemView) -> SeenRun:
    """The run of the trace that is named."""
    file, trace, program = options.file, options.trace or "", options.program
    observed = run_in(written_by(program, "simulate", file, trace), trace)
    if options.schedule:
        schedule = read_schedule(options.schedule, view)
        audit = written_by(program, "audit", file, trace, options.schedule).strip()
        return SeenRun(observed, schedule, read_trace(trace), audit)
    return SeenRun(observed, schedule_by(program, file, trace, view), read_trace(trace), None)


def told_of_run(options: PageOptions, system: PageSystem, seen: SeenRun) -> Values:
    """What the page has of a run."""
    return {
        "name": os.path.basename(options.trace or ""),
        "end": seen.observed.end,
        "jobs": sum(it.jobs for it in seen.observed.tasks.values()),
        "chart": picture_of_run(system, seen, options.start, options.until),
        "audit": seen.audit,
    }
