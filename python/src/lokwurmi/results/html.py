"""Tables for notebooks. Names are escaped; colours are readable on light and on dark pages, and no verdict is a colour
alone."""
from collections.abc import Callable, Iterable, Sequence
from html import escape
from typing import TYPE_CHECKING, Any

from lokwurmi.model.clocks import PREMISE as CLOCK_PREMISE
from lokwurmi.model.units import Time

if TYPE_CHECKING:
    from lokwurmi.model.clocks import Clock
    from lokwurmi.model.entries import Resource, Task
    from lokwurmi.model.named_entries import NamedEntries
    from lokwurmi.model.view import Anchor
    from lokwurmi.results import effect_chains as chain_results
    from lokwurmi.results import reports

# white letters on these are readable, and so are they on white and on black
_COLOURS = {"met": "#1a7f37", "missed": "#b42318", "overload": "#b42318", "unknown": "#8a5a00", "none": "#57606a"}
_WORDS = {"met": "met", "missed": "missed", "overload": "overload", "unknown": "unknown", "none": "no deadline"}
_CELL = "padding:2px 10px;border-bottom:1px solid rgba(128,128,128,.35);"
_ROWS_SHOWN = 200


class Safe(str):
    """A text that is HTML already."""


def cell_text(it: Any) -> str:
    """The content of a cell, escaped."""
    if isinstance(it, Safe):
        return it
    return "" if it is None else escape(str(it))


def mark(verdict: str) -> Safe:
    """A verdict: a word on its colour."""
    style = f"background:{_COLOURS[verdict]};color:#fff;border-radius:4px;padding:0 7px;white-space:nowrap"
    return Safe(f'<span style="{style}">{_WORDS[verdict]}</span>')


def table(caption: str, heads: Sequence[str], rows: Iterable[Sequence[Any]], note: str = "") -> str:
    """A table. The caption is HTML, all else is escaped. Columns with numbers or times stand at the right."""
    several = list(rows)
    columns = list(zip(*several)) or [()] * len(heads)
    sides = ["right" if any(isinstance(it, (int, Time)) for it in column) else "left" for column in columns]
    styles = [f"{_CELL}text-align:{side};font-variant-numeric:tabular-nums" for side in sides]
    head = "".join(f'<th style="{style}">{escape(it)}</th>' for style, it in zip(styles, heads))
    body = ""
    for row in several[:_ROWS_SHOWN]:
        cells = "".join(f'<td style="{style}">{cell_text(it)}</td>' for style, it in zip(styles, row))
        body += f"<tr>{cells}</tr>"
    if len(several) > _ROWS_SHOWN:
        note = f"{len(several) - _ROWS_SHOWN} rows more aren't shown. {note}"
    foot = f'<div style="opacity:.75;font-size:90%;margin-top:2px">{escape(note)}</div>' if note else ""
    return (
        f'<div style="margin:4px 0"><table style="border-collapse:collapse;color:inherit;font:inherit">'
        f'<caption style="text-align:left;font-weight:bold;white-space:nowrap;color:inherit">{caption}</caption>'
        f"<thead><tr>{head}</tr></thead><tbody>{body}</tbody></table>{foot}</div>"
    )


def shown(ticks: int | None, tick: Time | None) -> Any:
    """A number of ticks, or the time that it is; `overload` where there is none."""
    return mark("overload") if ticks is None else plain(ticks, tick)


def plain(ticks: int | None, tick: Time | None) -> Any:
    """The same, and nothing where there is none."""
    return ticks if ticks is None or tick is None else tick * ticks


def unit_note(tick: Time | None) -> str:
    """What the numbers are."""
    return f"A tick is {tick}." if tick else "Times are in ticks."


def report(it: "reports.Report") -> str:
    """The tasks and the paths of a report."""
    tick = it.tick
    note = f"Bounds hold in every run that obeys the system. {unit_note(tick)}"
    if it.roundings:
        many = len(it.roundings)
        what = "1 time of the system was" if many == 1 else f"{many} times of the system were"
        note += f" {what} rounded to {'its' if many == 1 else 'their'} safe side, or got a tick more (roundings)."
    tasks = []
    for one in it.tasks.values():
        stream = f"{one.streams} streams" if one.streams > 1 else plain(one.period, tick)
        jitter = None if one.streams > 1 else shown(one.jitter, tick)
        distance = None if one.streams > 1 else shown(one.distance, tick)
        row = (one.name, one.on, stream, jitter, distance, plain(one.best, tick), shown(one.worst, tick))
        tasks.append(row + ((phases_text(one.phases, tick),) if it.phases else ()))
    paths = [
        (one.name, plain(one.best, tick), shown(one.worst, tick), plain(one.deadline, tick), mark(one.verdict.value))
        for one in it.paths.values()
    ]
    heads = ["task", "resource", "period", "jitter", "distance", "best", "worst-case response time"]
    if it.phases:
        heads.append("from the start of a clock on")
    if it.clocks:
        note += f" {CLOCK_PREMISE}"
    first = table(f"Tasks {mark(it.verdict.value)}", heads, tasks, "" if paths else note)
    heads = ["path", "best", "worst-case latency", "deadline", "verdict"]
    return first + (table("Paths", heads, paths, note) if paths else "")


def phases_text(phases: "Sequence[Anchor | None]", tick: Time | None) -> str:
    """Where the streams of a task are on clocks."""
    texts = ["on none" if it is None else f"{it.clock} + {plain(it.offset, tick)}" for it in phases]
    return ", ".join(texts) if any(phases) else ""


def clock(it: "Clock") -> str:
    """The sources of a clock."""
    heads = ("source", "offset", "period", "jitter")
    rows = [
        (name, *(plain(it._ticks(one, key), it.tick) for key in ("offset", "period", "jitter")))
        for name, one in it.sources.items()
    ]
    caption = f"Clock {escape(it.name)}"
    if not rows:
        return f"<div>{caption}: no source names it</div>"
    cycle = cell_text(plain(it.cycle, it.tick))
    return table(f"{caption}: a cycle of {cycle}", heads, rows, f"{CLOCK_PREMISE} {unit_note(it.tick)}")


def after_text(it: "Task") -> str:
    """The activators of a task."""
    return it.after if isinstance(it.after, str) else " or ".join(it.after)


def execution_text(it: "Task") -> str:
    """The execution of a task, or the payload of a frame."""
    if it.payload is not None:
        return f"{it.payload} bytes{', 29-bit identifier' if it.extended else ''}"
    return f"{it.best} to {it.worst}"


def locks_text(it: "Task") -> str:
    """The critical sections of a task: each lock, from when it is held, and for how long."""
    return "; ".join(f"{one.name} from {one.start} for {one.length}" for one in it.locks or [])


def bit_text(it: "Resource") -> Any:
    """The time of a bit, or the bit rate."""
    return it.bit if it.bitrate is None else f"{it.bitrate} bit/s"


# of the entries of each list what is shown: the head of a column, what stands in it, and a key that few entries have,
# without which of any entry there is no such column
Columns = tuple[tuple[str, Callable[[Any], Any], str], ...]
COLUMNS: dict[str, Columns] = {
    "resource": (
        ("kind", lambda it: it.kind, ""),
        ("limit", lambda it: it.limit, ""),
        ("gap", lambda it: it.gap, ""),
        ("bit", bit_text, ""),
        ("bits in a tick", lambda it: it.rate, "rate"),
    ),
    "source": (
        ("period", lambda it: it.period, ""),
        ("jitter", lambda it: it.jitter or 0, ""),
        ("distance", lambda it: it.distance or 0, ""),
        ("silence", lambda it: "sporadic" if it.sporadic else "", "sporadic"),
        ("clock", lambda it: it.clock or "", "clock"),
        ("offset", lambda it: "" if it.clock is None else it.offset or 0, "clock"),
    ),
    "task": (
        ("on", lambda it: it.on, ""),
        ("after", after_text, ""),
        ("execution", execution_text, ""),
        ("priority or slot", lambda it: it.slot if it.priority is None else it.priority, ""),
        ("region", lambda it: it.region, "region"),
        ("locks", locks_text, "locks"),
    ),
    "path": (("tasks", lambda it: " → ".join(it.tasks), ""), ("deadline", lambda it: it.deadline, "")),
}


def system(it: "NamedEntries") -> str:
    """The entries of a system."""
    parts = [(part, list(several.values())) for part, several in it._parts().items() if several]
    if not parts:
        return "<div>An empty system</div>"
    note = f"{unit_note(it.tick)} Numbers without a unit are ticks." if it.tick else unit_note(None)
    text = ""
    for part, entries in parts:
        shown = [column for column in COLUMNS[part] if not column[2] or any(getattr(one, column[2]) for one in entries)]
        rows = [(one.name, *(of(one) for _, of, _ in shown)) for one in entries]
        caption, heads = f"{part.capitalize()}s", [part, *(head for head, _, _ in shown)]
        text += table(caption, heads, rows, note=note if part == parts[-1][0] else "")
    return text


def run(it: "reports.Run") -> str:
    """What was observed in a run."""
    none = "none is done"
    tasks = [
        (one.name, one.jobs, one.done, none if one.worst is None else plain(one.worst, it.tick))
        for one in it.tasks.values()
    ]
    paths = [
        (one.name, one.passages, none if one.worst is None else plain(one.worst, it.tick)) for one in it.paths.values()
    ]
    note = f"Seen in one run, which isn't the worst case. {unit_note(it.tick)}"
    first = table(
        f"Run up to {cell_text(plain(it.end, it.tick))}",
        ("task", "jobs", "done", "greatest response seen"),
        tasks,
        "" if paths else note,
    )
    return first + (table("Paths", ("path", "passages", "greatest time seen"), paths, note) if paths else "")


def pairs(caption: str, head: str, found: Any, note: str) -> str:
    """The bounds and the peaks of some buffers."""
    rows = [(name, shown(bound, None), peak) for name, (bound, peak) in found.items()]
    return table(caption, (head, "bound", "peak seen"), rows, note)


def buffers(it: "reports.Buffers") -> str:
    """How many jobs wait."""
    note = "Jobs that are pending at one time, running ones too. Bounds hold in every run that obeys the system."
    found = pairs("Jobs of tasks", "task", it.tasks, "") + pairs("Jobs of resources", "resource", it.resources, note)
    rows = [(name, shown(most, None)) for name, most in it.queues.items()]
    more = "What the pending jobs of a queue still need."
    return found + (table("Work in queues", ("queue", "bound in ticks"), rows, more) if rows else "")


def slack(it: "reports.Slack") -> str:
    """By how much a task may grow."""
    name = escape(it.task or "the task")
    if it.ticks is None:
        return f"<div>{mark('missed')} {name} has no slack: a deadline is missed already, or a path has no bound.</div>"
    end = "the greatest execution that there is" if it.at_limit else "a tick more, and a deadline is missed"
    amount = cell_text(plain(it.ticks, it.tick))
    return f"<div>{name} may grow by <b>{amount}</b>{'' if it.tick else ' ticks'}: {end}.</div>"


def order(it: "reports.Order") -> str:
    """Priorities by task."""
    return table("Priorities", ("task", "priority"), it.items(), "The smaller number goes first.")


def hammered(it: "reports.Hammered") -> str:
    """What was seen under generated traces."""
    rows = [
        (name, jobs, "none is done" if worst is None else worst, shown(bound, None))
        for name, (jobs, worst, bound) in it.tasks.items()
    ]
    note = f"{it.beyond} jobs were beyond their bound. The greatest response seen isn't the worst case. "
    heads = ("task", "jobs", "greatest response seen", "bound")
    return table(f"{it.traces} generated traces", heads, rows, note + unit_note(None))


_PREMISE = "Holds where sources keep their periods: events are at most as far apart as period and jitter say."


def chain(it: "chain_results.ChainReport") -> str:
    """The bounds of a chain."""
    steps = [(one.name, one.kind, shown(one.wait, it.tick), shown(one.response, it.tick)) for one in it.steps]
    totals = ", ".join(f"{name} {cell_text(shown(getattr(it, name), it.tick))}" for name in ("reaction", "age", "held"))
    running = " Presumes that each task reads only while it runs." if it.while_running else ""
    note = f"{_PREMISE}{running} {unit_note(it.tick)}"
    return table(f"Chain: {totals}", ("task", "step", "wait", "response"), steps, note)


def chains(it: "chain_results.ChainsReport") -> str:
    """Chains with deadlines."""
    rows, held = [], any(one.held_deadline is not None for one in it.chains.values())
    for one in it.chains.values():
        row: list[Any] = [one.name, one.tasks]
        for key in ("reaction", "age", "held")[: 2 + held]:
            deadline, verdict = getattr(one, f"{key}_deadline"), getattr(one, f"{key}_verdict")
            row += [shown(getattr(one, key), one.tick), plain(deadline, one.tick), mark(verdict.value)]
        rows.append(row)
    judged = ("reaction", "age", "held")[: 2 + held]
    heads = ["chain", "tasks", *(head for it in judged for head in (it, "deadline", "verdict"))]
    tick = next((one.tick for one in it.chains.values()), None)
    return table(f"Chains {mark(it.verdict.value)}", heads, rows, f"{_PREMISE} {unit_note(tick)}")


def schedule(it: "reports.Schedule") -> str:
    """The segments of a schedule."""
    rows = [(name, it.on.get(name), plain(start, it.tick), plain(end, it.tick)) for name, start, end in it.rows]
    note = f"Each row runs from its start to before its end. {unit_note(it.tick)}"
    return table(f"Schedule, {len(rows)} segments", ("task", "resource", "start", "end"), rows, note)
