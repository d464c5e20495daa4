"""Reads what `lokwurmi analyse`, `lokwurmi session` and `lokwurmi simulate` write, as the objects of the package
`lokwurmi`; here a text that is none ends the command."""
from collections.abc import Callable
from typing import TypeVar

from lokwurmi.errors import Unreadable
from lokwurmi.files import report_lines
from lokwurmi.files.text_files import reason_of
from lokwurmi.model.view import SystemView
from lokwurmi.results import reports
from lokwurmi.results.reports import Report
from lokwurmi_tools.shared.faults import Fault
from lokwurmi_tools.shared.types import Bounds

Text = TypeVar("Text")
Read = TypeVar("Read")


def reports_in(text: str, file: str) -> list[Report]:
    """The reports in a text, in order."""
    return read_by(reports.reports, text, file)


def run_in(text: str, file: str) -> reports.Run:
    """What `simulate` observed."""
    return read_by(reports.run, text, file)


def read_by(read: Callable[[Text], Read], text: Text, file: str) -> Read:
    """What a text says, as it is read in the package; one that can't be read is told with its file."""
    try:
        return read(text)
    except Unreadable as fault:
        raise Fault(f"{file}: {fault}") from fault


def read_report(file: str) -> Report:
    """The last report in a file."""
    try:
        with open(file, encoding="ascii") as it:
            text = it.read()
    except (OSError, UnicodeDecodeError) as fault:
        raise Fault(f"{file}: can't be read: {reason_of(fault)}") from fault
    # each line is read, so that the first that is none is told
    read_by(report_lines.reports_in, text.splitlines(), file)
    return reports_in(text, file)[-1]


def other_system(view: SystemView, report: Report) -> str | None:
    """By what a report is seen to be of another system, or None: what a report has of its file besides the bounds."""
    for what, told, known in (
        ("task", set(report.tasks), set(view.tasks)),
        ("path", set(report.paths), set(view.paths)),
    ):
        if alone := sorted(told ^ known):
            return f"{what} {alone[0]} is in {'the system' if alone[0] in known else 'the report'} alone"
    pairs: list[tuple[str, str, object, object]] = []
    for name, row in view.tasks.items():
        found = report.tasks[name]
        pairs += [(f"task {name}", "resource", found.on, row.on), (f"task {name}", "best", found.best, row.best)]
        source = view.sources.get(row.after[0]) if len(row.after) == 1 else None
        keys = ("period", "jitter", "distance") if source else ()
        pairs += [(f"task {name}", key, getattr(found, key), getattr(source, key)) for key in keys]
    for path in view.paths.values():
        pairs.append((f"path {path.name}", "deadline", report.paths[path.name].deadline, path.deadline))
    for who, key, there, here in pairs:
        if there != here:
            shown = ["none" if it is None else it for it in (there, here)]
            return f"{who} has the {key} {shown[0]} in the report, and {shown[1]} in the system"
    return None


def report_of(view: SystemView, system: str, file: str) -> Report:
    """The last report in a file, which has to be of this system, as far as it can be seen."""
    report = read_report(file)
    if why := other_system(view, report):
        raise Fault(f"{file}: it isn't of {system}: {why}; write it anew: lokwurmi analyse {system} > {file}")
    return report


def bounds_in(report: Report) -> Bounds:
    """The bounds of the tasks of a report in ticks, None for `overload`."""
    return {name: it.worst for name, it in report.tasks.items()}


def latencies_in(report: Report) -> Bounds:
    """The greatest times of its paths in ticks, None for `overload`."""
    return {name: it.worst for name, it in report.paths.items()}
