"""Reads and writes traces and recorded schedules: rows of comma-separated values, as docs/FILES.md has them."""
import csv
from collections.abc import Callable, Collection, Iterable, Iterator

from lokwurmi.errors import Unreadable
from lokwurmi.files.text_files import File, reason_of
from lokwurmi.files.whole_files import write_whole
from lokwurmi.refusals import schedule, trace
from lokwurmi.refusals.rows import Fault, Row, rows_in
from lokwurmi.refusals.sentences import sentence

Times = dict[str, list[int]]
"""The times of the events of each source, or the executions of the jobs of each task."""
Trace = tuple[Times, Times, dict[str, int]]
"""Events, executions, and the phases of TDMA resources."""
Rows = list[tuple[str, int, int]]
"""A schedule: a task, and from when to before when it ran."""


def text_of(file: str) -> str:
    """The text of a file; `-` is the standard input."""
    try:
        with open(0 if file == "-" else file, encoding="utf-8", newline="") as it:
            return it.read()
    except (OSError, UnicodeDecodeError) as fault:
        raise Unreadable(f"{file}: can't be read: {reason_of(fault)}") from fault


def _checked(text: str, file: str, fault_of: Callable[[Row], Fault | None]) -> Iterator[list[str]]:
    """The fields of each row, up to one in which there is a fault."""
    try:
        for row in rows_in(File(file, text)):
            if fault := fault_of(row):
                raise Unreadable(f"{file}: {sentence(fault[1])}")
            yield row.fields
    except csv.Error as fault:
        raise Unreadable(f"{file}: can't be read: {fault}") from fault


def schedule_in(text: str, file: str, tasks: Collection[str]) -> Rows:
    """The rows of a schedule of a system that has such tasks; times are in ticks."""
    rows = _checked(text, file, lambda row: schedule.fault_of(row, tasks))
    return [(name, int(start), int(end)) for name, start, end in rows]


def trace_in(text: str, file: str) -> Trace:
    """The times of the events of each source, the executions of each task, and the phase of each TDMA resource that has
    a row, in ticks. Whether the names are those of a system isn't looked at."""
    rows = trace.RowsSoFar()

    def fault_of(row: Row) -> Fault | None:
        fault = trace.malformed(row, rows.phases)
        if fault is None:
            rows.enter(row)
        return fault

    for _ in _checked(text, file, fault_of):
        pass
    events, executions = (
        {name: [int(row.fields[2]) for row in several] for name, several in found.items()}
        for found in (rows.events, rows.executions)
    )
    return events, executions, {name: int(row.fields[2]) for name, row in rows.phases.items()}


def write(file: str, rows: Iterable[str]) -> None:
    """Writes rows into a file."""
    try:
        write_whole(file, "".join(row + "\n" for row in rows).encode("ascii"))
    except OSError as fault:
        raise Unreadable(f"{file}: can't be written: {fault.strerror}") from fault
