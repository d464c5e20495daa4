"""Schedules in words: rows that are refused (status 19)."""
from __future__ import annotations

from collections.abc import Collection
from dataclasses import replace

from lokwurmi.files.documents import Document
from lokwurmi.files.text_files import File
from lokwurmi.model.limits import HORIZON, MOST_ROWS
from lokwurmi.refusals.names import Names
from lokwurmi.refusals.remark import Remark, listed, mean
from lokwurmi.refusals.rows import Fault, Row, is_number, no_number, rows_in

FORM = "a row is TASK,START,END: the task ran in the ticks from START to before END"
MORE = "Status 19: the schedule is refused"


def fault_in(document: Document, file: File) -> Fault | None:
    """The program's words for the first fault of a schedule, and what to say."""
    tasks = Names(document.entries).tasks
    for row in rows_in(file):
        if row.number > MOST_ROWS:
            says = f"the schedule has more than {MOST_ROWS} rows"
            return "too many", Remark(says, row.span, "cut trace and schedule", more=MORE)
        if found := fault_of(row, tasks):
            return f"row {row.number} {found[0]}", replace(found[1], more=MORE)
    return None


def fault_of(row: Row, tasks: Collection[str]) -> Fault | None:
    """What is wrong with a row of a schedule of a system that has such tasks."""
    return malformed(row) or unnamed(row, tasks) or out_of_range(row)


def malformed(row: Row) -> Fault | None:
    if len(row.fields) != 3:
        has_semicolons = len(row.fields) == 1 and ";" in row.fields[0]
        return row.wrong_count(("write commas in place of the semicolons: " if has_semicolons else "") + FORM)
    for at in (1, 2):
        if not is_number(row.fields[at]):
            if row.number == 1 and not is_number(row.fields[3 - at]):
                return row.heading("schedule", FORM)
            return "malformed", row.remark(no_number(row.fields[at]), FORM, at)
    return None


def unnamed(row: Row, tasks: Collection[str]) -> Fault | None:
    name = row.fields[0]
    if name in tasks:
        return None
    known = list(tasks)
    helps = f"the tasks of the system are {listed(known[:8])}{' and more' if len(known) > 8 else ''}"
    return "name", row.remark(f'no task is called "{name}"{mean(name, known)}', helps, 0)


def out_of_range(row: Row) -> Fault | None:
    start, end = int(row.fields[1]), int(row.fields[2])
    if start == end:
        return "range", row.remark(f"START, {start}, isn't below END, {end}", "leave out segments without a tick", 1)
    if start > end:
        helps = "the second field is when it began, the third when it stopped"
        return "range", row.remark(f"START, {start}, isn't below END, {end}", helps, 1)
    if end > HORIZON:
        says = f"END, {end}, is above the horizon, {HORIZON}"
        return "range", row.remark(says, "cut the schedule there", 2)
    return None
