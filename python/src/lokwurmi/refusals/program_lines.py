"""The lines by which the program refuses a call: what each says by itself, where its file can't be read again or is
read otherwise here, and the error that is raised for it."""
from __future__ import annotations

import re

from lokwurmi.errors import (
    CallFailed,
    ChainsRefused,
    FileTooLong,
    LokwurmiError,
    NameRefused,
    NotToml,
    ScheduleRefused,
    ScriptRefused,
    SystemRefused,
    TraceDisobeys,
    TraceRefused,
    WordsRefused,
)
from lokwurmi.model.limits import LIMITS, MOST_BYTES, NEWEST
from lokwurmi.model.statuses import Status
from lokwurmi.refusals.reasons import CHAIN_REASONS, ROW_FAULTS, SYSTEM_REASONS, section_of

_ENTRY = re.compile(r"(system|chains) refused reason (\d+) (\w+) (\d+)")
_SCRIPT = re.compile(r"script refused (?:line (\d+)|too many lines|no edit)")
_ROW = re.compile(r"(trace|schedule) refused (?:row (\d+) (\w+)|(too many))")
_NAME = re.compile(r"(assign|slack|chain) refused (\d+)")
_DISOBEYS = re.compile(r"trace disobeys (source \S+|task \S+ job \d+|resource \S+|clock \S+ \d+).*")


def told(line: str) -> tuple[str, str] | None:
    """What a line says in words, and the section of docs/FILES.md."""
    if found := _ENTRY.fullmatch(line):
        reason, part, place = int(found[2]), found[3], int(found[4])
        where = "the file as a whole" if part == "file" else f"{part} {place}, counted from 1"
        is_system = found[1] == "system"
        says = (SYSTEM_REASONS if is_system else CHAIN_REASONS)[reason].says
        return f"{where}: {says}", section_of(reason) if is_system else "Chains with deadlines"
    if (found := _SCRIPT.fullmatch(line)) and found[1]:
        return f"line {found[1]} is none of the forms of an edit", "The script"
    if (found := _ROW.fullmatch(line)) and found[2]:
        status = Status.TRACE_REFUSED if found[1] == "trace" else Status.SCHEDULE_REFUSED
        return f"row {found[2]}: {ROW_FAULTS[found[3]]}", f"Status {status}: the {found[1]} is refused"
    if found := _DISOBEYS.fullmatch(line):
        part, name, *rest = found[1].split()
        says = f"{found[1]} does what the system rules out"
        says = f"the event of {name} at {rest[0]} doesn't come by its clock" if part == "clock" else says
        return says, "Status 17: the trace doesn't obey the system"
    if found := _NAME.fullmatch(line):
        section = "Effect chains" if found[1] == "chain" else "Status 18: the resource or the task is refused"
        return str(NameRefused(Status.NAME_REFUSED, line, found[1], int(found[2]))), section
    return None


def error_of(status: int, text: str) -> LokwurmiError:
    """The error of a call that has no answer, by its status, which is one of a refusal or a signal, and its line."""
    line = text.removesuffix("\n")
    if status == Status.WORDS_REFUSED:
        says = "the words aren't accepted: a number is out of its range, or a name is no word"
        return WordsRefused(status, text, says)
    if status == Status.FILE_TOO_LONG:
        says = (
            f"a text is too long: a system has at most {MOST_BYTES['system']:,} bytes, in format {NEWEST}"
            f" {LIMITS[NEWEST].file_bytes:,}, a script or a file of chains {MOST_BYTES['script']:,},"
            f" a trace or a schedule {MOST_BYTES['trace']:,}"
        )
        return FileTooLong(status, text, says)
    if status == Status.NOT_TOML:
        which = "file of chains" if line == "not TOML chains" else "system file"
        return NotToml(status, text, f"the {which} isn't TOML")
    if status == Status.TRACE_DISOBEYS:
        return TraceDisobeys(status, text)
    if it := _ENTRY.fullmatch(line):
        if it[1] == "system" and status == Status.SYSTEM_REFUSED:
            return SystemRefused(status, text, int(it[2]), it[3], int(it[4]))
        if it[1] == "chains" and status == Status.NAME_REFUSED:
            return ChainsRefused(status, text, int(it[2]), int(it[4]))
    if status == Status.SCRIPT_REFUSED and (it := _SCRIPT.fullmatch(line)):
        return ScriptRefused(status, text, int(it[1]) if it[1] else None)
    if status in (Status.TRACE_REFUSED, Status.SCHEDULE_REFUSED) and (it := _ROW.fullmatch(line)):
        kind = TraceRefused if status == Status.TRACE_REFUSED else ScheduleRefused
        return kind(status, text, int(it[2]) if it[2] else None, it[3] or it[4])
    if status == Status.NAME_REFUSED and (it := _NAME.fullmatch(line)):
        return NameRefused(status, text, it[1], int(it[2]))
    return CallFailed(status, text)
