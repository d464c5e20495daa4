"""Turns the times of a system file, or of a file of chains, into whole ticks: for lokwurmi ticks."""
import re
from dataclasses import dataclass
from fractions import Fraction
from typing import Any

from lokwurmi.errors import UnitsRefused
from lokwurmi.files.chain_files import OFF, has_ticks_off
from lokwurmi.model.conversion import Converter, entries_of
from lokwurmi.results.effect_chains import kinds_of, ticks_between
from lokwurmi_tools.shared.faults import Fault
from lokwurmi_tools.shared.times import text_of
from lokwurmi_tools.shared.written_entries import comments, put_and_tell

KINDS = ("resource", "source", "task", "path")
KEYS = ", ".join(("format", *KINDS))
# the schema that a file names in its first line, of both forms
SCHEMA, SCHEMA_OF_UNITS = "lokwurmi.schema.json", "lokwurmi.units.schema.json"
# how many roundings the standard error has; the file has all
MOST_TOLD = 20


@dataclass(frozen=True, slots=True)
class TickOptions:
    """A file whose times have units, and the time of a tick in nanoseconds; `system` is that of a file of chains, and
    `to` the file that is written, None for the standard output."""

    file: str
    tick: Fraction
    system: str | None = None
    to: str | None = None


def parsed(file: str) -> tuple[str, Any]:
    """The text of a file, and the document that it is."""
    # it needs tomlkit, and --help doesn't
    from lokwurmi_tools.shared.packages import need

    need("tomlkit")
    import tomlkit
    import tomlkit.exceptions

    try:
        with open(file, encoding="utf-8-sig", newline="") as it:
            text = it.read()
        return text, tomlkit.parse(text)
    except OSError as fault:
        raise Fault(f"{file}: can't be read: {fault.strerror}")
    except UnicodeDecodeError as fault:
        raise Fault(f"{file}: it isn't UTF-8: {fault.reason} at byte {fault.start}")
    except tomlkit.exceptions.TOMLKitError as fault:
        raise Fault(f"{file}: it isn't TOML: {fault}")


def check_keys(file: str, document: Any, text: str) -> None:
    """Refuses a file that is none of a system: its times would stay as they are."""
    for key in document:
        if key not in ("format", *KINDS):
            line = next((at for at, it in enumerate(text.split("\n"), 1) if re.match(rf"[\s\[\"']*{key}\b", it)), 1)
            helps = "a file of chains wants its system: --system FILE" if key == "chain" else f"the keys are {KEYS}"
            raise Fault(f"{file}: line {line}: {key} is no key of a system; {helps}")


def starts_in(system: str, tick: Fraction) -> dict[str, Any]:
    """What starts each task of a system; one with a period that is no whole number of ticks is refused, but of a
    sporadic source, for which it is the least time between events alone."""
    text, document = parsed(system)
    starts = {str(it.get("name")): it.get("after", []) for it in entries_of(document, "task")}
    converter = Converter(tick, text)
    converter.convert(document)
    may_be_silent = {f"source {it.get('name')}" for it in entries_of(document, "source") if it.get("sporadic")}
    periods = (it for it in converter.told if it.key == "period" and it.what not in may_be_silent)
    if rounded := next(periods, None):
        whole = converter.whole_tick()
        then = f": take a tick of {text_of(whole)}" if whole else ": take a tick with which it is whole"
        raise Fault(f"{system}: {rounded}, and chains take a period as the longest time between two events, too{then}")
    return starts


def convert_chains(file: str, document: Any, converter: Converter, system: str) -> list[str]:
    """Turns the deadlines of a file of chains into ticks, and takes a tick off for each wait that the bound counts;
    gives what is to be said of that."""
    starts = starts_in(system, converter.tick)
    told = []
    for place, item in enumerate(entries_of(document, "chain"), 1):
        converter.set_times("chain", item)
        name, tasks = item.get("name", place), item.get("tasks", [])
        if not isinstance(tasks, list) or not tasks:
            raise Fault(f'{file}: chain {name} has no tasks: tasks = ["capture", "act"]')
        if unknown := [it for it in tasks if it not in starts]:
            raise Fault(f"{file}: chain {name}: {system} has no task {unknown[0]}; there are {', '.join(starts)}")
        for key, count in ticks_between(kinds_of(tasks, starts)).items():
            deadline = item.get(key)
            if not isinstance(deadline, int) or not count:
                continue
            if deadline <= count:
                raise Fault(
                    f"{file}: chain {name}: {key} is {deadline} ticks with {count} waits: take a shorter --tick"
                )
            item[key] = deadline - count
            told.append(f"  chain {name}: {key} is {deadline - count}, {count} less than {deadline}")
    return [f"{OFF}, since between ticks all of it may go by:", *told] if told else []


def converted(file: str, tick: Fraction, system: str | None = None) -> tuple[str, list[str]]:
    """A file with its times in ticks, and what is to be said of it."""
    text, document = parsed(file)
    converter = Converter(tick, text)
    more: list[str] = []
    try:
        if system is None:
            check_keys(file, document, text)
            converter.convert(document)
        elif set(document) - {"format", "chain"}:
            raise Fault(f"{file}: it is no file of chains, which --system is for: that has format and chain alone")
        elif has_ticks_off(text):
            raise Fault(f"{file}: it has {OFF} already, as its head says: take the file with units")
        else:
            more = convert_chains(file, document, converter, system)
    except UnitsRefused as fault:
        raise Fault(f"{file}: {fault}")
    lines = document.as_string().splitlines()
    told = converter.lines() + more
    head = [part for it in told for part in comments(it)]
    if lines and lines[0].startswith("#:schema "):
        lines[0] = lines[0].replace(SCHEMA_OF_UNITS, SCHEMA)
        return "\n".join([lines[0], *head, *lines[1:]]) + "\n", told
    return "\n".join([*head, *lines]) + "\n", told


def write_in_ticks(options: TickOptions) -> None:
    """Writes a file with its times in ticks, and tells what was rounded."""
    text, told = converted(options.file, options.tick, options.system)
    more = [f"  and {len(told) - MOST_TOLD} lines more"]
    put_and_tell(text, options.to, told if len(told) <= MOST_TOLD + 2 else told[:MOST_TOLD] + more)
