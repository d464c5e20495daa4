"""Traces in words: rows that are refused (status 16), and what the system rules out (status 17)."""
from __future__ import annotations

from collections.abc import Mapping
from dataclasses import dataclass, field, replace

from lokwurmi.files.documents import Document, activators
from lokwurmi.files.text_files import File
from lokwurmi.frames import execution
from lokwurmi.model.limits import MOST_JOBS, MOST_ROWS, MOST_TICKS, MOST_TIME, limits_of
from lokwurmi.refusals.clock_starts import first_off, have_start, leads_by
from lokwurmi.refusals.names import Names
from lokwurmi.refusals.remark import Note, Remark, listed, mean, nearest
from lokwurmi.refusals.rows import Fault, Row, is_number, no_number, rows_in

WORDS = {"event": "SOURCE,TIME", "exec": "TASK,TICKS", "phase": "RESOURCE,TICKS"}
FORM = "a row is event,SOURCE,TIME or exec,TASK,TICKS or phase,RESOURCE,TICKS"
MORE = "Status 16: the trace is refused"
DISOBEYS = "Status 17: the trace doesn't obey the system"


@dataclass
class RowsSoFar:
    """What the rows of a trace so far say: those of events by source, of executions by task, of phases by resource."""

    events: dict[str, list[Row]] = field(default_factory=dict)
    executions: dict[str, list[Row]] = field(default_factory=dict)
    phases: dict[str, Row] = field(default_factory=dict)

    def enter(self, row: Row) -> None:
        word, name, _ = row.fields
        if word == "phase":
            self.phases[name] = row
        else:
            (self.events if word == "event" else self.executions).setdefault(name, []).append(row)

    def last_event(self, source: str) -> Row | None:
        rows = self.events.get(source)
        return rows[-1] if rows else None


class TraceOfSystem:
    """A trace of a system, read until a row is refused."""

    def __init__(self, document: Document, file: File):
        self.names, self.limits = Names(document.entries), limits_of(document.form)
        self.file = file
        self.rows = RowsSoFar()
        self.fault = self.read()

    def read(self) -> Fault | None:
        """The program's words for the first fault, and what to say."""
        for row in rows_in(self.file):
            if row.number > MOST_ROWS:
                says = f"the trace has more than {MOST_ROWS} rows"
                return "too many", Remark(says, row.span, "cut the trace into parts", more=MORE)
            if found := malformed(row, self.rows.phases) or self.unnamed(row) or self.out_of_range(row):
                return f"row {row.number} {found[0]}", replace(found[1], more=MORE)
            self.rows.enter(row)
        if (jobs := self.jobs()) > MOST_JOBS:
            says = f"the trace starts {jobs} jobs, and {MOST_JOBS} are the most"
            return "too many", Remark(says, None, "cut the trace into parts", more=MORE)
        return None

    def jobs(self) -> int:
        """How many jobs the events start: one for each stream of a task."""
        count: dict[str, int] = {name: len(self.rows.events.get(name, [])) for name in self.names.sources}
        chains = self.names.chains()
        order = sorted(self.names.tasks, key=lambda it: chains[it])
        for name in order:
            count[name] = sum(count[it] for it in activators(self.names.task(name)))
        return sum(count[name] for name in order)

    def unnamed(self, row: Row) -> Fault | None:
        word, name, _ = row.fields
        resources = self.names.resources
        tdma = [it for it, entry in resources.items() if entry["kind"] == "tdma"]
        parts = {
            "event": ("source", self.names.sources),
            "exec": ("task", self.names.tasks),
            "phase": ("TDMA resource", tdma),
        }
        part, known = parts[word][0], list(parts[word][1])
        if name in known:
            return None
        some = listed(sorted(known)[:8]) + (" and more" if len(known) > 8 else "")
        says, helps = (
            f'no {part} is called "{name}"{mean(name, known)}',
            f"the system has {some if known else 'no ' + part}",
        )
        if word == "phase" and name in resources:
            says = f'resource "{name}" is {resources[name]["kind"]}, and only TDMA has a phase'
        elif word == "event" and name in self.names.tasks:
            says = f'"{name}" is a task, and events are of sources'
            helps = f"the execution of its next job is told by exec,{name},TICKS"
        elif word == "exec" and name in self.names.sources:
            says = f'"{name}" is a source, and executions are of tasks'
            helps = f"an event of it is told by event,{name},TIME"
        return "name", row.remark(says, helps, 1)

    def out_of_range(self, row: Row) -> Fault | None:
        word, name, number = row.fields[0], row.fields[1], int(row.fields[2])
        last = self.rows.last_event(name) if word == "event" else None
        if word == "event" and number > MOST_TIME:
            says, helps = f"the time {number} is above {MOST_TIME}", "cut the trace, or take a coarser tick"
        elif last and number < int(last.fields[2]):
            says = f"the time {number} is before that of the last event of {name}, {last.fields[2]}"
            notes = [Note(f"the last event of {name}", last.span)]
            return "range", row.remark(says, "sort the events of each source by time", 2, notes)
        elif word == "exec" and not 1 <= number <= self.limits.execution:
            says = f"the execution {number} isn't 1 to {self.limits.execution}"
            helps = "a job takes a tick at least; leave out what didn't run"
        elif word == "phase" and number > MOST_TICKS:
            says, helps = f"the phase {number} is above {MOST_TICKS}", "take the remainder by the cycle"
        else:
            return None
        return "range", row.remark(says, helps, 2)

    # ---- what the system rules out

    def disobeys(self, words: list[str]) -> Remark | None:
        """What the program's words after `trace disobeys` mean, if the rows say the same."""
        part, name = words[0], words[1]
        if part == "source":
            found = self.too_close(name, int(words[3]), int(words[4]))
        elif part == "clock":
            found = self.off_clock(name, int(words[2]))
        else:
            found = self.other_execution(name, int(words[3])) if part == "task" else self.wrong_phase(name)
        return found and replace(found, more=DISOBEYS)

    def too_close(self, name: str, first: int, second: int) -> Remark | None:
        source = next(it for it in self.names.entries["source"] if it["name"] == name)
        period, jitter, distance = source["period"], source.get("jitter", 0), source.get("distance", 0)
        rows = self.rows.events.get(name, [])
        times = [int(it.fields[2]) for it in rows]
        pairs = (
            (i, n)
            for n, time in enumerate(times)
            for i in range(n)
            if time == second and time < times[i] + least_time(period, jitter, distance, n - i)
        )
        i, n = next(pairs, (0, 0))
        if (i, n) == (0, 0) or times[i] != first:
            return None
        least, gap = least_time(period, jitter, distance, n - i), second - first
        says = (
            f"the event at {second} is {gap} ticks after that at {first}, and the file allows {n - i + 1} events of"
            f" {name} in no less than {least} ticks (period {period}, jitter {jitter}, distance {distance})"
        )
        ways = [f"jitter {(n - i) * period - gap}"] if (n - i) * period - jitter > gap else []
        ways += [f"distance {gap // (n - i)}"] if (n - i) * distance > gap else []
        helps = f"if that may happen, the source is denser than the file says: {listed(ways)} would allow it"
        return rows[n].remark(says, helps, None, [Note("the earlier one", rows[i].span)])

    def off_clock(self, name: str, time: int) -> Remark | None:
        sources = [it for it in self.names.entries["source"] if "clock" in it]
        times = {it: [int(row.fields[2]) for row in rows] for it, rows in self.rows.events.items()}
        found = first_off(sources, times)
        if not found or sources[found[0]]["name"] != name or times[name][found[1]] != time:
            return None
        source, event = sources[found[0]], found[1]
        period, jitter, offset = source["period"], source.get("jitter", 0), source.get("offset", 0)
        says = (
            f"the event of {name} at {time} doesn't come by clock \"{source['clock']}\": wherever that began, an event"
            f" up to here isn't its source's offset and n periods later, by up to its jitter late ({name} has period"
            f" {period}, jitter {jitter}, offset {offset})"
        )
        helps = (
            "by a clock no event is left out: what is sent on events, a node that restarts and a clock that drifts"
            " against others have none"
        )
        begins = [it - n * period for n, it in enumerate(times[name][: event + 1])]
        if (needed := max(begins) - min(begins)) > jitter:
            helps += f"; jitter {needed} would allow the events of {name} up to here"
        own = leads_by(source, times[name][: event + 1])
        others = [it for it in sources[: found[0]] if it["clock"] == source["clock"] and it["name"] in times]
        beside = [it["name"] for it in others if not have_start([leads_by(it, times[it["name"]]), own])]
        notes = [Note(f"beside the events of {it}", self.rows.events[it][0].span) for it in beside[:1]]
        return self.rows.events[name][event].remark(says, helps, 2, [] if needed > jitter else notes)

    def other_execution(self, name: str, job: int) -> Remark | None:
        rows = self.rows.executions.get(name, [])
        if len(rows) < job:
            return None
        row, task = rows[job - 1], self.names.task(name)
        best, worst = execution(task, self.names.resources[task["on"]])
        ticks = int(row.fields[2])
        side = f"below its best, {best}" if ticks < best else f"above its worst, {worst}"
        helps = f"if that is what ran, the file's range of {name}, {best} to {worst}, is too narrow"
        if "payload" in task:
            is_port = self.names.kind(task) == "fifo"
            where, keys = ("port", "`payload` and `rate`") if is_port else ("bus", "`payload`, `extended` and `bit`")
            helps = f"a frame of {task['payload']} bytes takes {best} to {worst} ticks on this {where}: look at {keys}"
        return row.remark(f"job {job} of {name} takes {ticks} ticks, {side}", helps, 2)

    def wrong_phase(self, name: str) -> Remark | None:
        row, resource = self.rows.phases.get(name), self.names.resources[name]
        if row is None:
            return None
        cycle = resource.get("gap", 0) + sum(task["slot"] for _, task in self.names.on(name))
        phase = int(row.fields[2])
        says = f"the phase {phase} isn't below the cycle of {name}, {cycle} ticks"
        return row.remark(says, f"take the remainder by the cycle: {phase % cycle}", 2)


def malformed(row: Row, phases: Mapping[str, Row]) -> Fault | None:
    """What is wrong with the form of a row, where these phases stand before it."""
    fields = row.fields
    if len(fields) != 3:
        return wrong_count(row)
    if fields[0] not in WORDS:
        return wrong_word(row)
    if not is_number(fields[2]):
        helps = f"the row is {fields[0]},{WORDS[fields[0]]}, with 1 to 10 digits alone in its last field"
        return "malformed", row.remark(no_number(fields[2]), helps, 2)
    if fields[0] == "phase" and fields[1] in phases:
        notes = [Note("the first one", phases[fields[1]].span)]
        return "malformed", row.remark(
            f"a second phase of {fields[1]}", "a resource has one phase row at most", None, notes
        )
    return None


def wrong_count(row: Row) -> Fault:
    text, helps = ",".join(row.fields), FORM
    if len(row.fields) == 1 and ";" in text:
        helps = "write commas in place of the semicolons: " + FORM
    elif len(row.fields) == 1 and text.startswith("#"):
        helps = "a trace has no comments: leave the row out"
    elif len(row.fields) == 1 and text.split()[:1] and text.split()[0] in WORDS:
        helps = "write commas between the fields: " + FORM
    return row.wrong_count(helps)


def wrong_word(row: Row) -> Fault:
    word = row.fields[0]
    if row.number == 1 and not is_number(row.fields[2]):
        return row.heading("trace", FORM)
    if word.strip() in WORDS:
        return "malformed", row.remark(f"a blank stands beside `{word.strip()}`", "leave blanks out", 0)
    near = nearest(word, list(WORDS))
    guess = f"; did you mean `{near}`?" if near else ""
    return "malformed", row.remark(f"`{word}` is none of event, exec and phase{guess}", FORM, 0)


def least_time(period: int, jitter: int, distance: int, steps: int) -> int:
    """In what time so many events after one may come at least."""
    return max(0, steps * distance, steps * period - jitter)
