"""Edits of a session in words: why one is refused, by the ten rules in their order (docs/FILES.md, "Edits that are
refused")."""
from __future__ import annotations

import math
from collections.abc import Callable, Iterator
from dataclasses import dataclass

from lokwurmi.files.documents import Document, Table, activators
from lokwurmi.files.system_keys import KEYS, keys_of
from lokwurmi.files.text_files import File
from lokwurmi.frames import execution
from lokwurmi.model.limits import MOST_IN_CHAIN, MOST_STARTS, MOST_TICKS, WITH_PRIORITIES, Kind, limits_of
from lokwurmi.refusals.names import Names
from lokwurmi.refusals.remark import Remark, mean
from lokwurmi.refusals.script import FORMS as SORTS
from lokwurmi.refusals.script import Line, is_form, lines_in

MORE = "Edits that are refused"
IN_ORDER = "jobs on a queue are served in the order in which they came: change how long they are, or when they come"


@dataclass(frozen=True)
class RefusedEdit:
    """The number of the line and of the rule, as the program's line has them, what to say, and of that the reason
    alone."""

    line: int
    rule: int
    remark: Remark
    why: str

    @property
    def words(self) -> str:
        return f"line {self.line} refused {self.rule}"


Broken = Iterator[tuple[int, int, str, str]]
"""The rules that an edit breaks, each with the place of the word that does, why, and what helps."""


class Bench:
    """A system under edits: its entries as they are by now. Frames have the executions of their payloads."""

    def __init__(self, document: Document):
        self.entries = {part: [dict(it) for it in entries] for part, entries in document.entries.items()}
        resources = {it["name"]: it for it in self.entries["resource"]}
        for task in self.entries["task"]:
            task["best"], task["worst"] = execution(task, resources[task["on"]])
        self.names, self.keys = Names(self.entries), keys_of(document.form)
        self.most_tasks = limits_of(document.form).entries["task"]

    def has_priorities(self, resource: str) -> bool:
        return self.names.resources[resource]["kind"] in WITH_PRIORITIES

    def is_queue(self, resource: str) -> bool:
        return bool(self.names.resources[resource]["kind"] == Kind.FIFO)

    def take(self, line: Line) -> tuple[int, int, str, str] | None:
        """Makes an edit, or tells the rule that it breaks, why, which of its words is the one, and what helps."""
        keyword, *words = line.words
        operands = [int(it) if sort.islower() else it for sort, it in zip(SORTS[keyword], words)]
        broken = min(FORMS[keyword].broken(self, *operands), key=lambda it: it[0], default=None)
        if broken is None:
            FORMS[keyword].change(self, *operands)
            self.names = Names(self.entries)
        return broken

    # ---- the rules that several edits have

    def no_task(self, name: str, word: int) -> Broken:
        says, helps = f'"{name}" is a source, and a task is wanted', "a source is edited by: source NAME P J D"
        if name not in self.names.sources:
            says = f'no task is called "{name}"{mean(name, list(self.names.tasks))}'
            helps = "names are as in the file, and as earlier edits made them"
        if name not in self.names.tasks:
            yield 1, word, says, helps

    def source(self, name: str) -> Table:
        """The source with a name that one has."""
        return next(it for it in self.entries["source"] if it["name"] == name)

    def no_source(self, name: str) -> Broken:
        if name in self.names.tasks:
            helps = "the input of a task follows from its activators, and can't be edited"
            yield 1, 1, f'"{name}" is a task, and a source is wanted', helps
        elif name not in self.names.sources:
            near = mean(name, sorted(self.names.sources))
            yield 1, 1, f'no source is called "{name}"{near}', "names are as in the file"

    def off_clock(self, source: Table, word: int, helps: str) -> Broken:
        """Why a source can't stay on its clock once it is edited so, if it is on one."""
        clock, period, offset = source.get("clock"), source["period"], source.get("offset", 0)
        if clock is None:
            return
        if offset >= period:
            yield 10, word, f"the offset {offset} isn't below the period {period}", helps
        several = [period, *(it["period"] for it in self.entries["source"] if self.is_beside(it, source))]
        cycle = math.lcm(*several)
        starts = sum(cycle // it for it in several)
        if cycle > MOST_TICKS or starts > MOST_STARTS:
            is_long = cycle > MOST_TICKS
            what = f"be {cycle} ticks long" if is_long else f"have {starts} events"
            most = f"{MOST_TICKS} ticks" if is_long else str(MOST_STARTS)
            says = f'the cycle of clock "{clock}" would {what}, and {most} are the most'
            yield 10, word, says, "take a period that divides the others, or that they divide"

    def is_beside(self, other: Table, source: Table) -> bool:
        """Whether another source is on the clock of one."""
        return bool(other.get("clock") == source["clock"] and other["name"] != source["name"])

    def out_of_range(self, key: str, number: int, word: int, part: str = "task") -> Broken:
        # an edit has its form in each format, also where the file knows no such key
        rule, what = self.keys[part].get(key) or KEYS[part][key], "" if part == "task" else f"the {key} "
        if not rule.least <= number <= rule.most:
            says = f"{what}{number} isn't {rule.least} to {rule.most}"
            yield 3, word, says, f"the range is that of `{key}` in a system file"

    def wrong_turn(self, resource: str, number: int, name: str, word: int) -> Broken:
        """Why a task can't be added to a resource with a number, its priority or slot; on a queue it is 0."""
        if not self.is_queue(resource):
            yield from self.out_of_range("priority" if self.has_priorities(resource) else "slot", number, word)
            yield from self.taken(resource, number, name, word)
        elif number:
            says = f"N is {number}, and {self.tasks_on(resource)} neither a priority nor a slot"
            yield 3, word, says, "write 0 in its place"

    def taken(self, resource: str, number: int, name: str, word: int) -> Broken:
        others = [it for _, it in self.names.on(resource) if "priority" in it and it["name"] != name]
        used = {it["priority"]: it["name"] for it in others}
        if self.has_priorities(resource) and number in used:
            free = next(it for it in range(number, number + len(used) + 1) if it not in used)
            swap = f"swap {name} {used[number]}, or " if name in self.names.tasks else ""
            says = f'"{used[number]}" has the priority {number} on {resource}'
            yield 4, word, says, f"{swap}take a priority that is free, as {free}"

    def crossed(self, best: int, worst: int, word: int) -> Broken:
        if best > worst:
            yield 5, word, f"MIN, {best}, is above MAX, {worst}", "exchange them"

    def tasks_on(self, resource: str) -> str:
        """The tasks of a resource, in words."""
        return f"tasks on {resource}, which is {self.names.resources[resource]['kind']}, have"


def break_exec(bench: Bench, name: str, best: int, worst: int) -> Broken:
    yield from bench.no_task(name, 1)
    yield from bench.out_of_range("best", best, 2)
    yield from bench.out_of_range("worst", worst, 3)
    yield from bench.crossed(best, worst, 2)


def do_exec(bench: Bench, name: str, best: int, worst: int) -> None:
    task = bench.names.task(name)
    task.pop("payload", None)
    task["best"], task["worst"] = best, worst


def break_turn(bench: Bench, name: str, number: int, key: str) -> Broken:
    yield from bench.no_task(name, 1)
    if name in bench.names.tasks:
        on = bench.names.task(name)["on"]
        if bench.is_queue(on):
            yield 2, 0, f"{bench.tasks_on(on)} neither a priority nor a slot", IN_ORDER
        elif bench.has_priorities(on) != (key == "priority"):
            other = "slot" if key == "priority" else "priority"
            yield 2, 0, f"{bench.tasks_on(on)} a {other} and no {key}", f"write {other} {name} N"
        elif key == "priority":
            yield from bench.taken(on, number, name, 2)
    yield from bench.out_of_range(key, number, 2)


def do_turn(bench: Bench, name: str, number: int, key: str) -> None:
    bench.names.task(name)[key] = number


def break_swap(bench: Bench, first: str, second: str) -> Broken:
    yield from bench.no_task(first, 1)
    yield from bench.no_task(second, 2)
    if first in bench.names.tasks and second in bench.names.tasks:
        here, there = (bench.names.task(it)["on"] for it in (first, second))
        if here != there:
            helps = "priorities of one resource can be exchanged; give each a new one by: priority TASK N"
            yield 2, 2, f'"{first}" is on {here}, and "{second}" on {there}', helps
        elif not bench.has_priorities(here):
            helps = IN_ORDER if bench.is_queue(here) else "give each a new slot by: slot TASK N"
            yield 2, 0, f"{bench.tasks_on(here)} no priorities", helps


def do_swap(bench: Bench, first: str, second: str) -> None:
    one, other = bench.names.task(first), bench.names.task(second)
    one["priority"], other["priority"] = other["priority"], one["priority"]


def break_source(bench: Bench, name: str, period: int, jitter: int, distance: int) -> Broken:
    yield from bench.no_source(name)
    yield from bench.out_of_range("period", period, 2, "source")
    yield from bench.out_of_range("jitter", jitter, 3, "source")
    if distance > period:
        helps = "the form is: source NAME P J D, period, jitter and distance"
        yield 3, 4, f"the distance {distance} is above the period {period}", helps
    if name in bench.names.sources and 0 < period:
        helps = f"give it another offset first, by: offset {name} N"
        yield from bench.off_clock(bench.source(name) | {"period": period}, 2, helps)


def do_source(bench: Bench, name: str, period: int, jitter: int, distance: int) -> None:
    bench.source(name).update(period=period, jitter=jitter, distance=distance)


def break_offset(bench: Bench, name: str, offset: int) -> Broken:
    yield from bench.no_source(name)
    yield from bench.out_of_range("offset", offset, 2, "source")
    if name in bench.names.sources:
        if "clock" not in bench.source(name):
            helps = "a source has an offset on a clock alone, which the file names: clock = NAME"
            yield 2, 0, f'"{name}" is on no clock', helps
        else:
            source = bench.source(name)
            yield from bench.off_clock(source | {"offset": offset}, 2, f"it is 0 to {source['period'] - 1}")


def do_offset(bench: Bench, name: str, offset: int) -> None:
    bench.source(name)["offset"] = offset


def break_add(bench: Bench, name: str, on: str, after: str, best: int, worst: int, number: int) -> Broken:
    known, form = [*sorted(bench.names.sources), *bench.names.tasks], "the form is: add NAME RES AFTER MIN MAX N"
    if on not in bench.names.resources:
        yield 1, 2, f'no resource is called "{on}"{mean(on, list(bench.names.resources))}', form
    if after not in known:
        yield 1, 3, f'no source and no task is called "{after}"{mean(after, known)}', form
    yield from bench.out_of_range("best", best, 4)
    yield from bench.out_of_range("worst", worst, 5)
    if on in bench.names.resources:
        yield from bench.wrong_turn(on, number, name, 6)
    yield from bench.crossed(best, worst, 4)
    if name in known:
        yield 7, 1, f'the name "{name}" is taken', "sources and tasks share one set of names: choose another"
    if len(bench.entries["task"]) >= bench.most_tasks:
        yield 8, 0, f"there are {bench.most_tasks} tasks already", "remove one first"
    if after in bench.names.tasks and bench.names.chains()[after] >= MOST_IN_CHAIN:
        says = f"the chain up to it would have more than {MOST_IN_CHAIN} tasks"
        yield 9, 3, says, "activate it by an earlier one of the chain"


def do_add(bench: Bench, name: str, on: str, after: str, best: int, worst: int, number: int) -> None:
    task = {"name": name, "on": on, "after": after, "best": best, "worst": worst}
    if not bench.is_queue(on):
        task["priority" if bench.has_priorities(on) else "slot"] = number
    bench.entries["task"].append(task)


def break_remove(bench: Bench, name: str) -> Broken:
    yield from bench.no_task(name, 1)
    behind = [it["name"] for it in bench.entries["task"] if name in activators(it)]
    paths = [it["name"] for it in bench.entries["path"] if name in it["tasks"]]
    if behind:
        yield 6, 1, f'task "{behind[0]}" comes after it', "remove the tasks behind it first"
    elif paths:
        yield 6, 1, f'path "{paths[0]}" names it', "a task of a path can't be removed by a script"


def do_remove(bench: Bench, name: str) -> None:
    del bench.entries["task"][bench.names.tasks[name]]


@dataclass(frozen=True)
class Form:
    """The rules that an edit of a form breaks, and what it changes."""

    broken: Callable[..., Broken]
    change: Callable[..., None]


def by_turn(key: str) -> Form:
    return Form(
        lambda bench, name, number: break_turn(bench, name, number, key),
        lambda bench, name, number: do_turn(bench, name, number, key),
    )


FORMS = {
    "exec": Form(break_exec, do_exec),
    "priority": by_turn("priority"),
    "swap": Form(break_swap, do_swap),
    "slot": by_turn("slot"),
    "source": Form(break_source, do_source),
    "offset": Form(break_offset, do_offset),
    "add": Form(break_add, do_add),
    "remove": Form(break_remove, do_remove),
}


def refused_edits(document: Document, file: File) -> tuple[int, list[RefusedEdit]]:
    """How many edits a script has, all of whose lines are forms, and those that are refused."""
    bench, count, found = Bench(document), 0, []
    for line in lines_in(file):
        if not is_form(line) or line.words[0] == "report":
            continue
        count += 1
        if broken := bench.take(line):
            rule, word, says, helps = broken
            text = f"`{' '.join(line.words)}` was refused: {says}"
            remark = Remark(text, line.spans[word], helps, is_notice=True)
            found.append(RefusedEdit(line.number, rule, remark, says))
    return count, found
