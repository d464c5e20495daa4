"""The words of `assign`, `slack` and `chain` that name what can't be taken (status 18), in words."""
from __future__ import annotations

import re
from collections.abc import Sequence

from lokwurmi.files.documents import Document, activators
from lokwurmi.refusals.chains import some_of
from lokwurmi.refusals.remark import Remark, listed, mean, nearest, printable
from lokwurmi.refusals.spots import Spot, spots_in

MORE = "Status 18: the resource or the task is refused"


def remark_on(document: Document, line: str, words: Sequence[str]) -> Remark | None:
    """What to say of a call with such words behind the file, by the program's line."""
    names = {part: [it["name"] for it in several] for part, several in document.entries.items()}
    if found := re.fullmatch(r"chain refused (\d+)", line):
        return of_chain(names, words[int(found[1]) - 1])
    word, resources = words[0], names["resource"]
    if line == "slack refused 1":
        return no_task(names, word)
    if line == "assign refused 1":
        guess = f"; did you mean {near}?" if (near := nearest(word, resources)) else ""
        helps = f"its resources are {listed(resources[:8])}{' and more' if len(resources) > 8 else ''}"
        return Remark(f'no resource is called "{printable(word)}"{guess}', None, helps, more=MORE)
    if line == "assign refused 2" and word in resources:
        return without_priorities(Spot(document, "resource", resources.index(word)))
    if line == "assign refused 3" and word in resources:
        return behind_tasks(document, word, names["task"])
    if line == "assign refused 4" and word in resources:
        return on_clocks(document, word)
    return None


def without_priorities(spot: Spot) -> Remark:
    """Of a resource whose tasks have slots, or queue."""
    name, kind = spot.entry["name"], spot.entry["kind"]
    have, helps = "have slots, and no priorities", "try other slots by a script: lokwurmi session, with slot TASK N"
    if kind == "fifo":
        have = "are served in the order in which they came, and have no priorities"
        helps = "there is no order to choose: try other executions, or other inputs, by a script: lokwurmi session"
    return Remark(f'resource "{name}" is {kind}: its tasks {have}', spot.value("kind"), helps, more=MORE)


def of_chain(names: dict[str, list[str]], word: str) -> Remark:
    """Of a word of `chain` that names no task."""
    helps = f"its tasks are {some_of(names['task'])}"
    if word in names["source"]:
        helps = "it is a source: a chain has tasks alone, and begins behind the source"
    says = f'no task is called "{printable(word)}"{mean(word, names["task"])}'
    return Remark(says, None, helps, more="Effect chains")


def no_task(names: dict[str, list[str]], word: str) -> Remark:
    tasks = names["task"]
    helps = f"its tasks are {listed(tasks[:8])}{' and more' if len(tasks) > 8 else ''}"
    if word in names["source"]:
        helps = "sources have no slack: name a task"
    elif word in names["resource"]:
        helps = "resources have no slack: name a task on it"
    guess = f"; did you mean {near}?" if (near := nearest(word, tasks)) else ""
    return Remark(f'no task is called "{printable(word)}"{guess}', None, helps, more=MORE)


def of_activators(document: Document, resource: str, told: dict[str, str], says: str, helps: str) -> Remark | None:
    """Of a resource some of whose tasks have one of these activators: how the first of them comes, where what is told
    of its activator stands for {}, and how many more there are."""
    on = [it for it in spots_in(document, "task") if it.entry["on"] == resource]
    found = [it for it in on if told.keys() & activators(it.entry)]
    if not found:
        return None
    spot, count = found[0], len(found) - 1
    place, name = next((at, it) for at, it in enumerate(activators(spot.entry)) if it in told)
    others = f"; so {'does one' if count == 1 else f'do {count}'} more" if count else ""
    comes = f'task "{spot.entry["name"]}" of {resource} comes {says.format(told[name])}{others}'
    return Remark(comes, spot.item("after", place), helps, more=MORE)


def on_clocks(document: Document, resource: str) -> Remark | None:
    """Of a resource with tasks on clocks, one of whose tasks can keep a more urgent one waiting."""
    clocks = {it["name"]: it["clock"] for it in document.entries["source"] if "clock" in it}
    says = 'by the clock "{}", by which a task may be better off below another than above it'
    helps = (
        "with clocks assign takes preemptive and ceiling resources without regions and locks: leave the clocks out in a"
        " copy of the file, and look at the order that comes out with them; or ask lokwurmi optimise, or try orders by"
        " a script (swap)"
    )
    return of_activators(document, resource, clocks, says, helps)


def behind_tasks(document: Document, resource: str, tasks: list[str]) -> Remark | None:
    """Of a resource with tasks that come after others."""
    says = 'after the task "{}", so that its input depends on the order'
    helps = (
        "assign takes resources whose tasks all come after sources; try orders by a script (swap), or give the task in"
        " a copy of the file a source with the period, jitter and distance of its line in the report"
    )
    return of_activators(document, resource, dict(zip(tasks, tasks)), says, helps)
