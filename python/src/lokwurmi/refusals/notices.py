"""Notices: what a user would want to know of a file that the program accepts."""
from __future__ import annotations

from collections.abc import Iterator
from dataclasses import replace

from lokwurmi.files.documents import Document, activators
from lokwurmi.model.limits import LOW_BITS, MOST_SHORT
from lokwurmi.model.view import SystemView
from lokwurmi.refusals.locks import name_span, place_of, sections
from lokwurmi.refusals.remark import Note, Remark, listed, nearest
from lokwurmi.refusals.spots import Spot, spots_in

MOST = 5
IDENTIFIERS, ORDERS, CLOCKS, LOCKS = "CAN identifiers", "Priority orders and slack", "Clocks", "Locks"


def of_system(document: Document) -> list[Remark]:
    found = [*long_identifiers(document), *mixed_identifiers(document)]
    clocks = [*sporadic_on_clock(document), *lonely_clocks(document)]
    remarks = [*unused_sources(document), *(replace(it, more=IDENTIFIERS) for it in found)]
    remarks += [replace(it, more=CLOCKS) for it in clocks]
    remarks += [replace(it, more=LOCKS) for it in (*idle_sections(document), *lonely_locks(document))]
    return [replace(it, is_notice=True) for it in remarks]


def tasks_on(document: Document, resource: str) -> list[Spot]:
    """The tasks of a resource."""
    return [it for it in spots_in(document, "task") if it.entry["on"] == resource]


def unused_sources(document: Document) -> Iterator[Remark]:
    used = {it for task in document.entries["task"] for it in activators(task)}
    found = [it for it in spots_in(document, "source") if it.entry["name"] not in used]
    for place, spot in enumerate(found[:MOST], 1):
        more = f"; {len(found) - MOST} more start nobody" if place == MOST < len(found) else ""
        helps = f"no task has it in `after`: name it there, or leave it out{more}"
        yield Remark(f"{spot.called} starts nobody", spot.value("name"), helps)


def sporadic_on_clock(document: Document) -> Iterator[Remark]:
    """Sources that may fall silent, and by whose clocks no event is left out."""
    found = [it for it in spots_in(document, "source") if it.entry.get("sporadic") and "clock" in it.entry]
    for spot in found[:MOST]:
        helps = (
            "it may end, and not begin again: of what is sent on events leave `clock` out, else leave `sporadic` out;"
            " as it stands bounds may be too low for the real system"
        )
        says = f'{spot.called} is sporadic, and by its clock "{spot.entry["clock"]}" no event is left out'
        yield Remark(says, spot.value("clock"), helps)


def lonely_clocks(document: Document) -> Iterator[Remark]:
    """Clocks with one source, by which no bound changes: perhaps a name is another than was meant."""
    on: dict[str, list[Spot]] = {}
    for spot in spots_in(document, "source"):
        if "clock" in spot.entry:
            on.setdefault(spot.entry["clock"], []).append(spot)
    alone = [several[0] for several in on.values() if len(several) == 1]
    if not alone:
        return
    view = SystemView.of(document.values)
    at = {clock for name in view.tasks for clock in view.clocks_at(name)}
    for spot in [it for it in alone if it.entry["clock"] not in at][:MOST]:
        clock = spot.entry["clock"]
        guess = f'; did you mean "{near}"?' if (near := nearest(clock, [it for it in on if it != clock])) else ""
        helps = f"a clock says how the events of several sources lie to each other{guess}"
        yield Remark(f'{spot.called} is alone on clock "{clock}", which changes no bound', spot.value("clock"), helps)


def idle_sections(document: Document) -> Iterator[Remark]:
    """Critical sections that no job comes to."""
    for spot in spots_in(document, "task"):
        several = enumerate(sections(spot))
        found = [(item, it) for item, it in several if it["start"] >= spot.entry["worst"]]
        for item, it in found[:1]:
            more = f"; so it is with {len(found) - 1} more of its sections" if found[1:] else ""
            says = (
                f'{spot.called}: its section of "{it["name"]}" begins after {it["start"]} ticks of a job, and no job'
                f" has more than {spot.entry['worst']}: it never begins{more}"
            )
            helps = "the section counts for bounds as any other: let it begin earlier, or leave it out"
            yield Remark(says, place_of(spot, item).values["start"].span, helps)


def lonely_locks(document: Document) -> Iterator[Remark]:
    """Locks with one user, by which no bound changes: perhaps a name is another than was meant."""
    users: dict[str, list[tuple[Spot, int]]] = {}
    for spot in spots_in(document, "task"):
        for item, it in enumerate(sections(spot)):
            users.setdefault(it["name"], []).append((spot, item))
    alone = [(lock, *several[0]) for lock, several in users.items() if len({it.at for it, _ in several}) == 1]
    for lock, spot, item in alone[:MOST]:
        guess = f'; did you mean "{near}"?' if (near := nearest(lock, [it for it in users if it != lock])) else ""
        helps = f"a lock keeps out the other tasks that take it: name it in their `locks`, too, or leave it out{guess}"
        yield Remark(f'{spot.called} alone has the lock "{lock}", which changes no bound', name_span(spot, item), helps)


def buses_in(document: Document) -> list[str]:
    """The CAN buses."""
    return [it["name"] for it in document.entries["resource"] if it["kind"] == "can"]


def long_identifiers(document: Document) -> Iterator[Remark]:
    """One notice a bus."""
    for bus in buses_in(document):
        several = [it for it in tasks_on(document, bus) if it.entry["priority"] > MOST_SHORT]
        frames = [it for it in several if not it.entry.get("extended")]
        if not frames:
            continue
        spot, count = frames[0], len(frames) - 1
        others = f", and so {'has one' if count == 1 else f'have {count}'} more on {bus}" if count else ""
        says = (
            f"{spot.called} has a priority above {MOST_SHORT:#x}, the greatest identifier of 11 bits, without"
            f" `extended = true`{others}"
        )
        is_frame = "payload" in spot.entry
        way = "`extended = true`" if is_frame else "`payload` and `extended = true` in place of `best` and `worst`"
        rank = "and mind the order of mixed identifiers; a mere rank may stay"
        yield Remark(says, spot.value("priority"), f"if it is an identifier of 29 bits, write {way}, {rank}")


def mixed_identifiers(document: Document) -> Iterator[Remark]:
    """One notice a bus with frames of both lengths, where the priorities look like identifiers, and these are compared
    on the bus in another order."""
    for bus in buses_in(document):
        frames = [(it, it.entry["priority"]) for it in tasks_on(document, bus) if "payload" in it.entry]
        long = [it for it in frames if it[0].entry.get("extended") and it[1] > MOST_SHORT]
        short = [it for it in frames if not it[0].entry.get("extended")]
        pairs = ((a, b) for a in long for b in short if a[1] >> LOW_BITS < b[1] <= MOST_SHORT)
        for (spot, first), (other, second) in [*pairs][:1]:
            name = other.entry["name"]
            says = (
                f"{spot.called} has a priority like an identifier of 29 bits, and goes on the bus before {name}, whose"
                " priority is smaller"
            )
            helps = (
                f"the first 11 bits are compared first, here {first >> LOW_BITS:#x} and {second:#x}: give the frames of"
                f" {bus} the priorities 0, 1, 2 and so on in the order of the bus; as it stands bounds may be too low"
                " for the bus"
            )
            notes = [Note(f"{name} has 11 bits", other.value("priority"))]
            yield Remark(says, spot.value("priority"), helps, notes)


def of_assign(document: Document, resource: str, is_order: bool) -> list[Remark]:
    """What an answer of `assign` counts: deadlines of paths of one task."""
    tasks = [it.entry["name"] for it in tasks_on(document, resource)]
    with_one = {it["tasks"][0] for it in document.entries["path"] if len(it["tasks"]) == 1 and "deadline" in it}
    without = [it for it in tasks if it not in with_one]
    count = len(tasks) - len(without)
    if not without:
        return []
    helps = (
        "the order counts these deadlines alone: tasks without one may get much worse, and so may paths over several"
        " tasks; look at the whole system under it"
    )
    if not is_order:
        helps = "no order meets these deadlines; those of longer paths weren't looked at"
    elif count == 0:
        helps = (
            "no deadline was looked at, so that this order may be far worse than the present one, for tasks and for"
            f' paths over several; give tasks deadlines of their own: [[path]] name = "{without[0]}", tasks ='
            f' ["{without[0]}"], deadline = ..'
        )
    if 0 < count and len(without) <= 8:
        helps += f"; without one: {listed(without)}"
    spot = next(it for it in spots_in(document, "resource") if it.entry["name"] == resource)
    says = f"{count} of {len(tasks)} tasks of {resource} have a deadline of their own (a path of that task alone)"
    return [Remark(says, spot.value("name"), helps, more=ORDERS, is_notice=True)]


def without_deadlines(document: Document) -> list[Remark]:
    """What an answer of `slack` counts."""
    if any("deadline" in it for it in document.entries["path"]):
        return []
    says = "no path has a deadline, so that nothing can be missed"
    helps = "the answer tells only how far `worst` is from the greatest execution there is"
    return [Remark(says, None, helps, more=ORDERS, is_notice=True)]
