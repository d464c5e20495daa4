"""Why a system file is refused, in words: the first reason of status 14 that applies, with the part and the place that
the program tells, found by the same rules in the same order (docs/FILES.md, "Refusals")."""
from __future__ import annotations

import math
from collections.abc import Callable, Iterator, Sequence
from dataclasses import dataclass, replace

from lokwurmi.files.documents import PARTS, Document, activators
from lokwurmi.files.system_keys import is_name, is_name_letter, keys_of, kinds_of
from lokwurmi.files.toml_spans import Span
from lokwurmi.frames import MOST_CLASSICAL
from lokwurmi.model.limits import (
    LIMITS,
    MOST_IN_CHAIN,
    MOST_IN_NAME,
    MOST_PRIORITY,
    MOST_STARTS,
    MOST_STREAMS,
    MOST_TICKS,
    NEWEST,
    WITH_PRIORITIES,
    WITH_REGIONS,
    limits_of,
)
from lokwurmi.refusals import form, locks
from lokwurmi.refusals.names import Names
from lokwurmi.refusals.reasons import section_of
from lokwurmi.refusals.remark import Note, Remark, listed, mean
from lokwurmi.refusals.spots import Spot, spots_in

# why a task has no region, by the kind of its resource
NO_REGION = {
    "can": "no job is preempted there",
    "round-robin": "how long a job goes on is told by its `slot`",
    "tdma": "how long a job goes on is told by its `slot`",
    "fifo": "what has begun there goes on to its end",
}
# what to do about locks, by the kind of the resource: on others than these the protocol is told first
BY_CEILINGS = (
    'write kind = "ceiling", where a task that holds a lock has its ceiling as priority, as under OSEK and AUTOSAR,'
    " with POSIX priority protect and Ada ceiling locking; locks with priority inheritance, or with none, aren't"
    " modelled"
)
NO_LOCKS = {
    "can": "no job is preempted there: leave them out",
    "fifo": "what has begun there goes on to its end: leave them out",
    "round-robin": 'locks are modelled under priority ceilings alone, on a resource of the kind "ceiling"',
    "tdma": 'locks are modelled under priority ceilings alone, on a resource of the kind "ceiling"',
}
OF_NAMES = f"a name has 1 to {MOST_IN_NAME} of the letters A to Z and a to z, digits, _, - and ."
# what is told of keys that aren't times, or whose range surprises
MEANINGS = {
    "priority": "; the smaller number goes first, and 0x1fffffff is the greatest identifier of 29 bits",
    "payload": (
        " bytes; a longer frame, as of CAN FD, has best and worst in its place: lokwurmi lengths fd 12 --bitrate 500000"
        " --data-bitrate 2000000 tells those of 12 bytes"
    ),
    "bit": " ticks: it is the time of a bit, as 2 at 500 kbit/s where a tick is a microsecond",
    "limit": " ticks: the longest busy window that is looked at",
    "offset": " ticks, and below the period",
    "region": " ticks: 1 is as without it, and a job with one of at least `worst` is never preempted",
    "rate": " bits in a tick; where a bit takes longer than a tick, choose a longer tick",
}
# the same of what is too large
TOO_MUCH = {
    "rate": (
        " bits in a tick: at more, the shortest frame, of 672 bits, would take less than a tick; choose a shorter tick"
    )
}
# what is told of payloads where frames may be those of ports, too
OF_PORTS = (
    " bytes, on can to 8; a longer frame has best and worst in its place: lokwurmi lengths ethernet 1500 --tagged"
    " --bitrate 100000000 tells those of 1500 bytes and a tag"
)
# the kinds of resource whose tasks may be frames, and what tells when a job's turn is
WITH_FRAMES, TURNS = ("can", "fifo"), ("priority", "slot")
# what to write where a key is one of another kind
IN_ITS_PLACE = {
    ("bit", "fifo"): "write `rate` in its place: how many bits go over the port in a tick",
    ("rate", "can"): "write `bit` in its place: how many ticks a bit takes",
}
IN_ORDER = "leave it out: jobs on a queue are served in the order in which they came"


@dataclass(frozen=True)
class Refusal:
    """A reason, the part and the place, from 1, as the program's line has them, and what to say."""

    reason: int
    part: str
    place: int
    remark: Remark

    @property
    def line(self) -> str:
        return f"system refused reason {self.reason} {self.part} {self.place}"


Found = Iterator[tuple[Spot, Remark]]
Misfits = Iterator[tuple[str, Span, str]]
"""What of a task doesn't fit the kind of its resource, where that stands, and what helps."""


def first_refusal(document: Document) -> Refusal | None:
    """Why a document is no system; None where it is one."""
    for reason, found in ((13, form.other_format(document)), (1, form.top(document))):
        if found:
            return Refusal(reason, "file", 0, replace(found, more=section_of(reason)))
    for reason, rule in RULES.items():
        for spot, remark in rule(document):
            return Refusal(reason, spot.part, spot.at + 1, replace(remark, more=section_of(reason)))
    return None


def first_misshapen(document: Document, has_units: bool) -> Remark | None:
    """What no entries can be made of, whatever their values are; with units a resource may have a bit rate."""
    if remark := form.other_format(document) or form.top(document):
        return remark
    first: dict[tuple[str, str], Spot] = {}
    for spot in spots_in(document):
        if remark := form.shape(spot, ("bitrate",) if has_units and spot.part == "resource" else ()):
            return remark
        if (other := first.setdefault((spot.part, spot.entry["name"]), spot)) is not spot:
            return taken(spot, other)
    return None


def of_form(document: Document) -> Found:
    for spot in spots_in(document):
        if remark := form.entry(spot):
            yield spot, remark


def out_of_range(document: Document) -> Found:
    for spot in spots_in(document):
        keys, entry = keys_of(document.form)[spot.part], spot.entry
        for key, number in entry.items():
            if keys[key].holds == "integer" and not keys[key].least <= number <= keys[key].most:
                yield spot, beyond(spot, key, keys[key].least, keys[key].most)
        if spot.part == "source" and entry.get("distance", 0) > entry["period"]:
            helps = (
                f"`distance` is the least time between two events: 0 to {entry['period']} here; how late they may be is"
                " `jitter`"
            )
            notes = [Note(f"its period is {entry['period']}", spot.value("period"))]
            says = f"the distance {entry['distance']} is above the period"
            yield spot, spot.remark(says, spot.value("distance"), helps, notes)
        if spot.part == "source" and "offset" in entry and (remark := wrong_offset(spot)):
            yield spot, remark
        if spot.part == "task":
            yield from ((spot, it) for it in locks.out_of_range(spot))


def wrong_offset(spot: Spot) -> Remark | None:
    """Of a source with an offset that isn't below the period."""
    offset, period = spot.entry["offset"], spot.entry["period"]
    if offset < period:
        return None
    helps = f"the first event comes before the first period is over: 0 to {period - 1} here"
    if 0 < period:
        helps += f"; {offset} is {offset % period} after whole periods"
    notes = [Note(f"its period is {period}", spot.value("period"))]
    return spot.remark(f"the offset {offset} isn't below the period", spot.value("offset"), helps, notes)


def beyond(spot: Spot, key: str, least: int, most: int) -> Remark:
    number = spot.entry[key]
    meanings = MEANINGS | (TOO_MUCH if number > most else {}) | ({"payload": OF_PORTS} if most > MOST_CLASSICAL else {})
    helps = f"`{key}` is {least} to {most}{meanings.get(key, '')}"
    if number > most and key in form.WITH_UNITS and key not in meanings:
        helps += " ticks: take a coarser tick for the whole file"
    if key != "payload":
        helps += or_newest(spot.document, number, keys_of(NEWEST)[spot.part][key].most)
    end = f"below {least}" if number < least else f"above {most}"
    return spot.remark(f"`{key}` is {number}, {end}", spot.value(key), helps)


def or_newest(document: Document, number: int, most: int) -> str:
    """What else helps where the newest format has room for a number that is too large for that of the document."""
    return f", or write `format = {NEWEST}`" if document.form < NEWEST and 0 < number <= most else ""


def name_fault(name: str) -> tuple[str, str]:
    """What is wrong with a name, and what else to write."""
    wrong = next((it for it in name if not is_name_letter(it)), None)
    fault = f"has {wrong!r}" if wrong else f"has {len(name)} letters, and {MOST_IN_NAME} are the most"
    tidy = "".join(it if is_name_letter(it) else "_" for it in name.strip())
    way = f'; write "{tidy}"' if tidy.strip("_") and is_name(tidy) else ""
    return "is empty" if not name else "has a blank" if wrong == " " else fault, way


def no_name(document: Document) -> Found:
    for spot in spots_in(document):
        if not is_name(spot.entry["name"]):
            fault, way = name_fault(spot.entry["name"])
            helps = f"{OF_NAMES}{way}"
            yield spot, Remark(f"{spot.placed}: its name {fault}", spot.value("name"), helps)
        if spot.part == "source" and not is_name(clock := spot.entry.get("clock", "none")):
            fault, way = name_fault(clock)
            helps = f"{OF_NAMES}{way}"
            yield spot, spot.remark(f"the name of its clock {fault}", spot.value("clock"), helps)
        for item, name in locks.wrong_names(spot) if spot.part == "task" else ():
            fault, way = name_fault(name)
            yield spot, spot.remark(f"the name of its lock {fault}", locks.name_span(spot, item), f"{OF_NAMES}{way}")


def known_name(document: Document) -> Found:
    known: dict[tuple[str, str], Spot] = {}
    for spot in spots_in(document):
        # sources and tasks share one set of names
        key = ("source" if spot.part == "task" else spot.part, spot.entry["name"])
        if (other := known.setdefault(key, spot)) is not spot:
            yield spot, taken(spot, other)


def taken(spot: Spot, other: Spot) -> Remark:
    """Of an entry whose name another one has."""
    name = spot.entry["name"]
    every = [it.entry.get("name") for it in spots_in(spot.document) if isinstance(it.entry, dict)]
    free = next(it for number in range(2, 10_000) if (it := f"{name[:60]}_{number}") not in every)
    shared = "; sources and tasks share one set of names" if other.part != spot.part else ""
    helps = f'give one of them another name, as "{free}"{shared}'
    note = Note(f"{other.placed} has it already", other.value("name"))
    return Remark(f'{spot.placed}: the name "{name}" is taken', spot.value("name"), helps, [note])


def unknown_name(document: Document) -> Found:
    names = {part: [it["name"] for it in document.entries[part]] for part in PARTS}
    known = {part: set(several) for part, several in names.items()}
    for spot in spots_in(document, "task"):
        if spot.entry["on"] not in known["resource"]:
            yield spot, no_resource(spot, names)
        for item, name in enumerate(activators(spot.entry)):
            if name not in known["source"] and name not in known["task"]:
                yield spot, no_activator(spot, item, names)
    for spot in spots_in(document, "path"):
        for item, name in enumerate(spot.entry["tasks"]):
            if name not in known["task"]:
                yield spot, no_task(spot, item, names)


def no_resource(spot: Spot, names: dict[str, list[str]]) -> Remark:
    name, resources = spot.entry["on"], names["resource"]
    other = next((f"; it is a {part}" for part in ("source", "task") if name in names[part]), mean(name, resources))
    helps = f'the file has no resource: add [[resource]] name = "{name}", kind = ".."'
    helps = known_names("resource", resources) if resources else helps
    return spot.remark(f'no resource is called "{name}"{other}', spot.value("on"), helps)


def no_activator(spot: Spot, item: int, names: dict[str, list[str]]) -> Remark:
    name, span = activators(spot.entry)[item], spot.item("after", item)
    if name in names["resource"]:
        helps = "`after` names what starts the task, a source or a task; where it runs is told by `on`"
        return spot.remark(f'"{name}" in `after` is a resource', span, helps)
    add = f'add [[source]] name = "{name}", period = .., or ' if is_name(name) else ""
    helps = f"`after` names a source or a task: {add}name one that is there"
    near = mean(name, names["source"] + names["task"])
    return spot.remark(f'no source and no task is called "{name}"{near}', span, helps)


def no_task(spot: Spot, item: int, names: dict[str, list[str]]) -> Remark:
    name, span = spot.entry["tasks"][item], spot.item("tasks", item)
    if name in names["source"]:
        helps = "a path has tasks alone, and begins with the one that the source starts: leave the source out"
        return spot.remark(f'"{name}" in `tasks` is a source', span, helps)
    says = f'no task is called "{name}"{mean(name, names["task"])}'
    return spot.remark(says, span, known_names("task", names["task"]))


def known_names(part: str, names: list[str]) -> str:
    if len(names) > 12:
        return f"the file has {len(names)} {part}s, the first are {', '.join(names[:8])}"
    if len(names) > 1:
        return f"the {part}s of the file are {listed(names)}"
    return f"the only {part} of the file is {names[0]}" if names else f"the file has no {part}"


def endless(document: Document) -> Found:
    names = Names(document.entries)
    chains = names.chains()
    for spot in spots_in(document, "task"):
        if spot.entry["name"] not in chains:
            yield spot, in_ring(spot, names)


def in_ring(spot: Spot, names: Names) -> Remark:
    name = spot.entry["name"]
    ring = names.ring(name)
    if name in ring:
        ring = ring[ring.index(name) :] + ring[: ring.index(name)]
    way = " -> ".join([ring[0], *ring[:0:-1], ring[0]])
    after = {it: ring[(place + 1) % len(ring)] for place, it in enumerate(ring)}
    if name in ring:
        says = "it starts itself" if len(ring) == 1 else f"it starts itself in a ring of tasks, {way}"
        before = after[name]
    else:
        says = f"it comes behind a ring of tasks, {way}"
        before = (names.way(ring[0], name) or [ring[0], name])[-2]
    others = [it for it in ring if it != name][:5]
    spots = {it: Spot(spot.document, "task", names.tasks[it]) for it in others}
    notes = [Note(f'task "{it}" comes after "{after[it]}"', ends_in(spots[it], after[it])) for it in others]
    helps = "let one of them come after a source in place of a task: what feeds back can't be analysed"
    return spot.remark(says, ends_in(spot, before), helps, notes)


def ends_in(spot: Spot, name: str) -> Span:
    """Where a name stands in a task's `after`."""
    return spot.item("after", activators(spot.entry).index(name))


def long_chain(document: Document) -> Found:
    names = Names(document.entries)
    chains = names.chains()
    for spot in spots_in(document, "task"):
        length = chains[spot.entry["name"]]
        if length > MOST_IN_CHAIN:
            way = names.longest_chain(spot.entry["name"])
            source = activators(names.task(way[0]))
            says = f"it is the {ordinal(length)} task of a chain, and a chain has {MOST_IN_CHAIN} at most"
            helps = f"take some of them together; the chain: {' -> '.join([*source[:1], *way])}"
            yield spot, spot.remark(says, ends_in(spot, way[-2]), helps)


def ordinal(number: int) -> str:
    ends = {1: "st", 2: "nd", 3: "rd"}
    return f"{number}{'th' if number % 100 in (11, 12, 13) else ends.get(number % 10, 'th')}"


def used_priorities(names: Names, resource: str) -> set[int]:
    """The priorities of the tasks of a resource."""
    return {it["priority"] for _, it in names.on(resource) if "priority" in it}


def known_priority(document: Document) -> Found:
    names = Names(document.entries)
    first: dict[tuple[str, int], Spot] = {}
    for spot in spots_in(document, "task"):
        task = spot.entry
        if names.kind(task) not in WITH_PRIORITIES or "priority" not in task:
            continue
        number = task["priority"]
        if (other := first.setdefault((task["on"], number), spot)) is spot:
            continue
        used = used_priorities(names, task["on"])
        free = next(it for it in range(number, number + len(used) + 1) if it not in used)
        helps = "the tasks of one resource have different priorities"
        helps += f"; the next free one is {free}" if free <= MOST_PRIORITY else ""
        notes = [Note(f"{other.called} has it", other.value("priority"))]
        says = f'the priority {number} is taken on resource "{task["on"]}"'
        yield spot, spot.remark(says, spot.value("priority"), helps, notes)


def misfit(document: Document) -> Found:
    for spot in spots_in(document, "resource"):
        kind = spot.entry["kind"]
        for key, wanted in (("gap", "tdma"), ("bit", "can"), ("rate", "fifo")):
            if key in spot.entry and kind != wanted:
                says = f'`{key}` is for the kind "{wanted}", and its kind is "{kind}"'
                notes = [Note("its kind", spot.value("kind"))]
                helps = f"leave `{key}` out, or change the kind"
                helps = IN_ITS_PLACE.get((key, kind), helps)
                yield spot, spot.remark(says, spot.key(key), helps, notes)
    names = Names(document.entries)
    for spot in spots_in(document, "task"):
        for says, span, helps in misfits_of(spot, names):
            yield spot, spot.remark(says, span, helps)


def misfits_of(spot: Spot, names: Names) -> Misfits:
    """What of a task doesn't fit the kind of its resource, where that stands, and what helps."""
    task, kind = spot.entry, names.kind(spot.entry)
    where = f'resource "{task["on"]}" is {kind}'
    yield from wrong_turns(spot, names, where)
    yield from wrong_frames(spot, kind, where)
    if "region" in task and kind not in WITH_REGIONS:
        says = f"`region` is for preemptive resources, and {where}"
        yield says, spot.key("region"), "leave it out: " + NO_REGION[kind]
    if task.get("locks") and kind != "ceiling":
        yield f"`locks` are for priority ceilings, and {where}", spot.key("locks"), NO_LOCKS.get(kind, BY_CEILINGS)


def wrong_turns(spot: Spot, names: Names, where: str) -> Misfits:
    """What of its priority and its slot doesn't fit."""
    task, kind = spot.entry, names.kind(spot.entry)
    if kind == "fifo":
        yield from ((f"it has a `{key}`: {where}", spot.key(key), IN_ORDER) for key in TURNS if key in task)
        return
    wanted, other = TURNS if kind in WITH_PRIORITIES else TURNS[::-1]
    if other in task:
        how = f"beside its `{wanted}`" if wanted in task else f"in place of a `{wanted}`"
        helps = f"tasks of a {kind} resource have a `{wanted}` and no `{other}`"
        yield f"it has a `{other}` {how}: {where}", spot.key(other), helps
    if wanted not in task:
        yield f"the key `{wanted}` is missing: {where}", spot.span, missing_turn(spot, names, wanted)


def wrong_frames(spot: Spot, kind: str, where: str) -> Misfits:
    """What of its frame doesn't fit."""
    task, kinds = spot.entry, kinds_of(spot.document.form)
    if "payload" in task and kind not in WITH_FRAMES:
        wanted = "CAN and for queues" if "fifo" in kinds else "CAN"
        yield f"`payload` is for {wanted}, and {where}", spot.key("payload"), "write `best` and `worst` in its place"
    elif "payload" in task and kind == "can" and task["payload"] > MOST_CLASSICAL:
        helps = f"`payload` is 0 to {MOST_CLASSICAL}{MEANINGS['payload']}"
        says = f"`payload` is {task['payload']}, above {MOST_CLASSICAL}: {where}"
        yield says, spot.value("payload"), helps
    if "extended" in task and kind != "can":
        helps = "leave it out: frames on a port have no such identifier, and a VLAN tag is 4 bytes of `payload`"
        yield f"`extended` is for CAN, and {where}", spot.key("extended"), helps


def missing_turn(spot: Spot, names: Names, wanted: str) -> str:
    if wanted == "slot":
        return f"write slot = N: how many ticks its turn lasts, 1 to {limits_of(spot.document.form).execution}"
    on = spot.entry["on"]
    used = used_priorities(names, on)
    free = next(number for number in range(len(used) + 1) if number + 1 not in used) + 1
    return f"write priority = N: the smaller number goes first; {free} is free on {on}"


def crossed(document: Document) -> Found:
    helps = "`best` is the least execution and `worst` the greatest: exchange them, or mend the wrong one"
    for spot in spots_in(document, "task"):
        best, worst = spot.entry.get("best", 0), spot.entry.get("worst", 0)
        if best > worst:
            notes = [Note(f"its worst is {worst}", spot.value("worst"))]
            yield spot, spot.remark(f"`best` is {best}, above `worst`", spot.value("best"), helps, notes)


def unlinked(document: Document) -> Found:
    names = Names(document.entries)
    for spot in spots_in(document, "path"):
        tasks = spot.entry["tasks"]
        if not tasks:
            helps = "a path has a task at least; leave the path out, or name its tasks from the first to the last"
            yield spot, spot.remark("it has no task", spot.value("tasks"), helps)
        for item, (before, name) in enumerate(zip(tasks, tasks[1:]), 1):
            if before not in activators(names.task(name)):
                yield spot, not_after(spot, names, item)


def quoted(words: Sequence[str]) -> list[str]:
    return [f'"{it}"' for it in words]


def not_after(spot: Spot, names: Names, item: int) -> Remark:
    before, name = spot.entry["tasks"][item - 1 : item + 1]
    after = activators(names.task(name))
    there = listed(quoted(after[:4]), "or") if after else "nothing"
    where = spot.document.value_span("task", names.tasks[name], "after")
    if before == name:
        helps = "a path has each task once"
    elif way := names.way(before, name):
        helps = f"there are tasks between them: write {', '.join(quoted(way))}"
    elif names.way(name, before):
        helps = f'"{before}" comes behind "{name}": write the tasks from the first to the last'
    else:
        helps = (
            f'each task of a path but the first has the one before it in its `after`: no way leads from "{before}" to'
            f' "{name}"'
        )
    notes = [Note(f'task "{name}" comes after {there}', where)]
    return spot.remark(f'"{name}" doesn\'t come after "{before}"', spot.item("tasks", item), helps, notes)


def too_many(document: Document) -> Found:
    for part, most in limits_of(document.form).entries.items():
        count = len(document.entries[part])
        if count > most:
            spot = Spot(document, part, most)
            says = f"it is the {ordinal(most + 1)} {part} of {count}, and {most} are the most"
            way = or_newest(document, count, LIMITS[NEWEST].entries[part])
            yield spot, spot.remark(says, spot.span, f"cut the system into parts{way}")


def misfed(document: Document) -> Found:
    names = Names(document.entries)
    streams = names.streams()
    for spot in spots_in(document, "task"):
        after = activators(spot.entry)
        if not after:
            says, helps = "its list of activators is empty", "name a source or a task that starts it"
            yield spot, spot.remark(says, spot.value("after"), helps)
        for item, name in enumerate(after):
            if (first := after.index(name)) < item:
                helps = f'name it once: after = "{name}"' if len(set(after)) == 1 else "name it once"
                notes = [Note("the first time", spot.item("after", first))]
                yield spot, spot.remark(f'"{name}" stands twice in `after`', spot.item("after", item), helps, notes)
        count = streams[spot.entry["name"]]
        if count > MOST_STREAMS:
            parts = listed([f"{streams.get(it, 1)} by {it}" for it in after[:6]] + ["more"] * (len(after) > 6))
            helps = (
                f"they come {parts}: each source in a list is a stream, and all that come to a task go on through it"
            )
            says = f"{count} streams come to it, and {MOST_STREAMS} are the most"
            yield spot, spot.remark(says, spot.value("after"), helps)


def too_long_clock(document: Document) -> Found:
    """The first source with which the cycle of its clock, or the number of its events in a cycle, is too long."""
    cycles: dict[str, int] = {}
    periods: dict[str, list[int]] = {}
    for spot in spots_in(document, "source"):
        if (clock := spot.entry.get("clock")) is None:
            continue
        before, period = cycles.get(clock, 1), spot.entry["period"]
        cycle = cycles[clock] = math.lcm(before, period)
        several = periods.setdefault(clock, [])
        several.append(period)
        starts = sum(cycle // it for it in several)
        if cycle > MOST_TICKS or starts > MOST_STARTS:
            yield spot, overlong(spot, before, cycle, starts)
            return


def overlong(spot: Spot, before: int, cycle: int, starts: int) -> Remark:
    """Of a source with which the cycle of a clock, which was shorter before, is too long or has too many events."""
    clock, period = spot.entry["clock"], spot.entry["period"]
    is_long = cycle > MOST_TICKS
    what = f"is {cycle} ticks long" if is_long else f"has {starts} events"
    most = f"{MOST_TICKS} ticks" if is_long else f"{MOST_STARTS} events"
    says = f'with it the cycle of clock "{clock}" {what}, and {most} are the most'
    helps = (
        "a cycle is the least common multiple of the periods on a clock: take periods that divide each other, a clock"
        " of its own for this source, or leave `clock` out, as a source of which nothing more is known"
    )
    notes = [Note(f"without it the cycle is {before}, and its period is {period}", spot.value("period"))]
    return spot.remark(says, spot.value("clock"), helps, notes)


RULES: dict[int, Callable[[Document], Found]] = {
    1: of_form,
    2: out_of_range,
    3: no_name,
    4: known_name,
    5: unknown_name,
    6: endless,
    7: long_chain,
    8: known_priority,
    9: misfit,
    10: crossed,
    11: unlinked,
    12: too_many,
    14: misfed,
    15: too_long_clock,
    16: locks.mislocked,
}
