"""Makes a system of the frames that are taken, small enough for a system file, without leaving out a frame that delays
another. For lokwurmi import network."""
import math
from dataclasses import dataclass, field, replace
from fractions import Fraction
from typing import Any

from lokwurmi.model.limits import DEFAULT_LIMIT, MOST_ENTRIES, MOST_EXECUTION, MOST_LIMIT
from lokwurmi_tools.networks.buses import BEHIND, ERRORS, LONGEST, PASSED, QUEUED, named, plain, priorities
from lokwurmi_tools.networks.frames_to_tasks import Taken, Taker, first_of
from lokwurmi_tools.networks.import_notes import names_text
from lokwurmi_tools.networks.sender_clocks import ON_NO_CLOCK
from lokwurmi_tools.shared.faults import Fault
from lokwurmi_tools.shared.times import UNITS, text_of

Entry = dict[str, Any]


@dataclass
class SystemEntries:
    """The entries of a system file, and what stands above them."""

    resources: list[Entry] = field(default_factory=list)
    sources: list[Entry] = field(default_factory=list)
    tasks: list[Entry] = field(default_factory=list)
    paths: list[Entry] = field(default_factory=list)
    rules: list[str] = field(default_factory=list)
    notes: dict[str, str] = field(default_factory=dict)  # what stands behind the task of a frame: its identifier


def asked_frames(taker: Taker) -> set[str]:
    """The frames that --only names."""
    every = [it.frame for taken in taker.taken.values() for it in taken]
    asked = set()
    for name in taker.options.only:
        found = {it.name for it in every if name in (it.name, it.told)}
        if not found:
            known = names_text(it.name for it in every)
            raise Fault(f"--only {name}: there is no such frame among those that are taken; {known}")
        asked |= found
    return asked


def needed_frames(taker: Taker, asked: set[str]) -> set[str]:
    """These frames and what their bounds depend on: all that go before one of them on its bus, what these come after,
    and what else goes through the queue of a gateway."""
    buses = {it.frame.name: taken for taken in taker.taken.values() for it in taken}
    needed: set[str] = set()
    more = set(asked)
    while more:
        name = more.pop()
        needed.add(name)
        order = {it.frame.name: it.frame.order for it in buses[name]}
        more |= {it for it, place in order.items() if place < order[name]}
        if name in taker.forwards:
            # in a queue each may be in front of any other
            more |= {taker.forwards[name], *(taker.forwards if taker.options.gateway_queue else ())}
        more -= needed
    return needed


def behind(taker: Taker, bus: str, rest: list[Taken]) -> Taken:
    """What stands for the frames of a bus that go behind those that are asked for: one of them may have begun, and so
    the longest counts."""
    longest = max(rest, key=lambda it: it.greatest)
    every = {it.frame.name: it for taken in taker.taken.values() for it in taken}
    first = every[first_of(longest.frame.name, taker.forwards)]
    name = bus + BEHIND
    what = "a frame that goes behind those of --only may have begun, and the longest counts; its own bound says nothing"
    taker.report.add(taker.report.changed, what, f"{name} stands for {longest.frame.name}")
    return replace(
        longest,
        frame=replace(longest.frame, name=name),
        after=name + QUEUED,
        forwarded=False,
        period=first.period,
        jitter=first.jitter,
        sporadic=first.sporadic,
        start=ON_NO_CLOCK,
        deadline=None,
    )


def only(taker: Taker) -> None:
    """Keeps what --only asks for, and of each bus one frame that stands for those behind."""
    asked = asked_frames(taker)
    needed = needed_frames(taker, asked)
    kept: dict[str, list[Taken]] = {}
    for bus, taken in taker.taken.items():
        rest = [it for it in taken if it.frame.name not in needed]
        for it in rest:
            taker.report.add(taker.report.spared, "a frame that goes behind those of --only", it.frame.name)
        kept[bus] = [it if it.frame.name in asked else replace(it, deadline=None) for it in taken if it not in rest]
        if kept[bus] and rest:
            kept[bus].append(behind(taker, bus, rest))
    taker.taken = {bus: it for bus, it in kept.items() if it}
    taker.forwards = {name: before for name, before in taker.forwards.items() if name in needed}


def group_of(it: Taken, how: str) -> tuple[Any, ...]:
    """Frames of one group may have one source: they have equal event models, and with `sender` one sender."""
    if how == "none" or how == "sender" and len(it.frame.senders) != 1:
        return ("frame", it.frame.name)
    return (
        it.frame.senders[0] if how == "sender" else "",
        it.period,
        it.jitter,
        it.sporadic,
        it.start.clock,
        it.start.offset,
    )


def groups(taker: Taker, how: str) -> dict[tuple[Any, ...], list[Taken]]:
    """The frames with a source of their own, by groups."""
    found: dict[tuple[Any, ...], list[Taken]] = {}
    for it in (it for taken in taker.taken.values() for it in taken if not it.forwarded):
        found.setdefault(group_of(it, how), []).append(it)
    return found


def share(taker: Taker) -> None:
    """Gives each group of frames one source."""
    taken = {it.frame.name + more for several in taker.taken.values() for it in several for more in ("", QUEUED)}
    for (first, *_), several in groups(taker, taker.options.share).items():
        if len(several) < 2:
            continue
        period = text_of(Fraction(several[0].period) * taker.options.tick)
        name = named(plain(f"{first or 'every'}.{period}")[: LONGEST - len(QUEUED)] + QUEUED, taken, LONGEST)
        for it in several:
            it.after = name
        what = (
            "frames with equal period and jitter have one source: their bounds are those with a source each, since an"
            " analysis takes each for itself; but simulate, schedule, audit and hammer know of runs alone in which they"
            " are queued together"
        )
        taker.report.add(taker.report.changed, what, f"{name} for {len(several)} frames")


def length_of(it: Taken) -> Entry:
    if it.by_payload:
        return {"payload": it.frame.size, "extended": True if it.frame.extended else None}
    return {"best": it.least, "worst": it.greatest}


def add_errors(system: SystemEntries, taker: Taker, bus: str) -> None:
    """Adds the task that stands for the errors of a bus."""
    errors = taker.errors[bus]
    name = bus + ERRORS
    source = name + QUEUED
    system.sources.append({"name": source, "period": errors.period, "jitter": errors.jitter or None})
    system.tasks.append(
        {"name": name, "on": bus, "after": source, "best": errors.least, "worst": errors.greatest, "priority": 0}
    )


def limit_of(tick: Fraction) -> int | None:
    """The longest busy window that is looked at: a second, where that is longer than it is without a limit."""
    second = math.ceil(UNITS["s"] / tick)
    return None if second <= DEFAULT_LIMIT else min(second, MOST_LIMIT)


def add_bus(system: SystemEntries, taker: Taker, bus: str) -> None:
    """Adds a bus and its frames."""
    taken, limit = taker.taken[bus], limit_of(taker.options.tick)
    system.resources.append({"name": bus, "kind": "can", "bit": math.ceil(taker.rates[bus].bit), "limit": limit})
    is_told = all(it.by_payload for it in taken)
    numbers, rule = priorities([it.frame for it in taken], 1 if bus in taker.errors else 0, is_told)
    system.rules.append(f"bus {bus}: {rule}")
    if bus in taker.errors:
        add_errors(system, taker, bus)
    known = {it["name"] for it in system.sources}
    for it in sorted(taken, key=lambda it: it.frame.order):
        name = it.frame.name
        if not it.forwarded and it.after not in known:
            known.add(it.after)
            source = {"name": it.after, "period": it.period, "jitter": it.jitter or None}
            start = {"clock": it.start.clock, "offset": it.start.offset or None}
            system.sources.append(source | {"sporadic": it.sporadic or None} | start)
        system.tasks.append({"name": name, "on": bus, "after": it.after, **length_of(it), "priority": numbers[name]})
        if name != bus + BEHIND:
            system.notes[name] = f" # {it.frame.shown}"
        if it.deadline is not None:
            system.paths.append({"name": name, "tasks": [name], "deadline": it.deadline})


def pass_through(taker: Taker) -> SystemEntries:
    """The queue of a gateway, with a task on it for each frame that is passed on, which comes after that task then;
    nothing where there is no such queue."""
    found = SystemEntries()
    passed = [it for taken in taker.taken.values() for it in taken if it.forwarded]
    if taker.options.gateway_queue is None:
        return found
    if not taker.forwards and not taker.options.only:
        raise Fault("--gateway-queue: no frame goes through it; --forward FROM=TO says which do")
    (queue, time), tick = taker.options.gateway_queue, taker.options.tick
    if queue in taker.taken:
        raise Fault(f"--gateway-queue {queue}: a bus has this name; NAME=TIME gives the queue another")
    worst = math.ceil(time / tick)
    if worst > MOST_EXECUTION:
        told = f"{text_of(time)} are {worst} ticks, and {MOST_EXECUTION} are the most"
        raise Fault(f"--gateway-queue: {told}: take a longer --tick")
    names = {it.frame.name + more for taken in taker.taken.values() for it in taken for more in ("", QUEUED)}
    for it in passed:
        name = named(it.frame.name[: LONGEST - len(PASSED)] + PASSED, names, LONGEST)
        found.tasks.append({"name": name, "on": queue, "after": it.after, "best": 1, "worst": worst})
        it.after = name
    if passed:
        found.resources.append({"name": queue, "kind": "fifo", "limit": limit_of(tick)})
    return found


def add_ways(system: SystemEntries, forwards: dict[str, str]) -> None:
    """Adds a path for each chain of frames that gateways pass on, with what they pass in between."""
    after = {it["name"]: it["after"] for it in system.tasks}
    for name in sorted(set(forwards) - set(forwards.values())):
        chain = [name]
        while after[chain[0]] in after:
            chain.insert(0, after[chain[0]])
        system.paths.append({"name": f"{chain[0]}-{name}"[:LONGEST], "tasks": chain})


def counts(system: SystemEntries) -> dict[str, tuple[int, int]]:
    """How many entries of each kind there are, and how many there may be."""
    return {
        "resources": (len(system.resources), MOST_ENTRIES["resource"]),
        "sources": (len(system.sources), MOST_ENTRIES["source"]),
        "tasks": (len(system.tasks), MOST_ENTRIES["task"]),
        "paths": (len(system.paths), MOST_ENTRIES["path"]),
    }


def proposals(system: SystemEntries, taker: Taker) -> list[str]:
    """What makes the system fit, and leaves no frame out that delays another."""
    beyond = {key for key, (has, most) in counts(system).items() if has > most}
    lines = []
    if "sources" in beyond:
        extra = len(taker.errors)
        for how in ("sender", "all"):
            number = len(groups(taker, how)) + extra
            fits = "fits" if number <= MOST_ENTRIES["source"] else "still too many"
            lines.append(f"  --share {how}: {number} sources, {fits}; all bounds stay as they are")
    if "paths" in beyond:
        lines.append(
            f"  --paths 'PATTERN': a path for these frames alone, {MOST_ENTRIES['path']} at most; or --deadline none:"
            " the report has the bound of each frame without a path"
        )
    if len(taker.taken) > 1:
        each = ", ".join(f"{name} has {len(it)} frames" for name, it in taker.taken.items())
        lines.append(f"  --bus BUS: one bus alone, where no gateway passes on to it; {each}")
    lines.append("  --only FRAME: this frame and all that delays it, with the bound that it has among all")
    return lines


def check_size(system: SystemEntries, taker: Taker, most_names: int) -> None:
    """Refuses a system that is too large for a file, and proposes what makes it smaller."""
    if not system.tasks:
        raise Fault("\n".join([*taker.report.lines(most_names), "no frame is taken, so that there is no system"]))
    beyond = [f"{has} {key}" for key, (has, most) in counts(system).items() if has > most]
    if beyond:
        most = ", ".join(f"{most} {key}" for key, (_, most) in counts(system).items())
        line = f"{' and '.join(beyond)} are too many: a system has {most} at most. What makes it fit:"
        raise Fault("\n".join([*taker.report.lines(most_names), line, *proposals(system, taker)]))


def system_of(taker: Taker) -> SystemEntries:
    """The system of what is taken."""
    if taker.options.only:
        only(taker)
    share(taker)
    queue = pass_through(taker)
    system = SystemEntries()
    for bus in taker.taken:
        if taker.taken[bus]:
            add_bus(system, taker, bus)
    system.resources += queue.resources
    system.tasks += queue.tasks
    add_ways(system, taker.forwards)
    return system
