"""What a recorded log of CAN buses says: event models, and how it stands to a system. For lokwurmi import log."""
import re
import sys
from collections.abc import Iterable, Mapping
from dataclasses import dataclass
from itertools import pairwise

from lokwurmi.model.event_models import Bounds, Stream, inputs_of
from lokwurmi.model.formats import KEYS_SINCE
from lokwurmi.model.limits import MOST_SHORT, MOST_TICKS
from lokwurmi.model.view import SystemView, TaskRow
from lokwurmi_tools.logs.clock_proposals import head_lines, propose_clocks
from lokwurmi_tools.logs.log_clocks import FoundClocks, Place
from lokwurmi_tools.logs.log_options import LogOptions
from lokwurmi_tools.logs.recorded_logs import (
    NOTES,
    UNSORTED,
    Key,
    Log,
    SeenFrame,
    ahead,
    behind,
    first_breach,
    gaps_of,
    period_of,
    read_log,
    shown,
)
from lokwurmi_tools.networks.buses import BEHIND, ERRORS, Frame
from lokwurmi_tools.shared.faults import Fault
from lokwurmi_tools.shared.program import written_by
from lokwurmi_tools.shared.progress import Progress
from lokwurmi_tools.shared.report import bounds_in, report_of, reports_in
from lokwurmi_tools.shared.system_file import read_system
from lokwurmi_tools.shared.written_entries import comment

# the first format with clocks
WITH_CLOCKS = KEYS_SINCE["source"]["clock"]


def check_used(options: LogOptions, log: Log) -> None:
    """Refuses an option that concerns nothing in the log, or stands beside one that it has nothing to do with."""
    if options.sort and UNSORTED not in log.counts:
        raise Fault(f"{options.log}: --sort concerns no frame: all stand in the order of their times")
    if options.classical and not log.has_fd:
        raise Fault(f"{options.log}: --classical concerns no frame: none is in a line of CAN FD")
    if options.bus and not options.system and not options.database:
        raise Fault("--bus concerns nothing without --system or --database: the sources are named by their channels")
    if options.rough and not options.system:
        raise Fault("--rough concerns nothing without --system: it is for what is held against one")


def keys_text(keys: Mapping[str, int]) -> str:
    """Keys of an entry that aren't 0."""
    return "".join(f", {key} = {value}" for key, value in keys.items() if value)


def source_line(name: str, key: Key, seen: SeenFrame, told_period: int | None, told: int | None) -> str:
    """An entry of a system file for a frame of a log."""
    gaps = gaps_of(seen.times)
    period = min(told_period or period_of(seen.times), MOST_TICKS)
    rest = keys_text({"jitter": ahead(seen.times, period), "distance": min(min(gaps), period)})
    cycle = f", cycle time {told}" if told else ""
    return (
        f'  {{ name = "{name}", period = {period}{rest} }}, # {shown(key)}, {len(seen.times)} frames, gaps'
        f" {min(gaps)} to {max(gaps)}, later by up to {behind(seen.times, period)}{cycle}"
    )


def placed_line(name: str, key: Key, seen: SeenFrame, place: Place, told: int | None) -> str:
    """The entry of a frame on a clock."""
    gaps, it = gaps_of(seen.times), place.schedule
    cycle = f", cycle time {told}" if told else ""
    rest = keys_text({"jitter": it.jitter, "distance": min(min(gaps), it.period)})
    return (
        f'  {{ name = "{name}", period = {it.period}{rest}, clock = "{place.clock}", offset = {place.offset} }}, #'
        f" {shown(key)}, {len(seen.times)} frames from {seen.times[0]} to {seen.times[-1]}, gaps {min(gaps)} to"
        f" {max(gaps)}{cycle}"
    )


class FrameNames:
    """The names of frames, by the channel and the identifier: a database's, or else the identifiers."""

    def __init__(self, options: LogOptions, log: Log):
        self.found: dict[tuple[str, Key], str] = {}
        self.cycles: dict[str, int] = {}
        self.frames: dict[str, Frame] = {}
        self.by_bus: dict[str, dict[Key, str]] = {}
        self.several = len(log.channels) > 1
        if not options.database:
            return
        # canmatrix is needed here alone
        from lokwurmi_tools.networks.databases import read_buses

        for one in read_buses(options.database):
            self.by_bus[one.name] = {}
            for frame in one.frames:
                other = self.by_bus[one.name].setdefault((frame.identifier, frame.extended), frame.name)
                if other != frame.name:
                    raise Fault(
                        f"{one.file}: {other} and {frame.name} have the identifier {frame.shown}, so that the log"
                        " doesn't tell them apart: take one out of the database"
                    )
                self.cycles[frame.name] = min(int(frame.cycle / options.tick), MOST_TICKS)
                self.frames[frame.name] = frame
        # what a system's buses are is told by its resources
        for bus, channel in ({} if options.system else channels_of(options, log, list(self.by_bus))).items():
            self.found.update({(channel, key): name for key, name in self.by_bus[bus].items()})

    def of(self, channel: str, key: Key) -> str:
        before = re.sub(r"[^A-Za-z0-9_.-]+", "_", channel) + "." if self.several else ""
        return self.found.get((channel, key)) or f"{before}x{shown(key)[2:]}"


def channels_of(options: LogOptions, log: Log, buses: list[str]) -> dict[str, str]:
    """The channel of each bus: as told, or the only one."""
    told = dict(options.bus)
    for several, what in ((told, "bus"), (set(told.values()), "channel")):
        if len(several) < len(options.bus):
            raise Fault(f"--bus: a {what} stands there twice: each bus is one channel")
    for bus, channel in told.items():
        if bus not in buses:
            raise Fault(f"--bus {bus}={channel}: there is no such bus; there are {', '.join(buses)}")
        if channel not in log.channels:
            raise Fault(f"--bus {bus}={channel}: the log has no such channel; it has {', '.join(sorted(log.channels))}")
    if told:
        rest = {
            "buses that --bus doesn't name": [it for it in buses if it not in told],
            "channels that --bus doesn't name": sorted(set(log.channels) - set(told.values())),
        }
        for what, names in rest.items():
            if names:
                print(f"nothing is said of {what}: {', '.join(names)}", file=sys.stderr)
        return told
    if len(buses) == 1 and len(log.channels) == 1:
        return {buses[0]: next(iter(log.channels))}
    raise Fault(
        f"which bus is which channel? --bus BUS=CHANNEL tells; the buses are {', '.join(buses)}, and the channels"
        f" {', '.join(sorted(log.channels))}"
    )


def identifiers_of(view: SystemView, bus: str) -> dict[Key, str]:
    """The tasks of a bus by the identifiers that their priorities stand for, as lokwurmi import network writes them:
    where all have 11 bits, or all 29."""
    tasks = frames_on(view, bus)
    if not tasks:
        return {}
    if len({it.extended for it in tasks}) > 1:
        raise Fault(f"{bus}: it has identifiers of 11 and of 29 bits, which priorities don't tell: name the --database")
    places = [it.rank for it in tasks]
    # places in the order of the bus look like identifiers; they are written where there are identifiers of both
    # lengths, where all have 29 bits and no payload tells so, and where one is 0 and errors go before it
    may_be = bus + ERRORS in view.tasks or any(it.payload is None for it in tasks)
    is_order = may_be and sorted(places) == list(range(min(places), min(places) + len(places)))
    if is_order or any(it.rank > MOST_SHORT and not it.extended for it in tasks):
        raise Fault(f"{bus}: its priorities don't tell which identifiers it has: name the --database")
    return {(it.rank, it.extended): it.name for it in tasks}


def frames_on(view: SystemView, bus: str) -> list[TaskRow]:
    """The tasks of a bus that are frames."""
    return [view.tasks[it] for it in view.on(bus) if it not in (bus + ERRORS, bus + BEHIND)]


def sorted_keys(frames: dict[Key, SeenFrame]) -> list[Key]:
    """Identifiers in the order of the bus."""
    return sorted(frames, key=lambda it: (it[0] >> 18, True, it[0]) if it[1] else (it[0], False, 0))


def line_of(
    options: LogOptions, names: FrameNames, channel: str, key: Key, seen: SeenFrame, clocks: FoundClocks
) -> str:
    """The line of a frame of a log."""
    name = names.of(channel, key)
    told = names.cycles.get(name)
    if len(seen.times) < 3:
        return f"  # {name}, {shown(key)}: {len(seen.times)} frames tell no period"
    if name in clocks.places:
        return placed_line(f"{name}.seen", key, seen, clocks.places[name], told)
    why = f"; on no clock: {clocks.why[name]}" if name in clocks.why else ""
    if options.period == "database" and not told:
        print(f"{name}: the database has no cycle time of it, and so it has the period of the log", file=sys.stderr)
    return source_line(f"{name}.seen", key, seen, told if options.period == "database" else None, told) + why


def made(options: LogOptions, log: Log, names: FrameNames) -> None:
    """Prints sources for what the log has."""
    keys = [(channel, key) for channel, frames in sorted(log.channels.items()) for key in sorted_keys(frames)]
    clocks = propose_clocks(options, log, names, keys) if options.clocks else FoundClocks()
    tick = f"A tick is {float(options.tick):.12g} ns; the log has {log.last} of them."
    print(comment(f"The frames of {options.log} as they were received. {tick}"))
    print("\n".join([*head_lines(clocks, options.drift), f"format = {WITH_CLOCKS}", ""]) * options.clocks, end="")
    print("source = [")
    progress = Progress("lokwurmi import log")
    for place, (channel, key) in enumerate(keys, 1):
        progress.show(f"frame {place} of {len(keys)}")
        line = line_of(options, names, channel, key, log.channels[channel][key], clocks)
        progress.clear()
        print(line)
    print("]")


def rough(events: Iterable[tuple[int, Key]], least: dict[Key, int]) -> int:
    """By how many ticks at most a frame was received sooner after the one before than it can be long."""
    return max(
        (least[key] - (time - before) for (before, _), (time, key) in pairwise(events) if key in least), default=0
    )


def bounds_of(options: LogOptions, view: SystemView, file: str) -> Bounds:
    """The bound of each task, by a report or by a call."""
    if options.report:
        return bounds_in(report_of(view, file, options.report))
    return bounds_in(reports_in(written_by(options.program, "analyse", file), file)[-1])


@dataclass
class Comparison:
    """A log beside a system: what is beyond it, and what it doesn't know."""

    options: LogOptions
    log: Log
    names: FrameNames
    view: SystemView
    bounds: Bounds
    inputs: Mapping[str, list[Stream] | None]
    beyond: int = 0
    strange: int = 0

    def known(self, bus: str) -> dict[Key, str]:
        """The tasks of a bus by their identifiers."""
        names = {it.name for it in frames_on(self.view, bus)}
        by_bus = self.names.by_bus
        told = by_bus.get(bus, next(iter(by_bus.values())) if len(by_bus) == 1 else {})
        if self.options.database and not told:
            raise Fault(
                f"--database: no bus in it is called {bus}; there are {', '.join(by_bus)}: name it as {bus}=FILE"
            )
        lost = sorted(names - set(told.values()))
        if told and lost and len(lost) < len(names):
            raise Fault(
                f"{self.options.system}: the database has no frame {', '.join(lost)}, so that nothing in the log could"
                f" be held against what {bus} has of that name: name it as the database does"
            )
        return {key: name for key, name in told.items() if name in names} or identifiers_of(self.view, bus)

    def strange_frame(self, task: TaskRow, seen: SeenFrame) -> list[str]:
        """What a frame of the log has that its task can't have."""
        if task.payload is None:
            return []
        if seen.size > task.payload:
            return [f"longer {task.name} payload {seen.size} beyond {task.payload}"]
        flexible = f"flexible {task.name}: a frame of CAN FD, where the system has a classical one"
        return [flexible] if seen.is_fd else []

    def frame(self, task: TaskRow, seen: SeenFrame | None) -> None:
        """Prints the lines of a frame."""
        verdict = verdict_of(task, seen, self.inputs[task.name], self.bounds.get(task.name), self.options.rough)
        self.beyond += " beyond output " in verdict
        lines = [verdict, *(self.strange_frame(task, seen) if seen else [])]
        self.strange += len(lines) - 1
        print("\n".join(lines))

    def unknown(self, frames: dict[Key, SeenFrame], known: dict[Key, str]) -> None:
        """Prints a line for each frame that the system doesn't have."""
        for key in sorted(set(frames) - set(known)):
            self.strange += 1
            print(f"unknown {shown(key)} frames {len(frames[key].times)} payload {frames[key].size}")

    def bus(self, bus: str, channel: str) -> None:
        """Prints the lines of a bus."""
        known, frames = self.known(bus), self.log.channels[channel]
        if not any(key in frames for key in known):
            why = (
                "--database names another"
                if self.options.database
                else "its priorities are no identifiers: name the --database"
            )
            raise Fault(
                f"{self.options.system}: no frame of channel {channel} has the identifier of a task on {bus}: {why}"
            )
        tasks = {key: self.view.tasks[name] for key, name in known.items()}
        for key, task in sorted(tasks.items(), key=lambda it: it[1].rank):
            self.frame(task, frames.get(key))
        self.unknown(frames, known)
        least = {key: it.best for key, it in tasks.items()}
        self.tell_rough(bus, channel, max(0, rough(self.log.every(channel), least)))

    def tell_rough(self, bus: str, channel: str, short: int) -> None:
        """Prints how many frames a channel has, and how rough their times are."""
        count = sum(len(it.times) for it in self.log.channels[channel].values())
        print(f"bus {bus} channel {channel} frames {count} rough {short}")
        if short > self.options.rough:
            print(
                (
                    f"bus {bus}: frames were received up to {short} ticks sooner after the one before than they are"
                    " long: the times are rough, which --rough takes into account, or the bit rate or the tick is"
                    " another"
                ),
                file=sys.stderr,
            )


def compare(options: LogOptions, log: Log, names: FrameNames, file: str) -> int:
    """Prints what the log says of a system, and answers the status."""
    view = read_system(file)
    buses = [name for name, it in view.resources.items() if it.is_bus]
    if not buses:
        raise Fault(f"{file}: it has no CAN bus")
    bounds = bounds_of(options, view, file)
    found = Comparison(options, log, names, view, bounds, inputs_of(view, bounds))
    for bus, channel in channels_of(options, log, buses).items():
        found.bus(bus, channel)
    print(f"summary beyond {found.beyond} strange {found.strange}")
    return 4 if found.beyond or found.strange else 0


def verdict_of(
    task: TaskRow, seen: SeenFrame | None, streams: list[Stream] | None, bound: int | None, rough_by: int
) -> str:
    """The line of a frame."""
    if seen is None:
        return f"frame {task.name} absent"
    if streams is not None and len(streams) > 1:
        return f"frame {task.name} frames {len(seen.times)} streams {len(streams)}"
    if streams is None or bound is None:
        return f"frame {task.name} frames {len(seen.times)} no bound"
    period, jitter, distance = streams[0]
    gaps = gaps_of(seen.times)
    behind_it = (period, jitter + bound - task.best, max(distance - (bound - task.best), task.best))
    line = (
        f"frame {task.name} frames {len(seen.times)} period {period} jitter {ahead(seen.times, period)} distance"
        f" {min(gaps, default=period)} input {jitter} {distance} output {behind_it[1]} {behind_it[2]}"
    )
    if not first_breach(seen.times, (period, jitter + rough_by, max(0, distance - rough_by))):
        return f"{line} within input"
    breach = first_breach(seen.times, (period, behind_it[1] + rough_by, behind_it[2] - rough_by))
    return f"{line} beyond output times {breach[0]} {breach[1]}" if breach else f"{line} within output"


def tell_log(options: LogOptions) -> int:
    """Prints sources for what a log has, or what it says of a system."""
    log = read_log(options.log, options.tick, options.drift, options.classical, options.sort)
    if not log.channels:
        counts = "".join(f"; {count} {what}{NOTES.get(what, '')}" for what, count in log.counts.items())
        raise Fault(f"{options.log}: there is no frame in it that can be taken{counts}")
    check_used(options, log)
    for what, count in log.counts.items():
        print(f"{options.log}: {count} {what}{NOTES.get(what, '')}", file=sys.stderr)
    names = FrameNames(options, log)
    if options.system is None:
        made(options, log, names)
        return 0
    return compare(options, log, names, options.system)
