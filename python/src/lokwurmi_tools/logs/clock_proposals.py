"""Clocks for the sources of a log, with what the log shows of them and what it can't: for lokwurmi import log
--clocks."""
import sys
from collections.abc import Iterable
from fractions import Fraction
from typing import TYPE_CHECKING

from lokwurmi_tools.logs.log_clocks import USUAL, FoundClock, FoundClocks, Node, SeenSource, find_clocks
from lokwurmi_tools.logs.log_options import LogOptions
from lokwurmi_tools.logs.recorded_logs import Key, Log
from lokwurmi_tools.logs.schedules import Told, ppm
from lokwurmi_tools.networks.buses import NO_SENDER, Frame
from lokwurmi_tools.shared.faults import Fault
from lokwurmi_tools.shared.times import common, text_of

if TYPE_CHECKING:
    from lokwurmi_tools.logs.log_lines import FrameNames

# how many sources on no clock are told one by one
MOST_TOLD = 20
PREMISE = (
    "a log doesn't show that no node begins anew, that no clock drifts later, and that no frame is left out or sent on"
    " an event: where that happens, bounds by these clocks don't hold"
)


def why_none(frame: Frame | None, options: LogOptions) -> str:
    """Why a frame can't be on a clock by its database; nothing where it may be on one."""
    if frame is None:
        return ""
    if frame.is_spontaneous:
        return f"the database has it sent on events ({frame.send_type})"
    if len(frame.senders) > 1:
        return "the database has several senders of it"
    if options.period == "database" and (frame.cycle / options.tick).denominator > 1:
        tick = text_of(common(frame.cycle, options.tick))
        return f"its cycle time of {text_of(frame.cycle)} is no whole number of ticks, and isn't rounded: --tick {tick}"
    return ""


def told_of(frame: Frame | None, options: LogOptions) -> Told:
    """What a database says of the period of a frame."""
    drift = Fraction(options.drift) / 1_000_000
    ticks = frame.cycle / options.tick if frame else Fraction(0)
    cycle = int(ticks) if ticks and ticks.denominator == 1 else None
    return Told(cycle, options.period == "database", drift)


def propose_clocks(options: LogOptions, log: Log, names: "FrameNames", keys: Iterable[tuple[str, Key]]) -> FoundClocks:
    """The clocks that a log shows; a call for which there is none is refused."""
    sources, clock_names = dict[str, SeenSource](), dict[Node, str]()
    for channel, key in keys:
        name = names.of(channel, key)
        frame = names.frames.get(name)
        sender = next((it for it in frame.senders if it != NO_SENDER), "") if frame else ""
        node = Node(channel, sender)
        clock_names[node] = ".".join([channel] * names.several + [sender or "node"])
        times = log.channels[channel][key].times
        sources[name] = SeenSource(times, node, why_none(frame, options), told_of(frame, options))
    found = find_clocks(sources, clock_names)
    tell_clocks(found, Fraction(options.drift) / 1_000_000)
    if not found.clocks:
        raise Fault(f"{options.log}: --clocks finds no two sources that keep their distance to each other")
    return found


def text_of_range(numbers: Iterable[int]) -> str:
    """The least and the greatest of some numbers."""
    several = list(numbers)
    least, most = min(several), max(several)
    return str(most) if least == most else f"{least} to {most}"


def clock_line(clock: FoundClock, drift: Fraction) -> str:
    """What the log shows of a clock."""
    several = clock.sources.values()
    shown = (
        f"{clock.name}: {len(several)} sources, each in its place over {text_of_range(it.count - 1 for it in several)}"
        f" periods, late by {text_of_range(it.jitter for it in several)} ticks at most; a drift of {ppm(clock.hidden)}"
        " between two of them wouldn't show"
    )
    if not clock.node.sender and clock.hidden > Fraction(USUAL, 1_000_000):
        shown += ", and two nodes mostly drift by less: take a longer log, or a --database with senders"
    least, most = clock.drifts
    if not least <= 0 <= most:
        without = Told(drift=drift).without(clock.middle)
        shown += (
            f". All drift by {ppm(clock.middle)} against the recorder's clock, which is in their jitter: {without}"
            " counts that out"
        )
    return shown


def head_lines(found: FoundClocks, drift: float) -> list[str]:
    """What stands at the head of the file."""
    share = Fraction(drift) / 1_000_000
    return [
        "# The clocks are a proposal by this log (--clocks):",
        *(f"#   {clock_line(it, share)}" for it in found.clocks),
        f"# {PREMISE[0].upper()}{PREMISE[1:]}.",
    ]


def tell_clocks(found: FoundClocks, drift: Fraction) -> None:
    """Says which clocks there are, and which sources are on none."""
    for it in found.clocks:
        print(f"proposed clock {clock_line(it, drift)}", file=sys.stderr)
    for name, why in list(found.why.items())[:MOST_TOLD]:
        print(f"on no clock: {name}: {why}", file=sys.stderr)
    if len(found.why) > MOST_TOLD:
        print(f"on no clock: {len(found.why) - MOST_TOLD} more, as behind each source", file=sys.stderr)
    if found.clocks:
        print(PREMISE, file=sys.stderr)
