"""Takes the frames of buses into a system: what each one's source, task and path are in ticks, and what there is to say
of it. For lokwurmi import network.

What stands for the frames behind those of --only has a name of its own, since its bound isn't that of the frame whose
length it has. Errors are one task of the highest priority, whose source has the longest frame as jitter: so errors that
hit the frame itself count.
"""
import math
from dataclasses import dataclass
from fractions import Fraction
from typing import Any

from lokwurmi.frames import SIZES, Bits, classical, error, flexible, padded
from lokwurmi.model.limits import MOST_BIT, MOST_EXECUTION, MOST_TICKS
from lokwurmi.model.units import bit_of
from lokwurmi_tools.networks.buses import ERRORS, FORMAT, QUEUED, SWITCH, Bus, Frame
from lokwurmi_tools.networks.frame_lengths import ticks
from lokwurmi_tools.networks.import_notes import ImportNotes
from lokwurmi_tools.networks.network_options import LEAVE, NetworkOptions, ShareOrTime
from lokwurmi_tools.networks.option_checks import (
    check_attributes,
    check_buses,
    check_lacking,
    check_lost,
    check_patterns,
    check_used,
    is_named,
)
from lokwurmi_tools.networks.sender_clocks import ON_NO_CLOCK, SenderClocks, Start
from lokwurmi_tools.shared.faults import Fault
from lokwurmi_tools.shared.tables import percent_above
from lokwurmi_tools.shared.times import UNITS, common, text_of

# what a DBC file calls the signals that are in no frame
NO_FRAME = "VECTOR__INDEPENDENT_SIG_MSG"


@dataclass
class Taken:
    """A frame with what its source, its task and its path are in ticks."""

    frame: Frame
    period: int
    jitter: int
    deadline: int | None
    after: str  # its source, or the frame that a gateway passes on
    forwarded: bool
    least: int
    greatest: int
    by_payload: bool
    sporadic: bool = False  # whether its source may fall silent
    start: Start = ON_NO_CLOCK


@dataclass(frozen=True)
class Rates:
    """The time of a bit of a bus in ticks, and of one in the data phase of CAN FD where its rate is told."""

    bit: Fraction
    data_bit: Fraction | None


@dataclass(frozen=True)
class Errors:
    """The errors of a bus: how far apart they come in ticks, and what each takes."""

    period: int
    jitter: int
    least: int
    greatest: int


def of_period(told: ShareOrTime, period: Fraction) -> Fraction:
    """A time that is told as itself, or as a part of the period."""
    return told[1] * period if told[0] == "share" else told[1]


def in_milliseconds(attributes: dict[str, Any], key: str | None) -> Fraction | None:
    """What an attribute tells in milliseconds, or None where there is none."""
    value = attributes.get(key) if key else None
    if value is None:
        return None
    word = str(value).strip().strip('"')
    try:
        time = Fraction(word)
    except (ValueError, ZeroDivisionError):
        time = Fraction(-1)
    if time < 0:
        raise Fault(f"its {key} is {word or 'empty'}, which is no number of milliseconds")
    return time * UNITS["ms"]


class Taker:
    """Takes the frames of some buses by what is asked for."""

    def __init__(self, buses: list[Bus], options: NetworkOptions, forwards: dict[str, str]):
        self.buses, self.options, self.forwards = buses, options, forwards
        self.report = ImportNotes()
        self.taken: dict[str, list[Taken]] = {}
        self.rates: dict[str, Rates] = {}
        self.errors: dict[str, Errors] = {}
        # the options that concern a frame, and what wants a word of the user's: by the reason the frames
        self.used: set[str] = set()
        self.lacking: dict[str, list[str]] = {}
        self.clocks = SenderClocks(self)

    def told_rate(self, bus: Bus, option: str, pairs: list[tuple[str, int]], own: int) -> int:
        """A bit rate of a bus: as told, or else the database's; 0 where neither tells it."""
        told = dict(pairs)
        names = [it.name for it in self.buses]
        unknown = [name for name in told if name and name not in names]
        if unknown:
            raise Fault(f"{option} {unknown[0]}: there is no such bus; there are {', '.join(names)}")
        if len(told) < len(pairs):
            raise Fault(f"{option}: two rates are given for the same bus: leave one out")
        rate = told.get(bus.name) or told.get("") or own
        if own and own != rate:
            self.report.add(
                self.report.changed, f"bus {bus.name} has {rate} bit/s by {option}, and {own} in the database"
            )
        return rate

    def rates_of(self, bus: Bus) -> Rates:
        """The times of a bus's bits."""
        rate, tick = self.told_rate(bus, "--bitrate", self.options.bitrate, bus.bitrate), self.options.tick
        if not rate:
            raise Fault(f"{bus.file}: the bit rate of bus {bus.name} isn't told: --bitrate {bus.name}=500000")
        bit = bit_of(rate) / tick
        if math.ceil(bit) > MOST_BIT:
            raise Fault(
                f"a bit of bus {bus.name} takes {float(bit):g} ticks, and {MOST_BIT} is the most: take a longer --tick"
            )
        if bit.denominator > 1:
            whole = common(tick, bit * tick)
            then = f"; with --tick {text_of(whole)} none is" if bit * tick / whole <= MOST_BIT else ""
            what = f"a bit of bus {bus.name} takes {float(bit):g} ticks: lengths are rounded, the least down and the"
            self.report.add(self.report.changed, f"{what} greatest up{then}")
        data_rate = self.told_rate(bus, "--data-bitrate", self.options.data_bitrate, bus.data_bitrate)
        if data_rate and data_rate < rate:
            raise Fault(f"bus {bus.name}: the data phase has {data_rate} bit/s, which is below {rate} of the bus")
        return Rates(bit, bit_of(data_rate) / tick if data_rate else None)

    def is_unwanted(self, frame: Frame) -> bool:
        """Whether --without names a frame."""
        return any(is_named(frame, pattern) for pattern in self.options.without)

    def is_left(self, frame: Frame) -> str | None:
        """Why a frame is left out, or None where it is taken."""
        if self.is_unwanted(frame):
            return "by --without"
        if frame.told == NO_FRAME:
            return "no frame, but signals that are in none"
        if frame.size > 8 and not frame.is_fd:
            return self.left_by("longer", frame, "more than 8 bytes, and not told to be of CAN FD")
        if frame.size > SIZES[-1]:
            return self.left_by("longer", frame, f"more than {SIZES[-1]} bytes")
        if frame.name not in self.forwards and not self.least_period(frame)[0]:
            return self.left_by("without_period", frame, "no cycle time, and no least distance is told")
        if frame.values and self.options.multiplexed == "out":
            self.used.add("multiplexed")
            return "multiplexed (--multiplexed out)"
        return None

    def left_by(self, option: str, frame: Frame, why: str) -> str:
        """Why a frame is left out by a word of the user's; without that word it is kept for a refusal."""
        word = option.replace("_", "-")
        self.used.add(option)
        if getattr(self.options, option) != LEAVE:
            self.lacking.setdefault(option, []).append(frame.name)
        return f"{why} (--{word} {LEAVE})"

    def least_period(self, frame: Frame) -> tuple[Fraction, str]:
        """The least time from one of these frames to the next, without jitter, in nanoseconds, and what tells it."""
        others = self.options.others or Fraction(0)
        if not frame.cycle and frame.delay:
            return frame.delay, "the least distance of the database (GenMsgDelayTime), as there is no cycle time"
        if not frame.cycle:
            without = self.options.without_period
            option = "--others" if without is None else "--without-period"
            if others or without not in (None, LEAVE):
                self.used.add(option[2:].replace("-", "_"))
            time = others if without is None else without if isinstance(without, Fraction) else Fraction(0)
            return time, f"{option}, as there is no cycle time"
        if frame.is_spontaneous and not frame.delay and others:
            self.used.add("others")
        between = (frame.delay or others) if frame.is_spontaneous else Fraction(0)
        if between and between < frame.cycle:
            return between, f"sent on events too ({frame.send_type}), so the least distance and not the cycle time"
        return frame.cycle, frame.cycle_by

    def tell_frame(self, frame: Frame, why: str) -> None:
        """Reports what is assumed of a frame."""
        report = self.report
        if frame.told != frame.name.removeprefix(f"{frame.bus}."):
            report.add(report.changed, "another name", f"{frame.told!r} is {frame.name}")
        if FORMAT not in frame.own and "_FD" in str(frame.attributes.get(FORMAT)):
            report.add(report.assumed, f"of CAN FD by the default of {FORMAT}", frame.name)
        if len(frame.senders) > 1:
            report.add(report.assumed, "one sender alone at a time, where the database has several", frame.name)
        if frame.is_on_events and frame.name not in self.forwards:
            report.add(report.changed, f"sporadic: sent on events alone ({frame.send_type})", frame.name)
        if why:
            report.add(report.changed, f"period by {why}", frame.name)
        elif frame.is_spontaneous and not frame.delay and not self.options.others:
            report.add(
                report.assumed,
                (
                    f"no frame comes on an event, which the send type {frame.send_type} allows, but the database has no"
                    " least distance (--others)"
                ),
                frame.name,
            )

    def period(self, frame: Frame, exact: Fraction) -> int:
        """The period of a frame in ticks, rounded down."""
        fast, tick = self.options.fast, self.options.tick
        period = int(exact * (1 - fast / 1_000_000) / tick)
        if period > MOST_TICKS:
            self.report.add(self.report.changed, f"its period is {MOST_TICKS} ticks, the longest", frame.name)
            return MOST_TICKS
        if period and not fast and Fraction(period) != exact / tick:
            self.report.add(
                self.report.changed, "its period is rounded down", f"{frame.name} from {text_of(exact)} to {period}"
            )
        return period

    def in_milliseconds(self, frame: Frame, key: str | None) -> Fraction | None:
        """What an attribute of a frame tells, or None where there is none."""
        try:
            return in_milliseconds(frame.attributes, key)
        except Fault as fault:
            raise Fault(f"{frame.name}: {fault}") from None

    def told_jitter(self, frame: Frame) -> Fraction | None:
        """The jitter of a frame by its attribute, or None where --jitter tells it. What is the database's default
        wants a word: a line that is lost looks the same."""
        key = self.options.jitter_attribute
        told = self.in_milliseconds(frame, key)
        if not key or key in frame.own:
            return told
        if told is not None and self.options.defaults:
            self.used.add("defaults")
            self.report.add(self.report.assumed, f"jitter by the default of {key}", frame.name)
            return told
        if self.options.jitter is None:
            self.lacking.setdefault("jitter", []).append(frame.name)
        else:
            self.report.add(self.report.assumed, f"jitter by --jitter, as there is no {key} of its own", frame.name)
        return None

    def jitter(self, frame: Frame, period: Fraction, lost: Fraction) -> int:
        """The jitter of a frame in ticks, rounded up, with what its offset is too early."""
        told = self.told_jitter(frame)
        if told is None and self.options.jitter is not None:
            self.used.add("jitter")
        exact = of_period(self.options.jitter or ("time", Fraction(0)), period) if told is None else told
        exact += lost
        jitter = math.ceil(exact / self.options.tick)
        if Fraction(jitter) != exact / self.options.tick:
            self.report.add(
                self.report.changed, "its jitter is rounded up", f"{frame.name} from {text_of(exact)} to {jitter}"
            )
        return jitter

    def deadline(self, frame: Frame, period: Fraction) -> int | None:
        """The deadline of a frame in ticks, rounded down; none where none is asked for."""
        if self.options.paths and not any(is_named(frame, pattern) for pattern in self.options.paths):
            return None
        key = self.options.deadline_attribute
        told = self.in_milliseconds(frame, key)
        if not told:
            self.used.add("deadline")
        if not told and key and self.options.deadline:
            self.report.add(self.report.assumed, f"deadline by --deadline, as there is no {key}", frame.name)
        exact = told or (of_period(self.options.deadline, period) if self.options.deadline else None)
        if not exact:
            return None
        ticks_of_it = min(int(exact / self.options.tick), MOST_TICKS)
        if not ticks_of_it:
            raise Fault(f"{frame.name}: its deadline of {text_of(exact)} is less than a tick: take a shorter --tick")
        if ticks_of_it != exact / self.options.tick:
            self.report.add(
                self.report.changed,
                "its deadline is rounded down",
                f"{frame.name} from {text_of(exact)} to {ticks_of_it}",
            )
        return ticks_of_it

    def multiplexed(self, frame: Frame, period: int, jitter: int) -> tuple[int, int]:
        """The period and the jitter of a frame of several values, each of which may be sent once a cycle, all at one
        time."""
        self.used.add("multiplexed")
        if self.options.multiplexed in (None, "once") or frame.values < 2:
            self.report.add(
                self.report.assumed,
                (
                    "one frame a cycle, whatever its multiplexer has; where each value is sent in each cycle:"
                    " --multiplexed each"
                ),
                frame.name,
            )
            return period, jitter
        each = period // frame.values
        if not each:
            raise Fault(
                f"{frame.name}: a part of its period for each of {frame.values} values is less than a tick: take a"
                " shorter --tick"
            )
        self.report.add(
            self.report.changed,
            "each value of the multiplexer is sent in each cycle, maybe all at one time",
            f"{frame.name}: {frame.values} values",
        )
        return each, jitter + (frame.values - 1) * each

    def bits(self, frame: Frame) -> tuple[Bits, Bits]:
        """The bits of a frame, the least and the greatest."""
        if not frame.is_fd:
            return classical(frame.size, frame.extended)
        if padded(frame.size) != frame.size:
            what = "CAN FD has no frame of this length, so it is filled up"
            self.report.add(self.report.changed, what, f"{frame.name} from {frame.size} to {padded(frame.size)} bytes")
        return flexible(frame.size, frame.extended)

    def length(self, frame: Frame, rates: Rates) -> tuple[Fraction, Fraction]:
        """The least and the greatest time of a frame in ticks."""
        if frame.is_fd and frame.switches and rates.data_bit is None:
            raise Fault(
                f"{frame.name}: it is a frame of CAN FD, and the bit rate of the data phase isn't told: --data-bitrate"
                f" {frame.bus}=2000000; --data-bitrate of the same rate as --bitrate where it doesn't switch"
            )
        if frame.is_fd and frame.switches:
            self.used |= {"data_bitrate", f"data_bitrate {frame.bus}"}
            if rates.data_bit != rates.bit and not frame.attributes.get(SWITCH):
                what = "it switches to the bit rate of the data phase, as the file doesn't tell whether it does"
                self.report.add(self.report.assumed, what, frame.name)
        data_bit = rates.data_bit if frame.switches and rates.data_bit is not None else rates.bit
        least, greatest = (it.time(rates.bit, data_bit) for it in self.bits(frame))
        if not 1 <= least or greatest > MOST_EXECUTION:
            raise Fault(
                f"{frame.name}: it takes {float(least):g} to {float(greatest):g} ticks, and 1 to {MOST_EXECUTION} are"
                " possible: take another --tick"
            )
        return least, greatest

    def check_frame(self, frame: Frame) -> None:
        """Refuses an identifier or a length that no frame has."""
        if not 0 <= frame.identifier < (1 << 29 if frame.extended else 1 << 11) or frame.size < 0:
            raise Fault(
                f"{frame.name}: the database gives it the identifier {frame.identifier} and {frame.size} bytes, which"
                f" no frame has: mend it, or --without {frame.name}"
            )

    def take(self, frame: Frame, rates: Rates) -> None:
        """Adds a frame to those of its bus."""
        self.check_frame(frame)
        exact, why = self.least_period(frame)
        if frame.is_default and frame.name not in self.forwards:
            self.used.add("defaults")
            if not self.options.defaults:
                self.lacking.setdefault("defaults", []).append(frame.name)
        self.tell_frame(frame, why)
        start = self.clocks.start_of(frame, exact)
        period, jitter = self.period(frame, exact), self.jitter(frame, exact, start.lost)
        if frame.values:
            period, jitter = self.multiplexed(frame, period, jitter)
        forwarded = self.forwards.get(frame.name)
        if not period and not forwarded:
            raise Fault(f"{frame.name}: its period of {text_of(exact)} is less than a tick: take a shorter --tick")
        if jitter > MOST_TICKS:
            raise Fault(
                f"{frame.name}: its jitter is {jitter} ticks, and {MOST_TICKS} is the most: take a longer --tick"
            )
        least, greatest = self.length(frame, rates)
        self.taken.setdefault(frame.bus, []).append(
            Taken(
                frame,
                period,
                jitter,
                self.deadline(frame, exact),
                forwarded or frame.name + QUEUED,
                bool(forwarded),
                math.floor(least),
                math.ceil(greatest),
                rates.bit.denominator == 1 and not frame.is_fd,
                frame.is_on_events and not forwarded,
                start,
            )
        )

    def errors_of(self, bus: Bus, rates: Rates) -> Errors | None:
        """The errors of a bus: so many in any time of a length, each of which takes 31 bits and the longest frame."""
        taken = self.taken[bus.name]
        if not self.options.errors or not taken:
            return None
        count, time = self.options.errors
        period = min(int(time / self.options.tick), MOST_TICKS) // count
        if not period:
            raise Fault(f"--errors: a part of {text_of(time)} for each of {count} errors is less than a tick")
        least, greatest = error(Bits(0))
        longest = max(it.greatest for it in taken)
        whole = ticks(least.time(rates.bit), greatest.time(rates.bit), Fraction(1))
        # an error may come until the frame is received, which is so long after its start at most
        jitter = (count - 1) * period + longest
        self.report.add(
            self.report.assumed,
            (
                f"on bus {bus.name} at most {count} error{'s' * (count > 1)} in any {text_of(time)}, each of which"
                f" takes 31 bits and the longest frame again; a task {bus.name}{ERRORS} of highest priority stands for"
                " them, which is argued and not proved"
            ),
        )
        if jitter > MOST_TICKS or whole[1] + longest > MOST_EXECUTION:
            raise Fault(
                f"bus {bus.name}: an error takes {whole[1] + longest} ticks with a jitter of {jitter}, and"
                f" {MOST_EXECUTION} and {MOST_TICKS} are the most: take a longer --tick"
            )
        return Errors(period, jitter, max(1, whole[0]), whole[1] + longest)

    def hold_apart(self, bus: Bus) -> None:
        """Two frames of one identifier can't be told apart on a bus, also where one of them isn't taken."""
        found: dict[tuple[int, bool], str] = {}
        for it in bus.frames:
            if self.is_unwanted(it) or it.told == NO_FRAME:
                continue
            other = found.setdefault((it.identifier, it.extended), it.name)
            if other != it.name:
                raise Fault(
                    f"{bus.file}: {other} and {it.name} have the identifier {it.shown}, so that the bus"
                    f" can't choose between them: leave one out, as --without {it.name}"
                )

    def tell_bus(self, bus: Bus) -> None:
        """Reports what the library says of a bus, and what is assumed of all its frames."""
        report = self.report
        if bus.told != bus.name:
            report.add(report.changed, "another name", f"{bus.told!r} is {bus.name}")
        for line in bus.said:
            report.add(report.changed, f"canmatrix says of {bus.file}", line)
        if self.options.fast:
            millionths = f"{float(self.options.fast):g} millionths"
            report.add(report.changed, f"periods of bus {bus.name} are shorter by {millionths}, as clocks may be fast")
        taken = self.taken[bus.name]
        if taken and not any(it.jitter for it in taken) and self.options.jitter in (None, ("time", Fraction(0))):
            what = f"each frame of bus {bus.name} is queued exactly once a period; a sender that doesn't: --jitter"
            report.add(report.assumed, what)

    def take_bus(self, bus: Bus) -> None:
        """Takes the frames of a bus, and tells which are left out."""
        rates = self.rates[bus.name] = self.rates_of(bus)
        self.taken[bus.name] = []
        for frame in bus.frames:
            why = self.is_left(frame)
            if why:
                self.report.add(self.report.left, why, frame.name if len(self.buses) > 1 else frame.told)
            else:
                self.take(frame, rates)
        self.hold_apart(bus)
        self.tell_bus(bus)
        errors = self.errors_of(bus, rates)
        if errors:
            self.errors[bus.name] = errors

    def all(self) -> None:
        """Takes the frames of all buses that are asked for."""
        check_buses(self)
        check_attributes(self)
        frames = [it for bus in self.buses for it in bus.frames]
        check_patterns("--without", self.options.without, frames, [it for bus in self.buses for it in bus.lost])
        check_lost(self)
        for bus in self.buses:
            if self.options.bus and bus.name not in self.options.bus:
                self.report.add(self.report.left, "a bus that --bus doesn't name", bus.name)
            else:
                self.take_bus(bus)
        check_patterns("--paths", self.options.paths, [it.frame for several in self.taken.values() for it in several])
        check_lacking(self)
        check_used(self)
        self.clocks.tell()
        self.tell_forwards()
        for bus in self.buses:
            if bus.name in self.taken:
                self.tell_load(bus)
        self.tell_same_names()

    def utilisation(self, bus: Bus) -> Fraction:
        """The greatest part of a bus's time that its frames need."""
        periods = {it.frame.name: it.period for several in self.taken.values() for it in several}
        share = Fraction(0)
        for it in self.taken[bus.name]:
            share += Fraction(it.greatest, periods[first_of(it.frame.name, self.forwards)])
        return share

    def tell_load(self, bus: Bus) -> None:
        """How many frames of a bus are taken, and how much of its time they need at most."""
        share = self.utilisation(bus)
        self.report.heads.append(
            f"{bus.file}: of bus {bus.name} {len(self.taken[bus.name])} of {len(bus.frames)} frames are taken; its"
            f" utilisation is {percent_above(share)} % at most"
        )
        if share > 1:
            self.report.heads.append("  that is more than the bus can take: some bounds will be overload")

    def tell_forwards(self) -> None:
        """Reports what is forwarded, and refuses what isn't there."""
        names = {it.frame.name for taken in self.taken.values() for it in taken}
        for name, before in self.forwards.items():
            for it in (before, name):
                if it not in names:
                    raise Fault(f"--forward {before}={name}: {it} is left out")
            self.report.add(self.report.assumed, self.gateway_text(), f"{name} after {before}")

    def gateway_text(self) -> str:
        """What is assumed of a gateway."""
        if self.options.gateway_queue is None:
            return "a gateway passes on at once; where it takes time, --gateway-queue TIME"
        name, time = self.options.gateway_queue
        return (
            f"a gateway passes on by its queue {name}, in the order in which frames come, each in up to"
            f" {text_of(time)}, and in no less than a tick, {text_of(self.options.tick)}"
        )

    def tell_same_names(self) -> None:
        """Frames of one name on several buses may be forwarded."""
        found: dict[str, list[str]] = {}
        for it in (it for taken in self.taken.values() for it in taken):
            found.setdefault(it.frame.told, []).append(it.frame.name)
        for names in found.values():
            if len(names) > 1 and not any(it in self.forwards for it in names):
                self.report.add(
                    self.report.assumed,
                    (
                        "frames of one name on several buses are sent by themselves; one that a gateway passes on comes"
                        f" with more jitter: --forward {names[0]}={names[1]}"
                    ),
                    " and ".join(names),
                )


def first_of(name: str, forwards: dict[str, str]) -> str:
    """The frame that begins what is passed on as a frame."""
    while name in forwards:
        name = forwards[name]
    return name
