"""How times with units become whole ticks.

A system counts in whole ticks, so a time that isn't a whole number of them is rounded to the side that is safe for its
key, and each rounding is reported, and each tick more. Greatest executions, regions, jitters and gaps are rounded up;
least executions, periods, distances and deadlines down. A slot has no safe side and must be whole. A region has a tick
more, and so has a critical section. On a clock the period must be whole, and an offset is rounded down with the jitter
as much greater, so that each interval in which an event may come has both its ends. The proof of the bounds is about
ticks. That they hold for the times that were rounded so is argued in docs/NETWORKS.md, "Times with units", and not
proved.
"""
import math
import re
import warnings
from collections.abc import Iterable, MutableMapping
from dataclasses import dataclass, field
from fractions import Fraction
from typing import Any

from lokwurmi.errors import UnitsRefused
from lokwurmi.frames import MOST_CLASSICAL, MOST_ETHERNET, frame_bits, port_bits
from lokwurmi.model.limits import DOWN, MOST_BIT, MOST_RATE, NEITHER, TIMES, UP, Kind, TimeRanges, limits_of, times_of
from lokwurmi.model.lock_times import set_locks
from lokwurmi.model.units import UNITS, Time, bit_of, common, text_of

# why a time has to be whole, by its key
WHOLE = {
    "slot": "a longer slot helps its task and delays the others",
    "period": "on a clock events keep their distances, and by another period they would drift",
}
_AMOUNT = re.compile(r"(\d+(?:\.\d+)?) ?(ns|us|ms|s|bits?|bytes?)", re.ASCII)


class RoundingWarning(UserWarning):
    """A time with a unit is no whole number of ticks, and was rounded to its safe side; or it has a tick more."""


class NoUnitWarning(UserWarning):
    """Numbers have no unit in a system whose other times have one: they count ticks."""


class NoticeWarning(UserWarning):
    """A system is accepted, and may be another one than was meant: its bounds may be too low for the real system."""


@dataclass(frozen=True, slots=True)
class Rounding:
    """A time that was rounded, or has a tick more. Its text is the whole sentence."""

    what: str
    """The entry, as "task brake"."""
    key: str
    time: Time
    """What was given."""
    side: str
    """UP or DOWN; NEITHER where it is whole, and has a tick more."""
    ticks: int
    """What it became."""
    is_capped: bool = False
    """Whether it is a limit or a region, and above the most that there is."""
    has_more: bool = False
    """Whether a tick more is in it: it is a region, or an execution that is no longer than its region."""
    is_widened: bool = False
    """Whether it is a jitter that is greater by what its source's offset was rounded down."""
    note: str = ""
    """What else is to be said of it."""

    def __str__(self) -> str:
        told = f"{self.what}: {self.key} of {text_of(self.time.nanoseconds)} is"
        if self.is_capped and self.key == "region":
            return f"{told} {self.ticks}, the most, which is as long as any execution"
        if self.is_capped:
            return f"{told} {self.ticks}, the most; bounds that need more are overload"
        rounded = "" if self.side == NEITHER else f" rounded {self.side} to"
        widened = ", with what the offset is rounded down by" if self.is_widened else ""
        return f"{told}{rounded} {self.ticks}{', with a tick more' if self.has_more else ''}{widened}{self.note}"


def warn(told: Iterable[object], kind: type[Warning] = RoundingWarning) -> None:
    """Tells roundings, or something else, as warnings, at the line outside this package that caused them."""
    import sys

    depth = 1
    while depth < 30 and sys._getframe(depth).f_globals.get("__name__", "").startswith("lokwurmi"):
        depth += 1
    for it in told:
        warnings.warn(str(it), kind, stacklevel=depth + 1)


WrittenEntry = MutableMapping[str, Any]
"""An entry of a system file: its keys and what they have."""


@dataclass
class Converter:
    """Turns the times of entries into ticks, and keeps what was rounded.

    It takes entries as dictionaries, or as tables of tomlkit; `text` is the file that they stand in, for line numbers.
    """

    tick: Fraction
    """In nanoseconds."""
    text: str = ""
    told: list[Rounding] = field(default_factory=list)
    bare: list[tuple[str, str, str]] = field(default_factory=list)
    """The keys with a number that has no unit, and so counts ticks: key, kind and name of the entry."""
    longer: list[Rounding] = field(default_factory=list)
    """The times that have a tick more; those of them that are no whole number of ticks are in `told` too."""
    exact: list[tuple[Fraction, int]] = field(default_factory=list)
    """The times, each with the most ticks that it may be."""
    bits: dict[str, Fraction] = field(default_factory=dict)
    """Of a resource, by its name, the time of a bit in nanoseconds."""
    given: set[str] = field(default_factory=set)
    """The resources whose bit has a unit."""
    ports: set[str] = field(default_factory=set)
    """Those of them that are queues, over which frames of Ethernet go."""
    times: TimeRanges = field(default_factory=lambda: TIMES)
    """The keys that are times, by the format of the file, and by the newest where there is none."""

    def line_of(self, key: str, word: object) -> str:
        """Where a word stands in the file, as far as it can be found."""
        if not isinstance(word, str) or not self.text:
            return ""
        found = re.search(rf"\b{key}\s*=\s*[\"']{re.escape(word)}[\"']", self.text)
        return f"line {self.text.count(chr(10), 0, found.start()) + 1}: " if found else ""

    def nanoseconds(self, what: str, key: str, word: "str | Time", bit: Fraction | None) -> Fraction:
        """The time that a value tells."""
        if isinstance(word, Time):
            return word.nanoseconds
        found = _AMOUNT.fullmatch(word)
        where = f'{self.line_of(key, word)}{what}: {key} = "{word}"'
        if not found:
            raise UnitsRefused(f'{where} is no time: write a number and a unit, as "250 us" or "8 bit"')
        if not found[2].startswith("b"):
            return Fraction(found[1]) * UNITS[found[2]]
        if what.startswith(("source", "path", "chain")):
            raise UnitsRefused(f"{where} is told in bits, and is on no resource: write a time")
        if bit is None:
            raise UnitsRefused(
                f"{where} is told in bits, and its resource has no bit rate: give that `bitrate = 500000`, in bits per"
                " second"
            )
        return Fraction(found[1]) * bit * (8 if found[2].startswith("byte") else 1)

    def ticks(self, what: str, key: str, time: Fraction, side: str, most: int, more: int = 0) -> int:
        """A time in whole ticks, rounded to a side, which is kept for the report, and so many more."""
        self.exact.append((time, most - more))
        number = time / self.tick
        if number.denominator == 1:
            return int(number) + more
        if side == NEITHER:
            raise UnitsRefused(
                f"{what}: {key} of {text_of(time)} is {float(number):.12g} ticks, and has no safe side: {WHOLE[key]}."
                f" With a tick of {text_of(common(self.tick, time))} it is whole"
            )
        rounded = (math.ceil(number) if side == UP else math.floor(number)) + more
        self.told.append(Rounding(what, key, Time(time), side, rounded, has_more=more > 0))
        return rounded

    def more_of(self, item: WrittenEntry, key: str, time: Fraction) -> int:
        """A tick more for a region, and for an execution that is no longer than its region, or a critical section, is
        without that. A job that has begun between two ticks holds up others for all of it, and in ticks it holds them
        up for a tick less."""
        if key != "worst":
            return int(key == "region")
        lengths = [it.get("length") for it in item.get("locks", []) if isinstance(it, MutableMapping)]
        several = [it for it in (item.get("region"), *lengths) if isinstance(it, int)]
        return int(max(several, default=0) > math.ceil(time / self.tick))

    def set_time(self, kind: str, item: WrittenEntry, key: str, bit: Fraction | None) -> None:
        """Replaces a time of an entry that has a unit."""
        word = item[key]
        if not isinstance(word, (str, Time)):
            # nothing is nothing in any unit
            if isinstance(word, int) and not isinstance(word, bool) and word:
                self.bare.append((key, kind, item.get("name", "?")))
            return
        what, (side, least, most) = f"{kind} {item.get('name', '?')}", self.times[kind][key]
        if key == "period" and "clock" in item:
            side = NEITHER
        time = self.nanoseconds(what, key, word, bit)
        given = Time(time)
        if key == "region":
            # what is as long as any execution does for all that is longer
            time = min(time, (most - 1) * self.tick)
        more = self.more_of(item, key, time)
        number = self.ticks(what, key, time, side, most, more)
        if more and (time / self.tick).denominator > 1:
            self.longer.append(self.told[-1])
        elif more and number > 1:
            is_capped = time < given.nanoseconds
            self.longer.append(Rounding(what, key, given, NEITHER, number, is_capped, has_more=True))
        if key == "limit" and number > most:
            self.told.append(Rounding(what, key, Time(time), side, most, is_capped=True))
            number = most
        if not least <= number <= most:
            longer = "shorter" if number < least else "longer"
            raise UnitsRefused(
                f"{self.line_of(key, word)}{what}: {key} of {text_of(time)} is {number} ticks, and {least} to {most}"
                f" are possible: take a {longer} tick"
            )
        item[key] = number

    def set_bit(self, item: WrittenEntry) -> None:
        """The time of a bit of a bus: by its bit rate, or with a unit. It's rounded up; where it isn't whole, frames
        get their lengths in its place. On a queue it is told by how many bits go in a tick, where that is whole."""
        name, rate, told = str(item.get("name", "?")), item.get("bitrate"), item.get("bit")
        if rate is not None:
            if not isinstance(rate, int) or isinstance(rate, bool) or rate < 1:
                raise UnitsRefused(
                    f"resource {name}: bitrate = {rate} is no bit rate: write bits per second, as 500000"
                )
            if told is not None:
                raise UnitsRefused(f"resource {name}: it has bit and bitrate: leave one out")
            bit = bit_of(rate)
            del item["bitrate"]
        elif isinstance(told, (str, Time)):
            bit = self.nanoseconds(f"resource {name}", "bit", told, None)
        else:
            if isinstance(told, int):
                self.bare.append(("bit", "resource", name))
                self.bits[name] = told * self.tick
            elif isinstance(in_tick := item.get("rate"), int) and in_tick > 0:
                self.bits[name] = self.tick / in_tick
            return
        self.bits[name] = bit
        self.given.add(name)
        if item.get("kind") == Kind.FIFO:
            self.set_rate(item, name, self.tick / bit)
        if item.get("kind") != Kind.CAN:
            return
        number = math.ceil(bit / self.tick)
        if not 1 <= number <= MOST_BIT:
            raise UnitsRefused(
                f"resource {name}: a bit of {text_of(bit)} is {number} ticks, and 1 to {MOST_BIT} are possible"
            )
        item["bit"] = number

    def set_rate(self, item: WrittenEntry, name: str, rate: Fraction) -> None:
        """How many bits go over a port in a tick, where that is whole."""
        self.ports.add(name)
        if "rate" in item:
            raise UnitsRefused(f"resource {name}: it has rate and bitrate: leave one out")
        if rate.denominator == 1 and rate <= MOST_RATE:
            item["rate"] = int(rate)

    def lengths_of(self, name: str, size: int, extended: bool) -> tuple[int, int] | None:
        """How many bits a frame has whose lengths have to be told: where those of a bit aren't whole on a bus, and
        where its own aren't whole on a port; None where its payload tells them, or is out of its range."""
        in_tick, is_port = self.tick / self.bits[name], name in self.ports
        if not 0 <= size <= (MOST_ETHERNET if is_port else MOST_CLASSICAL):
            return None
        if not is_port:
            return None if in_tick.numerator == 1 else frame_bits(size, extended)
        bits = port_bits(size)
        is_told = in_tick.denominator == 1 and in_tick <= MOST_RATE and (bits / in_tick).denominator == 1
        return None if is_told or extended else (bits, bits)

    def set_payload(self, item: WrittenEntry) -> None:
        """Tells the lengths of a frame where they can't be worked out of what is written, since `bit` is rounded up,
        or where they are rounded on a port."""
        name, size, extended = str(item.get("on", "")), item.get("payload"), item.get("extended", False)
        if name not in self.given or not isinstance(size, int):
            return
        counts = self.lengths_of(name, int(size), bool(extended))
        if counts is None:
            return
        what, most = f"task {item.get('name', '?')}", self.times["task"]["worst"][2]
        least, greatest = (count * self.bits[name] for count in counts)
        if least < self.tick:
            raise UnitsRefused(f"{what}: its least length is {text_of(least)}, below a tick: take a shorter tick")
        item["best"] = self.ticks(what, "the least length", least, DOWN, most)
        item["worst"] = self.ticks(what, "the greatest length", greatest, UP, most)
        for key in ("payload", "extended"):
            if key in item:
                del item[key]

    def set_times(self, kind: str, item: WrittenEntry) -> None:
        """Replaces the times of an entry."""
        bit = self.bits.get(str(item.get("on", item.get("name", "")))) if kind in ("resource", "task") else None
        lost = self.lost_by_offset(item) if kind == "source" and "clock" in item else Fraction(0)
        if kind == "task" and "locks" in item:
            set_locks(self, item, bit)
        for key in self.times[kind]:
            if key == "jitter" and lost:
                self.widen(item, lost)
            elif key in item:
                self.set_time(kind, item, key, bit)

    def lost_by_offset(self, item: WrittenEntry) -> Fraction:
        """By how much of a tick the offset of a source is rounded down."""
        word = item.get("offset", 0)
        if not isinstance(word, (str, Time)):
            return Fraction(0)
        return self.nanoseconds(f"source {item.get('name', '?')}", "offset", word, None) / self.tick % 1

    def widen(self, item: WrittenEntry, lost: Fraction) -> None:
        """Sets the jitter of a source whose offset is rounded down by so much of a tick: event n comes at the latest as
        it does by the file."""
        what, word = f"source {item.get('name', '?')}", item.get("jitter", 0)
        if isinstance(word, (str, Time)):
            time = self.nanoseconds(what, "jitter", word, None)
        else:
            time = Fraction(word) * self.tick
        number, most = math.ceil(time / self.tick + lost), self.times["source"]["jitter"][2]
        self.exact.append((time, most))
        self.told.append(Rounding(what, "jitter", Time(time), UP, number, is_widened=True))
        if number > most:
            raise UnitsRefused(f"{what}: jitter is {number} ticks, and {most} are the most: take a longer tick")
        item["jitter"] = number

    def convert(self, document: Any) -> None:
        """Turns all times of a system file into ticks."""
        self.times = times_of(limits_of(document.get("format")))
        for item in entries_of(document, "resource"):
            self.set_bit(item)
        for kind in ("resource", "source", "task", "path"):
            for item in entries_of(document, kind):
                self.set_times(kind, item)
        for item in entries_of(document, "task"):
            self.set_payload(item)

    def whole_tick(self) -> Fraction | None:
        """The longest tick with which nothing is rounded, where no number is too large by it."""
        found: Fraction | None = None
        for it, _ in self.exact:
            found = (it if found is None else common(found, it)) if it else found
        return found if found and all(it / found <= most for it, most in self.exact) else None

    @property
    def reported(self) -> list[Rounding]:
        """The times that were rounded, and those that have a tick more."""
        return [*self.told, *(it for it in self.longer if it.side == NEITHER and it not in self.told)]

    @property
    def has_units(self) -> bool:
        """Whether a time had a unit, or a bus a bit rate."""
        return bool(self.exact or self.given)

    def rounded_text(self) -> str:
        """What stands before the times that are rounded."""
        if len(self.told) == 1:
            return "1 time is rounded, to its safe side:"
        return f"{len(self.told)} times are rounded, each to its safe side:"

    def more_text(self) -> str:
        """What is to be said of the times that have a tick more; nothing where there are none."""
        several = ", ".join(f"{it.key} of {it.what} is {it.ticks}" for it in self.longer)
        of = "section" if any(it.key == "length" for it in self.longer) else "region"
        return f"a tick more, since between ticks all of a {of} may go by: {several}" if several else ""

    def bare_text(self) -> str:
        """What is to be said of the numbers that have no unit; nothing where there are none."""
        several = ", ".join(f"{key} of {kind} {name}" for key, kind, name in self.bare)
        has = "it has" if len(self.bare) == 1 else "they have"
        return f"taken as ticks, since {has} no unit: {several}" if several else ""

    def lines(self) -> list[str]:
        """What is to be said of a file."""
        found = [f"A tick is {text_of(self.tick)}."]
        if self.told:
            found.append(self.rounded_text())
            found += [f"  {it}" for it in self.told]
            whole = self.whole_tick()
            found.append(f"  with --tick {text_of(whole)} none is" if whole else "")
        if any(it.key == "period" for it in self.told):
            found.append("  a period that is rounded is too short for `chain`, which takes it as the longest, too")
        if more := self.more_text():
            found.append(more)
        if bare := self.bare_text():
            found.append(bare)
        return [it for it in found if it]


def entries_of(document: Any, kind: str) -> list[Any]:
    """The entries of a kind in a system file."""
    found = document.get(kind, [])
    if not isinstance(found, list) or not all(isinstance(it, MutableMapping) for it in found):
        raise UnitsRefused(
            f"{kind} isn't a list of entries, as `{kind} = [{{ name = .. }}]` or [[{kind}]] (docs/FILES.md)"
        )
    return list(found)
