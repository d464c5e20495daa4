"""How the times of critical sections become whole ticks.

A section begins with the tick in which its lock may be taken: `start` is rounded down. `length` is rounded up, and has
a tick more, as a region has: a job that has taken a lock between two ticks holds up others for all of the section. So
that sections still nest or are apart, one that comes right behind another begins by as much later, and one is as long
as what is within it. Where a section begins is in no bound.
"""
from __future__ import annotations

import math
from collections.abc import MutableMapping
from dataclasses import dataclass
from fractions import Fraction
from typing import TYPE_CHECKING, Any

from lokwurmi.errors import UnitsRefused
from lokwurmi.model.limits import DOWN, NEITHER
from lokwurmi.model.units import Time

if TYPE_CHECKING:
    from lokwurmi.model.conversion import Converter


@dataclass
class Section:
    """A critical section as it is told: its times in ticks, where it may begin between two, and by which of them have a
    unit; and the ticks that it gets."""

    told: MutableMapping[str, Any]
    begin: Fraction
    end: Fraction
    timed: frozenset[str]
    first: int = 0
    last: int = 0

    @property
    def more(self) -> int:
        """The tick more of a length that is a time."""
        return int("length" in self.timed)


def is_time(word: object) -> bool:
    return isinstance(word, (str, Time))


def set_locks(converter: Converter, task: MutableMapping[str, Any], bit: Fraction | None) -> None:
    """Replaces the times of a task's critical sections that have units."""
    several = task["locks"]
    if not isinstance(several, list) or not all(is_section(it) for it in several):
        return
    for lock in several:
        for key in ("start", "length"):
            if not is_time(lock[key]) and lock[key]:
                converter.bare.append((f"{key} of lock {lock['name']}", "task", str(task.get("name", "?"))))
    if not any(is_time(it[key]) for it in several for key in ("start", "length")):
        return
    what = f"task {task.get('name', '?')}"
    found = sorted((section_of(converter, what, it, bit) for it in several), key=lambda it: (it.begin, -it.end))
    check_nested(what, found)
    put_behind(found, 0)
    for it in found:
        write(converter, what, it)


def is_section(it: object) -> bool:
    """Whether a value has what is needed of a section; all else is the program's to judge."""
    numbers = (int, str, Time)
    return (
        isinstance(it, MutableMapping)
        and "name" in it
        and all(isinstance(it.get(key), numbers) and not isinstance(it[key], bool) for key in ("start", "length"))
    )


def section_of(converter: Converter, what: str, lock: MutableMapping[str, Any], bit: Fraction | None) -> Section:
    """A section with its times in ticks, which needn't be whole."""
    ticks, called = dict[str, Fraction](), f"lock {lock['name']} of {what}"
    timed = frozenset(key for key in ("start", "length") if is_time(lock[key]))
    for key in ("start", "length"):
        word = lock[key]
        time = converter.nanoseconds(called, key, word, bit) if key in timed else word * converter.tick
        ticks[key] = time / converter.tick
    return Section(lock, ticks["start"], ticks["start"] + ticks["length"], timed)


def check_nested(what: str, several: list[Section]) -> None:
    """Refuses sections that cross, which in ticks might not."""
    for place, first in enumerate(several):
        for other in several[place + 1 :]:
            if first.begin < other.begin < first.end < other.end:
                raise UnitsRefused(
                    f"{what}: its section of {other.told['name']} begins within that of {first.told['name']} and ends"
                    " behind it: they have to nest or be apart"
                )


def put_behind(several: list[Section], earliest: int) -> int:
    """Gives ticks to sections in their order, none of which begins before the earliest. The answer is the last end."""
    while several:
        first, *rest = several
        within = [it for it in rest if it.begin < first.end]
        several = rest[len(within) :]
        first.first = max(earliest, math.floor(first.begin))
        needed = first.first + math.ceil(first.end - first.begin) + first.more
        earliest = first.last = max(needed, put_behind(within, first.first))
    return earliest


def write(converter: Converter, what: str, it: Section) -> None:
    """Writes the ticks of a section, and tells what was rounded."""
    from lokwurmi.model.conversion import Rounding

    called = f"lock {it.told['name']} of {what}"
    times = {"start": it.begin, "length": it.end - it.begin}
    ticks = {"start": it.first, "length": it.last - it.first}
    for key, (side, least, most) in converter.times["lock"].items():
        time, number, more = times[key] * converter.tick, ticks[key], it.more if key == "length" else 0
        if not least <= number <= most:
            raise UnitsRefused(f"{called}: {key} is {number} ticks, and {least} to {most} are possible")
        if key in it.timed:
            converter.exact.append((time, most - more))
        plain = (math.floor(times[key]) if side == DOWN else math.ceil(times[key])) + more
        rounded = side if times[key].denominator > 1 else NEITHER
        note = "" if number == plain else ", behind the one before it" if key == "start" else ", with what is within it"
        rounding = Rounding(called, key, Time(time), rounded, number, has_more=more > 0, note=note)
        if rounded != NEITHER or note:
            converter.told.append(rounding)
        if more:
            converter.longer.append(rounding)
        it.told[key] = number
