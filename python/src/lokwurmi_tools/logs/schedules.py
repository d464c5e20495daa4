"""Whether the events of a source that a log shows keep a schedule: one every period, each in its place, none left out.

All is exact. Times are in ticks, and drifts are shares of the time: by how much a source's periods are longer than the
whole number of ticks that they are taken for.
"""
from collections.abc import Sequence
from dataclasses import dataclass
from fractions import Fraction
from typing import NamedTuple

from lokwurmi.model.limits import MOST_TICKS
from lokwurmi_tools.logs.recorded_logs import gaps_of, period_of

# fewer events show no schedule, and so many on each side show that a source comes elsewhere from then on
LEAST_EVENTS, LEAST_SIDE = 10, 4
# by how much a clock may drift against the recorder's for a rounder period to be meant, or that of a database
MOST_DRIFT = 500 / 1_000_000
# what the least times of a recorder may differ by
GRAIN = 4
# at how many gaps it is looked for a new beginning: those that are furthest from the period
MOST_SPLITS = 3

Point = tuple[int, int]


class Band(NamedTuple):
    """The corners of events, each with its number and its time: those above all others, and those below."""

    above: list[Point]
    below: list[Point]

    def width(self, period: Fraction | int) -> Fraction:
        """By how much events stray from a period."""
        least, most = self.ends(period)
        return most - least

    def ends(self, period: Fraction | int) -> tuple[Fraction, Fraction]:
        """Where the earliest and the latest event come, each counted back to number 0 by a period."""
        least = min(time - number * period for number, time in self.below)
        return Fraction(least), Fraction(max(time - number * period for number, time in self.above))


def corners(points: Sequence[Point], side: int) -> list[Point]:
    """The corners above (1) or below (-1) some points."""
    found: list[Point] = []
    for it in points:
        while len(found) > 1 and side * turn(found[-2], found[-1], it) >= 0:
            found.pop()
        found.append(it)
    return found


def turn(one: Point, two: Point, three: Point) -> int:
    """Above 0 where the way over three points turns up at the second."""
    return (two[0] - one[0]) * (three[1] - one[1]) - (two[1] - one[1]) * (three[0] - one[0])


def band_of(times: Sequence[int], first: int = 0) -> Band:
    """The corners of events that are numbered from a first number on."""
    points = list(enumerate(times, first))
    return Band(corners(points, 1), corners(points, -1))


def best_period(bands: Sequence[Band]) -> Fraction:
    """The period by which the events of the band that strays most stray least; it goes through two corners."""
    edges = {
        Fraction(two[1] - one[1], two[0] - one[0])
        for band in bands
        for several in band
        for one, two in zip(several, several[1:])
    }
    return min(edges, key=lambda it: (max(band.width(it) for band in bands), it))


def periods_within(band: Band, most: Fraction) -> tuple[Fraction, Fraction]:
    """The least and the greatest period by which events stray by so much at most."""
    pairs = [(high, low) for high in band.above for low in band.below]
    least = max((high[1] - low[1] - most) / (high[0] - low[0]) for high, low in pairs if high[0] > low[0])
    greatest = min((low[1] - high[1] + most) / (low[0] - high[0]) for high, low in pairs if high[0] < low[0])
    return least, greatest


def zeros_of(number: int) -> int:
    """How round a number is."""
    return len(text := str(number)) - len(text.rstrip("0"))


def roundest(low: float, high: float) -> int | None:
    """The roundest whole number above 0 in a range, and of several the one in its middle; None where there is none."""
    step: int = 10 ** len(str(int(high)))
    while step:
        near = round((low + high) / 2 / step) * step
        if near and low <= near <= high:
            return near
        step //= 10
    return None


class Told(NamedTuple):
    """What is known of a source besides its log: its period in a database, whether that is asked for, and the drift of
    the recorder that its times are free of."""

    cycle: int | None = None
    is_exact: bool = False
    drift: Fraction = Fraction(0)

    def without(self, drift: Fraction) -> str:
        """The words that count a drift against the recorder out."""
        return f"--drift {float(((1 + self.drift) / (1 + drift) - 1) * 1_000_000):.5g}"


@dataclass(frozen=True)
class Schedule:
    """Where the events of a source come: number n of those seen from `early` + n periods on, by up to `jitter` late.
    With the drift `drift` they stray least, by `stray` ticks, and with those from `least` to `most` about as little."""

    period: int
    early: int
    jitter: int
    stray: Fraction
    drift: Fraction
    least: Fraction
    most: Fraction
    count: int

    @property
    def hidden(self) -> Fraction:
        """What drift more wouldn't show, as they stray anyway."""
        return (self.stray + GRAIN) / ((self.count - 1) * self.period)


@dataclass(frozen=True)
class Pace:
    """How a source comes that keeps a schedule: by the period `best` its events stray least, by `stray` ticks, and by
    those from `least` to `greatest` about as little."""

    band: Band
    count: int
    best: Fraction
    stray: Fraction
    least: Fraction
    greatest: Fraction
    told: Told

    def period_at(self, drift: float) -> int | None:
        """The whole period that is meant where its clock drifts so; None where there is none."""
        low, high = float(self.least) / (1 + drift), float(self.greatest) / (1 + drift)
        cycle = self.told.cycle
        if cycle and (self.told.is_exact or abs(self.best / cycle - 1) <= MOST_DRIFT):
            return cycle if low <= cycle <= high else None
        return roundest(low, high)

    def drifts(self) -> list[float]:
        """The drifts that it may have: by whole periods that are rounder than those beside them, and the nearest."""
        best = float(self.best)
        periods = {max(1, round(best)), self.told.cycle or 1}
        step = 10
        while step < 2 * best:
            periods.add(max(1, round(best / step) * step))
            step *= 10
        found = [float(it) / one - 1 for one in periods for it in (self.least, self.best, self.greatest)]
        return [it for it in found if abs(it) <= MOST_DRIFT or self.told.is_exact]

    def schedule(self, period: int) -> Schedule | str:
        """Its schedule by a period, or why there is none."""
        early, late = (int(it) for it in self.band.ends(period))
        jitter, drift = late - early, self.best / period - 1
        if period > MOST_TICKS:
            return f"its period of {period} is more than {MOST_TICKS} ticks"
        if 2 * jitter > period:
            return (
                f"it drifts by {ppm(drift)} against the recorder's clock, {jitter} ticks over the log, more than half"
                f" its period of {period}: {self.told.without(drift)} counts that out"
            )
        drifts = (drift, self.least / period - 1, self.greatest / period - 1)
        return Schedule(period, early, jitter, self.stray, *drifts, self.count)


def irregular(times: Sequence[int], period: int) -> str:
    """Why gaps show that there is no schedule; nothing where each is of about a period."""
    gaps = gaps_of(times)
    odd = [place for place, gap in enumerate(gaps) if not period < 2 * gap < 3 * period]
    if not odd:
        return ""
    if 10 * len(odd) > len(gaps):
        return f"its gaps are from {min(gaps)} to {max(gaps)}: it is sent on events, or by several periods"
    first, second = times[odd[0]], times[odd[0] + 1]
    more = f", and at {len(odd) - 1} more places" if len(odd) > 1 else ""
    if second - first < period:
        return (
            f"it comes at {first} and at {second}, {(second - first) / period:.2f} periods apart{more}: one is sent on"
            " an event, or its node began anew"
        )
    return (
        f"it doesn't come between {first} and {second}, for {(second - first) / period:.2f} periods{more}: events are"
        " left out, or its node began anew"
    )


def new_beginning(times: Sequence[int], period: int) -> str:
    """From when on events come elsewhere than before, each of them; nothing where there is no such time."""
    gaps = gaps_of(times)
    inner = range(LEAST_SIDE, len(times) - LEAST_SIDE + 1)
    for place in sorted(inner, key=lambda it: -abs(gaps[it - 1] - period))[:MOST_SPLITS]:
        before, after = band_of(times[:place]), band_of(times[place:], place)
        by = best_period([before, after])
        (first, last), (low, high) = before.ends(by), after.ends(by)
        apart = max(Fraction(GRAIN), (last - first) / 2, (high - low) / 2)
        if low - last > apart or first - high > apart:
            shift = round(low - first)
            way = "later" if shift > 0 else "earlier"
            return f"from {times[place]} on it comes {abs(shift)} ticks {way} than before: its node may have begun anew"
    return ""


def pace_of(times: Sequence[int], told: Told) -> Pace | str:
    """How a source comes that keeps a schedule, or why it keeps none."""
    if len(times) < LEAST_EVENTS:
        return f"{len(times)} frames are too few: from {LEAST_EVENTS} on they show a schedule"
    band, usual = band_of(times), period_of(times)
    best = best_period([band])
    stray = band.width(best)
    # an event that is left out or sent besides moves all behind it by a period
    if 4 * stray > 3 * usual and (why := irregular(times, usual)):
        return why
    if why := new_beginning(times, usual):
        return why
    if 2 * stray > best:
        return f"it strays by {int(stray)} ticks, more than half its period of {int(best)}"
    return Pace(band, len(times), best, stray, *periods_within(band, 2 * stray + GRAIN), told)


def ppm(share: Fraction) -> str:
    """A drift in words."""
    number = float(share * 1_000_000)
    return f"{number:.0f} ppm" if abs(number) >= 100 else f"{number:.3g} ppm"
