"""Times with units.

A time is exact: a fraction of nanoseconds.

    >>> from lokwurmi import ms, us
    >>> ms("16.667") + us(3)
    ms('16.67')
    >>> ms(5) / us(250)
    Fraction(20, 1)
    >>> f"{us(16_667):ms}"
    '16.667ms'

`lokwurmi.model.conversion` turns the times of a system into ticks.
"""
import math
import re
from dataclasses import dataclass
from decimal import Decimal, localcontext
from fractions import Fraction
from functools import total_ordering
from numbers import Rational
from typing import Any

from lokwurmi.errors import NoTick, UnitsRefused, WrongType

UNITS = {"ns": 1, "us": 1_000, "ms": 1_000_000, "s": 1_000_000_000}
"""How many nanoseconds each unit has."""
_TIME = re.compile(r"(\d+(?:\.\d+)?) ?(ns|us|ms|s)", re.ASCII)

Number = int | float | str | Decimal | Fraction
"""An amount of a unit. A float counts as the decimal number that Python shows of it: 0.1 is a tenth."""


def exact(amount: Number) -> Fraction:
    """An amount as a fraction, without an error.

    >>> exact(0.1), exact("16.667")
    (Fraction(1, 10), Fraction(16667, 1000))
    """
    if isinstance(amount, bool) or not isinstance(amount, (float, str, Decimal, Rational)):
        raise WrongType(f"{amount!r} is no amount of time: write a number, or a text such as '16.667'")
    try:
        if isinstance(amount, Rational):
            return Fraction(int(amount.numerator), int(amount.denominator))
        return Fraction(float.__repr__(amount) if isinstance(amount, float) else amount)
    except (ValueError, OverflowError, ZeroDivisionError) as fault:
        raise UnitsRefused(f"{amount!r} is no amount of time: write a number, or a text such as '16.667'") from fault


def decimal_text(number: Fraction) -> str | None:
    """A fraction as a decimal number, or None where it has no end."""
    rest, places = number.denominator, 0
    for factor in (2, 5):
        count = 0
        while rest % factor == 0:
            rest, count = rest // factor, count + 1
        places = max(places, count)
    if rest != 1:
        return None
    whole, part = divmod(abs(number.numerator) * 10**places // number.denominator, 10**places)
    return ("-" if number < 0 else "") + str(whole) + (f".{part:0{places}d}" if places else "")


@total_ordering
@dataclass(frozen=True, slots=True, repr=False)
class Time:
    """A time: so many nanoseconds, which may be a fraction. `ns`, `us`, `ms` and `s` give one."""

    nanoseconds: Fraction

    @classmethod
    def of(cls, it: "Time | str") -> "Time":
        """A time, or that of a text such as "250us", "0.5 ms" or "1s".

        >>> Time.of("0.5 ms")
        us('500')
        """
        if not isinstance(it, (Time, str)):
            raise WrongType(f"{it!r} is no time: write a text such as '1us', or us(1)")
        return it if isinstance(it, Time) else cls(amount_of(it))

    def to(self, unit: str) -> Fraction:
        """How many ns, us, ms or s it is, as an exact fraction.

        >>> us(1500).to("ms")
        Fraction(3, 2)
        """
        if unit not in UNITS:
            raise UnitsRefused(f"{unit!r} is no unit: write ns, us, ms or s")
        return self.nanoseconds / UNITS[unit]

    def decimal(self, unit: str) -> Decimal:
        """The same as an exact decimal number; one that has no end, as a third, raises UnitsRefused.

        >>> us(1500).decimal("ms")
        Decimal('1.5')
        """
        text = decimal_text(self.to(unit))
        if text is None:
            raise UnitsRefused(f"{self} is no decimal number of {unit} with an end: take to({unit!r})")
        with localcontext() as context:
            context.prec = max(28, len(text))
            return Decimal(text)

    def __format__(self, unit: str) -> str:
        """The time as a text: in a unit, as in f"{time:ms}", or in the one that fits it."""
        unit = unit or unit_of(abs(self.nanoseconds))
        number = self.to(unit)
        return f"{decimal_text(number) or number}{unit}" if number else "0"

    def __str__(self) -> str:
        return format(self, "")

    def __repr__(self) -> str:
        unit = unit_of(abs(self.nanoseconds))
        number = self.to(unit)
        text = decimal_text(number)
        return f"{unit}({text!r})" if text is not None else f"{unit}({number!r})"

    def __bool__(self) -> bool:
        return bool(self.nanoseconds)

    def __lt__(self, other: "Time") -> bool:
        return self.nanoseconds < other.nanoseconds if isinstance(other, Time) else NotImplemented

    def __add__(self, other: "Time") -> "Time":
        return Time(self.nanoseconds + other.nanoseconds) if isinstance(other, Time) else NotImplemented

    def __radd__(self, other: object) -> "Time":
        # so that sum() works, which begins with 0
        return self if isinstance(other, int) and other == 0 else NotImplemented  # type: ignore[return-value]

    def __sub__(self, other: "Time") -> "Time":
        return Time(self.nanoseconds - other.nanoseconds) if isinstance(other, Time) else NotImplemented

    def __neg__(self) -> "Time":
        return Time(-self.nanoseconds)

    def __mul__(self, factor: Number) -> "Time":
        return NotImplemented if isinstance(factor, Time) else Time(self.nanoseconds * exact(factor))

    __rmul__ = __mul__

    def __truediv__(self, other: Any) -> Any:
        """By a time a fraction; by a number a time."""
        if isinstance(other, Time):
            return self.nanoseconds / other.nanoseconds
        return Time(self.nanoseconds / exact(other))


def ns(amount: Number) -> Time:
    """So many nanoseconds."""
    return Time(exact(amount))


def us(amount: Number) -> Time:
    """So many microseconds.

    >>> us(250)
    us('250')
    """
    return Time(exact(amount) * UNITS["us"])


def ms(amount: Number) -> Time:
    """So many milliseconds.

    >>> ms(5), ms(16.667)
    (ms('5'), ms('16.667'))
    """
    return Time(exact(amount) * UNITS["ms"])


def s(amount: Number) -> Time:
    """So many seconds."""
    return Time(exact(amount) * UNITS["s"])


def amount_of(word: str) -> Fraction:
    """A time in nanoseconds, of a word such as 250us, 0.5ms or 0s."""
    found = _TIME.fullmatch(word)
    if not found:
        raise UnitsRefused(f"{word} is no time: write a number and a unit, as 250us, 0.5ms or 1s")
    return Fraction(found[1]) * UNITS[found[2]]


def time_of(word: str) -> Fraction:
    """The same of a time that isn't 0."""
    time = amount_of(word)
    if not time:
        raise UnitsRefused(f"{word} is no time above 0: write a number and a unit, as 250us, 0.5ms or 1s")
    return time


def unit_of(nanoseconds: Fraction) -> str:
    """The largest unit in which a time is at least 1."""
    return next((it for it in ("s", "ms", "us") if nanoseconds >= UNITS[it]), "ns")


def text_of(nanoseconds: Fraction, unit: str | None = None) -> str:
    """A time in a unit, or in the largest one in which it is at least 1, with all its digits; of one without an end, as
    a third, the first 12."""
    unit = unit or unit_of(nanoseconds)
    number = nanoseconds / UNITS[unit]
    return f"{decimal_text(number) or f'{float(number):.12g}'}{unit}"


def common(one: Fraction, other: Fraction) -> Fraction:
    """The longest time of which both are multiples."""
    whole = one.denominator * other.denominator
    return Fraction(math.gcd(int(one * whole), int(other * whole)), whole)


def tick_of(tick: "Time | str") -> Time:
    """The time of a tick, which is above 0."""
    time = Time.of(tick)
    if time.nanoseconds <= 0:
        raise UnitsRefused(f"a tick of {time} is none: write a time above 0, as '1us'")
    return time


def bit_of(rate: int) -> Fraction:
    """The time of a bit in nanoseconds, of so many bits per second.

    >>> bit_of(500_000)
    Fraction(2000, 1)
    """
    return Fraction(UNITS["s"], rate)


def whole_ticks(time: Time, tick: Time | None, what: str) -> int:
    """A time that must be a whole number of ticks, as that of an event of a trace.

    >>> whole_ticks(ms(5), us(10), "an event")
    500
    """
    if tick is None:
        raise NoTick(f"{what} at {time}")
    number = time / tick
    if number.denominator != 1:
        raise UnitsRefused(f"{what} at {time} is no whole number of ticks of {tick}, and has no safe side")
    return int(number)
