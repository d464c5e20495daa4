"""Times with a unit, for the commands: those of the package, how they are shown, and how words are read."""
import re
from fractions import Fraction

from lokwurmi.model.units import UNITS, amount_of, common, text_of, time_of, unit_of
from lokwurmi.results.axes import Scale

__all__ = ["LEAST_RATE", "TICKS", "UNITS", "Scale", "amount_of", "common", "rate_of", "text_of", "time_of", "unit_of"]


# a bit rate below this is one in kilobits
LEAST_RATE = 5_000
# numbers of ticks as they are
TICKS = Scale()


def rate_of(word: str) -> int:
    """A bit rate, of a word such as 500000 or 500k."""
    found = re.fullmatch(r"(\d+(?:\.\d+)?)([kM]?)", word, re.ASCII)
    rate = Fraction(found[1]) * {"": 1, "k": 1000, "M": 1_000_000}[found[2]] if found else Fraction(0)
    if not rate or rate.denominator > 1:
        raise ValueError(f"{word} is no bit rate: write bits per second, as 500000, or 500k")
    if rate < LEAST_RATE:
        raise ValueError(f"{word}: {rate} bit/s? write {rate * 1000}, or {rate}k")
    return int(rate)
