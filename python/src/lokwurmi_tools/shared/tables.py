"""Rows as lines whose cells stand below each other, and words of counts."""
import math
from collections.abc import Collection, Sequence
from decimal import Decimal
from fractions import Fraction
from itertools import zip_longest

# with how many digits behind the point a share is told at most
MOST_DIGITS = 6


def columns(rows: Sequence[Sequence[str]], indent: str = "  ", right: Collection[int] = ()) -> list[str]:
    """Rows as lines, each column as wide as its widest cell; those at the places in `right` end below each other."""
    wide = [max(map(len, it)) for it in zip_longest(*rows, fillvalue="")]
    cells = [[cell.rjust(wide[k]) if k in right else cell.ljust(wide[k]) for k, cell in enumerate(row)] for row in rows]
    return [indent + "  ".join(it).rstrip() for it in cells]


def numbered(count: int, what: str) -> str:
    """So many of something, as `1 task` and `2 tasks`."""
    return f"{count} {what}{'' if count == 1 else 's'}"


def exact_share(share: Fraction | float) -> Fraction:
    """A share as it is; of a float what it is but for its last digits, which are those of sums and quotients."""
    return share if isinstance(share, Fraction) else Fraction(f"{share:.12g}")


def percent_above(share: Fraction | float) -> str:
    """What is asked for in percent, rounded up: with a digit behind the point, or with as many as tell it from the
    whole. So what is above 100.0 is seen to be, and what is below it too."""
    exact = exact_share(share)
    for digits in range(1, MOST_DIGITS + 1):
        parts = math.ceil(exact * 100 * 10**digits)
        if parts != 100 * 10**digits or exact == 1:
            break
    return f"{Decimal(parts).scaleb(-digits):f}"


def percent_below(share: Fraction | float) -> str:
    """What there is room for in percent, rounded down: with a digit behind the point, and without from 1000 on."""
    tenths = math.floor(exact_share(share) * 1000)
    return f"{tenths // 10}.{tenths % 10}" if tenths < 10_000 else str(tenths // 10)


def ratio_text(seen: int, bound: int) -> str:
    """A part of a bound in four digits, rounded down: 1.0000 only where the bound is reached."""
    return f"{seen * 10_000 // bound / 10_000:.4f}"
