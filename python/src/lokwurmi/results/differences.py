"""Two versions of a system side by side: which bounds got better and worse, what is newly met and missed, what appeared
and went.

    >>> from lokwurmi import System
    >>> system = System()
    >>> cpu = system.preemptive("cpu")
    >>> a = system.task("a", on=cpu, after=system.source("s", period=10), best=1, worst=3, priority=1)
    >>> late = system.path("late", [a], deadline=4)
    >>> before = system.analyse()
    >>> a.worst = 5
    >>> found = before.diff(system.analyse())
    >>> found.status(), [(it.name, it.shift.value, it.grown, it.is_newly_missed) for it in found.changed]
    (1, [('a', 'worse', 2, False), ('late', 'worse', 2, True)])
"""
import re
from collections.abc import Iterable, Iterator
from dataclasses import dataclass
from enum import Enum
from fractions import Fraction
from typing import Any

from lokwurmi.errors import UnitsRefused
from lokwurmi.model.units import Time, decimal_text
from lokwurmi.results.effect_chains import ChainsReport
from lokwurmi.results.reports import Report, Verdict
from lokwurmi.results.verdicts import COLUMNS, PREMISE, TIMES, Bound, bounds_of, csv_text, premise_of

_WORSE = re.compile(r"(\d{1,10}(?:\.\d{1,6})?)%|(\d{1,10})", re.ASCII)


class Shift(Enum):
    """What became of a bound."""

    SAME = "same"
    BETTER = "better"
    WORSE = "worse"
    LOST = "lost"
    """There was a bound, and now there is none."""
    FOUND = "found"
    """There was no bound, and now there is one."""
    APPEARED = "appeared"
    """It is in the second alone."""
    WENT = "went"
    """It is in the first alone."""


def shift_of(before: Bound | None, after: Bound | None) -> Shift:
    """What became of a bound, of which one version is there at least."""
    if before is None or after is None:
        return Shift.APPEARED if before is None else Shift.WENT
    if before.bound is None or after.bound is None:
        lost, found = after.bound is None, before.bound is None
        return Shift.SAME if lost and found else Shift.LOST if lost else Shift.FOUND
    if before.bound == after.bound:
        return Shift.SAME
    return Shift.BETTER if after.bound < before.bound else Shift.WORSE


def bound_in(it: Bound | None) -> int | None:
    """The ticks of a bound; None where it isn't there, or there is none."""
    return None if it is None else it.bound


@dataclass(frozen=True, slots=True)
class Limit:
    """How much worse a bound may get: by so many ticks, or by such a share of what it was."""

    ticks: int = 0
    share: Fraction | None = None

    @classmethod
    def of(cls, it: "int | str | Limit") -> "Limit":
        """That of a number of ticks, or of a text such as "5%".

        >>> Limit.of("2.5%").allows(1000, 1025), Limit.of(24).allows(1000, 1025)
        (True, False)
        """
        if isinstance(it, Limit):
            return it
        found = _WORSE.fullmatch(str(it))
        if isinstance(it, bool) or not found:
            raise ValueError(f"{it} says no growth: write a number of ticks, as 100, or a share, as 5%")
        return cls(int(found[2])) if found[2] else cls(share=Fraction(found[1]) / 100)

    def allows(self, before: int, after: int) -> bool:
        """Whether a bound may grow so."""
        return after - before <= self.ticks if self.share is None else after - before <= self.share * before

    def __str__(self) -> str:
        if self.share is None:
            return f"{self.ticks} tick{'' if self.ticks == 1 else 's'}"
        return f"{decimal_text(self.share * 100)} %"


@dataclass(frozen=True, slots=True)
class Change:
    """A bound in two versions, one of which may lack it."""

    before: Bound | None
    after: Bound | None

    @property
    def one(self) -> Bound:
        """The bound as it is now, or as it was where it went."""
        it = self.before if self.after is None else self.after
        assert it is not None
        return it

    @property
    def kind(self) -> str:
        """`task`, `path` or `chain`."""
        return self.one.kind

    @property
    def name(self) -> str:
        return self.one.name

    @property
    def what(self) -> str:
        """What is bounded, as of Bound."""
        return self.one.what

    @property
    def shift(self) -> Shift:
        """What became of the bound."""
        return shift_of(self.before, self.after)

    @property
    def grown(self) -> int | None:
        """By how many ticks the bound grew, below 0 where it got less; None where one of the two is lacking."""
        old, new = bound_in(self.before), bound_in(self.after)
        return None if old is None or new is None else new - old

    @property
    def is_lost(self) -> bool:
        """Whether there is no bound now, and it isn't so that there was none before."""
        now = self.after is not None and self.after.bound is None
        return now and (self.before is None or self.before.bound is not None)

    @property
    def is_newly_missed(self) -> bool:
        """Whether a deadline is missed now that was neither missed nor unknown before, or wasn't there."""
        before = Verdict.NONE if self.before is None else self.before.verdict
        now = self.after is not None and self.after.verdict is Verdict.MISSED
        return now and before not in (Verdict.MISSED, Verdict.UNKNOWN)

    @property
    def is_newly_met(self) -> bool:
        """Whether a deadline is met now that was missed or unknown before."""
        was = self.before is not None and self.before.verdict in (Verdict.MISSED, Verdict.UNKNOWN)
        return was and self.after is not None and self.after.verdict is Verdict.MET

    @property
    def has_other_deadline(self) -> bool:
        """Whether it is in both, with another deadline, or with one in one of them alone."""
        return self.before is not None and self.after is not None and self.before.deadline != self.after.deadline

    @property
    def is_changed(self) -> bool:
        """Whether the bound, its deadline or its verdict is another one."""
        if self.before is None or self.after is None:
            return True
        return any(getattr(self.before, it) != getattr(self.after, it) for it in ("bound", "deadline", "verdict"))

    def is_beyond(self, limit: Limit) -> bool:
        """Whether the bound grew by more than it may."""
        old, new = bound_in(self.before), bound_in(self.after)
        return old is not None and new is not None and not limit.allows(old, new)


class Changes:
    """All bounds of two versions, in the order of the second, and at the end those that the first has alone."""

    __slots__ = ("all", "has_chains")

    def __init__(self, before: Iterable[Bound], after: Iterable[Bound]):
        old, new = ({it.key: it for it in several} for several in (before, after))
        if len({it.tick for it in (*old.values(), *new.values())}) > 1:
            raise UnitsRefused("the two have ticks of different times, and so their numbers can't be compared")
        self.all = [Change(old.get(key), it) for key, it in new.items()]
        self.all += [Change(it, None) for key, it in old.items() if key not in new]
        self.has_chains = any(it.kind == "chain" for it in self.all)

    def __iter__(self) -> Iterator[Change]:
        return iter(self.all)

    def __len__(self) -> int:
        return len(self.all)

    def __repr__(self) -> str:
        return f"Changes({len(self.changed)} of {len(self.all)} bounds changed)"

    @property
    def changed(self) -> list[Change]:
        """Those of which the bound, the deadline or the verdict is another one."""
        return [it for it in self.all if it.is_changed]

    @property
    def lost(self) -> list[Change]:
        """Those that have no bound now, and had one or weren't there."""
        return [it for it in self.all if it.is_lost]

    @property
    def newly_missed(self) -> list[Change]:
        """Those whose deadline is missed now, and was met or wasn't there."""
        return [it for it in self.all if it.is_newly_missed]

    @property
    def newly_met(self) -> list[Change]:
        """Those whose deadline is met now, and was missed or unknown."""
        return [it for it in self.all if it.is_newly_met]

    def beyond(self, worse: int | str | Limit) -> list[Change]:
        """Those whose bound grew by more than so many ticks, or than such a share of what it was, as "5%"."""
        limit = Limit.of(worse)
        return [it for it in self.all if it.is_beyond(limit)]

    def status(self, worse: int | str | Limit | None = None) -> int:
        """2 where a bound is lost, else 1 where a deadline is newly missed, or a bound grew by more than is asked for,
        else 0."""
        if self.lost:
            return 2
        return 1 if self.newly_missed or worse is not None and self.beyond(worse) else 0

    @property
    def counts(self) -> dict[str, int]:
        """How many did what; one may count several times, as worse and as newly missed."""
        shifts = [it.shift for it in self.all]
        return {it.value: shifts.count(it) for it in Shift} | {
            "newly_missed": len(self.newly_missed),
            "newly_met": len(self.newly_met),
            "other_deadline": sum(it.has_other_deadline for it in self.all),
            "newly_without_bound": len(self.lost),
        }

    @property
    def tick(self) -> Time | None:
        """The time of a tick, where there is one."""
        return self.all[0].one.tick if self.all else None

    def to_dict(self, is_all: bool = False, worse: int | str | Limit | None = None) -> dict[str, Any]:
        """What changed, or all, for JSON."""
        limit = None if worse is None else Limit.of(worse)
        rows = []
        for it in self.all if is_all else self.changed:
            row = {"kind": it.kind, "name": it.name, "what": it.what, "shift": it.shift.value, "grown": it.grown}
            row |= {"newly_missed": it.is_newly_missed, "newly_met": it.is_newly_met, "lost": it.is_lost}
            row |= {"beyond": limit is not None and it.is_beyond(limit)}
            sides = {"before": it.before, "after": it.after}
            rows.append(row | {side: bound and bound.judged() for side, bound in sides.items()})
        return {
            "format": 1,
            "status": self.status(limit),
            "worse": None if limit is None else str(limit),
            "tick": None if self.tick is None else str(self.tick),
            "premise": PREMISE if self.has_chains else None,
            "counts": self.counts,
            "changes": rows,
        }

    def to_csv(self, is_all: bool = False) -> str:
        """A row for each that changed, or for all, under a row of heads."""
        numbers = (*COLUMNS[3:], *(f"{it}_time" for it in TIMES))
        head = [*COLUMNS[:3], "shift", "grown", "newly", *(f"{it}_{side}" for side in ("a", "b") for it in numbers)]
        rows = []
        for it in self.all if is_all else self.changed:
            newly = "missed" if it.is_newly_missed else "met" if it.is_newly_met else ""
            row = [it.kind, it.name, it.what, it.shift.value, it.grown, newly]
            rows.append([*row, *_cells(it.before), *_cells(it.after), premise_of(it.kind)])
        return csv_text([*head, "premise"], rows)


def _cells(it: Bound | None) -> list[Any]:
    """The numbers of a bound in a row; nothing where it isn't there."""
    if it is None:
        return [""] * (len(COLUMNS) - 3 + len(TIMES))
    bound = "overload" if it.bound is None else it.bound
    return [bound, it.deadline, it.slack, it.verdict.value, *map(it.time_text, TIMES)]


def changes_of(
    before: Report, after: Report, chains_before: ChainsReport | None = None, chains_after: ChainsReport | None = None
) -> Changes:
    """Two reports side by side, and the chains of both where they were judged."""
    return Changes(bounds_of(before, chains_before), bounds_of(after, chains_after))
