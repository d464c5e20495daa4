"""Where a clock may have begun, by the events of its sources: which of them leave it no start (status 17)."""
from __future__ import annotations

import math
from collections.abc import Iterable, Mapping, Sequence
from typing import NamedTuple

from lokwurmi.files.documents import Table


class Leads(NamedTuple):
    """For how long a clock may have run at time 0, by the events of one source: from `least` to `most`, or whole
    periods longer or shorter. Where `most` is less, the events don't come by any clock."""

    least: int
    most: int
    period: int

    def has(self, lead: int) -> bool:
        return (lead - self.least) % self.period <= self.most - self.least


def leads_by(source: Table, times: Sequence[int]) -> Leads:
    """By the times of a source's events: event n comes from its offset and n periods after the clock's start to that
    and its jitter; how many came before the first isn't known."""
    period, jitter, offset = source["period"], source.get("jitter", 0), source.get("offset", 0)
    begins = [offset + n * period - time for n, time in enumerate(times)]
    return Leads(max(begins), min(begins) + jitter, period)


def have_start(several: Iterable[Leads]) -> bool:
    """Whether one lead is right for some sources: if there is one, then one at the lower end of one of them."""
    leads = list(several)
    if any(it.most < it.least for it in leads):
        return False
    cycle = math.lcm(*(it.period for it in leads))
    ends = (it.least + turn * it.period for it in leads for turn in range(cycle // it.period))
    return any(all(it.has(end) for it in leads) for end in ends)


def first_off(sources: Sequence[Table], events: Mapping[str, Sequence[int]]) -> tuple[int, int] | None:
    """The first source, by its place, with an event that can't come by its clock beside its events before, and those of
    the sources before it on the clock; and the place of that event."""
    known: dict[str, list[Leads]] = {}
    for place, source in enumerate(sources):
        times = events.get(source["name"], [])
        if "clock" not in source or not times:
            continue
        before = known.setdefault(source["clock"], [])
        if not have_start([*before, leads_by(source, times)]):
            wrong = (n for n in range(len(times)) if not have_start([*before, leads_by(source, times[: n + 1])]))
            return place, next(wrong)
        before.append(leads_by(source, times))
    return None
