"""Tells what lies behind bounds that are `overload`, for lokwurmi page.

It reads the report and the file: which demand has no end, by the rates of events and the greatest executions, and whose
input has no bound. It is no part of what is proved, and tells of each such task one cause, where there may be several.
"""
from collections.abc import Collection
from fractions import Fraction

from lokwurmi.model.event_models import Bounds
from lokwurmi.model.limits import Kind
from lokwurmi.model.view import SystemView
from lokwurmi_tools.shared.types import Values

# how a task comes to have no bound, and because of which others
Edge = tuple[str, list[str]]


class OverloadCauses:
    """A system and the tasks of its report that have no bound."""

    def __init__(self, view: SystemView, bounds: Bounds):
        self.view, self.over = view, [name for name in view.tasks if bounds[name] is None]

    def is_unbounded(self, name: str) -> bool:
        """Whether its input has no bound: that of a task along its activation chain hasn't."""
        after = self.view.tasks[name].after
        return any(it in self.over or self.is_unbounded(it) for it in after if it in self.view.tasks)

    def demand(self, name: str, endless: Collection[str] = ()) -> Fraction:
        """The share of the time that a task's jobs and all that goes before them ask for. In a ring a rival takes no
        more than its turns, and all of these if its own demand is among the endless ones."""
        view, own = self.view, self.view.demand(name)
        if view.kind(name) != Kind.ROUND_ROBIN:
            return own + sum(map(view.demand, view.rivals(name)), Fraction(0))
        turns = {it: own * view.tasks[it].turn / view.tasks[name].turn for it in view.rivals(name)}
        return own + sum((turns[it] if it in endless else min(view.demand(it), turns[it]) for it in turns), Fraction(0))

    def edges(self, name: str) -> Edge:
        """The tasks without a bound because of which this one has none, and how: they start it, or may go before it."""
        before = [it for it in self.view.tasks[name].after if it in self.over]
        if before:
            return "input", before
        if self.demand(name) > self.view.slot_share(name):
            return "own", []
        if self.view.kind(name) == Kind.ROUND_ROBIN:
            rivals = [it for it in self.view.rivals(name) if it in self.over]
            return ("rivals", rivals) if self.demand(name, rivals) > 1 else ("own", [])
        rivals = [it for it in self.view.rivals(name) if self.is_unbounded(it)]
        return ("rivals", rivals) if rivals else ("own", [])

    def causes(self) -> tuple[list[Values], list[Values]]:
        """The causes, each with the tasks that have no bound because of it, and for each such task what is next behind
        it."""
        why = {name: self.edges(name) for name in self.over}
        reach = {name: reached(name, why) for name in self.over}
        causes: list[Values] = []
        done: set[str] = set()
        for name in self.over:
            circle = {it for it in reach[name] if name in reach[it]}
            # whatever a circle leads to lies behind it
            if name in done or (why[name][1] and (not circle or reach[name] - circle)):
                continue
            several = [it for it in self.over if it in circle] or [name]
            done.update(several)
            cause = self.circle(several, why) if circle else self.single(name)
            causes.append(
                {
                    "tasks": several,
                    "leaves": [it for it in self.over if it not in several and reach[it] & set(several)],
                    **cause,
                }
            )
        return causes, [
            {"name": name, "on": self.view.tasks[name].on, "why": how, "of": of} for name, (how, of) in why.items()
        ]

    def single(self, name: str) -> Values:
        """A task whose own busy window has no end, or one beyond the limit."""
        demand, room = self.demand(name), self.view.slot_share(name)
        return {
            "kind": "load" if demand > room else "limit",
            "by": self.view.kind(name).value,
            "on": [self.view.tasks[name].on],
            "load": demand,
            "room": room,
            "limit": self.view.limit(name),
            "before": self.view.rivals(name),
        }

    def circle(self, several: list[str], why: dict[str, Edge]) -> Values:
        """A way round a circle of tasks, and the loads and limits of the resources that it is over."""
        way: list[str] = []
        at = several[0]
        while at not in way:
            way.append(at)
            at = next(it for it in why[at][1] if it in several)
        way = way[way.index(at) :]
        on = list(dict.fromkeys(self.view.tasks[it].on for it in several))
        loads = [(it, self.view.utilisation(it)) for it in on]
        return {
            "kind": "circle",
            "on": on,
            "way": [*way[::-1], way[-1]],
            "loads": loads,
            "full": any(load > 1 for _, load in loads),
            "limits": [(it, self.view.resources[it].limit) for it in on],
        }


def reached(name: str, why: dict[str, Edge]) -> set[str]:
    """The tasks that lie behind one, however far."""
    found: set[str] = set()
    left = list(why[name][1])
    while left:
        it = left.pop()
        if it not in found:
            found.add(it)
            left += why[it][1]
    return found
