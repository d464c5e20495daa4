"""Effect chains, whose tasks read what the one before wrote last: how soon they react, and how old their data can be.

**The bounds hold where the sources keep their periods**: any two events of a source are at most as far apart as its
period and jitter say. A source that falls silent voids `reaction`, `age` and `held`, unless it is sporadic: then what
waits for it has no bound. docs/FILES.md, "Effect chains", has the whole premise.
"""
from collections.abc import Mapping, Sequence
from dataclasses import dataclass, replace
from itertools import pairwise
from typing import TYPE_CHECKING, Any, ClassVar

from lokwurmi.errors import Unreadable
from lokwurmi.files import report_lines as lines
from lokwurmi.model.units import Time
from lokwurmi.results import html
from lokwurmi.results.reports import Timed, Verdict, frame, worst_of

if TYPE_CHECKING:
    from pandas import DataFrame

    from lokwurmi.results.differences import Changes


@dataclass(frozen=True, slots=True)
class Step(Timed):
    """How data comes to a task of a chain."""

    name: str
    kind: str
    """`first`; `activation` or `merge`, where the task before starts it; `register`, where it doesn't; and of tasks
    that read only while they run `above` or `same-source`."""
    wait: int | None
    """The longest time from an activation that was just missed to before the next, in ticks; None for `overload`."""
    response: int | None
    """The bound of its response time, in ticks; None for `overload`."""
    main: ClassVar[str] = "response"


@dataclass(frozen=True, slots=True)
class ChainReport(Timed):
    """The bounds of a chain. They hold where the sources keep their periods."""

    steps: tuple[Step, ...]
    reaction: int | None
    """From any moment that the first task has just missed, the last task has answered within so many ticks; None for
    `overload`."""
    age: int | None
    """At the end of each job of the last task, its data came at most so many ticks ago; None for `overload`."""
    held: int | None
    """The same at any moment, until the last task overwrites its register, in ticks; None for `overload`."""
    while_running: bool = False
    """Whether the bounds presume that each task reads only while it runs."""
    main: ClassVar[str] = "reaction"

    @property
    def overload(self) -> bool:
        """Whether one of the three has no bound."""
        return None in (self.reaction, self.age, self.held)

    def _repr_html_(self) -> str:
        return html.chain(self)


@dataclass(frozen=True, slots=True)
class JudgedChain(Timed):
    """A chain with deadlines, judged."""

    name: str
    tasks: int
    """How many tasks it has."""
    reaction: int | None
    """The bound of its reaction time, in ticks; None for `overload`."""
    reaction_deadline: int | None
    reaction_verdict: Verdict
    age: int | None
    """The bound of its data age, in ticks; None for `overload`."""
    age_deadline: int | None
    age_verdict: Verdict
    held: int | None = None
    """The bound of how old its data gets until it is overwritten, in ticks; None for `overload`, and where there is no
    deadline for it. It is the same as that of the reaction time."""
    held_deadline: int | None = None
    held_verdict: Verdict = Verdict.NONE
    main: ClassVar[str] = "reaction"


@dataclass(frozen=True, slots=True)
class ChainsReport:
    """Chains with deadlines, judged. A verdict holds where the sources keep their periods."""

    chains: Mapping[str, JudgedChain]
    """By name, in the order in which they were given."""
    overloads: int
    """Of how many chains a bound is `overload`."""
    missed: int
    """Of how many chains a deadline is missed."""

    @property
    def verdict(self) -> Verdict:
        """OVERLOAD where a chain has no bound, else MISSED where a deadline is missed, else MET."""
        return worst_of(self.overloads, self.missed)

    def diff(self, other: "ChainsReport") -> "Changes":
        """What changes from these chains to others, bound by bound."""
        from lokwurmi.results.differences import Changes
        from lokwurmi.results.verdicts import bounds_of

        return Changes(bounds_of(chains=self), bounds_of(chains=other))

    def _repr_html_(self) -> str:
        return html.chains(self)

    def to_dataframe(self) -> "DataFrame":
        """The chains as a table of pandas, with bounds and deadlines in ticks; what has no bound, or no deadline, is
        <NA>."""
        return frame(self.chains.values(), drop=("tick",))


def chain_report(text: str, tick: Time | None = None) -> ChainReport:
    """What `chain` wrote."""
    rows = text.splitlines()
    steps = [lines.STEP.fullmatch(it) for it in rows[:-1]]
    total = lines.TOTAL.fullmatch(rows[-1]) if rows else None
    if total is None or None in steps:
        raise Unreadable(f"this is no output of lokwurmi chain: {text.strip() or 'nothing'}")
    found = [
        Step(it["name"], it["kind"], lines.number(it["wait"]), lines.number(it["response"]), tick=tick)
        for it in steps
        if it
    ]
    reaction, age, held = (lines.number(total[it] or "") for it in ("reaction", "age", "held"))
    return ChainReport(tuple(found), reaction, age, held, bool(total["running"]), tick=tick)


def chains_report(text: str, tick: Time | None = None) -> ChainsReport:
    """What `chains` wrote."""
    *rows, last = text.splitlines() or [""]
    summary, found = lines.CHAINS.fullmatch(last), {}
    for row in rows:
        it = lines.CHAIN.fullmatch(row)
        if not it:
            raise Unreadable(f"this is no line of chains: {row}")
        several = [
            (lines.number(it[key]), lines.number(it[f"{key}_deadline"]), Verdict(it[f"{key}_verdict"]))
            for key in ("reaction", "age", "held")
            if it[key]
        ]
        found[it["name"]] = JudgedChain(it["name"], int(it["tasks"]), *sum(several, ()), tick=tick)
    if not summary:
        raise Unreadable("there are no whole chains; the last line begins with summary")
    return ChainsReport(found, int(summary[2]), int(summary[3]))


def waits_of(kinds: Sequence[str]) -> dict[str, list[int]]:
    """The places of the steps whose waits each bound of a chain counts, by the kinds of its steps. Data is held as long
    as a reaction takes; an age lacks the last wait, unless a merge comes behind it."""
    waits = [place for place, kind in enumerate(kinds) if kind in ("first", "register", "above")]
    return {"reaction": waits, "age": waits if "merge" in kinds[waits[-1] :] else waits[:-1], "held": waits}


def ticks_between(kinds: Sequence[str]) -> dict[str, int]:
    """How many ticks each bound of a chain lacks for times between ticks: one for each wait that it counts."""
    return {what: len(waits) for what, waits in waits_of(kinds).items()}


def kinds_of(tasks: Sequence[str], starts: Mapping[str, str | list[str]]) -> list[str]:
    """The kinds of a chain's steps, by what starts each task."""
    kinds = ["first"]
    for before, name in pairwise(tasks):
        after = starts.get(name, [])
        several = [after] if isinstance(after, str) else after
        kinds.append("register" if before not in several else "activation" if len(several) == 1 else "merge")
    return kinds


def more(ticks: int | None, count: int) -> int | None:
    return None if ticks is None else ticks + count


def between_ticks(report: ChainReport) -> ChainReport:
    """The bounds of a chain for times between ticks too: a wait is a tick less than the time from one event to the
    next, since in whole ticks no other can be missed, and between ticks it is up to all of that time."""
    steps = tuple(replace(it, wait=more(it.wait, 1)) for it in report.steps)
    lacks = ticks_between([step.kind for step in steps])
    return replace(
        report,
        steps=steps,
        reaction=more(report.reaction, lacks["reaction"]),
        age=more(report.age, lacks["age"]),
        held=more(report.held, lacks["held"]),
    )


def verdict_of(bound: int | None, deadline: int | None, verdict: Verdict) -> Verdict:
    """The verdict on a bound that has grown."""
    is_late = None not in (bound, deadline) and bound > deadline  # type: ignore[operator]
    return Verdict.MISSED if is_late else verdict


def judged_between_ticks(
    report: ChainsReport,
    tasks: Mapping[str, Sequence[str]],
    starts: Mapping[str, str | list[str]],
    is_off: bool = False,
) -> ChainsReport:
    """Judged chains for times between ticks too, by the tasks of each and what starts them; `is_off` where the
    deadlines have these ticks less already, which they get back then."""
    found = {}
    for name, it in report.chains.items():
        lacks, keys = ticks_between(kinds_of(tasks[name], starts)), dict[str, Any]()
        for what, count in lacks.items():
            bound, deadline = more(getattr(it, what), count), getattr(it, f"{what}_deadline")
            deadline = more(deadline, count) if is_off else deadline
            keys |= {what: bound, f"{what}_deadline": deadline}
            keys[f"{what}_verdict"] = verdict_of(bound, deadline, getattr(it, f"{what}_verdict"))
        found[name] = replace(it, **keys)
    missed = sum(Verdict.MISSED in (it.reaction_verdict, it.age_verdict, it.held_verdict) for it in found.values())
    return ChainsReport(found, report.overloads, missed)
