"""What is met, missed and without a bound in a system: tasks, paths and chains together, with one verdict and one
status.

    >>> from lokwurmi import System, Verdicts
    >>> system = System()
    >>> cpu = system.preemptive("cpu")
    >>> a = system.task("a", on=cpu, after=system.source("s", period=10), best=1, worst=3, priority=1)
    >>> late = system.path("late", [a], deadline=2)
    >>> found = Verdicts(system.analyse())
    >>> found.status, [(it.name, it.bound, it.slack) for it in found.missed]
    (1, [('late', 3, -1)])
"""
import csv
import io
from collections import Counter
from collections.abc import Iterable, Sequence
from dataclasses import dataclass
from typing import Any, ClassVar

from lokwurmi.model.units import Time
from lokwurmi.results.effect_chains import ChainsReport, JudgedChain
from lokwurmi.results.reports import Report, Timed, Verdict, worst_of

PREMISE = "if sources stay near"
"""What the bounds and verdicts of chains presume, as the program writes it."""
PREMISE_WORDS = (
    f"bounds and verdicts of chains hold {PREMISE}: a source that falls silent, or whose events come farther apart than"
    " its period and jitter say, voids them, unless it is sporadic"
)
CLOCK_PREMISE = "if sources on a clock keep their distances"
"""What the bounds of tasks whose streams share a clock presume."""
CLOCK_WORDS = (
    f"bounds of tasks whose streams share a clock hold {CLOCK_PREMISE}: a node that restarts, a clock that drifts"
    " against others and frames that are sent on events void them"
)
KINDS = ("task", "path", "chain")
OF_CHAINS = ("reaction", "age", "held")
STATUSES = {Verdict.MET: 0, Verdict.MISSED: 1, Verdict.OVERLOAD: 2}
COLUMNS = ("kind", "name", "what", "bound", "deadline", "slack", "verdict")
TIMES = ("bound", "deadline", "slack")


@dataclass(frozen=True, slots=True)
class Bound(Timed):
    """A bound of a task, a path or a chain, beside its deadline."""

    kind: str
    """`task`, `path` or `chain`."""
    name: str
    what: str
    """What is bounded: `response` of a task, `latency` of a path, and `reaction`, `age` or `held` of a chain."""
    bound: int | None
    """In ticks; None for `overload`: there is no bound."""
    deadline: int | None
    """In ticks; None where there is none. Tasks have none: that of a task is a path of it alone."""
    verdict: Verdict
    """MET, MISSED, UNKNOWN (no bound) or NONE (no deadline)."""
    main: ClassVar[str] = "bound"

    @property
    def slack(self) -> int | None:
        """The deadline less the bound, in ticks, which is negative where it is missed; None where one is lacking."""
        return None if self.bound is None or self.deadline is None else self.deadline - self.bound

    @property
    def key(self) -> tuple[str, str, str]:
        """By what it is found again in another version of the system."""
        return self.kind, self.name, self.what

    def time_text(self, what: str) -> str:
        """One of its numbers as a time; nothing where there is no number, or no tick."""
        return "" if self.tick is None or getattr(self, what) is None else str(self.time(what))

    def judged(self) -> dict[str, Any]:
        """The bound beside its deadline, for JSON; with a tick the times too."""
        numbers = {"bound": self.bound, "deadline": self.deadline, "slack": self.slack, "verdict": self.verdict.value}
        times = {f"{it}_time": self.time_text(it) or None for it in TIMES}
        return numbers if self.tick is None else numbers | times


def of_chain(it: JudgedChain) -> list[Bound]:
    """The bounds of a chain: what is held only where it has a deadline, as the program has it."""
    found = []
    for what in OF_CHAINS:
        bound, deadline, verdict = (getattr(it, f"{what}{more}") for more in ("", "_deadline", "_verdict"))
        if what != "held" or deadline is not None:
            found.append(Bound("chain", it.name, what, bound, deadline, verdict, tick=it.tick))
    return found


def bounds_of(report: Report | None = None, chains: ChainsReport | None = None) -> list[Bound]:
    """All bounds of a report, of judged chains, or of both, in their order."""
    found: list[Bound] = []
    if report is not None:
        for task in report.tasks.values():
            found.append(Bound("task", task.name, "response", task.worst, None, Verdict.NONE, tick=report.tick))
        for path in report.paths.values():
            numbers = path.worst, path.deadline, path.verdict
            found.append(Bound("path", path.name, "latency", *numbers, tick=report.tick))
    for chain in chains.chains.values() if chains is not None else ():
        found += of_chain(chain)
    return found


def csv_text(head: Sequence[str], rows: Iterable[Sequence[Any]]) -> str:
    """A table as comma-separated values, which a spreadsheet opens."""
    it = io.StringIO()
    writer = csv.writer(it, lineterminator="\n")
    writer.writerow(head)
    writer.writerows(rows)
    return it.getvalue()


def premise_of(kind: str) -> str:
    """What a bound of a kind presumes beside that the run obeys the system; nothing of tasks and paths."""
    return PREMISE if kind == "chain" else ""


def deadline_counts(bounds: Iterable[Bound]) -> dict[str, int]:
    """How many deadlines there are, and how many of them are met, missed and unknown."""
    found = Counter(it.verdict.value for it in bounds if it.deadline is not None)
    return {"deadlines": found.total(), **{it: found[it] for it in ("met", "missed", "unknown")}}


class Verdicts:
    """The verdicts on a system: those of its report, and of its chains where they were judged."""

    __slots__ = ("report", "chains", "bounds")

    def __init__(self, report: Report, chains: ChainsReport | None = None):
        self.report, self.chains = report, chains
        self.bounds = bounds_of(report, chains)

    def __repr__(self) -> str:
        return f"Verdicts({len(self.bounds)} bounds, {self.verdict.value})"

    @property
    def tick(self) -> Time | None:
        """The time of a tick, where the report has one."""
        return self.report.tick

    @property
    def missed(self) -> list[Bound]:
        """What is above its deadline, the latest first."""
        return sorted((it for it in self.bounds if it.verdict is Verdict.MISSED), key=lambda it: it.slack or 0)

    @property
    def unbounded(self) -> list[Bound]:
        """What has no bound."""
        return [it for it in self.bounds if it.bound is None]

    @property
    def verdict(self) -> Verdict:
        """OVERLOAD where something has no bound, else MISSED where a deadline is missed, else MET."""
        return worst_of(len(self.unbounded), len(self.missed))

    @property
    def status(self) -> int:
        """0 where all is met, 1 where a deadline is missed, 2 where a bound is lacking: as that of `lokwurmi
        analyse`."""
        return STATUSES[self.verdict]

    def of_kind(self, kind: str) -> list[Bound]:
        """The bounds of a kind."""
        return [it for it in self.bounds if it.kind == kind]

    @property
    def counts(self) -> dict[str, dict[str, int]]:
        """Of tasks, paths, chains, and in all: how many there are, how many lack a bound, and their deadlines."""
        found = {}
        for kind in KINDS:
            several = self.of_kind(kind)
            names = {it.name for it in several}
            lacking = {it.name for it in several if it.bound is None}
            found[f"{kind}s"] = {"count": len(names), "overload": len(lacking)} | deadline_counts(several)
        keys = found["tasks"]
        return found | {"all": {key: sum(it[key] for it in found.values()) for key in keys}}

    def to_dict(self) -> dict[str, Any]:
        """All of it, for JSON: docs/lokwurmi.verdict.schema.json says what each key means."""
        by_key = {it.key: it.judged() for it in self.bounds}
        tasks = [
            {key: getattr(it, key) for key in ("name", "on", "best", "streams", "period", "jitter", "distance")}
            | by_key["task", it.name, "response"]
            for it in self.report.tasks.values()
        ]
        paths = [
            {"name": it.name, "best": it.best} | by_key["path", it.name, "latency"] for it in self.report.paths.values()
        ]
        chains = [
            {"name": it.name, "tasks": it.tasks} | {what: by_key.get(("chain", it.name, what)) for what in OF_CHAINS}
            for it in (self.chains.chains.values() if self.chains is not None else ())
        ]
        return {
            "format": 1,
            "verdict": self.verdict.value,
            "status": self.status,
            "tick": None if self.tick is None else str(self.tick),
            "premise": None if self.chains is None else PREMISE,
            "counts": self.counts,
            "tasks": tasks,
            "paths": paths,
            "chains": chains,
        }

    def to_csv(self) -> str:
        """A row for each bound, under a row of heads; `overload` stands where there is no bound, and times where there
        is a tick."""
        rows = []
        for it in self.bounds:
            bound = "overload" if it.bound is None else it.bound
            row = [it.kind, it.name, it.what, bound, it.deadline, it.slack, it.verdict.value]
            rows.append([*row, *map(it.time_text, TIMES), premise_of(it.kind)])
        return csv_text([*COLUMNS, *(f"{it}_time" for it in TIMES), "premise"], rows)
