"""Priorities on all resources of a system under which all deadlines are met: the search for them."""
import os
import random
import time
from collections.abc import Callable, Iterator, Sequence
from dataclasses import dataclass
from typing import Any, NamedTuple

from lokwurmi.model.event_models import Bounds, Stream, inputs_of
from lokwurmi.model.formats import FORMATS
from lokwurmi.model.limits import DEFAULT_REGION, MOST_ENTRIES, MOST_PRIORITY, MOST_TICKS
from lokwurmi.model.view import SystemView
from lokwurmi.results import reports
from lokwurmi.results.reports import Report, Verdict
from lokwurmi.results.verdicts import Bound
from lokwurmi_tools.bounds.chain_parts import ChainSums
from lokwurmi_tools.bounds.explained import Explained
from lokwurmi_tools.search.chain_goals import ChainGoals, name_of
from lokwurmi_tools.search.edit_trials import Trial, reports_after
from lokwurmi_tools.shared.analysed import Analysed
from lokwurmi_tools.shared.faults import OwnFault
from lokwurmi_tools.shared.program import written_by
from lokwurmi_tools.shared.progress import Progress
from lokwurmi_tools.shared.report import bounds_in, reports_in
from lokwurmi_tools.shared.system_text import toml_of
from lokwurmi_tools.shared.tables import numbered
from lokwurmi_tools.shared.types import Values
from lokwurmi_tools.shared.written_entries import put

# how much parts of deadlines are moved in a round, one after the other, how many exchanges are tried at a time, and how
# many looks at windows a round may take
FACTORS, MOST_EXCHANGES, MOST_LOOKS = (1.5, 3.0, 1.2), 60, 2_000_000
# the tasks of each resource, the most urgent first
Order = dict[str, list[str]]


@dataclass(frozen=True, slots=True)
class PriorityOptions:
    """How long is searched: so many rounds of each kind, so many restarts, and so many seconds at most; by a seed. The
    edits that make the order go into the file `script`."""

    rounds: int = 20
    restarts: int = 4
    seconds: float | None = None
    seed: int = 1
    script: str | None = None


class Aim(NamedTuple):
    """What some tasks have a deadline for together: that of a path, or that of a chain less what it waits for jobs."""

    name: str
    tasks: tuple[str, ...]
    deadline: int


class OrderVerdict:
    """What a report says of an order, and its chains, where they count."""

    def __init__(self, report: Report, chains: Sequence[Bound] = ()):
        self.report, self.chains, paths = report, chains, report.paths
        self.over = [it.name for it in report.tasks.values() if it.overload]
        judged = [(it.name, it.worst, it.deadline, it.verdict) for it in paths.values()]
        judged += [(name_of(it), it.bound, it.deadline, it.verdict) for it in chains]
        verdicts = {name: verdict for name, _, _, verdict in judged}
        limits = {name: (worst, limit) for name, worst, limit, _ in judged if limit and worst is not None}
        self.late = {name: limits[name][0] - limits[name][1] for name, it in verdicts.items() if it is Verdict.MISSED}
        self.unknown = [name for name, it in verdicts.items() if it is Verdict.UNKNOWN]
        # fewer without a bound first, and then less that is late; to the full, so that a search sees each gain
        late = sum(ticks / limits[name][1] for name, ticks in self.late.items())
        tight = max((worst / limit for worst, limit in limits.values()), default=0)
        self.cost: tuple[int, float, float] = (len(self.over) + len(self.unknown), late, tight)
        self.holds = not self.over and not self.late and not self.unknown

    def is_late(self, name: str) -> bool:
        """Whether a path, or a bound of a chain, is late or isn't there."""
        return name in self.late or name in self.unknown

    def told(self) -> str:
        # a chain may lack a bound though each task has one
        lacking = self.over or self.unknown
        words = [f"{len(lacking)} without a bound"] if lacking else []
        latest = sorted(self.late.items(), key=lambda it: -it[1])
        words += [f"{name} misses its deadline by {ticks}" for name, ticks in latest[:4]]
        return ", ".join(words) + (f" and {len(latest) - 4} more" if len(latest) > 4 else "") or "all deadlines are met"


def cost_of(found: tuple[Any, OrderVerdict, str]) -> tuple[int, float, float]:
    """What an order that was found costs."""
    return found[1].cost


def write(file: str, text: str) -> str:
    put(text, file)
    return file


class PrioritySearch:
    """The orders of a system's resources, what is known of them, and the best of them; `room` is a folder for files.
    With `chains` the deadlines of chains count too."""

    def __init__(self, known: Analysed, options: PriorityOptions, room: str, chains: ChainGoals | None = None):
        self.known, self.view, self.options, self.room, self.chains = known, known.view, options, room, chains
        self.draw, self.looked = random.Random(options.seed), 0
        self.until = None if options.seconds is None else time.monotonic() + options.seconds
        self.progress = Progress("lokwurmi optimise")
        ranked = [name for name, it in self.view.resources.items() if it.has_priorities]
        self.given: Order = {name: self.view.ranked(name) for name in ranked}
        self.numbers = {on: [self.view.tasks[it].rank for it in order] for on, order in self.given.items()}
        self.seen: dict[tuple[tuple[str, ...], ...], OrderVerdict] = {}
        self.aims = [*self.aims_of_paths(), *self.aims_of_chains()]
        # nothing is known before the first look
        self.first: Any = None
        self.best: Any = None
        self.best_verdict: Any = None
        self.how = ""

    def aims_of_paths(self) -> list[Aim]:
        return [Aim(it.name, it.tasks, it.deadline) for it in self.view.paths.values() if it.deadline is not None]

    def aims_of_chains(self) -> list[Aim]:
        """What chains leave to responses: their deadlines less their waits, where no response varies."""
        if not self.chains:
            return []
        # a number that is asked for here is no bound: the waits are those of no jitter behind tasks
        least, found = ChainSums(self.view, {name: it.best for name, it in self.view.tasks.items()}), []
        for it in self.chains.now:
            tasks = tuple(self.chains.tasks[it.name])
            waits = (least.total(tasks, it.what) or 0) - sum(self.view.tasks[name].best for name in tasks)
            found.append(Aim(name_of(it), tasks, max(1, (it.deadline or 0) - waits)))
        return found

    def verdict(self, report: Report) -> OrderVerdict:
        """What there is to say of an order, by its report: priorities are nothing that a chain waits for."""
        return OrderVerdict(report, self.chains.judged(self.view, bounds_in(report)) if self.chains else ())

    def silences(self) -> list[str]:
        """Which deadlines of chains no order meets, since a task waits for a sporadic source."""
        return self.chains.silences() if self.chains else []

    def has_orders(self) -> bool:
        """Whether two tasks of some resource have priorities: then these may change places."""
        return any(len(names) > 1 for names in self.given.values())

    def is_over(self) -> bool:
        return self.until is not None and time.monotonic() > self.until

    def numbered(self, order: Order) -> dict[str, int]:
        """The priority of each task in an order."""
        return {name: number for on, names in order.items() for name, number in zip(names, self.numbers[on])}

    def ordered(self, order: Order) -> SystemView:
        """The system with an order of each resource."""
        return self.view.with_keys("task", {name: {"priority": it} for name, it in self.numbered(order).items()})

    def with_order(self, order: Order) -> str:
        """Its file."""
        return toml_of(self.ordered(order).values)

    def look(self, order: Order, how: str) -> OrderVerdict:
        """What the program says of an order, which is kept where it is the best so far."""
        key = tuple(tuple(names) for names in order.values())
        if key not in self.seen:
            file = write(os.path.join(self.room, "order.toml"), self.with_order(order))
            self.seen[key] = self.verdict(reports_in(written_by(self.known.direct, "analyse", file), file)[-1])
            self.looked += 1
            self.first = self.first or self.seen[key]
        return self.keep(order, self.seen[key], how)

    def keep(self, order: Order, verdict: OrderVerdict, how: str) -> OrderVerdict:
        if self.best is None or verdict.cost < self.best_verdict.cost:
            self.best, self.best_verdict, self.how = {on: list(it) for on, it in order.items()}, verdict, how
        looked = numbered(self.looked, "order")
        self.progress.show(f"{looked}, {how}; the best so far: {self.best_verdict.told()}")
        return verdict

    def sorted_by(self, key: Callable[[str], Any]) -> Order:
        return {on: sorted(names, key=key) for on, names in self.given.items()}

    def deadline(self, name: str) -> tuple[int, int]:
        """The least deadline of the paths and chains of a task; a task without one comes after all others, by its
        period."""
        several = [it.deadline for it in self.aims if name in it.tasks]
        return (0, min(several)) if several else (1, self.view.shortest_period(name))

    def starts(self) -> Iterator[tuple[str, Order]]:
        yield "the order of the file", self.given
        yield "rising deadlines", self.sorted_by(self.deadline)
        yield "rising periods", self.sorted_by(lambda it: (self.view.shortest_period(it), self.deadline(it)))

    def shared(self, weights: dict[str, float]) -> dict[str, float]:
        """Parts of the deadlines for the tasks, by weights."""
        parts: dict[str, float] = {}
        for it in self.aims:
            whole = sum(weights[name] for name in it.tasks)
            for name in it.tasks:
                parts[name] = min(parts.get(name, float("inf")), it.deadline * weights[name] / whole)
        return parts

    def assigned(self, parts: dict[str, float], bounds: Bounds) -> Order:
        """An order of each resource by `assign`, with the parts as deadlines and the streams of the last report; by
        rising parts where there is none."""
        order = self.sorted_by(lambda it: (0, parts[it]) if it in parts else (1, self.view.shortest_period(it)))
        streams = inputs_of(self.view, bounds)
        # what has no bound is asked for as if it varied by nothing
        steady = inputs_of(self.view, {name: it.best for name, it in self.view.tasks.items()})
        for on, names in order.items():
            one = self.alone(on, names, parts, {name: streams[name] or steady[name] or [] for name in names})
            if any(len(one[part]) > MOST_ENTRIES[part] for part in ("source", "path")):
                continue
            file = write(os.path.join(self.room, "one.toml"), toml_of(one))
            if found := reports.order(written_by(self.known.direct, "assign", file, on)):
                order[on] = list(found)
        return order

    def alone(self, on: str, names: list[str], parts: dict[str, float], streams: dict[str, list[Stream]]) -> Values:
        """A resource alone: its tasks with their streams as sources and their parts as deadlines. The least urgent one
        stands first, and so comes as low as it may."""
        sources: list[Values] = []
        tasks: list[Values] = []
        for name in reversed(names):
            after = [f"s.{len(sources) + k}" for k in range(len(streams[name]))]
            for source, (period, jitter, distance) in zip(after, streams[name]):
                model = {"period": period, "jitter": min(jitter, MOST_TICKS), "distance": min(distance, period)}
                sources.append({"name": source} | model)
            task = self.view.tasks[name]
            numbers: Values = {"best": task.best, "worst": task.worst, "priority": len(tasks)}
            if task.region != DEFAULT_REGION:
                numbers["region"] = task.region
            if task.locks:
                numbers["locks"] = [{"name": it.name, "start": it.start, "length": it.length} for it in task.locks]
            tasks.append({"name": name, "on": on, "after": after} | numbers)
        limits = {it: max(1, min(MOST_TICKS, int(parts[it]))) for it in reversed(names) if it in parts}
        paths = [{"name": f"p.{k}", "tasks": [it], "deadline": limits[it]} for k, it in enumerate(limits)]
        resource = [it for it in self.view.values["resource"] if it["name"] == on]
        return {"format": FORMATS[-1], "resource": resource, "source": sources, "task": tasks, "path": paths}

    def rounds(self, count: int) -> None:
        """Parts of deadlines that move to where time is missing."""
        weights = {name: float(it.worst) for name, it in self.view.tasks.items()}
        for factor in FACTORS:
            parts = self.shared(weights)
            bounds = bounds_in(self.best_verdict.report)
            for number in range(count):
                if self.is_over():
                    return
                verdict = self.look(self.assigned(parts, bounds), f"parts of deadlines, round {number + 1}")
                if verdict.holds:
                    return
                bounds = bounds_in(verdict.report)
                parts = self.shared(self.moved(parts, verdict, factor))

    def excess(self, bound: dict[str, int]) -> dict[str, float]:
        """By how much each task's share of a late path or chain is too long, that of its latest."""
        found: dict[str, float] = {}
        for it in self.aims:
            whole = sum(bound[name] for name in it.tasks)
            late = (whole - it.deadline) / it.deadline
            for name in it.tasks:
                found[name] = max(found.get(name, float("-inf")), late * bound[name] / whole)
        return found

    def moved(self, parts: dict[str, float], verdict: OrderVerdict, factor: float) -> dict[str, float]:
        """New weights: more for a task that takes more than its part, and the more the later its paths are."""
        limit = max(map(self.view.limit, self.view.tasks), default=1)
        found = bounds_in(verdict.report)
        excess = self.excess({name: limit if it is None else it for name, it in found.items()})
        most = max((abs(it) for it in excess.values()), default=0) or 1
        of = {on: sum(excess.get(name, 0) for name in names) for on, names in self.given.items()}
        most_of = max((abs(it) for it in of.values()), default=0) or 1

        def weight(name: str) -> float:
            mine = 1 + excess.get(name, 0) / (factor * most)
            ours = 1 + of.get(self.view.tasks[name].on, 0) / (factor * most_of)
            return max(1e-9, parts.get(name, 1.0) * mine * ours)

        return {name: weight(name) for name in self.view.tasks}

    def above(self, name: str) -> list[str]:
        """The tasks before one in the best order of its resource."""
        names: list[str] = self.best.get(self.view.tasks[name].on, [name])
        return names[: names.index(name)]

    def worth(self) -> dict[tuple[str, str], int]:
        """Pairs of a task and one that waits for it, and how long: those of late paths and chains, or of the tightest
        one."""
        verdict: OrderVerdict = self.best_verdict
        explained = Explained(self.ordered(self.best), verdict.report, MOST_LOOKS)
        found: dict[tuple[str, str], int] = {}
        ways = {name: it.tasks for name, it in self.view.paths.items()} | {it.name: it.tasks for it in self.aims}
        for name in sorted(ways, key=lambda it: -verdict.late.get(it, 0)):
            if found and not verdict.is_late(name):
                continue
            for task in ways[name]:
                parts = explained.task(task).get("parts", ())
                waits = {it["of"]: it["ticks"] for it in parts if it["kind"] == "rival"}
                for rival in self.above(task):
                    found[rival, task] = max(found.get((rival, task), 0), waits.get(rival, 1))
        for name in verdict.over:
            for rival in self.above(name):
                found.setdefault((rival, name), 1)
        return found

    def exchanges(self) -> list[tuple[str, str]]:
        """Pairs of tasks of one resource whose priorities might be exchanged, those first that help most what is late,
        and some at random."""
        worth = self.worth()
        pairs = sorted(worth, key=lambda it: -worth[it])[: MOST_EXCHANGES * 3 // 4]
        wide = [on for on, names in self.best.items() if len(names) > 1]
        for _ in range(MOST_EXCHANGES - len(pairs) if wide else 0):
            one, other = self.draw.sample(self.best[self.draw.choice(wide)], 2)
            pairs.append((one, other))
        return list(dict.fromkeys(pairs))

    def exchange(self, rounds: int) -> None:
        """Exchanges of two priorities, each tried alone in one session; the best is made, as long as one is better than
        before."""
        for number in range(rounds):
            if self.is_over() or self.best_verdict.holds or not self.exchanged(f"exchanges, round {number + 1}"):
                return

    def exchanged(self, how: str) -> bool:
        """Whether an exchange is better than the best order."""
        pairs, order, before = self.exchanges(), self.best, self.best_verdict.cost
        file = write(os.path.join(self.room, "best.toml"), self.with_order(order))
        now = reports_in(written_by(self.known.direct, "analyse", file), file)[-1]
        trials = [Trial([f"swap {a} {b}"], [f"swap {a} {b}"]) for a, b in pairs]
        for (a, b), report in zip(pairs, reports_after(self.known.direct, file, trials, now) if pairs else []):
            self.looked, turn = self.looked + 1, {a: b, b: a}
            verdict = self.verdict(report)
            if verdict.cost < self.best_verdict.cost:
                self.keep({on: [turn.get(it, it) for it in names] for on, names in order.items()}, verdict, how)
        return bool(self.best_verdict.cost < before)

    def disturbed(self, order: Order) -> Order:
        """An order with some tasks elsewhere."""
        found = {on: list(names) for on, names in order.items()}
        for names in (it for it in found.values() if it):
            for _ in range(1 + len(names) // 4):
                names.insert(self.draw.randrange(len(names)), names.pop(self.draw.randrange(len(names))))
        return found

    def restart(self, count: int, rounds: int) -> None:
        """Exchanges that begin anew from a disturbed order, so many times."""
        best: tuple[Any, Any, str] = self.best, self.best_verdict, self.how
        try:
            for _ in range(count):
                if self.best_verdict.holds or self.is_over():
                    break
                self.best = None
                self.look(self.disturbed(best[0]), "a disturbed order")
                self.exchange(rounds)
                best = min(best, (self.best, self.best_verdict, self.how), key=cost_of)
        finally:
            self.best, self.best_verdict, self.how = best

    def script(self) -> list[str]:
        """The edits that make the best order of the file's: each priority is moved out of the way first."""
        numbers = self.numbered(self.best)
        changed = {name: number for name, number in numbers.items() if self.view.tasks[name].priority != number}
        free = (it for it in range(MOST_PRIORITY, 0, -1) if it not in set(numbers.values()))
        aside = [f"priority {name} {next(free)}" for name in changed]
        return aside + [f"priority {name} {number}" for name, number in changed.items()]

    def changed(self) -> Order:
        """The orders that aren't those of the file."""
        return {on: names for on, names in self.best.items() if names != self.given[on]}

    def run(self) -> None:
        """Goes through all that is known, until an order holds; where none can, only that of the file is looked at."""
        if self.view.overloaded() or self.silences() or not self.has_orders():
            self.look(self.given, "the order of the file")
            return
        for how, order in self.starts():
            if self.look(order, how).holds:
                return
        self.rounds(self.options.rounds)
        self.exchange(self.options.rounds)
        self.restart(self.options.restarts, self.options.rounds)

    def confirmed(self) -> OrderVerdict:
        """What the program says of the edits that make the best order of the file's."""
        text = "".join(line + "\n" for line in self.script())
        script = write(self.options.script or os.path.join(self.room, "found.script"), text)
        told = written_by(self.known.direct, "session", self.known.file, script)
        verdict = self.verdict(reports_in(told, "lokwurmi session")[-1])
        if self.chains:
            self.chains.compare(list(verdict.chains), self.chains.by_program(self.with_order(self.best)))
        if verdict.report.text != self.best_verdict.report.text:
            raise OwnFault("the edits don't make the order that was found")
        return verdict
