"""A system whose numbers move, and what the program says of it then: for the search for how far each may."""
import tempfile
from collections.abc import Sequence
from typing import NamedTuple

from lokwurmi.model.limits import MOST_TICKS, WITH_REGIONS
from lokwurmi.model.view import SystemView
from lokwurmi.results.reports import Report, Verdict
from lokwurmi.results.verdicts import Bound
from lokwurmi_tools.search.chain_goals import ChainGoals, failing
from lokwurmi_tools.search.chain_goals import name_of as name_of_chain
from lokwurmi_tools.search.edit_trials import Trial, reports_after
from lokwurmi_tools.shared.analysed import Analysed
from lokwurmi_tools.shared.program import written_by
from lokwurmi_tools.shared.report import bounds_in, reports_in
from lokwurmi_tools.shared.system_text import toml_of

# by what nothing gets better as a number of each kind moves on
LAWS = {
    "execution": "IsRaising and RaisingLiftsLeast of cpa_local; of deadlines alone LessHolds of cpa_slack",
    "period": "IsStreamNoDenser of cpa_events, IsRaising and RaisingLiftsLeast of cpa_local",
    "longer-period": "none: chains wait longer, and bounds may fall; that no value between fails is argued",
    "jitter": "IsStreamNoDenser of cpa_events, IsRaising and RaisingLiftsLeast of cpa_local",
    "speed": "IsRaising and RaisingLiftsLeast of cpa_local; that more thousandths are no fewer ticks is argued",
    "region": "IsRaising and RaisingLiftsLeast of cpa_local",
    "section": "IsRaising and RaisingLiftsLeast of cpa_local",
    "offset": "none: it goes by stretches. With as much more jitter a source has each offset of one, which is argued",
    "deadline": "no search: no bound depends on a deadline",
}
KINDS = tuple(LAWS)
# the kinds by which a chain may wait less while bounds rise, or more while they fall
PERIODS = ("period", "longer-period")
# the kinds that no edit moves
IN_FILES = ("region", "section")
# the speed of a resource moves by thousandths
PARTS = 1000


class Number(NamedTuple):
    """A number that may move: by up to `most` steps, of which the first guess is how many may hold. An offset moves
    later, or earlier."""

    kind: str
    name: str
    value: int
    most: int
    guess: int
    is_earlier: bool = False


class Probe(NamedTuple):
    """A number that is moved by so many steps; of an offset by all up to so many more."""

    number: Number
    steps: int
    more: int = 0


class Answer(NamedTuple):
    """How many steps hold, whether there are more that could be taken, and what comes first beyond them."""

    steps: int
    ends: bool
    first: list[str]


class TrialReport:
    """What a report says of whether all holds: which paths miss, which tasks have no bound, and which chains are
    late."""

    def __init__(self, report: Report, goals: dict[str, int], deadlines: bool, judged: Sequence[Bound] = ()):
        self.report, self.goals, self.deadlines, self.judged = report, goals, deadlines, judged
        self.late = failing(judged)

    def holds(self) -> bool:
        return not self.late and self.holds_without_chains()

    def holds_without_chains(self) -> bool:
        if self.goals:
            return not self.first_without_chains()
        if self.deadlines:
            return not any(it.verdict in (Verdict.MISSED, Verdict.UNKNOWN) for it in self.report.paths.values())
        return self.report.ok

    def first(self) -> list[str]:
        """What doesn't hold."""
        return self.first_without_chains() + [name_of_chain(it) for it in self.late]

    def first_without_chains(self) -> list[str]:
        missed = []
        for it in self.report.paths.values():
            deadline = self.goals.get(it.name, it.deadline)
            if deadline is not None and (it.worst is None or it.worst > deadline):
                missed.append(f"path {it.name}")
        endless = [f"task {it.name}" for it in self.report.tasks.values() if it.overload]
        return missed + ([] if self.deadlines else endless)


# by how many steps a number is moved, and what is known of the system then
Moved = tuple[int, TrialReport]


def least_of(most: int, rooms: Sequence[int | None]) -> int:
    """The least of some rooms, where there are any, and of the most."""
    return min([most, *(it for it in rooms if it is not None)])


def longer_sections(view: SystemView) -> dict[str, tuple[str, int, int]]:
    """The critical sections that may be longer and then hold up another task, by a name: the task, the place among its
    sections, and by how much. None is longer than its job, reaches into another section, or out of one."""
    found: dict[str, tuple[str, int, int]] = {}
    for name, task in view.tasks.items():
        for place, it in enumerate(task.locks):
            others = [one for at, one in enumerate(task.locks) if at != place]
            ends = [one.end for one in others if one.start <= it.start and it.end <= one.end]
            ends += [one.start for one in others if it.end <= one.start]
            most = min([task.worst - it.length, *(end - it.end for end in ends)])
            holds_up = any(view.ceiling(task.on, it.name) <= view.tasks[one].rank for one in view.rivals(name))
            if holds_up and most > 0:
                starts = [one.start for one in task.locks if one.name == it.name]
                which = f" from {it.start}" * (len(starts) > 1) + f" to {it.end}" * (starts.count(it.start) > 1)
                found[f"{name} with {it.name}{which}"] = (name, place, most)
    return found


class MarginQuestion:
    """A system, and what has to hold of it: `goals` are deadlines of paths in ticks besides those of the file, and with
    `deadlines` deadlines alone count; with `chains` those of chains too."""

    def __init__(self, known: Analysed, goals: dict[str, int], deadlines: bool, chains: ChainGoals | None = None):
        self.known, self.view, self.goals, self.deadlines = known, known.view, goals, deadlines
        self.chains = chains
        self.calls = self.probes = 0
        self.sections = longer_sections(known.view)

    def now(self) -> "TrialReport":
        """What holds of the system as it is."""
        return TrialReport(self.known.report, self.goals, self.deadlines, self.chains.now if self.chains else ())

    def limits(self) -> dict[str, int]:
        """The deadline in ticks of each path that has one, in the file or as a goal."""
        found = {name: self.goals.get(name, it.deadline) for name, it in self.known.report.paths.items()}
        return {name: ticks for name, ticks in found.items() if ticks is not None}

    def room(self, name: str) -> int | None:
        """What the tightest path through a task has left; it grows by at least a tick with each tick of the
        execution."""
        limits, found = self.limits(), self.known.report.paths
        several = [limits[path] - (found[path].worst or 0) for path in self.view.paths_over(name) if path in limits]
        return min(several, default=None)

    def numbers(self, kinds: tuple[str, ...]) -> list[Number]:
        """What may move, but for deadlines."""
        found = [self.number_of_task(name) for name in self.view.tasks]
        for name, it in self.view.sources.items():
            if it.clock is None:
                # with another period the cycle of a clock is another, and bounds may move to both sides
                found.append(Number("period", name, it.period, it.period - 1, it.period // 4))
            most = MOST_TICKS - it.jitter
            found.append(Number("jitter", name, it.jitter, most, min(most, it.period // 2)))
        found += self.offsets()
        for name in self.steady_sources():
            period, most = self.view.sources[name].period, MOST_TICKS - self.view.sources[name].period
            found.append(Number("longer-period", name, period, most, min(most, period // 4)))
        for name in self.view.resources:
            worst = max((self.view.tasks[it].worst for it in self.view.on(name)), default=0)
            if worst:
                most = (self.view.limits.execution * PARTS) // worst - PARTS
                found.append(Number("speed", name, PARTS, most, min(most, PARTS // 4)))
        # a region of a tick is none: it moves where regions are asked for
        least = 2 if kinds == KINDS else 1
        found += [self.number_of_region(name) for name in self.view.tasks if self.has_region(name, least)]
        found += [self.number_of_section(name) for name in self.sections]
        return [it for it in found if it.kind in kinds]

    def kinds(self, kinds: tuple[str, ...]) -> set[str]:
        """Of some kinds those of which there is a number."""
        found = {it.kind for it in self.numbers(kinds)}
        return found | {"deadline"} if self.limits() or self.chains and self.chains.now else found

    def offsets(self) -> list[Number]:
        """The offsets on clocks that bounds use, each to both sides and round its period."""
        found = []
        for name in (it for clock in self.view.clocks_in_bounds for it in self.view.clocks[clock]):
            source = self.view.sources[name]
            found += [Number("offset", name, source.offset, source.period - 1, 0, it) for it in (False, True)]
        return found

    def steady_sources(self) -> list[str]:
        """The sources for which a chain waits, whose period may be longer: those on no clock."""
        return [it for it in sorted(self.chains.sources()) if not self.view.sources[it].clock] if self.chains else []

    def has_regions(self) -> bool:
        """Whether the file names a region."""
        return any("region" in it for it in self.view.values.get("task", []))

    def has_sections(self) -> bool:
        """Whether the file has critical sections."""
        return any(it.locks for it in self.view.tasks.values())

    def has_region(self, name: str, least: int) -> bool:
        """Whether a task has a region of so many ticks at least, which may be longer and then hold up another."""
        task, holds_up = self.view.tasks[name], self.view.kind(name) in WITH_REGIONS and self.view.rivals(name)
        return bool(holds_up) and not task.locks and least <= task.region < task.worst

    def number_of_region(self, name: str) -> Number:
        """A region as long as the greatest execution is never preempted, and a longer one says no more."""
        task = self.view.tasks[name]
        most, rooms = task.worst - task.region, [self.room(it) for it in self.view.rivals(name)]
        return Number("region", name, task.region, most, least_of(most, rooms))

    def number_of_section(self, name: str) -> Number:
        """A section that is longer by what there is behind it."""
        task, place, most = self.sections[name]
        rooms = [self.room(it) for it in self.view.rivals(task)]
        return Number("section", name, self.view.tasks[task].locks[place].length, most, least_of(most, rooms))

    def number_of_task(self, name: str) -> Number:
        worst, room = self.view.tasks[name].worst, self.room(name)
        most = self.view.limits.execution - worst
        return Number("execution", name, worst, most, min(most, worst if room is None else room))

    def edits(self, number: Number, steps: int, more: int = 0) -> list[str]:
        """The lines of a script that move a number by so many steps; none for what no edit moves. An offset that has
        so many more steps as well is the first of these, with as much more jitter."""
        if number.kind in IN_FILES:
            return []
        if number.kind == "offset":
            it = self.view.sources[number.name]
            offset = self.offset(number, steps + more if number.is_earlier else steps)
            return [f"offset {it.name} {offset}", f"source {it.name} {it.period} {it.jitter + more} {it.distance}"]
        if number.kind == "execution":
            return [f"exec {number.name} {self.view.tasks[number.name].best} {number.value + steps}"]
        if number.kind == "speed":
            return [self.slowed(name, PARTS + steps) for name in self.view.on(number.name)]
        return [f"source {number.name} {' '.join(map(str, self.model(number, steps)))}"]

    def offset(self, number: Number, steps: int) -> int:
        """An offset that has moved by so many steps, round the period of its source."""
        return (number.value + (-steps if number.is_earlier else steps)) % self.view.sources[number.name].period

    def model(self, number: Number, steps: int) -> tuple[int, int, int]:
        """The period, the jitter and the distance of a source whose period or jitter has moved."""
        it = self.view.sources[number.name]
        by = {"period": (-steps, 0), "longer-period": (steps, 0), "jitter": (0, steps)}[number.kind]
        period = it.period + by[0]
        # no distance is above its period
        return period, it.jitter + by[1], min(it.distance, period)

    def moved(self, number: Number, steps: int) -> SystemView:
        """The system with a number moved, for what chains wait for: these know of executions by bounds alone."""
        if number.kind not in (*PERIODS, "jitter") or not steps:
            return self.view
        keys = dict(zip(("period", "jitter", "distance"), self.model(number, steps)))
        return self.view.with_keys("source", {number.name: keys})

    def file_of(self, number: Number, steps: int) -> str:
        """The file of the system with a number moved."""
        if number.kind == "region":
            return toml_of(self.view.with_keys("task", {number.name: {"region": number.value + steps}}).values)
        if number.kind == "section":
            return toml_of(self.lengthened(number, steps).values)
        if number.kind in (*PERIODS, "jitter"):
            return toml_of(self.moved(number, steps).values)
        if number.kind == "offset":
            return toml_of(self.view.with_keys("source", {number.name: {"offset": self.offset(number, steps)}}).values)
        words = [it.split() for it in self.edits(number, steps)]
        longer = {name: {"best": int(best), "worst": int(worst)} for _, name, best, worst in words}
        # of a frame by its payload the edit sets executions in place of that
        frame = ("payload", "extended")
        tasks = [
            {key: value for key, value in it.items() if key not in frame} | longer[it["name"]]
            if it["name"] in longer
            else it
            for it in self.view.values.get("task", [])
        ]
        return toml_of({**self.view.values, "task": tasks})

    def lengthened(self, number: Number, steps: int) -> SystemView:
        """The system with a critical section that is longer."""
        task, place, _ = self.sections[number.name]
        rows = self.view.tasks[task].locks
        locks = [{"name": it.name, "start": it.start, "length": it.length} for it in rows]
        locks[place]["length"] = number.value + steps
        return self.view.with_keys("task", {task: {"locks": locks}})

    def slowed(self, name: str, parts: int) -> str:
        """The edit by which a task takes so many thousandths of its greatest execution."""
        best, worst = self.view.executions(name)
        return f"exec {name} {best} {-(-worst * parts // PARTS)}"

    def asked(self, probes: list[Probe]) -> list[TrialReport]:
        """What the program says of the system with each of some moves alone."""
        by_edits = [it for it in probes if it.number.kind not in IN_FILES]
        trials = [Trial(self.edits(*it), self.edits(it.number, 0)) for it in by_edits]
        reports = iter(self.reports_after(trials) if trials else [])
        self.calls += bool(trials) + len(probes) - len(trials)
        self.probes += len(probes)
        found = [self.in_file(it.number, it.steps) if it.number.kind in IN_FILES else next(reports) for it in probes]
        return [self.trial(probe.number, probe.steps, it) for probe, it in zip(probes, found)]

    def trial(self, number: Number, steps: int, report: Report) -> TrialReport:
        """What is known of the system with a number moved, by its report."""
        judged = self.chains.judged(self.moved(number, steps), bounds_in(report)) if self.chains else ()
        return TrialReport(report, self.goals, self.deadlines, judged)

    def holds_between(self, number: Number, first: Moved, last: Moved) -> bool:
        """Whether all holds from a first value, which does, up to a last one. Where a period moves, the sum of a chain
        is no greater in between than by the longer period and by the bounds with the shorter one."""
        if not last[1].holds():
            return False
        if not self.chains or number.kind not in PERIODS:
            return True
        longer, shorter = (last, first) if number.kind == "longer-period" else (first, last)
        return not failing(self.chains.judged(self.moved(number, longer[0]), bounds_in(shorter[1].report)))

    def confirm(self, number: Number, steps: int, found: TrialReport) -> None:
        """Has the program judge the chains of the system with a number moved, as they were summed here."""
        if self.chains:
            self.chains.compare(list(found.judged), self.chains.by_program(self.file_of(number, steps)))
            self.calls += 1

    def reports_after(self, trials: list[Trial]) -> list[Report]:
        """The report after each of some edits alone."""
        return reports_after(self.known.direct, self.known.file, trials, self.known.report)

    def in_file(self, number: Number, steps: int) -> Report:
        """The report of a file in which a region or a critical section is longer."""
        with tempfile.NamedTemporaryFile("w", suffix=".toml", encoding="utf-8") as file:
            file.write(self.file_of(number, steps))
            file.flush()
            return reports_in(written_by(self.known.direct, "analyse", file.name), file.name)[-1]

    def lines_of(self, number: Number) -> int:
        return 1 + 2 * len(self.edits(number, 0))
