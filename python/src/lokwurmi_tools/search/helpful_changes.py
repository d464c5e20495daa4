"""What would help a path most: each number that its tasks wait by is changed by a tenth, alone, and tried by the
program.

What is told of a change is what the proved program says of the system with it. Which changes are tried is this tool's
choice: there may be others that help more, and several together may do what none does alone.
"""
from typing import Any, NamedTuple

from lokwurmi.model.limits import MOST_TICKS, Kind
from lokwurmi.results.reports import Report, Verdict
from lokwurmi_tools.bounds.bound_parts import BoundParts
from lokwurmi_tools.search.edit_trials import Trial, reports_after
from lokwurmi_tools.shared.analysed import Analysed
from lokwurmi_tools.shared.report import bounds_in
from lokwurmi_tools.shared.times import TICKS, Scale
from lokwurmi_tools.shared.types import Values

# how many of the best are told, and what has to be said beside them
BEST = 5
WARNING = "These are changes of the model; whether the system can be built so is another matter."


class ModelChange(NamedTuple):
    """A number of the model that becomes another: the kind is `priority`, `worst`, `slot` or `period`, the name that of
    a task or a source, and `for_task` the task of the path because of which it is tried."""

    kind: str
    name: str
    for_task: str
    now: int | str
    then: int | str
    trial: Trial


class Help(NamedTuple):
    """A change, and what the program says of the system with it: the path's greatest time before and with it, None
    where it has no bound, and what is late or without a bound only with it."""

    change: ModelChange
    before: int | None
    worst: int | None
    harms: list[str]

    @property
    def effect(self) -> str:
        if self.worst == self.before:
            return "same"
        if self.worst is None or self.before is not None and self.worst > self.before:
            return "longer"
        return "shorter"

    def told(self) -> Values:
        change = {key: value for key, value in self.change._asdict().items() if key != "trial"}
        edits = {"edits": self.change.trial.edits, "effect": self.effect}
        return {**change, **edits, "worst": self.worst, "harms": self.harms}


def tenth(number: int) -> int:
    """A tenth of a number in whole ticks, and at least one."""
    return max(1, number // 10)


class ModelChanges:
    """The changes that are tried for a path: of each number one, for the first task that waits by it."""

    def __init__(self, known: Analysed, path: str):
        self.view, self.parts = known.view, BoundParts(known.view, bounds_in(known.report))
        self.found: dict[tuple[str, str, int | str], ModelChange] = {}
        for name in known.view.paths[path].tasks:
            self.of_task(name)

    def all(self) -> list[ModelChange]:
        return list(self.found.values())

    def of_task(self, name: str) -> None:
        """The changes for one task of the path: its own numbers, and those of the tasks that it waits for."""
        view, before = self.view, [it.name for it in self.parts.before(name)]
        if view.resource(name).has_priorities and before:
            self.swap(name, before[-1])
        if view.tasks[name].slot is not None:
            self.slot(name, name, longer=True)
        for it in [name, *before, *self.blocker(name)]:
            self.worst(name, it)
        for it in before:
            self.periods(name, it)
        for it in view.beside(name) if view.kind(name) == Kind.TDMA else before:
            if view.tasks[it].slot is not None:
                self.slot(name, it, longer=False)

    def blocker(self, name: str) -> list[str]:
        """The task of lower priority that holds one up, where less of an execution makes that less. No edit of a script
        makes a region or a critical section shorter."""
        blocked = self.parts.blocking(name)
        if blocked is None:
            return []
        worst = self.view.tasks[blocked.of].worst
        is_whole = blocked.under == "frame" or blocked.each >= worst - tenth(worst)
        return [blocked.of] if is_whole else []

    def put(self, kind: str, of: str, for_task: str, now: Any, then: Any, edits: list[str], back: list[str]) -> None:
        key = (kind, of, for_task if kind == "priority" else then)
        self.found.setdefault(key, ModelChange(kind, of, for_task, now, then, Trial(edits, back)))

    def swap(self, name: str, rival: str) -> None:
        """The task goes before the rival that is next above it."""
        edit = [f"swap {rival} {name}"]
        self.put("priority", name, name, f"after {rival}", f"before {rival}", edit, edit)

    def worst(self, for_task: str, name: str) -> None:
        """A task's greatest execution is less; its least one too where that would be above it."""
        best, worst = self.view.executions(name)
        then = worst - tenth(worst)
        if then >= 1:
            edit, back = f"exec {name} {min(best, then)} {then}", f"exec {name} {best} {worst}"
            self.put("worst", name, for_task, worst, then, [edit], [back])

    def periods(self, for_task: str, rival: str) -> None:
        """The period of each source of a rival is longer, but on a clock, where all would lie otherwise."""
        for source in dict.fromkeys(self.view.sources_of(rival)):
            it = self.view.sources[source]
            if it.clock is not None:
                continue
            then, others = it.period + tenth(it.period), f"{it.jitter} {it.distance}"
            if then <= MOST_TICKS:
                edit, back = f"source {source} {then} {others}", f"source {source} {it.period} {others}"
                self.put("period", source, for_task, it.period, then, [edit], [back])

    def slot(self, for_task: str, name: str, longer: bool) -> None:
        """A slot is longer, or shorter."""
        now = self.view.tasks[name].turn
        then = now + tenth(now) if longer else now - tenth(now)
        if 1 <= then <= self.view.limits.execution:
            self.put("slot", name, for_task, now, then, [f"slot {name} {then}"], [f"slot {name} {now}"])


def faults_in(report: Report) -> list[str]:
    """Which paths of a report are late, and which paths and tasks have no bound."""
    late = [f"path {it.name} misses its deadline" for it in report.paths.values() if it.verdict is Verdict.MISSED]
    endless = [("path", it.name) for it in report.paths.values() if it.overload]
    endless += [("task", it.name) for it in report.tasks.values() if it.overload]
    return late + [f"{what} {name} has no bound" for what, name in endless]


def helps_for(known: Analysed, path: str) -> list[Help]:
    """All changes that are tried for a path, those first with which it takes least."""
    changes = ModelChanges(known, path).all()
    before, now = faults_in(known.report), known.report.paths[path].worst
    reports = reports_after(known.direct, known.file, [it.trial for it in changes], known.report)
    found = []
    for change, report in zip(changes, reports):
        harms = [it for it in faults_in(report) if it not in before]
        found.append(Help(change, now, report.paths[path].worst, harms))
    return sorted(found, key=lambda it: float("inf") if it.worst is None else it.worst)


def change_text(it: ModelChange, scale: Scale = TICKS) -> str:
    """A change in words."""
    if it.kind == "priority":
        return f"{it.name} {it.then}"
    what = {"worst": "greatest execution of", "slot": "slot of", "period": "period of"}[it.kind]
    return f"{what} {it.name} {scale.text(int(it.now))} → {scale.text(int(it.then))}"


def less_text(it: Help, scale: Scale = TICKS) -> str:
    """By how much a path takes less, and what is worse then."""
    less = "and it had no bound" if it.before is None else scale.text((it.worst or 0) - it.before)
    more = f" and {len(it.harms) - 2} more" if len(it.harms) > 2 else ""
    return less + (f", but then {', '.join(it.harms[:2])}{more}" if it.harms else "")


def lines_of_helps(several: list[Help], scale: Scale = TICKS) -> list[str]:
    """The best changes in lines, and how many did what."""
    count = {effect: sum(it.effect == effect for it in several) for effect in ("shorter", "longer", "same")}
    if not several:
        return ["  what would help: there is no number to try"]
    changes = "1 change" if len(several) == 1 else f"{len(several)} changes"
    head = f"  what would help most, of {changes} by a tenth (at least a tick) or one place, each tried alone:"
    best = [it for it in several if it.effect == "shorter"][:BEST]
    if not best:
        return [head, "    none makes it shorter"]
    texts = [change_text(it.change, scale) for it in best]
    wide = max(map(len, texts))
    far = max(len(scale.text(it.worst or 0)) for it in best)
    lines = [
        f"    {text:<{wide}}  {scale.text(it.worst or 0):>{far}}  {less_text(it, scale)}"
        for text, it in zip(texts, best)
    ]
    more = f"{count['shorter'] - len(best)} more make it shorter, {count['longer']} longer, {count['same']} neither"
    return [head, *lines, f"    {more}", f"  {WARNING}"]


def regions_text(path: Values, file: str) -> str:
    """Whose regions and sections a path that is late waits for, which no change shortens; nothing where there are
    none."""
    if path["verdict"] not in ("missed", "unknown"):
        return ""
    told = [waited_text(path, file, *it) for it in (("region", "the key left out"), ("section", "`length = 1`"))]
    return "; ".join(filter(None, told))


def waited_text(path: Values, file: str, under: str, way: str) -> str:
    """The same of what is under way there."""
    waits = [it for it in path["waits"] if it["under"] == under]
    of = [f"{it['of']} with lock {it['lock']}" if "lock" in it else it["of"] for it in waits]
    if not of:
        return ""
    which = f"the {under} of {of[0]}, which is" if len(of) == 1 else f"the {under}s of {', '.join(of)}, which are"
    long = "it may be" if len(of) == 1 else "each may be"
    says = f"with {way}, lokwurmi sensitivity {file} --only {under} says how long {long}"
    return f"it waits for {which} not among these changes; {says}"


def lines_of_regions(path: Values, file: str) -> list[str]:
    """The same as a line, if there is one."""
    text = regions_text(path, file)
    return [f"  {text}"] if text else []
