"""What there is to tell of the bounds of a report: the parts of each, and what lies behind one that is `overload`.

All of it is worked out here, by `bound_parts`, and held against the report: `faults` says where the two differ.
"""
from collections.abc import Iterable
from fractions import Fraction

from lokwurmi.model.limits import Kind
from lokwurmi.model.view import SystemView
from lokwurmi.results.reports import Report
from lokwurmi_tools.bounds.bound_parts import BoundParts, LatestJob, Tired
from lokwurmi_tools.bounds.overload_causes import OverloadCauses
from lokwurmi_tools.bounds.phases import Phases
from lokwurmi_tools.shared.progress import Progress
from lokwurmi_tools.shared.report import bounds_in
from lokwurmi_tools.shared.types import Values

# how many looks at windows are taken where there may be no end
MOST = 3_000_000
# what a job waits for: the kind of a part, of whom it is, what is under way where that blocks, the lock of a section
Wait = tuple[str, str, str, str]
WAIT = ("kind", "of", "under", "lock")


class Explained:
    """A system, its report, and the parts of its bounds; with a most of looks at windows what takes more isn't worked
    out. It says how far it is where a tool is named."""

    def __init__(self, view: SystemView, report: Report, most: int | None = None, tool: str = ""):
        self.view, self.report, self.most = view, report, most
        self.progress = Progress(tool) if tool else None
        self.parts = BoundParts(view, bounds_in(report))
        self.faults: list[str] = []
        self.known: dict[str, Values] = {}
        self.behind = OverloadCauses(view, bounds_in(report))
        self.causes, self.over = self.behind.causes()

    def left(self, most: int | None = None) -> int | None:
        """How many looks may be taken still."""
        return most if self.most is None else self.most - self.parts.looks

    def deadline(self, name: str) -> Values | None:
        """The least deadline of the paths of a task in ticks, and that path."""
        least = min(((ticks, path) for path, ticks in self.view.deadlines_over(name).items()), default=None)
        return least and {"ticks": least[0], "path": least[1]}

    def task(self, name: str) -> Values:
        """What there is to tell of a task."""
        if name not in self.known:
            known = self.facts(name)
            self.known[name] = known | (self.made_of(name) if known["bound"] is not None else self.endless(name))
            if self.progress:
                self.progress.show(f"{len(self.known)} of {len(self.view.tasks)} tasks are explained")
        return self.known[name]

    def tasks(self, names: Iterable[str]) -> list[Values]:
        """What there is to tell of several."""
        told = [self.task(name) for name in names]
        if self.progress:
            self.progress.clear()
        return told

    def facts(self, name: str) -> Values:
        """What the file and the report say of a task."""
        task = self.view.tasks[name]
        return {
            "task": name,
            "on": task.on,
            "kind": self.view.kind(name).value,
            **{key: turn for key, turn in (("priority", task.priority), ("slot", task.slot)) if turn is not None},
            "bound": self.report.tasks[name].worst,
            "execution": [task.best, task.worst],
            "deadline": self.deadline(name),
            "streams": self.parts.streams(name),
        }

    def made_of(self, name: str) -> Values:
        """The job that is the latest, and the parts up to its end."""
        try:
            job = self.parts.latest(name, most=self.left())
        except Tired:
            return {"job": None, "parts": []}
        self.compare(name, job)
        if job is None:
            return {"job": None, "parts": []}
        parts = [without_lock(it._asdict()) | {"ticks": it.ticks} for it in job.parts]
        told = {"number": job.number, "of": job.of, "came": job.came, "done": job.done}
        if job.window is not None:
            told["window"] = job.window
        return {"job": told, "parts": parts, **self.clocks_of(name, job)}

    def clocks_of(self, name: str, job: LatestJob | None) -> Values:
        """The clocks that streams of a task and of those that may go before it share; nothing where there are none."""
        found = Phases(self.parts, name, job).told() if job else []
        return {"clocks": found} if found else {}

    def compare(self, name: str, job: LatestJob | None) -> None:
        """Holds a job against the bound of its task."""
        bound = self.report.tasks[name].worst
        if job is None:
            self.faults.append(f"{name}: the parts come to no bound, and its bound is {bound}")
            return
        ticks = [it.ticks for it in job.parts]
        if job.response != bound or sum(ticks) != job.done:
            found = f"{' + '.join(map(str, ticks))} - {job.came} = {sum(ticks) - job.came}"
            self.faults.append(f"{name}: the parts come to {found}, and its bound is {bound}")

    def path(self, name: str) -> Values:
        """What there is to tell of a path: its tasks, and by whom it waits in all."""
        tasks, found = [self.task(it) for it in self.view.paths[name].tasks], self.report.paths[name]
        own = before = 0
        waits: dict[Wait, int] = {}
        for it in tasks:
            job = it.get("job")
            before += job["came"] if job else 0
            own += it["parts"][0]["each"] if job else 0
            for key, ticks in waits_of(it):
                waits[key] = waits.get(key, 0) + ticks
        self.compare_path(name, own + sum(waits.values()) - before)
        several = sorted(waits.items(), key=lambda it: -it[1])
        return {
            "path": name,
            "worst": found.worst,
            "deadline": found.deadline,
            "verdict": found.verdict.value,
            "own": own,
            "waits": [without_lock(dict(zip(WAIT, key))) | {"ticks": ticks} for key, ticks in several],
            "before": before,
            "tasks": tasks,
        }

    def compare_path(self, name: str, ticks: int) -> None:
        """Holds the parts of a path against its greatest time, where all of them were worked out."""
        worst, tasks = self.report.paths[name].worst, self.view.paths[name].tasks
        if worst is not None and ticks != worst and all(self.task(it)["job"] for it in tasks):
            self.faults.append(f"path {name}: the parts come to {ticks}, and its greatest time is {worst}")

    def endless(self, name: str) -> Values:
        """What lies behind a bound that there isn't."""
        step = next(it for it in self.over if it["name"] == name)
        loads = [(it, self.view.demand(it)) for it in self.view.on(self.view.tasks[name].on)]
        loads.sort(key=lambda it: -it[1])
        told = {
            "why": step["why"],
            "because_of": step["of"],
            "load": float(sum(share for _, share in loads)),
            "loads": {it: float(share) for it, share in loads},
            "causes": [cause_told(it) for it in self.causes if name in it["tasks"] + it["leaves"]],
        }
        if step["why"] == "own":
            told |= self.crowd(name)
        elif step["why"] == "rivals" and self.view.kind(name) != Kind.ROUND_ROBIN:
            told["since"] = step["of"][0]
        return {"overload": told}

    def shares(self, name: str) -> list[tuple[str, Fraction]]:
        """The shares of the time that the rivals of a task ask for; on round robin no more than their turns."""
        own, slot = self.view.demand(name), self.view.tasks[name].slot
        found: list[tuple[str, Fraction]] = []
        for it in self.parts.before(name):
            share = self.view.demand(it.name)
            if it.slot is not None and slot is not None:
                turns = own * it.slot / slot
                share = turns if it.name in self.behind.over else min(share, turns)
            found.append((it.name, share))
        return found

    def crowd(self, name: str) -> Values:
        """Which rivals a task's busy window has an end with, and since which one it hasn't."""
        room, own, shares = self.view.slot_share(name), self.view.demand(name), self.shares(name)
        told = {
            "room": float(room),
            "own": float(own),
            "shares": {it: float(share) for it, share in shares},
            "limit": self.view.limit(name),
            "since": None,
            "unbounded": False,
            "settled": None,
        }
        return told | (self.full(name, room, own, shares) or self.followed(name))

    def full(self, name: str, room: Fraction, own: Fraction, shares: list[tuple[str, Fraction]]) -> Values | None:
        """Since which rival there is more work than time, or one whose input has no bound; None where there is
        neither."""
        if own > room:
            return {"since": name}
        unbounded = {it.name for it in self.parts.before(name) if it.streams is None and it.slot is None}
        for it, share in shares:
            own += share
            if it in unbounded or own > room:
                return {"since": it, "unbounded": it in unbounded}
        return None

    def followed(self, name: str) -> Values:
        """Since which rival a busy window is longer than its limit, by following the windows."""
        try:
            steps = self.parts.settles(name, self.left(MOST))
        except Tired:
            return {}
        if steps[-1].bound is not None:
            self.faults.append(f"{name}: the parts come to {steps[-1].bound}, and it has no bound")
        return {
            "since": steps[-1].rival or name,
            "settled": [{"with": it.rival, "bound": it.bound} for it in steps[:-1]],
        }


def waits_of(told: Values) -> list[tuple[Wait, int]]:
    """What a job of a task waits for, and how long. Its own earlier jobs are among it."""
    if not told.get("parts"):
        return []
    own, *others = told["parts"]
    earlier: list[tuple[Wait, int]] = []
    if own["count"] > 1:
        earlier = [(("own", own["of"], "", ""), own["each"] * (own["count"] - 1))]
    return earlier + [((it["kind"], it["of"], it["under"], it.get("lock", "")), it["ticks"]) for it in others]


def without_lock(told: Values) -> Values:
    """A part or a wait as it is told, which has a lock where that is of a critical section alone."""
    return {key: it for key, it in told.items() if key != "lock" or it}


def cause_told(cause: Values) -> Values:
    return {"kind": cause["kind"], "tasks": cause["tasks"], "on": cause["on"], "way": cause.get("way", [])}
