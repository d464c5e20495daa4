"""A system and what its analysis says, as rows of the tables of a page.

Identifiers of frames above 0x7FF are in hexadecimal, as other tools write those of 29 bits. Under TDMA the utilisation
of a task is also given of its own slot: of the cycle it looks small where the slot is nearly used up.
"""
from fractions import Fraction

from lokwurmi.model.limits import MOST_SHORT, Kind
from lokwurmi.model.view import PathRow
from lokwurmi.results.reports import PathReport, Run, TaskReport, Verdict
from lokwurmi_tools.bounds.bound_texts import (
    lines_of_clocks,
    lines_of_overload,
    lines_of_waits,
    note_of,
    stream_text,
    waits_text,
    which_of,
)
from lokwurmi_tools.bounds.explained import Explained
from lokwurmi_tools.pictures.colours import hues, hues_of_sources, letters_on, shades
from lokwurmi_tools.shared.analysed import Analysed
from lokwurmi_tools.shared.tables import percent_above
from lokwurmi_tools.shared.times import Scale
from lokwurmi_tools.shared.types import Values

# how many looks at busy windows what bounds are made of may take, which is some seconds
MOST_LOOKS = 5_000_000
# how many letters fit into a bar of a path
LETTERS = 70


def place_text(share: Fraction | float) -> str:
    """How long a bar is, or where a mark stands on it, in percent of its room."""
    return f"{float(share) * 100:.1f}"


def label(name: str, bound: str, share: Fraction) -> str:
    """What there is room for on a part of a path's bar."""
    return next((text for text in (f"{name} {bound}", name, bound) if len(text) + 1 <= share * LETTERS), "")


class PageSystem:
    """A system with what its analysis says, as the page shows it."""

    def __init__(self, known: Analysed, scale: Scale):
        self.known, self.view, self.report, self.scale = known, known.view, known.report, scale
        self.sources = self.view.sources
        self.explained = Explained(self.view, self.report, MOST_LOOKS, "lokwurmi page")
        self.behind = self.explained.behind
        self.hue_of_source, self.shades = hues_of_sources(self.view), shades(self.view)
        missed = [it for it in self.view.paths.values() if self.report.paths[it.name].verdict is Verdict.MISSED]
        self.on_missed = {task for it in missed for task in it.tasks}

    def resource_rows(self) -> list[Values]:
        rows = []
        for name, resource in self.view.resources.items():
            own, share = self.view.on(name), self.view.utilisation(name)
            rows.append(
                {
                    "name": name,
                    "kind": resource.kind.value,
                    "tasks": len(own),
                    "limit": resource.limit,
                    "overload": sum(self.report.tasks[it].overload for it in own),
                    "load": percent_above(share),
                    "value": float(share),
                    "parts": self.resource_parts(name),
                    "over": share > 1,
                    "full": place_text(1 / max(share, Fraction(1))),
                }
            )
        return rows

    def resource_parts(self, name: str) -> list[Values]:
        """What each source brings of a resource's utilisation, the greatest first."""
        by_source: dict[str, Fraction] = {}
        for task in self.view.on(name):
            for source, share in self.view.demands(task).items():
                by_source[source] = by_source.get(source, Fraction(0)) + share
        whole = max(self.view.utilisation(name), Fraction(1))
        order = sorted(by_source.items(), key=lambda it: -it[1])
        parts = (
            (source, {"share": percent_above(share), "width": place_text(share / whole)}) for source, share in order
        )
        return [{"name": source, **shares, "hue": self.hue_of_source[source]} for source, shares in parts]

    def tightest(self, name: str, seen: int | None) -> Values | None:
        """The least deadline of a path of the task, and the shares of it that its bound and its greatest response seen
        take."""
        limits = self.view.deadlines_over(name)
        if not limits:
            return None
        path = min(limits, key=lambda it: limits[it])
        deadline, bound = limits[path], self.report.tasks[name].worst
        share = None if bound is None else Fraction(bound, deadline)
        return {
            "path": path,
            "deadline": deadline,
            "value": None if share is None else float(share),
            "share": None if share is None else percent_above(share),
            "width": place_text(min(share, Fraction(1))) if share is not None else "100",
            "seen_at": place_text(min(Fraction(seen, deadline), Fraction(1))) if seen is not None else None,
        }

    def rank(self, name: str) -> Values:
        """What tells who goes first, as a word, a number and how that is told: an identifier of a frame that takes more
        than 11 bits is told in hexadecimal, as other tools do. A region of more than a tick stands beside it, and so do
        critical sections. On a queue there is neither word nor number: who came first goes first."""
        task, show = self.view.tasks[name], self.scale.text
        if task.slot is not None:
            return {"by": "slot", "turn": task.slot, "told": show(task.slot), "region": None, "locks": []}
        if task.priority is None:
            return {"by": "by arrival", "turn": "", "told": "", "region": None, "locks": []}
        is_long = self.view.resource(name).is_bus and task.rank > MOST_SHORT
        told = f"0x{task.rank:X}" if is_long else str(task.rank)
        region = show(task.region) if task.region > 1 else None
        return {"by": "priority", "turn": task.rank, "told": told, "region": region, "locks": self.locks(name)}

    def locks(self, name: str) -> list[str]:
        """The locks of a task with their ceilings, each with how long it is held at most."""
        on, longest = self.view.tasks[name].on, dict[str, int]()
        for it in self.view.tasks[name].locks:
            longest[it.name] = max(longest.get(it.name, 0), it.length)
        show = self.scale.text
        return [f"lock {it} {show(ticks)}, ceiling {self.view.ceiling(on, it)}" for it, ticks in longest.items()]

    def task_rows(self, run: Run | None) -> list[Values]:
        hue = hues(self.view)
        return [self.task_row(name, run) | {"hue": hue.get(name)} for name in self.view.tasks]

    def task_row(self, name: str, run: Run | None) -> Values:
        """What the table of tasks has of one, beside what a run shows of it."""
        task, found = self.view.tasks[name], self.report.tasks[name]
        share, seen = self.view.demand(name), run.tasks[name] if run else None
        return {
            "name": name,
            "on": task.on,
            "after": task.after,
            "rank": self.rank(name),
            "of_slot": share / self.view.slot_share(name) if self.view.kind(name) == Kind.TDMA else None,
            "input": self.input_text(found),
            "period": self.view.shortest_period(name),
            "jitter": found.jitter,
            "distance": found.distance,
            "streams": [self.sources[it] for it in self.view.sources_of(name)] if found.streams > 1 else [],
            "unbounded": self.behind.is_unbounded(name),
            "paths": self.view.paths_over(name),
            "least": found.best,
            "greatest": task.worst,
            "load": percent_above(share),
            "value": float(share),
            "worst": found.worst,
            "seen": seen,
            "deadline": self.tightest(name, seen.worst if seen else None),
        }

    def input_text(self, found: TaskReport) -> str:
        """What starts a task: how many streams, or the period of its one."""
        return f"{found.streams} streams" if found.streams > 1 else self.scale.text(found.period or 0)

    def made_of(self) -> Values:
        """What each bound and each path is made of, as the page's script reads it, and the colours of tasks, with that
        of letters on them."""
        self.explained.tasks(self.view.tasks)
        tasks = {name: self.made_of_task(name) for name in self.view.tasks}
        paths = {name: self.made_of_path(name) for name in self.view.paths}
        hues = {name: [hue, letters_on(hue)] for name, hue in self.shades.items()}
        made = {"task": {name: it for name, it in tasks.items() if it}, "path": paths, "hues": hues}
        # where a tick has a time, the page's script finds there how each number of ticks is shown
        times = {} if self.scale.tick is None else {ticks: self.scale.text(ticks) for ticks in ticks_in(made)}
        return made | {"times": times}

    def made_of_task(self, name: str) -> Values | None:
        """The parts of a bound, or why there is none; None where the parts take too long."""
        told = self.explained.task(name)
        if told["bound"] is None:
            return {"why": [it.strip() for it in lines_of_overload(told, self.scale)]}
        if not told["job"]:
            return None
        parts = [[it["of"], it["count"], it["each"], it["kind"], note_of(it)] for it in told["parts"]]
        streams = [stream_text(it, self.scale) for it in told["streams"]]
        clocks = lines_of_clocks(told, self.scale)
        return {
            "job": which_of(told["job"], self.scale),
            "came": told["job"]["came"],
            "bound": told["bound"],
            "by": streams,
            "parts": parts,
            **({"clocks": clocks} if clocks else {}),
        }

    def made_of_path(self, name: str) -> Values:
        """The bounds along a path, and whom it waits for."""
        told = self.explained.path(name)
        tasks = [
            [it["task"], it["bound"], "" if it["bound"] is None else waits_text(it, self.scale)] for it in told["tasks"]
        ]
        return {
            "tasks": tasks,
            "worst": told["worst"],
            "waits": [] if told["worst"] is None else [it.strip() for it in lines_of_waits(told, self.scale)],
        }

    def path_parts(self, path: PathRow, scale: Fraction) -> list[Values]:
        """The parts of a path's bar: the bounds of its tasks."""
        parts = []
        for task in path.tasks:
            bound, shade = self.report.tasks[task].worst, self.shades[task]
            share = Fraction(bound or 0) / scale
            text = label(task, self.scale.text(bound or 0), share)
            look = {"label": text, "hue": shade, "ink": letters_on(shade)}
            told = {"name": task, "on": self.view.tasks[task].on, "bound": bound}
            parts.append(told | {"width": place_text(share)} | look)
        return parts

    def is_told(self, part: Values) -> bool:
        """Whether a part of a bar says all that there is to it."""
        return part["bound"] is None or part["label"] == f"{part['name']} {self.scale.text(part['bound'])}"

    def path_rows(self, run: Run | None) -> list[Values]:
        # bounds that are numbers are drawn also where their path has none as a whole
        most = [sum(self.report.tasks[name].worst or 0 for name in it.tasks) for it in self.view.paths.values()]
        scale = max([1, *most, *(it.deadline or 0 for it in self.report.paths.values())]) * Fraction(102, 100)
        rows = []
        for name, path in self.view.paths.items():
            found, parts = self.report.paths[name], self.path_parts(path, scale)
            seen = run.paths[name] if run else None
            at = seen.worst if seen else None
            rows.append(
                {
                    **told_of_path(found),
                    "parts": parts,
                    "told": all(map(self.is_told, parts)),
                    "room": found.slack,
                    "at": None if found.deadline is None else place_text(Fraction(found.deadline) / scale),
                    "seen": seen,
                    "seen_at": None if at is None else place_text(Fraction(at) / scale),
                }
            )
        return rows


def told_of_path(it: PathReport) -> Values:
    """What a report says of a path, by keys."""
    return {key: getattr(it, key) for key in ("name", "best", "worst", "deadline")} | {"verdict": it.verdict.value}


def ticks_in(made: Values) -> set[int]:
    """The numbers of ticks that the page's script shows of what bounds are made of."""
    found: set[int] = set()
    for it in made["task"].values():
        if "why" not in it:
            found |= {it["came"], it["bound"]}
            found |= {ticks for _, count, each, _, _ in it["parts"] for ticks in (each, count * each)}
    for it in made["path"].values():
        found |= {bound for _, bound, _ in it["tasks"] if bound is not None} | {it["worst"] or 0}
    return found
