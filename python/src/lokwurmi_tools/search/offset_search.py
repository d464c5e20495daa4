"""Offsets of the sources on clocks by which deadlines are met and bounds are small: the search for them."""
import itertools
import math
import os
import random
import time
from collections.abc import Iterator, Mapping, Sequence
from concurrent.futures import ThreadPoolExecutor
from dataclasses import dataclass
from typing import NamedTuple

from lokwurmi.model.limits import MOST_SCRIPT_LINES, MOST_TICKS
from lokwurmi.model.view import SystemView
from lokwurmi.results.reports import Report, Verdict
from lokwurmi_tools.search.clock_places import Clocks, Grid
from lokwurmi_tools.search.edit_trials import Trial, reports_after
from lokwurmi_tools.shared.analysed import Analysed
from lokwurmi_tools.shared.faults import OwnFault
from lokwurmi_tools.shared.program import written_by
from lokwurmi_tools.shared.progress import Progress
from lokwurmi_tools.shared.report import reports_in
from lokwurmi_tools.shared.system_text import toml_of

# how many offsets are tried at a time; of a source how many of the places with most room are looked at, and how many
# drawn ones; by how many windows these are compared, and how many of them are tried
BATCH, ROOMY, DRAWN, WINDOWS, TRIED = 24, 12, 4, 4, 2
# a share of a deadline or a period is held in so many parts, so that sums are exact
PARTS = 1_000_000_000
# up to so many ways to place all sources are all tried
MOST_WAYS = 2000
# one of so many sources moves where the search begins anew
DISTURBED = 8


@dataclass(frozen=True, slots=True)
class OffsetOptions:
    """What may move: the sources of the clocks that are named, or of all where none is, but for those to keep, to
    multiples of `grid` ticks up to `most`. How long is searched: so many tries, and so many seconds at most, `jobs`
    calls at a time; by a seed. The script goes into the file `output`, or to the standard output; the answer is a table
    or JSON, and drawn into the picture `draw`."""

    clock: tuple[str, ...] = ()
    keep: tuple[str, ...] = ()
    grid: int = 1
    most: int = MOST_TICKS
    tries: int = 1000
    seconds: float | None = None
    seed: int = 1
    jobs: int = 1
    output: str | None = None
    json: bool = False
    draw: str | None = None


class Cost(NamedTuple):
    """What a report costs: how many bounds aren't there, by how much of them deadlines are missed, and the sum of all
    bounds as shares; the last two in billionths."""

    lacking: int
    late: int
    shares: int


class Share(NamedTuple):
    """What counts in the sum: a path with its deadline, or a task that is on none of these with its period."""

    kind: str
    name: str
    whole: int
    of: str


class Judge:
    """What there is to say of reports of a system."""

    def __init__(self, view: SystemView):
        self.counted: list[Share] = []
        in_time: set[str] = set()
        for name, it in view.paths.items():
            if it.deadline is not None:
                self.counted.append(Share("path", name, it.deadline, "deadline"))
                in_time.update(it.tasks)
        rest = [it for it in view.tasks if it not in in_time]
        self.counted += [Share("task", name, view.shortest_period(name), "period") for name in rest]

    def bound(self, report: Report, it: Share) -> int | None:
        """What a report says of one of those that count."""
        return report.paths[it.name].worst if it.kind == "path" else report.tasks[it.name].worst

    def cost(self, report: Report) -> Cost:
        bounds = [(self.bound(report, it), it) for it in self.counted]
        lacking = sum(it.overload for it in report.tasks.values()) + sum(worst is None for worst, _ in bounds)
        known = [(worst, it) for worst, it in bounds if worst is not None]
        over = [(worst - it.whole, it) for worst, it in known if it.of == "deadline" and worst > it.whole]
        late = sum(ticks * PARTS // it.whole for ticks, it in over)
        return Cost(lacking, late, sum(worst * PARTS // it.whole for worst, it in known))


def told(report: Report) -> str:
    """Whether all is met by a report, or what isn't."""
    endless = sum(it.overload for it in report.tasks.values())
    words = [f"{endless} without a bound"] if endless else []
    missed = [it for it in report.paths.values() if it.verdict is Verdict.MISSED]
    missed.sort(key=lambda it: it.slack or 0)
    words += [f"{it.name} misses its deadline by {-(it.slack or 0)}" for it in missed[:4]]
    return ", ".join(words) + (f" and {len(missed) - 4} more" if len(missed) > 4 else "") or "all deadlines are met"


class Found(NamedTuple):
    """Offsets of the sources that may move, what the program says of them, and how they were found."""

    offsets: Mapping[str, int]
    report: Report
    cost: Cost
    how: str


class OffsetSearch:
    """The offsets of a system's sources that may move, and the best of them; `room` is a folder for files."""

    def __init__(self, known: Analysed, options: OffsetOptions, free: Sequence[str], room: str):
        self.known, self.view, self.options, self.room = known, known.view, options, room
        self.clocks = Clocks(known.view, free, Grid(options.grid, options.most))
        self.free, self.judge = self.clocks.free, Judge(known.view)
        self.draw, self.tried, self.is_whole = random.Random(options.seed), 0, False
        self.start, self.goal = time.monotonic(), options.tries
        self.progress = Progress("lokwurmi offsets")
        self.given = {name: self.clocks.given[name] for name in self.free}
        self.first = Found(self.given, known.report, self.judge.cost(known.report), "the offsets of the file")
        # those of the file may be where none may be
        self.best: Found | None = None if self.clocks.off() else self.first
        self.spread: Found | None = None
        self.plain: Report | None = None
        self.at = self.first
        self.file = known.file

    def left(self) -> float:
        """How many seconds are left."""
        seconds = self.options.seconds
        return math.inf if seconds is None else self.start + seconds - time.monotonic()

    def is_over(self) -> bool:
        return self.tried >= self.options.tries or self.left() <= 0

    def ways(self) -> int:
        """In how many ways the sources can be placed."""
        fixed = self.clocks.fixed()
        return math.prod(len(self.clocks.places(it)) for it in self.free if it not in fixed)

    def run(self) -> None:
        """Goes from the heuristic on, to all ways where there are few, else by moves of a source; where no offsets can
        do nothing is tried."""
        if self.view.overloaded():
            return
        spread = self.clocks.spread()
        self.spread = self.go_to({name: spread[name] for name in self.free}, "spread evenly")
        if self.ways() <= min(MOST_WAYS, self.options.tries):
            self.try_all()
            return
        self.move_to(self.best or self.at)
        self.climb("moves of a source")
        number = 0
        while not self.is_over():
            number += 1
            self.go_to(self.disturbed(), f"beginning {number + 1}")
            self.climb(f"moves of a source, beginning {number + 1}")

    # ---- looking at offsets

    def write(self, name: str, text: str) -> str:
        """A file with a text."""
        file = os.path.join(self.room, name)
        with open(file, "w", encoding="ascii") as it:
            it.write(text)
        return file

    def written(self, offsets: Mapping[str, int]) -> str:
        """The file of the system with these offsets."""
        there = self.view.with_keys("source", {name: {"offset": it} for name, it in offsets.items()})
        return self.write("at.toml", toml_of(there.values))

    def go_to(self, offsets: Mapping[str, int], how: str) -> Found:
        """What the program says of offsets, from which the search goes on."""
        self.file = self.written(offsets)
        report = reports_in(written_by(self.known.direct, "analyse", self.file), self.file)[-1]
        self.tried += 1
        self.at = self.keep(Found(offsets, report, self.judge.cost(report), how))
        return self.at

    def keep(self, found: Found) -> Found:
        """Keeps what is better than all before."""
        if self.best is None or found.cost < self.best.cost:
            self.best = found
        left = self.progress.left(self.tried / self.goal, self.start + (self.options.seconds or math.inf))
        best = f"the best so far: {self.told(self.best)}"
        self.progress.show(f"{self.tried} of {self.goal} tries, {found.how}; {best}{left}")
        return found

    def told(self, it: Found) -> str:
        """What is met by offsets, and what of the sum of bounds is left."""
        return f"{told(it.report)}, {100 * it.cost.shares / max(1, self.first.cost.shares):.1f} % of the bounds"

    def trial(self, moves: Mapping[str, int]) -> Trial:
        """The edits by which sources get other offsets than those at hand."""
        back = [f"offset {name} {self.at.offsets[name]}" for name in moves]
        return Trial([f"offset {name} {it}" for name, it in moves.items()], back)

    def reports(self, trials: list[Trial]) -> list[Report]:
        """The report after each of some edits alone, by so many sessions side by side as there are jobs."""
        size = -(-len(trials) // self.options.jobs)
        parts = [trials[k : k + size] for k in range(0, len(trials), size)]

        def asked(part: list[Trial]) -> list[Report]:
            return reports_after(self.known.direct, self.file, part, self.at.report)

        if len(parts) == 1:
            return asked(parts[0])
        with ThreadPoolExecutor(len(parts)) as pool:
            return [it for several in pool.map(asked, parts) for it in several]

    def look(self, several: Sequence[dict[str, int]], how: str) -> list[tuple[dict[str, int], Found]]:
        """Those of some moves from the offsets at hand, each alone, that are better, the best first."""
        better = []
        for moves, report in zip(several, self.reports([self.trial(it) for it in several])):
            self.tried += 1
            found = self.keep(Found({**self.at.offsets, **moves}, report, self.judge.cost(report), how))
            if found.cost < self.at.cost:
                better.append((moves, found))
        return sorted(better, key=lambda it: it[1].cost)

    def joined(self, better: list[tuple[dict[str, int], Found]], how: str) -> Found:
        """The best of moves that are better, of all together, and of the better half; or the offsets at hand."""
        if not better:
            return self.at
        # of a source that may move to several places the best one counts
        places: dict[str, int] = {}
        for moves, _ in better:
            places = moves | places
        order = sorted(places, key=lambda name: next(k for k, it in enumerate(better) if name in it[0]))
        parts = [it for it in (order, order[: -(-len(order) // 2)]) if len(it) > 1]
        several = [{name: places[name] for name in part} for part in parts]
        more = self.look(several, how) if several and not self.is_over() else []
        return min([better[0][1], *(it for _, it in more)], key=lambda it: it.cost)

    # ---- moves

    def try_all(self) -> None:
        """Tries all ways to place the sources."""
        fixed, self.goal = self.clocks.fixed(), self.tried + self.ways()
        moving = [it for it in self.free if it not in fixed]
        size = max(1, min(10 * BATCH, MOST_SCRIPT_LINES * 9 // 10 // (2 * len(moving) + 2)))
        ways = itertools.product(*(self.clocks.places(it) for it in moving))
        while (several := list(itertools.islice(ways, size))) and self.left() > 0:
            self.look([dict(zip(moving, it)) for it in several], "all ways to place the sources")
        self.is_whole = not several

    def windows(self) -> list[int]:
        """Windows as long as the bounds at hand: the longest, and some that are shorter."""
        bounds = sorted(it.worst for it in self.at.report.tasks.values() if it.worst is not None) or [1]
        return sorted({bounds[(len(bounds) * k - 1) // WINDOWS] for k in range(1, WINDOWS + 1)})

    def moves(self, name: str, windows: Sequence[int]) -> Iterator[dict[str, int]]:
        """A source into places with much room beside the others or into drawn ones, those by which least comes in
        windows; and into one that is drawn."""
        offsets, places = {**self.clocks.given, **self.at.offsets}, self.clocks.places(name)
        drawn = [places[self.draw.randrange(len(places))] for _ in range(DRAWN)]
        several = dict.fromkeys([*self.clocks.ranked(name, offsets)[:ROOMY], *drawn])
        best = self.clocks.by_peaks(name, [it for it in several if it != offsets[name]], offsets, windows)[:TRIED]
        for it in dict.fromkeys([*best, *(it for it in drawn[:1] if it != offsets[name])]):
            yield {name: it}

    def size(self) -> int:
        """How many moves are tried at a time: fewer where all others would take longer than there is time."""
        each = (time.monotonic() - self.start) / max(1, self.tried)
        most = min(BATCH, self.options.tries - self.tried)
        return most if math.isinf(self.left()) else max(1, min(most, int(self.left() / max(each, 1e-6))))

    def climb(self, how: str) -> None:
        """Moves one source at a time, the best of some, as long as one of all sources is better than before."""
        while not self.is_over():
            before, names = self.at.cost, self.draw.sample(self.free, len(self.free))
            while names and not self.is_over():
                several: list[dict[str, int]] = []
                size, windows = self.size(), self.windows()
                while names and len(several) < size:
                    several += self.moves(names.pop(), windows)
                if several:
                    self.move_to(self.joined(self.look(several[:size], how), how))
            if self.at.cost >= before:
                return

    def move_to(self, found: Found) -> None:
        """Has the search go on from offsets that are known."""
        if found is not self.at:
            self.at, self.file = found, self.written(found.offsets)

    def disturbed(self) -> Mapping[str, int]:
        """The best offsets with some sources elsewhere."""
        found = dict(self.best.offsets if self.best else self.at.offsets)
        for name in self.draw.sample(self.free, 1 + len(self.free) // DISTURBED):
            places = self.clocks.places(name)
            found[name] = places[self.draw.randrange(len(places))]
        return found

    # ---- what was found

    def found(self) -> Found:
        """The best offsets; those of the file where none were looked at that may be."""
        return self.best or self.first

    def changed(self) -> dict[str, int]:
        """The best offsets that aren't those of the file, in the order of its sources."""
        offsets = self.found().offsets
        several = [it for it in self.view.sources if it in offsets]
        return {it: offsets[it] for it in several if offsets[it] != self.given[it]}

    def edits(self) -> list[str]:
        """The lines of a script that give the sources the best offsets."""
        return [f"offset {name} {it}" for name, it in self.changed().items()]

    def confirm(self) -> None:
        """Has the program make the edits from the file, and holds what it says against what was found."""
        script = self.write("found.script", "".join(f"{line}\n" for line in self.edits()))
        said = written_by(self.known.direct, "session", self.known.file, script)
        if reports_in(said, "lokwurmi session")[-1].text != self.found().report.text:
            raise OwnFault("the edits don't make the offsets that were found")

    def plain_report(self) -> Report:
        """What the program says of the same system on no clocks; it is asked once."""
        if self.plain is None:
            self.plain = self.asked_without_clocks()
        return self.plain

    def asked_without_clocks(self) -> Report:
        """The same anew."""
        keys = ("clock", "offset")
        sources = [{key: it[key] for key in it if key not in keys} for it in self.view.values["source"]]
        file = self.write("plain.toml", toml_of({**self.view.values, "source": sources}))
        return reports_in(written_by(self.known.direct, "analyse", file), file)[-1]
