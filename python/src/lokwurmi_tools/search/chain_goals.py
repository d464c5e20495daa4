"""The deadlines of a file of effect chains, for searches over systems: which of them are met, by the sums of a report,
and by `lokwurmi chains`.

A session has no chains. So what a search asks of many systems is summed here, by `ChainSums`, at the bounds of reports;
and what is told in the end is held against what `lokwurmi chains` says of that system.
"""
import tempfile
from collections.abc import Iterable, Sequence
from dataclasses import replace

from lokwurmi.files.chain_files import has_ticks_off
from lokwurmi.files.documents import Document
from lokwurmi.files.text_files import File
from lokwurmi.model.event_models import Bounds
from lokwurmi.model.view import SystemView
from lokwurmi.refusals.silence import AskedChain
from lokwurmi.results.effect_chains import chains_report, kinds_of, ticks_between
from lokwurmi.results.reports import Verdict
from lokwurmi.results.verdicts import OF_CHAINS, PREMISE_WORDS, Bound, bounds_of
from lokwurmi_tools.bounds.chain_parts import ChainSums
from lokwurmi_tools.reports.judging import Given, answered
from lokwurmi_tools.shared.analysed import Analysed
from lokwurmi_tools.shared.chain_files import read_chains
from lokwurmi_tools.shared.faults import OwnFault
from lokwurmi_tools.shared.program import often, written_by
from lokwurmi_tools.shared.report import bounds_in
from lokwurmi_tools.shared.system_file import silences_in

__all__ = ["PREMISE_WORDS", "ChainGoals", "failing", "name_of"]


def verdict_on(bound: int | None, deadline: int) -> Verdict:
    return Verdict.UNKNOWN if bound is None else Verdict.MET if bound <= deadline else Verdict.MISSED


def name_of(it: Bound) -> str:
    """What of a chain has a deadline, as `chain brake reaction`."""
    return f"{it.kind} {it.name} {it.what}"


def failing(several: Iterable[Bound]) -> list[Bound]:
    """The bounds that are beyond their deadline, or that aren't there."""
    return [it for it in several if it.verdict in (Verdict.MISSED, Verdict.UNKNOWN)]


class ChainGoals:
    """The chains of a file with their deadlines, over a system; with `between` for times between ticks too, where each
    wait is a tick longer. A file that is refused ends the tool with what the program says of it."""

    def __init__(self, known: Analysed, file: str, between: bool = False):
        self.known, self.file = known, file
        # of a pipe a copy is read
        self.room = tempfile.TemporaryDirectory(prefix="lokwurmi")
        self.given = Given(file, self.room.name)
        text = answered(known.program, "chains", Given(known.file, self.room.name), self.given)
        self.chains = read_chains(self.given.path, known.view)
        self.tasks: dict[str, Sequence[str]] = {it.name: it.tasks for it in self.chains}
        starts = {name: list(it.after) for name, it in known.view.tasks.items()}
        kinds = {name: kinds_of(tasks, starts) for name, tasks in self.tasks.items()}
        self.more = {name: ticks_between(it) if between else {} for name, it in kinds.items()}
        # deadlines that `lokwurmi ticks` wrote have these ticks less already
        self.is_off = between and has_ticks_off(self.given.text())
        self.now = self.shown(bounds_of(chains=chains_report(text)))
        self.compare(self.judged(known.view, bounds_in(known.report)), self.now)

    def shown(self, several: Iterable[Bound]) -> list[Bound]:
        """The bounds that have a deadline, as they are judged."""
        found = []
        for it in several:
            if it.deadline is not None:
                more = self.more[it.name].get(it.what, 0)
                bound, deadline = None if it.bound is None else it.bound + more, it.deadline + more * self.is_off
                found.append(replace(it, bound=bound, deadline=deadline, verdict=verdict_on(bound, deadline)))
        return found

    def sources(self) -> set[str]:
        """The sources behind the chains that have a deadline: these wait for them."""
        asked, ways = {it.name for it in self.now}, self.known.view.sources_of
        return {source for it in self.chains if it.name in asked for task in it.tasks for source in ways(task)}

    def silences(self) -> list[str]:
        """Which deadlines no change meets, since a task waits for a sporadic source, a sentence each."""
        asked = [
            AskedChain(it.name, it.tasks, [what for what in OF_CHAINS if getattr(it, what) is not None])
            for it in self.chains
        ]
        return silences_in(self.known.file, asked)

    def judged(self, view: SystemView, bounds: Bounds) -> list[Bound]:
        """The bounds that have a deadline, by the periods and jitters of a system and the bounds of a report."""
        sums, found = ChainSums(view, bounds), []
        for it in self.chains:
            for what in OF_CHAINS:
                if (deadline := getattr(it, what)) is not None:
                    ticks = sums.total(it.tasks, what)
                    found.append(Bound("chain", it.name, what, ticks, deadline, Verdict.NONE))
        return self.shown(found)

    def by_program(self, text: str) -> list[Bound]:
        """The same of a system, by what `lokwurmi chains` says of its file."""
        program = often(self.known.program)
        with tempfile.NamedTemporaryFile("w", suffix=".toml", encoding="utf-8") as file:
            file.write(text)
            file.flush()
            told = chains_report(written_by(program, "chains", file.name, self.given.path))
        return self.shown(bounds_of(chains=told))

    def compare(self, sums: list[Bound], told: list[Bound]) -> None:
        """Holds what is summed here against what the program says."""
        if sums != told:
            several = [f"{name_of(mine)}: {mine.bound}" for mine, its in zip(sums, told) if mine != its]
            raise OwnFault(f"lokwurmi chains says something else of {', '.join(several) or self.file}")

    def line_of(self, name: str) -> int:
        """The line of the file in which a chain begins."""
        text = self.given.text()
        document, place = Document(text, ("chain",)), [it.name for it in self.chains].index(name)
        return File(self.file, text).place(document.place("chain", place).span[0])[0]

    def lines_of(self, several: Iterable[Bound]) -> list[str]:
        """What fails, each with its line in the file."""
        found = []
        for it in failing(several):
            by = "no bound" if it.bound is None else f"{it.bound}, {-(it.slack or 0)} too late"
            found.append(f"{self.file}: line {self.line_of(it.name)}: {name_of(it)}: {by}, of {it.deadline}")
        return found
