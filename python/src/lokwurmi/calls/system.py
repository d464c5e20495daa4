"""Systems that are read, written and analysed."""
import operator
import os
import re
from collections.abc import Iterable
from pathlib import Path as FilePath
from typing import TYPE_CHECKING, Any, SupportsIndex, overload

from lokwurmi.calls.engines import Engine, KeptSession, answer, keep
from lokwurmi.calls.texts import WHILE_RUNNING, bytes_of
from lokwurmi.errors import ChainsRefused, LokwurmiError, Refused, SystemRefused, UnitsRefused, WordsRefused, WrongType
from lokwurmi.files.chain_files import written
from lokwurmi.files.documents import Document
from lokwurmi.files.system_files import entries_in, head_of, system_text
from lokwurmi.files.whole_files import write_whole
from lokwurmi.model.conversion import NoticeWarning, Rounding, warn
from lokwurmi.model.entries import Chain, Resource, Task
from lokwurmi.model.named_entries import NamedEntries, listed, name_of, names_of
from lokwurmi.model.units import Time, text_of, whole_ticks
from lokwurmi.refusals.sentences import (
    may_deserve_notice,
    notices_of,
    notices_of_answer,
    notices_of_script,
    refusal_words,
)
from lokwurmi.results import effect_chains as chain_results
from lokwurmi.results import html, reports

if TYPE_CHECKING:
    from lokwurmi.calls.sessions import Session

TraceLike = str | Iterable[tuple[Any, ...]]
"""A trace or a schedule: its text, or rows as `("event", "sa", 0)`."""
ROWS = "a trace or a schedule is a text, or a list of rows, as [('event', 's', 0)]"


def path_of(file: str | os.PathLike[str]) -> FilePath:
    """The path of a file."""
    if not isinstance(file, (str, os.PathLike)):
        raise WrongType(f"{file!r} is no name of a file: write a text or a Path")
    return FilePath(file)


def number_of(it: SupportsIndex, what: str) -> int:
    """A number that is a word of a call."""
    if isinstance(it, bool) or not hasattr(it, "__index__"):
        raise WrongType(f"{what} is a whole number, and not {it!r}")
    return operator.index(it)


class System(NamedEntries):
    """Resources, sources, tasks and paths, each a dictionary by name, in the order in which they were added.

    An entry's attributes may be changed at any time; `copy` gives a system whose changes leave this one alone. Two
    systems are equal where their entries are, in ticks.

    With a `tick`, times may have units. Those that are no whole number of ticks are rounded to their safe side, which
    is reported by a RoundingWarning, by `roundings`, and at the head of the file:

        >>> from lokwurmi import System, ms, us
        >>> system = System(tick="10us")
        >>> cpu = system.preemptive("cpu")
        >>> often = system.source("often", period=ms(10), jitter=us(250))
        >>> a = system.task("a", on=cpu, after=often, best=us(100), worst=us(1500), priority=1)
        >>> a.worst = us(1505)
        >>> [str(it) for it in system.roundings]
        ['task a: worst of 1.505ms is rounded up to 151']
    """

    def __repr__(self) -> str:
        tick = f", tick {self.tick}" if self.tick else ""
        return (
            f"System({len(self.resources)} resources, {len(self.sources)} sources, {len(self.tasks)} tasks,"
            f" {len(self.paths)} paths{tick})"
        )

    def _repr_html_(self) -> str:
        return html.system(self)

    # ---- files

    def _file(self) -> tuple[str, list[Rounding]]:
        """The system file, and what was rounded for it."""
        document, converter = self._converted()
        text = system_text(document, self._format())
        if converter is None or self._tick is None:
            return text, []
        self._warn_bare(converter)
        return head_of(self._tick, converter) + text, converter.reported

    def to_toml(self) -> str:
        """The system file, in whole ticks; roundings stand in comments at its head. It has the least format that has
        all of it, or format 4 where the system is large."""
        text, told = self._file()
        self._warn(told)
        return text

    def to_file(self, file: str | os.PathLike[str]) -> None:
        """Writes the system file."""
        write_whole(path_of(file), self.to_toml().encode("utf-8"))

    @classmethod
    def from_toml(cls, text: str, tick: "Time | str | None" = None) -> "System":
        """The system of a system file. What no entry can be made of, as a key that none has, raises an error, as a text
        that isn't TOML. With a tick, times may have units: texts as "250 us", and `bitrate` of a bus. Where some have
        one, a NoUnitWarning tells the numbers that have none."""
        if not isinstance(text, str):
            raise WrongType(f"a system file is a text, and not {text!r}: of bytes write text.decode()")
        system = cls(tick)
        entries, system.is_large = entries_in(text, tick is not None)
        for part, several in system._parts().items():
            several.update(entries[part])
        if tick is not None:
            system._warn(system.roundings)
            if converter := system._converted()[1]:
                system._warn_bare(converter)
        return system

    @classmethod
    def from_file(cls, file: str | os.PathLike[str], tick: "Time | str | None" = None) -> "System":
        """The system of a system file; with a tick, its times may have units."""
        path = path_of(file)
        try:
            # line ends as they are: a carriage return alone is none in TOML
            return cls.from_toml(path.read_bytes().decode("utf-8"), tick)
        except UnicodeDecodeError as fault:
            raise LokwurmiError(f"{file}: it isn't UTF-8: {fault.reason} at byte {fault.start}") from fault
        except LokwurmiError as fault:
            fault.args = (f"{path}: {fault}",)
            raise

    # ---- calls

    def _notice(self, text: str) -> None:
        """Warns of what the launcher has a notice on, of a system file that was accepted."""
        if text == self._looked_at or not may_deserve_notice(self._parts()):
            return
        self._looked_at = text
        if new := [it for it in notices_of(text) if it not in self._told]:
            self._told |= set(new)
            warn(new, NoticeWarning)

    def _notice_answer(self, command: str, name: str, is_found: bool = True) -> None:
        """Warns of the deadlines that an answer of `assign` or `slack` doesn't count, once of each."""
        told = notices_of_answer(command, self._file()[0], name, is_found)
        if new := [it for it in told if it not in self._told]:
            self._told |= set(new)
            warn(new, NoticeWarning)

    def _named(self, fault: SystemRefused, text: str) -> SystemRefused:
        """A refusal with the name of the entry, and with what is wrong in it."""
        part = self._parts().get(fault.part, {})
        name = list(part)[fault.place - 1] if 1 <= fault.place <= len(part) else None
        what = refusal_words(fault.text, text)
        return SystemRefused(fault.status, fault.text, fault.reason, fault.part, fault.place, name, what)

    def _told_answer(
        self, command: str, texts: Iterable[str] = (), words: tuple[str | int, ...] = (), engine: Engine | None = None
    ) -> tuple[str, list[Rounding]]:
        """What a command answers, and what was rounded for it."""
        text, told = self._file()
        self._warn(told)
        several = list(texts)
        try:
            files = [bytes_of(it) for it in (text, *several)]
            found = answer(command, files, words, engine)[1]
        except SystemRefused as fault:
            raise self._named(fault, text) from None
        except Refused as fault:
            if why := refusal_words(fault.text, text, several, words):
                fault.args = (f"{fault}: {why}",)
            raise
        self._notice(text)
        return found, told

    def _answer(
        self, command: str, texts: Iterable[str] = (), words: tuple[str | int, ...] = (), engine: Engine | None = None
    ) -> str:
        return self._told_answer(command, texts, words, engine)[0]

    def _rows(self, it: TraceLike) -> str:
        """A trace or a schedule as a text. Its times have no safe side: those with a unit must be whole ticks."""
        if isinstance(it, str):
            return it
        several: list[list[Any]] = [listed(row, ROWS) for row in listed(it, ROWS)]
        rows = [
            [whole_ticks(one, self._tick, "a row") if isinstance(one, Time) else one for one in row] for row in several
        ]
        fields = [[str(one) for one in row] for row in rows]
        if bad := next((one for row in fields for one in row if re.search("[,\r\n]", one)), None):
            raise WrongType(f"a field of a row has neither a comma nor a line end, and {bad!r} has one")
        return "".join(",".join(row) + "\n" for row in fields)

    def analyse(self, *, engine: Engine | None = None) -> reports.Report:
        """The bounds of all tasks and paths, in ticks; `time` of each gives them as times.

        >>> system = System()
        >>> cpu = system.preemptive("cpu")
        >>> a = system.task("a", on=cpu, after=system.source("s", period=10), best=1, worst=3, priority=1)
        >>> system.analyse().tasks["a"].worst
        3
        """
        text, told = self._told_answer("analyse", engine=engine)
        return reports.reports(text, self._tick, told, *self._by_clocks())[-1]

    def _by_clocks(self) -> tuple[reports.Phases, tuple[str, ...]]:
        """Where the streams of each task are on clocks, and which clocks bounds use, of a system that was accepted."""
        if not self.clocks:
            return {}, ()
        view = self.view()
        return {name: view.anchors_of(name) for name in self.tasks}, view.clocks_in_bounds

    @overload
    def session(self, script: None = None, *, engine: Engine | None = None) -> "Session":
        ...

    @overload
    def session(self, script: str | Iterable[str], *, engine: Engine | None = None) -> list[reports.Report]:
        ...

    def session(
        self, script: str | Iterable[str] | None = None, *, engine: Engine | None = None
    ) -> "Session | list[reports.Report]":
        """Without a script: a session that is kept, of which what an edit can't reach isn't analysed again.

            >>> system = System()
            >>> cpu = system.preemptive("cpu")
            >>> a = system.task("a", on=cpu, after=system.source("s", period=10), best=1, worst=3, priority=1)
            >>> with system.session() as session:
            ...     session.exec("a", worst=5)
            ...     session.bounds["a"]
            5

        With a script: the reports of this system under it, one wherever it says `report`, and one at its end. The forms
        of its lines are those of docs/FILES.md, "The script"; an edit that can't be made is left out, which a
        NoticeWarning tells, and `refused` of the next report has it. This system stays as it is in both cases.
        """
        if script is None:
            from lokwurmi.calls.sessions import Session

            return Session(self, engine)
        says = "a script is a text, or a list of lines"
        text = script if isinstance(script, str) else "".join(f"{line}\n" for line in listed(script, says))
        found, told = self._told_answer("session", [text], engine=engine)
        several = reports.reports(found, self._tick, told, clocks=self.clocks)
        if refused := [edit for report in several for edit in report.refused.items()]:
            warn(notices_of_script(text, refused, self._file()[0]), NoticeWarning)
        return several

    def _keep(self, engine: Engine | None) -> tuple[KeptSession, list[Rounding]]:
        """Opens what a session keeps, and gives what was rounded for it."""
        text, told = self._file()
        self._warn(told)
        try:
            kept = keep(bytes_of(text), engine)
        except SystemRefused as fault:
            raise self._named(fault, text) from None
        self._notice(text)
        return kept, told

    def simulate(self, trace: TraceLike, *, engine: Engine | None = None) -> reports.Run:
        """What is observed when a trace is replayed: a text, or rows as `("event", "sa", 0)`, in ticks or with
        units."""
        return reports.run(self._answer("simulate", [self._rows(trace)], engine=engine), self._tick)

    def schedule(self, trace: TraceLike, *, engine: Engine | None = None) -> reports.Schedule:
        """Who runs from when to when in the run under a trace."""
        on = {it.name: it.on for it in self.tasks.values()}
        return reports.schedule(self._answer("schedule", [self._rows(trace)], engine=engine), on, self._tick)

    def buffers(self, trace: TraceLike = "", *, engine: Engine | None = None) -> reports.Buffers:
        """How many jobs can be pending at one time, and how many are under a trace; without one each peak is 0."""
        return reports.buffers(self._answer("buffers", [self._rows(trace)], engine=engine))

    def audit(self, trace: TraceLike, schedule: TraceLike, *, engine: Engine | None = None) -> reports.Segment | None:
        """Where a recorded schedule first differs from the run under a trace, or None where it doesn't."""
        return reports.difference(self._answer("audit", [self._rows(trace), self._rows(schedule)], engine=engine))

    def hammer(self, seed: int, traces: int, *, engine: Engine | None = None) -> reports.Hammered:
        """What is seen under so many traces that are generated from a seed."""
        return reports.hammered(
            self._answer(
                "hammer", words=(number_of(seed, "a seed"), number_of(traces, "the number of traces")), engine=engine
            )
        )

    def assign(self, resource: str | Resource, *, engine: Engine | None = None) -> reports.Order | None:
        """Priorities of the tasks of a resource under which each meets its deadline, from the highest to the lowest;
        None where there are none. A NoticeWarning says which deadlines weren't counted."""
        found = reports.order(self._answer("assign", words=(name_of(resource),), engine=engine))
        self._notice_answer("assign", name_of(resource), found is not None)
        return found

    def slack(self, task: str | Task, *, engine: Engine | None = None) -> reports.Slack:
        """By how many ticks the greatest execution of a task may grow while all deadlines are met. A NoticeWarning says
        where there is none."""
        found = reports.slack(self._answer("slack", words=(name_of(task),), engine=engine), self._tick)
        self._notice_answer("slack", name_of(task))
        return found

    def _check_periods(self) -> None:
        """Refuses chains where a period was rounded: it is the longest time between events there, too, but of a
        sporadic source."""
        may_be_silent = {f"source {name}" for name, it in self.sources.items() if it.sporadic}
        for it in self.roundings:
            if it.key == "period" and it.what not in may_be_silent:
                raise UnitsRefused(
                    f"{it}: chains take the period as the longest time between events, too, so that it has no safe"
                    f" side; take a tick of which {text_of(it.time.nanoseconds)} is a multiple"
                )

    def chain(
        self, tasks: Iterable[str | Task], *, while_running: bool = False, engine: Engine | None = None
    ) -> chain_results.ChainReport:
        """How soon a chain of 1 to 32 tasks reacts at the latest, and how old its data can be, in ticks.

        Each task reads what the one before wrote last. The bounds hold where the sources keep their periods: a source
        that falls silent voids them, unless it is sporadic, and then what waits for it has no bound. Where the system
        has a tick, each wait has a tick more than `lokwurmi chain` says, with which they hold for times between ticks
        too. `while_running` presumes that each task reads only while it runs, and so has smaller bounds.
        """
        self._check_periods()
        names = names_of(tasks, "a chain")
        if WHILE_RUNNING in names:
            raise WordsRefused(10, "words refused\n", f"{WHILE_RUNNING} is no name of a task: write while_running=True")
        words = names + [WHILE_RUNNING] * while_running
        found = chain_results.chain_report(self._answer("chain", words=tuple(words), engine=engine), self._tick)
        return found if self._tick is None else chain_results.between_ticks(found)

    def chains(self, chains: "str | Iterable[Chain]", *, engine: Engine | None = None) -> chain_results.ChainsReport:
        """Chains with deadlines, judged: a list of Chain, or the text of a file of chains. The premise is that of
        `chain`, and so are the ticks more; a deadline with a unit is rounded down."""
        self._check_periods()
        several = [] if isinstance(chains, str) else listed(chains, "`chains` takes a text, or a list of Chain")
        for it in several:
            if not isinstance(it, Chain):
                raise WrongType(f"{it!r} is no Chain: write Chain('brake', ['sense', 'act'], reaction=50)")
            names_of(it.tasks, f"chain {it.name!r}")
        text, told = (chains, []) if isinstance(chains, str) else written(several, self._tick)
        self._warn(told)
        try:
            found = chain_results.chains_report(self._answer("chains", [text], engine=engine), self._tick)
        except ChainsRefused as fault:
            name = several[fault.place - 1].name if 1 <= fault.place <= len(several) else None
            refused = ChainsRefused(fault.status, fault.text, fault.reason, fault.place, name)
            refused.args = (str(fault).replace(str(ChainsRefused(18, "", fault.reason, fault.place)), str(refused)),)
            raise refused from None
        if self._tick is None:
            return found
        tasks = {it["name"]: it["tasks"] for it in Document(text.replace("\r\n", "\n"), ["chain"]).entries["chain"]}
        return chain_results.judged_between_ticks(found, tasks, {it.name: it.after for it in self.tasks.values()})


def generated_system(seed: int, size: int, *, engine: Engine | None = None) -> System:
    """The system that `generate SEED SIZE` writes: so many chains, drawn from a seed."""
    return System.from_toml(answer("generate", [], (number_of(seed, "a seed"), number_of(size, "a size")), engine)[1])


made_system = generated_system
