"""Two versions of a system side by side, in lines, as JSON or as a table: for lokwurmi diff."""
import json
from collections.abc import Callable
from dataclasses import dataclass
from decimal import Decimal
from fractions import Fraction
from itertools import count

from lokwurmi.results.differences import Change, Changes, Limit, Shift, changes_of
from lokwurmi.results.effect_chains import ChainsReport
from lokwurmi.results.reports import Report
from lokwurmi.results.verdicts import PREMISE_WORDS, Bound
from lokwurmi_tools.bounds.bound_texts import shown
from lokwurmi_tools.reports.judging import (
    NO_WORDS,
    Given,
    TickTexts,
    chains_of,
    distinct,
    premises_on,
    put,
    report_of,
    room,
    silences,
    tell,
    time_of,
)
from lokwurmi_tools.reports.kept_reports import chains_in, is_report, report_in
from lokwurmi_tools.shared.faults import Fault
from lokwurmi_tools.shared.tables import columns, numbered


@dataclass(frozen=True, slots=True)
class DifferenceOptions:
    """The two versions `a` and `b`, each a system or its report, and their effect chains; by how much a bound may be
    `worse`; whether `all` is shown; `tick` is in nanoseconds."""

    a: str
    b: str
    program: str
    chains: str | None = None
    chains_a: str | None = None
    chains_b: str | None = None
    all: bool = False
    worse: Limit | None = None
    json: bool = False
    csv: bool = False
    tick: Fraction | None = None


class ComparedSystem:
    """A system or its report, as it was named, and its chains."""

    def __init__(self, options: DifferenceOptions, side: str, folder: str):
        self.options, self.side = options, side
        self.file = Given(getattr(options, side), folder)
        own = getattr(options, f"chains_{side}")
        self.option = "--chains" if own is None else f"--chains-{side}"
        named = options.chains if own is None else own
        self.chains_file = None if named is None else Given(named, folder)

    def text(self, file: Given) -> str:
        """What a file begins with; nothing where it can't be read, of which the program says why."""
        try:
            return file.text()
        except OSError:
            return ""

    def report(self) -> Report:
        text = self.text(self.file)
        if is_report(text):
            return report_in(self.file.name, text, time_of(self.options.tick))
        return report_of(self.options.program, self.file, self.options.tick)

    def chains(self) -> ChainsReport | None:
        if self.chains_file is None:
            return None
        text, name = self.text(self.chains_file), self.chains_file.name
        if is_report(text):
            if self.options.tick is not None:
                raise Fault(
                    f"{name}: a text of `lokwurmi chains` doesn't say how many waits a bound counts, which --tick asks"
                    f" for: name the file of chains by {self.option}, or leave --tick out",
                    NO_WORDS,
                )
            return chains_in(name, text)
        if is_report(self.text(self.file)):
            raise Fault(
                f"{self.file.name}: it is a report, of which {self.option} {name} can't be judged: name its system, or"
                f" by --chains-{self.side} what `lokwurmi chains` wrote of it",
                NO_WORDS,
            )
        return chains_of(self.options.program, self.file, self.chains_file, self.options.tick)

    def silences(self) -> list[str]:
        """The waits for sporadic sources that leave bounds of its chains open, where it is a system with chains."""
        several = (self.file, self.chains_file)
        if any(it is None or is_report(self.text(it)) for it in several):
            return []
        return silences(self.file, self.chains_file)

    def notices(self) -> list[str]:
        """These, and what its bounds presume where it is a system with clocks."""
        return [*self.silences(), *([] if is_report(self.text(self.file)) else premises_on(self.file))]


def groups_of(found: Changes, limit: Limit | None, is_all: bool) -> list[tuple[str, list[Change]]]:
    """All changes that are shown, each in the first group that it belongs to."""
    tests: list[tuple[str, Callable[[Change], bool]]] = [
        ("without a bound now:", lambda it: it.is_lost),
        ("newly missed:", lambda it: it.is_newly_missed),
        (f"worse by more than {limit}:", lambda it: limit is not None and it.is_beyond(limit)),
        ("worse:", lambda it: it.shift is Shift.WORSE),
        ("newly met:", lambda it: it.is_newly_met),
        ("with a bound now:", lambda it: it.shift is Shift.FOUND),
        ("better:", lambda it: it.shift is Shift.BETTER),
        ("appeared:", lambda it: it.shift is Shift.APPEARED),
        ("went:", lambda it: it.shift is Shift.WENT),
        ("another deadline:", lambda it: it.is_changed),
        ("the same:", lambda it: is_all),
    ]
    groups: dict[str, list[Change]] = {}
    for it in found:
        if head := next((head for head, test in tests if test(it)), None):
            groups.setdefault(head, []).append(it)
    return [(head, groups[head]) for head, _ in tests if head in groups]


def percent(grown: int, before: int) -> str:
    """A growth in percent, rounded up, with a digit behind the point or as many as show that it isn't 0."""
    digits = next(it for it in count(1) if abs(grown) * 100 * 10**it >= before)
    parts = -(-grown * 100 * 10**digits // before)
    return f"{Decimal(parts).scaleb(-digits):+f} %"


def bound_cells(it: Change, ticks: TickTexts) -> list[str]:
    """The bound before and after, and by how much it grew."""
    if it.before is None or it.after is None:
        bound = ticks.text(it.one.bound)
        return [f"- → {bound}" if it.before is None else f"{bound} → -", ""]
    if it.before.bound == it.after.bound:
        return [ticks.text(it.after.bound), ""]
    both = f"{ticks.text(it.before.bound)} → {ticks.text(it.after.bound)}"
    old, grown = it.before.bound, it.grown
    return [both, f"{ticks.text(grown, '+')}, {percent(grown, old)}" if grown and old else ""]


def deadline_cell(it: Change, ticks: TickTexts) -> str:
    """The deadline and the verdict, before and after where they differ."""

    def told(bound: Bound) -> tuple[str, str]:
        limit = "no deadline" if bound.deadline is None else f"deadline {ticks.text(bound.deadline)}"
        return limit, bound.verdict.value

    (limit, verdict), (now, verdict_now) = (told(bound or it.one) for bound in (it.before, it.after))
    if it.kind == "task" or limit == now == "no deadline":
        return ""
    limits = now if limit == now else f"{limit} → {now}"
    return f"{limits}: {verdict if verdict == verdict_now else f'{verdict} → {verdict_now}'}"


def head_of(found: Changes, limit: Limit | None) -> str:
    """What the status is by."""
    lost, missed, beyond = len(found.lost), len(found.newly_missed), len(found.beyond(limit)) if limit else 0
    bad = [f"{numbered(lost, 'bound')} {'is' if lost == 1 else 'are'} lost"] if lost else []
    bad += [f"{numbered(missed, 'deadline')} {'is' if missed == 1 else 'are'} newly missed"] if missed else []
    bad += [f"{numbered(beyond, 'bound')} grew by more than {limit}"] if beyond else []
    good = "no bound is lost, and no deadline newly missed" + (f"; no bound grew by more than {limit}" if limit else "")
    return f"worse: {', '.join(bad)}" if bad else f"no worse: {good}"


def counts_line(found: Changes) -> str:
    """How many bounds did what."""
    counts = found.counts
    several = [f"{counts[it.value]} {it.value}" for it in Shift if counts[it.value]]
    several += [f"{counts['newly_met']} newly met"] if counts["newly_met"] else []
    several += [f"{counts['other_deadline']} with another deadline"] if counts["other_deadline"] else []
    return f"  {numbered(len(found), 'bound')}: {', '.join(several) or 'nothing to compare'}"


def text_of(found: Changes, ticks: TickTexts, limit: Limit | None, is_all: bool) -> str:
    lines = [head_of(found, limit), counts_line(found)]
    for head, several in groups_of(found, limit, is_all):
        rows = [[f"{it.kind} {it.name}", it.what, *bound_cells(it, ticks), deadline_cell(it, ticks)] for it in several]
        lines += ["", head, *columns(rows)]
    if found.has_chains:
        lines += ["", PREMISE_WORDS]
        if ticks.is_timed:
            lines.append("they have a tick more for each wait than `lokwurmi chains` says, and so hold between ticks")
    return "".join(f"{it}\n" for it in lines)


def json_of(found: Changes, sides: list[ComparedSystem], options: DifferenceOptions) -> str:
    """What changed as JSON, with the names of what was compared."""
    told = found.to_dict(options.all, options.worse)
    names = {
        it.side: {"file": it.file.name, "chains_file": it.chains_file and it.chains_file.name, "notices": it.notices()}
        for it in sides
    }
    return json.dumps({"format": told.pop("format"), **names, **told}, indent=1) + "\n"


def tell_difference(options: DifferenceOptions) -> int:
    """Tells what changed; the status says whether something got worse."""
    with distinct(), room() as folder:
        sides = [ComparedSystem(options, side, folder) for side in "ab"]
        before, after = (it.report() for it in sides)
        found = changes_of(before, after, *(it.chains() for it in sides))
        if options.json:
            put(json_of(found, sides, options))
        elif options.csv:
            put(found.to_csv(options.all))
        else:
            put(shown(text_of(found, TickTexts(options.tick), options.worse, options.all)))
        for it in () if options.json else sides:
            tell(it.file, it.notices())
    return found.status(options.worse)
