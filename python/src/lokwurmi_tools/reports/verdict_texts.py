"""What is met, missed and without a bound in a system, in lines, as JSON or as a table: for lokwurmi verdict."""
import json
from dataclasses import dataclass
from fractions import Fraction

from lokwurmi.results.effect_chains import ChainsReport
from lokwurmi.results.reports import Verdict
from lokwurmi.results.verdicts import KINDS, PREMISE_WORDS, Bound, Verdicts
from lokwurmi_tools.bounds.bound_texts import shown
from lokwurmi_tools.reports.judging import Given, TickTexts, chains_of, distinct, notices_on, put, report_of, room, tell
from lokwurmi_tools.shared.tables import columns, numbered


@dataclass(frozen=True, slots=True)
class VerdictOptions:
    """The system that is judged, and the file of its effect chains; `tick` is in nanoseconds."""

    file: str
    program: str
    chains: str | None = None
    json: bool = False
    csv: bool = False
    tick: Fraction | None = None


def deadlines_text(counts: dict[str, int]) -> str:
    """How many deadlines there are, and which verdicts they have."""
    several = ", ".join(f"{counts[it]} {it}" for it in ("met", "missed", "unknown") if counts[it])
    return f"{numbered(counts['deadlines'], 'deadline')}: {several}" if counts["deadlines"] else "no deadline"


def bounds_text(counts: dict[str, int]) -> str:
    """How many have a bound."""
    lacking = counts["overload"]
    if not lacking:
        return "each has a bound" if counts["count"] != 1 else "it has a bound"
    return f"{lacking} {'has' if lacking == 1 else 'have'} no bound"


def count_lines(found: Verdicts) -> list[str]:
    """The counts of tasks, paths and chains."""
    rows = []
    for kind in KINDS:
        counts = found.counts[f"{kind}s"]
        if kind == "chain" and found.chains is None:
            continue
        several = [bounds_text(counts)] if counts["count"] else []
        several += [deadlines_text(counts)] if counts["count"] and kind != "task" else []
        rows.append([f"{kind}s", str(counts["count"]), "; ".join(several)])
    return columns(rows)


def name_of(it: Bound) -> list[str]:
    """What a bound is of, in two cells."""
    return [f"{it.kind} {it.name}", it.what]


def late_lines(found: Verdicts, ticks: TickTexts) -> list[str]:
    """What has no bound, what is missed and by how much, and what of the rest has the least room."""
    lines: list[str] = []
    if rows := [[*name_of(it), f"deadline {ticks.text(it.deadline)}" * bool(it.deadline)] for it in found.unbounded]:
        lines += ["", "without a bound:", *columns(rows)]
    if several := found.missed:
        cells = [[ticks.text(it.bound), f"deadline {ticks.text(it.deadline)}"] for it in several]
        late = [f"{ticks.text(-(it.slack or 0))} too late" for it in several]
        rows = [[*name_of(it), *both, last] for it, both, last in zip(several, cells, late)]
        lines += ["", "missed, the latest first:", *columns(rows)]
    met = [it for it in found.bounds if it.verdict is Verdict.MET]
    if least := min(met, key=lambda it: it.slack or 0, default=None):
        cell = [ticks.text(least.bound), f"deadline {ticks.text(least.deadline)}", f"{ticks.text(least.slack)} left"]
        lines += ["", "met, with the least room:", *columns([[*name_of(least), *cell]])]
    return lines


def text_of(found: Verdicts, ticks: TickTexts) -> str:
    """All of it for people."""
    counts = found.counts["all"]
    none = "there is no deadline, and so none is missed"
    head = f"{found.verdict.value}: {deadlines_text(counts) if counts['deadlines'] else none}"
    lines = [head, *count_lines(found), *late_lines(found, ticks)]
    if found.chains is not None:
        lines += ["", PREMISE_WORDS]
        if ticks.is_timed:
            lines.append("they have a tick more for each wait than `lokwurmi chains` says, and so hold between ticks")
    return "".join(f"{it}\n" for it in lines)


def json_of(found: Verdicts, file: str, chains: str | None, notices: list[str]) -> str:
    """All of it as JSON, with the names of the files that it is of."""
    told = found.to_dict()
    head = {"format": told.pop("format"), "file": file, "chains_file": chains}
    return json.dumps({**head, **told, "notices": notices}, indent=1) + "\n"


def tell_verdict(options: VerdictOptions) -> int:
    """Tells the verdict; the status is that of the verdict."""
    with distinct(), room() as folder:
        file = Given(options.file, folder)
        report = report_of(options.program, file, options.tick)
        chains: ChainsReport | None = None
        chains_file = None if options.chains is None else Given(options.chains, folder)
        if chains_file is not None:
            chains = chains_of(options.program, file, chains_file, options.tick)
        found, notices = Verdicts(report, chains), notices_on(file, chains_file)
        if options.json:
            put(json_of(found, options.file, options.chains, notices))
            return found.status
        put(found.to_csv() if options.csv else shown(text_of(found, TickTexts(options.tick))))
        tell(file, notices)
    return found.status
