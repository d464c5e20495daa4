"""How far numbers may move, as a table, as JSON or as a picture: for lokwurmi sensitivity."""
import json
import os
import sys
import time
from dataclasses import dataclass

from lokwurmi.results.verdicts import CLOCK_PREMISE, PREMISE
from lokwurmi_tools.bounds.bound_texts import shown
from lokwurmi_tools.search.chain_goals import PREMISE_WORDS, ChainGoals
from lokwurmi_tools.search.margin_question import KINDS, LAWS, PARTS, MarginQuestion
from lokwurmi_tools.search.margins import rows_of
from lokwurmi_tools.search.offset_margins import MOST_TRIES
from lokwurmi_tools.shared.analysed import analysed
from lokwurmi_tools.shared.faults import Fault
from lokwurmi_tools.shared.packages import need
from lokwurmi_tools.shared.system_file import clock_words_of
from lokwurmi_tools.shared.tables import columns, percent_below
from lokwurmi_tools.shared.times import TICKS, Scale
from lokwurmi_tools.shared.types import Values
from lokwurmi_tools.shared.written_entries import check_folders

# what has to be said beside the table
NOTE = "each is moved alone: two that both move so far may miss a deadline together"
# what has to be said of periods where chains count
PERIODS = (
    "a period has two rows where a chain waits for it: shorter, so that bounds rise, and longer, so that it waits"
    " longer"
)
# what has to be said of periods where there are clocks
CLOCKS = "periods of sources on a clock aren't moved: with another one all that comes by the clock would lie otherwise"
# where --only asks for a kind of which a system has no number that moves, why that is
NONE_OF = {
    "execution": "there is no task",
    "period": f"there is no source on no clock; {CLOCKS}",
    "longer-period": f"no chain waits for a source on no clock; {CLOCKS}",
    "jitter": "there is no source",
    "speed": "no resource has a task",
    "region": "no region may be longer and then hold up another task: that takes a task on a preemptive or ceiling"
    " resource without locks, below another, with a region below its greatest execution",
    "section": "no critical section may be longer and then hold up another task",
    "offset": "no bound depends on an offset: that takes two tasks of one preemptive, ceiling or can resource whose"
    " sources are on one clock",
    "deadline": "no path has a deadline: write one, as --goal PATH=DEADLINE",
}
# what has to be said of offsets
OFFSETS = (
    "an offset moves round the period of its source, later and earlier: a whole period on, it lies where it was. Up to"
    " where it may move all holds; beyond that it may hold again"
)
# what has to be said beside what doesn't hold already, where there are critical sections, and where there are regions
SECTIONS = (
    "critical sections can't be shorter than now in this search: write length = 1, "
    "and --only section says how long each may be"
)
REGIONS = (
    "regions can't be shorter than now in this search: leave the key region out, "
    "and --only region says how long each may be"
)
WORDS = {
    "execution": "greatest execution of",
    "period": "period of",
    "longer-period": "period of",
    "jitter": "jitter of",
    "speed": "executions on",
    "region": "region of",
    "section": "section of",
    "offset": "offset of",
    "deadline": "deadline of",
}
# what it is to be moved as far as can be
LIMITS = {
    "region": "it is never preempted",
    "section": "the job ends there, or another section of it",
    "offset": "all round the period",
}
# of what the share of a number is where it isn't of the number itself
WHOLES = {
    "jitter": "the period of its source",
    "offset": "the period of its source",
    "region": "the greatest execution",
    "section": "the greatest execution",
}


@dataclass(frozen=True, slots=True)
class MarginOptions:
    """Which kinds of numbers of a system move, by `jobs` calls at a time: `goals` are deadlines of paths in ticks, and
    with `deadlines` deadlines alone count, with the file `chains` those of its chains too; the answer is a table or
    JSON, and drawn into the picture `to`."""

    file: str
    program: str
    only: tuple[str, ...]
    jobs: int
    goals: dict[str, int]
    deadlines: bool = False
    chains: str | None = None
    json: bool = False
    to: str | None = None


def value_of(row: Values, key: str, scale: Scale = TICKS) -> str:
    return f"× {row[key] / PARTS:.3f}" if row["kind"] == "speed" else scale.text(row[key])


def name_of(row: Values) -> str:
    return f"{WORDS[row['kind']]} {row['name']}"


def share_text(row: Values) -> str:
    if not row["by"]:
        return "0 %"
    sign = "-" if row["kind"] in ("period", "deadline") or row.get("way") == "earlier" else "+"
    return f"{sign}{percent_below(row['share'])} %"


def then_of(row: Values) -> str:
    """What comes first beyond the last value that holds."""
    if not row["first"] and not row["limit"]:
        return f"not known: {MOST_TRIES} values were tried"
    if row["limit"]:
        return f"nothing: {LIMITS.get(row['kind'], 'as far as the number goes')}"
    more = len(row["first"]) - 2
    return ", ".join(row["first"][:2]) + (f" and {more} more" if more > 0 else "")


def lines_of(rows: list[Values]) -> list[str]:
    """The table."""
    cells = [("may move", "now", "as far as", "by", "beyond that")]
    for it in rows:
        cells.append((name_of(it), value_of(it, "value"), value_of(it, "last"), share_text(it), then_of(it)))
    return columns(cells, "", right=(1, 2, 3))


def shares_of(rows: list[Values]) -> list[str]:
    """Which numbers have a share that isn't of themselves."""
    kinds = {it["kind"] for it in rows}
    several = [(kind, whole) for kind, whole in WHOLES.items() if kind in kinds]
    return [f"{'an' if kind == 'offset' else 'a'} {kind} in % of {whole}" for kind, whole in several]


def lines_of_shares(rows: list[Values]) -> list[str]:
    """The same as a line, if there is one."""
    several = shares_of(rows)
    return [f"by: {', '.join(several)}"] if several else []


def json_text(options: MarginOptions, question: MarginQuestion, rows: list[Values], seconds: float) -> str:
    """All that is told, as JSON."""
    asked = {"file": options.file, "goals": options.goals, "deadlines": options.deadlines}
    asked |= {"chains_file": options.chains, "premise": PREMISE if options.chains else None}
    if question.view.clocks:
        asked["periods_on_clocks"] = CLOCKS
    if question.view.clocks_in_bounds:
        asked["clock_premise"] = CLOCK_PREMISE
    cost = {"calls": question.calls, "reports": question.probes, "seconds": round(seconds, 3)}
    laws = LAWS if options.chains is None else LAWS | {"period": f"{LAWS['period']}; what chains allow is argued"}
    return json.dumps({**asked, "numbers": rows, "laws": laws, **cost}, indent=1)


def lines_of_chains(question: MarginQuestion) -> list[str]:
    """What has to be said where chains count."""
    return [PERIODS, PREMISE_WORDS] if question.chains else []


def lines_of_clocks(question: MarginQuestion, rows: list[Values]) -> list[str]:
    """What has to be said where sources are on clocks."""
    offsets = [OFFSETS] if any(it["kind"] == "offset" for it in rows) else []
    return offsets + ([CLOCKS] if question.view.clocks else []) + clock_words_of(question.view)


def tell_nothing(question: MarginQuestion) -> int:
    """Says what doesn't hold already, of chains with their lines in the file."""
    now = question.now()
    stay = [REGIONS] * question.has_regions() + [SECTIONS] * question.has_sections()
    told = "; ".join([f"nothing may move, as this doesn't hold now: {', '.join(now.first())}", *stay])
    print(told, file=sys.stderr)
    for line in question.chains.lines_of(now.late) if question.chains else ():
        print(line, file=sys.stderr)
    for it in question.chains.silences() if question.chains else ():
        print(f"{question.known.file}: {it}", file=sys.stderr)
    return 3


def question_of(options: MarginOptions) -> MarginQuestion:
    """What is asked; a goal of no path ends the tool."""
    known = analysed(options.program, options.file)
    paths, chains = known.view.paths, ChainGoals(known, options.chains) if options.chains else None
    for name in options.goals:
        if name not in paths:
            raise Fault(f"{options.file}: there is no path {name}; it has {', '.join(paths) or 'none'}")
    question = MarginQuestion(known, options.goals, options.deadlines, chains)
    if options.only != KINDS:
        there = question.kinds(options.only)
        for kind in (it for it in options.only if it not in there):
            raise Fault(f"{options.file}: --only {kind}: {NONE_OF[kind]}")
    return question


def tell_margins(options: MarginOptions) -> int:
    """Tells how far each number may move; 3 where something doesn't hold already."""
    check_folders(options.to)
    if options.to:
        need("matplotlib")
    start, question = time.monotonic(), question_of(options)
    if not question.now().holds():
        return tell_nothing(question)
    rows = rows_of(question, options.only, options.jobs)
    if options.json:
        print(json_text(options, question, rows, time.monotonic() - start))
    else:
        notes = [NOTE, *lines_of_shares(rows), *lines_of_chains(question), *lines_of_clocks(question, rows)]
        print(shown("\n".join([*lines_of(rows), "", *notes])))
    if options.to:
        from lokwurmi_tools.pictures.margin_bars import draw_margins

        draw_margins(rows, options.to, os.path.basename(options.file))
    return 0
