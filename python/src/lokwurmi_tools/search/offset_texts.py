"""What was found of offsets, as a script, a table, JSON or a picture: for lokwurmi offsets."""
import json
import os
import sys
import tempfile
from collections.abc import Iterable
from fractions import Fraction

from lokwurmi.files.documents import Document
from lokwurmi.files.text_files import File
from lokwurmi.results.reports import Report
from lokwurmi.results.verdicts import CLOCK_PREMISE, CLOCK_WORDS
from lokwurmi_tools.search.offset_search import Found, OffsetOptions, OffsetSearch, told
from lokwurmi_tools.shared.analysed import Analysed, analysed
from lokwurmi_tools.shared.faults import Fault
from lokwurmi_tools.shared.packages import need
from lokwurmi_tools.shared.tables import columns, numbered, percent_above
from lokwurmi_tools.shared.types import Values
from lokwurmi_tools.shared.written_entries import check_folders, comments, put

# what to write where no source is on a clock
WRITE = (
    'write format = 4, and for sources that one timer starts the name of a clock, as { name = "s", period = 10,'
    ' clock = "ecu" } (docs/FILES.md, "Clocks")'
)
CHAINS = "deadlines of effect chains don't count here"


# ---- what is asked


def at_source(known: Analysed, name: str) -> str:
    """The file, and the line in which a source begins."""
    with open(known.file, encoding="utf-8") as it:
        file = File(known.file, it.read().replace("\r\n", "\n"))
    place = Document(file.text).place("source", list(known.view.sources).index(name))
    return f"{known.file}: line {file.place(place.span[0])[0]}"


def check_names(known: Analysed, options: OffsetOptions) -> None:
    """Ends the command where a word names nothing."""
    view = known.view
    if not view.clocks:
        raise Fault(f"{known.file}: no source is on a clock: {WRITE}")
    for it in options.clock:
        if it not in view.clocks:
            raise Fault(f"{known.file}: --clock {it}: there is no such clock; there are {', '.join(view.clocks)}")
    for it in options.keep:
        if it not in view.sources:
            on = ", ".join(name for several in view.clocks.values() for name in several)
            raise Fault(f"{known.file}: --keep {it}: there is no such source; on clocks are {on}")
        if view.sources[it].clock is None:
            raise Fault(f"{at_source(known, it)}: --keep {it}: it is on no clock, and so doesn't move: leave it out")


def free_in(known: Analysed, options: OffsetOptions) -> list[str]:
    """The sources that may move: those of clocks by which a bound may be lower."""
    check_names(known, options)
    view = known.view
    clocks = options.clock or tuple(view.clocks)
    of_use = [it for it in view.clocks_in_bounds if it in clocks]
    if not of_use:
        raise Fault(
            f"{known.file}: no bound depends on offsets on {' and '.join(clocks)}: that takes two tasks of one"
            " preemptive, ceiling or can resource whose sources are on one clock"
        )
    free = [it for clock in of_use for it in view.clocks[clock] if it not in options.keep]
    if not free:
        raise Fault(f"{known.file}: all sources on {' and '.join(clocks)} are kept: name fewer by --keep")
    return free


# ---- what is told


def bound_text(bound: int | None) -> str:
    return "overload" if bound is None else str(bound)


def rows_of(search: OffsetSearch) -> list[Values]:
    """The bounds that count, by the offsets of the file and by those that were found."""
    first, best = search.first.report, search.found().report
    return [
        {"kind": it.kind, "name": it.name, "of": it.of, "limit": it.whole}
        | {"before": search.judge.bound(first, it), "after": search.judge.bound(best, it)}
        for it in search.judge.counted
    ]


def rows_of_sources(search: OffsetSearch) -> list[Values]:
    """The sources that have other offsets than in the file."""
    sources = search.view.sources
    return [
        {"source": name, "clock": sources[name].clock, "period": sources[name].period}
        | {"before": search.given[name], "after": it}
        for name, it in search.changed().items()
    ]


def verdict_text(row: Values, bound: int | None) -> str:
    """Whether a deadline is met; nothing of a period, which is none."""
    if row["of"] != "deadline" or bound is None:
        return ""
    return "met" if bound <= row["limit"] else "missed"


def lines_of_bounds(rows: list[Values]) -> list[str]:
    """The bounds as a table, of which those that differ stand there; and how many are as before."""
    cells = [("bound of", "before", "", "after", "", "of its")]
    for it in rows:
        if it["before"] != it["after"]:
            both = [(bound_text(it[when]), verdict_text(it, it[when])) for when in ("before", "after")]
            cells.append((f"{it['kind']} {it['name']}", *both[0], *both[1], f"{it['of']} {it['limit']}"))
    same = len(rows) - len(cells) + 1
    table = columns(cells, "", right=(1, 3)) if len(cells) > 1 else []
    return table + ([f"{numbered(same, 'bound')} as before"] if same else [])


def lines_of_sources(rows: list[Values]) -> list[str]:
    """The offsets that differ as a table."""
    cells = [("offset of", "clock", "period", "before", "after")]
    for it in rows:
        cells.append((it["source"], it["clock"], str(it["period"]), str(it["before"]), str(it["after"])))
    return [*columns(cells, "", right=(2, 3, 4)), ""] if rows else []


def share_text(search: OffsetSearch, found: Found | None) -> str:
    """The sum of bounds by some offsets, in percent of that without clocks."""
    whole = search.judge.cost(search.plain_report()).shares
    return "none" if found is None else f"{percent_above(Fraction(found.cost.shares, max(1, whole)))} %"


def is_bounded(search: OffsetSearch, *reports: Report) -> bool:
    """Whether there is each bound, without clocks and by some reports, so that sums can be held against each other."""
    return all(search.judge.cost(it).lacking == 0 for it in (search.plain_report(), *reports))


def lines_of_sums(search: OffsetSearch) -> list[str]:
    """How much of all bounds is left, as shares of deadlines and periods."""
    first, best = search.first, search.found()
    if not is_bounded(search, first.report, best.report):
        return ["sums can't be compared: a bound is overload"]
    evenly = f", {share_text(search, search.spread)} spread evenly" if search.spread else ""
    return [
        f"the bounds together, each as a share of its deadline or period: {share_text(search, first)} before{evenly},"
        f" {share_text(search, best)} after, of those without clocks"
    ]


def head_of(search: OffsetSearch) -> str:
    """What was found, and by what."""
    best = search.found()
    tries = "1 try" if search.tried == 1 else f"{search.tried} tries"
    if not search.changed():
        return f"the offsets stay, after {tries}: {told(best.report)}"
    return f"found after {tries}, {best.how}: {told(best.report)}"


def notes_of(search: OffsetSearch) -> list[str]:
    """What has to be said beside the numbers."""
    found = []
    if off := search.clocks.off():
        several = ", ".join(it for it in search.given if it in off)
        found.append(f"the offsets of {several} in the file aren't those asked for (--grid, --most), and had to move")
    if search.is_whole:
        ways = numbered(search.ways(), "way")
        found.append(f"all {ways} to place these sources were tried: by none is less missed, or the sum less")
    for on, share in search.view.overloaded().items():
        found.append(
            f"no offsets can do: the utilisation of {on} is {percent_above(share)} %, whatever the offsets are"
        )
    if not is_met(search) and not search.is_whole and not search.view.overloaded():
        found.append("there may be offsets still: the search proves nothing about what it didn't try")
    return [*found, CHAINS, CLOCK_WORDS]


def is_met(search: OffsetSearch) -> bool:
    return search.found().report.ok


def lines_of(search: OffsetSearch) -> list[str]:
    """The table."""
    tables = [*lines_of_sources(rows_of_sources(search)), *lines_of_bounds(rows_of(search)), ""]
    return [head_of(search), "", *tables, *lines_of_sums(search), *notes_of(search)]


def json_text(search: OffsetSearch) -> str:
    """All that was found, as JSON."""
    best, options = search.found(), search.options
    asked: Values = {"file": search.known.file, "clocks": list(options.clock) or list(search.view.clocks)}
    asked |= {"kept": list(options.keep), "grid": options.grid, "most": options.most, "seed": options.seed}
    found = {"found": is_met(search), "tries": search.tried, "by": best.how, "all_tried": search.is_whole}
    sums = {"before": search.first.cost, "after": best.cost, "without_clocks": search.judge.cost(search.plain_report())}
    if search.spread:
        sums["spread"] = search.spread.cost
    loads = {on: float(share) for on, share in search.view.overloaded().items()}
    whole: Values = {**asked, **found, "overloaded": loads, "costs": {name: it._asdict() for name, it in sums.items()}}
    whole |= {"offsets": rows_of_sources(search), "bounds": rows_of(search), "edits": search.edits()}
    return json.dumps(whole | {"clock_premise": CLOCK_PREMISE}, indent=1)


def script_text(search: OffsetSearch) -> str:
    """The edits as a script, with what its bounds presume."""
    head = [f"lokwurmi offsets {os.path.basename(search.known.file)}: {head_of(search)}", CLOCK_WORDS]
    return "".join(f"{line}\n" for line in [*(it for line in head for it in comments(line)), *search.edits()])


def searched_until(search: OffsetSearch) -> bool:
    """Searches, and says whether it was interrupted; then the best up to there is kept."""
    try:
        search.run()
    except KeyboardInterrupt:
        return True
    finally:
        search.progress.clear()
    return False


def write_out(search: OffsetSearch) -> None:
    """Writes the script, and the table or JSON: to the standard output what no file takes, but for the table, which
    goes to the standard error beside a script there."""
    options = search.options
    if options.output:
        put(script_text(search), options.output)
    if options.json:
        print(json_text(search))
        return
    lines = lines_of(search)
    if options.output:
        print("\n".join(lines))
        return
    tell_beside(lines)
    sys.stdout.write(script_text(search))


def tell_beside(lines: Iterable[str]) -> None:
    """Tells lines on the standard error, with an empty one behind them."""
    for line in lines:
        print(line, file=sys.stderr)
    print(file=sys.stderr)


def tell_offsets(options: OffsetOptions, file: str, program: str) -> int:
    """Looks for offsets, and tells what was found; 3 where a deadline is missed still, or a bound overload, and 130
    after an interrupt."""
    if options.draw:
        need("matplotlib")
    check_folders(options.output, options.draw)
    known = analysed(program, file)
    with tempfile.TemporaryDirectory() as room:
        search = OffsetSearch(known, options, free_in(known, options), room)
        is_cut = searched_until(search)
        search.confirm()
        write_out(search)
    if options.draw:
        from lokwurmi_tools.pictures.offset_bars import draw_offsets

        draw_offsets(rows_of(search), options.draw, os.path.basename(file))
    if is_cut:
        print("lokwurmi offsets: interrupted: this is the best up to there", file=sys.stderr)
        return 130
    return 0 if is_met(search) else 3
