"""What was found of priorities, in lines or as JSON: for lokwurmi optimise."""
import json
import sys
import tempfile

from lokwurmi.results.verdicts import CLOCK_PREMISE, PREMISE, Bound
from lokwurmi_tools.search.chain_goals import PREMISE_WORDS, ChainGoals
from lokwurmi_tools.search.priorities import OrderVerdict, PriorityOptions, PrioritySearch
from lokwurmi_tools.shared.analysed import analysed
from lokwurmi_tools.shared.system_file import clock_words_of
from lokwurmi_tools.shared.tables import columns, numbered, percent_above
from lokwurmi_tools.shared.types import Values


def chains_told(search: PrioritySearch, verdict: OrderVerdict) -> list[Values]:
    """The deadlines of chains, by the priorities of the file and by those that were found."""
    return [
        {"chain": after.name, "what": after.what, "deadline": after.deadline}
        | {"before": before.bound, "verdict_before": before.verdict.value}
        | {"after": after.bound, "verdict": after.verdict.value}
        for before, after in zip(search.first.chains, verdict.chains)
    ]


def bound_text(it: Bound) -> str:
    return "overload" if it.bound is None else str(it.bound)


def lines_of_chains(search: PrioritySearch, verdict: OrderVerdict) -> list[str]:
    """The same as a table, with what it presumes."""
    if not search.chains:
        return []
    cells = [("chain", "", "before", "", "after", "", "deadline")]
    for before, after in zip(search.first.chains, verdict.chains):
        both = (bound_text(before), before.verdict.value, bound_text(after), after.verdict.value)
        cells.append((after.name, after.what, *both, str(after.deadline)))
    table = columns(cells, "", right=(2, 4, 6)) if verdict.chains else ["no chain has a deadline"]
    return ["", *table, PREMISE_WORDS]


def json_text(search: PrioritySearch, verdict: OrderVerdict) -> str:
    """All that was found, as JSON."""
    found = {"file": search.known.file, "found": verdict.holds, "orders": search.looked, "by": search.how}
    loads = {on: float(share) for on, share in search.view.overloaded().items()}
    late = {"late": verdict.late, "overload": verdict.over, "overloaded": loads}
    chains = {"chains": chains_told(search, verdict), "premise": PREMISE if search.chains else None}
    if search.view.clocks_in_bounds:
        chains["clock_premise"] = CLOCK_PREMISE
    return json.dumps({**found, **late, "order": search.changed(), "edits": search.script(), **chains}, indent=1)


def hindrances_of(search: PrioritySearch, verdict: OrderVerdict) -> list[str]:
    """Why no order can do, a sentence each; none where the search proves nothing about other orders."""
    several = [
        f"the utilisation of {on} is {percent_above(share)} %, whatever the priorities are"
        for on, share in search.view.overloaded().items()
    ]
    several += search.silences()
    if not verdict.holds and not search.has_orders():
        several.append("no two tasks of a resource have priorities that could change places")
    return several


def lines_of(search: PrioritySearch, verdict: OrderVerdict) -> list[str]:
    """The same in lines."""
    head, by = ("found", "by") if verdict.holds else ("not found", "the best by")
    lines = [f"{head} after {numbered(search.looked, 'order')}, {by} {search.how}: {verdict.told()}"]
    lines += [f"{on}: {' '.join(names)}" for on, names in search.changed().items()]
    if not search.changed():
        lines.append("the order is that of the file")
    hindrances = hindrances_of(search, verdict)
    lines += [f"no order can do: {it}" for it in hindrances]
    if not verdict.holds and not hindrances:
        lines.append("there may be an order still: the search proves nothing about what it didn't try")
        stay = {key: any(it.get(key) for it in search.view.values["task"]) for key in ("region", "locks")}
        if any(stay.values()):
            what = " and ".join(
                word for key, word in (("region", "regions"), ("locks", "critical sections")) if stay[key]
            )
            lines.append(f"{what} stay as they are: lokwurmi explain says whether a late path waits for one")
    return lines + lines_of_chains(search, verdict) + clock_words_of(search.view)


def searched_until(search: PrioritySearch) -> bool:
    """Searches, and says whether it was interrupted after an order was looked at, the best of which is kept."""
    try:
        search.run()
    except KeyboardInterrupt:
        if search.best is None:
            raise
        return True
    finally:
        search.progress.clear()
    return False


def tell_priorities(options: PriorityOptions, file: str, program: str, chains: str | None, is_json: bool) -> int:
    """Looks for priorities, and tells what was found; 3 where no order holds, and 130 after an interrupt."""
    with tempfile.TemporaryDirectory() as room:
        # a file that is refused is told here, and a program that isn't there is built
        known = analysed(program, file)
        search = PrioritySearch(known, options, room, ChainGoals(known, chains) if chains else None)
        is_cut = searched_until(search)
        verdict = search.confirmed()
    print(json_text(search, verdict) if is_json else "\n".join(lines_of(search, verdict)))
    if is_cut:
        print("lokwurmi optimise: interrupted: this is the best up to there", file=sys.stderr)
        return 130
    return 0 if verdict.holds else 3
