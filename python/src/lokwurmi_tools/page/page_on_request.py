"""What a page has on request: what a script changes, how far numbers may move, other priorities, what would help."""
import os
import tempfile
from collections.abc import Mapping

from lokwurmi.errors import RULES
from lokwurmi.files.traces import text_of
from lokwurmi.results.reports import PathReport, Report, TaskReport
from lokwurmi_tools.page.system_tables import PageSystem, told_of_path
from lokwurmi_tools.search.chain_goals import ChainGoals
from lokwurmi_tools.search.helpful_changes import WARNING, change_text, helps_for, less_text, regions_text
from lokwurmi_tools.search.margin_question import KINDS, MarginQuestion
from lokwurmi_tools.search.margin_texts import CLOCKS, OFFSETS, REGIONS, name_of, share_text, then_of, value_of
from lokwurmi_tools.search.margins import rows_of
from lokwurmi_tools.search.priorities import PriorityOptions, PrioritySearch
from lokwurmi_tools.search.priority_texts import chains_told, hindrances_of
from lokwurmi_tools.shared.analysed import Analysed
from lokwurmi_tools.shared.program import written_by
from lokwurmi_tools.shared.report import reports_in
from lokwurmi_tools.shared.times import Scale
from lokwurmi_tools.shared.types import Values

# for how many paths a page tells what would help, and how many changes of each
MOST_HELPED, MOST_HELPS = 5, 5
# what a report says of tasks, or of paths
Lines = Mapping[str, TaskReport] | Mapping[str, PathReport]


def steps_in(lines: list[str], reports: list[Report]) -> list[Values]:
    """The steps of a script up to each report that its edits lead to: where it stands, and the edits before it."""
    refused = {line: reason for it in reports for line, reason in it.refused.items()}
    steps: list[Values] = []
    edits: list[Values] = []
    for place, line in enumerate(lines, 1):
        text = " ".join(line.split())
        if text == "report":
            steps.append({"title": f"line {place}", "edits": edits})
            edits = []
        elif text and not text.startswith("#"):
            edits.append({"line": place, "text": text, "refused": RULES[refused[place]] if place in refused else None})
    # the report at the end is that of the last line where nothing is edited in between
    return steps + [{"title": "end", "edits": edits}] if edits or not steps else steps


def cells_of(columns: list[Lines], name: str) -> list[Values]:
    """What each report says of a task or a path, and by how much its bound in ticks changes from the first."""
    cells: list[Values] = []
    for it in columns:
        found = it.get(name)
        bound = found.worst if found else None
        verdict = found.verdict.value if isinstance(found, PathReport) else None
        first = cells[0]["bound"] if cells and cells[0]["is"] else None
        change = bound - first if bound is not None and first is not None else None
        cells.append({"is": found is not None, "bound": bound, "verdict": verdict, "change": change})
    return cells


def changes_of(known: Analysed, script: str) -> Values:
    """What the reports of a session changed: the edits before each, and the bounds that aren't the same in all."""
    reports = reports_in(written_by(known.program, "session", known.file, script), script)
    steps = steps_in(text_of(script).split("\n"), reports)
    columns, kept = [known.report, *reports[: len(steps)]], 0
    rows: list[Values] = []
    for kind in ("task", "path"):
        several: list[Lines] = [it.tasks if kind == "task" else it.paths for it in columns]
        for name in dict.fromkeys(name for it in several for name in it):
            cells = cells_of(several, name)
            if len({(it["is"], it["bound"], it["verdict"]) for it in cells}) == 1:
                kept += 1
            else:
                rows.append({"kind": kind, "name": name, "cells": cells})
    counts = [{"overload": it.overloads, "missed": it.missed} for it in columns]
    return {"name": os.path.basename(script), "steps": steps, "rows": rows, "kept": kept, "counts": counts}


def margins_of(known: Analysed, scale: Scale, chains: ChainGoals | None) -> Values:
    """How far each number may move, or what doesn't hold already."""
    question = MarginQuestion(known, {}, False, chains)
    now = question.now()
    rows = rows_of(question, KINDS, os.cpu_count() or 1) if now.holds() else []
    told = [
        {
            "what": name_of(it),
            "kind": it["kind"],
            "share": it["share"],
            "by": share_text(it),
            "then": then_of(it),
            "is_chain": it["first"][:1] != [] and it["first"][0].startswith("chain "),
            "now": value_of(it, "value", scale),
            "last": value_of(it, "last", scale),
            "value": it["value"],
            "end": it["last"],
        }
        for it in rows
    ]
    regions = REGIONS if question.has_regions() else ""
    offsets = OFFSETS if any(it["kind"] == "offset" for it in rows) else ""
    # a deadline is stopped by its own path or chain; paths and tasks come before chains in what is told
    others = [it["is_chain"] for it in told if it["kind"] != "deadline"]
    counts = {"with_chains": chains is not None, "by_chains": sum(others), "others": len(others)}
    clocks = CLOCKS if rows and known.view.clocks else ""
    return {"rows": told, "missed": now.first(), "regions": regions, "offsets": offsets, "clocks": clocks} | counts


def priorities_of(known: Analysed, chains: ChainGoals | None) -> Values:
    """Priorities under which all deadlines are met, or the best that are found."""
    with tempfile.TemporaryDirectory() as room:
        search = PrioritySearch(known, PriorityOptions(), room, chains)
        search.run()
        search.progress.clear()
        verdict = search.confirmed()
    return {
        "found": verdict.holds,
        "told": verdict.told(),
        "orders": search.looked,
        "order": search.changed(),
        "edits": search.script(),
        "chains": chains_told(search, verdict),
        "hindrances": hindrances_of(search, verdict),
    }


def paths_to_help(report: Report) -> list[str]:
    """The paths that are late, or have a deadline and no bound, the latest first; or else the tightest one."""
    room = {
        it.name: float("-inf") if it.worst is None else 1 - it.worst / it.deadline
        for it in report.paths.values()
        if it.deadline is not None
    }
    order = sorted(room, key=lambda name: room[name])
    return [name for name in order if room[name] < 0][:MOST_HELPED] or order[:1]


def helps_of(system: PageSystem) -> Values:
    """What would help each late path, or the tightest one."""
    rows, known = [], system.known
    for name in paths_to_help(known.report):
        several = helps_for(known, name)
        best = [it for it in several if it.effect == "shorter"]
        told = [
            {"what": change_text(it.change, system.scale), "worst": it.worst, "by": less_text(it, system.scale)}
            for it in best[:MOST_HELPS]
        ]
        regions = regions_text(system.explained.path(name), os.path.basename(known.file))
        counts = {"tried": len(several), "shorter": len(best)}
        rows.append(told_of_path(known.report.paths[name]) | counts | {"helps": told, "regions": regions})
    return {"rows": rows, "warning": WARNING}
