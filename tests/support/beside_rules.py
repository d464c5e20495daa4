"""What several checks hold of the program beside the plain rules: files worked out by hand, reports of random systems,
runs, scripts, and calls of `hammer` and `assign`. What is written of a system stands in one folder."""
from tests.rules.bounds import OVERLOAD, System, bounds_in
from tests.rules.edits import Edited
from tests.rules.runs import Run, audit_text, buffers_text, schedule_text, simulated_text
from tests.support.calls import built, hold, outcome, written
from tests.support.systems import file_of, near_trace, random_trace, rows_of

PROGRAM = built("cpa_cli")


def check_bounds(folder, cases):
    """Files with their bounds, which are worked out by hand."""
    for what, text, bounds in cases:
        wrote = outcome(PROGRAM, "analyse", written(folder, "worked.toml", text))
        hold(wrote == System(text).report(), f"{what}: {wrote[0]}", "worked cases")
        hold(bounds_in(wrote[0]) == bounds, f"{what}: the bounds aren't {bounds}: {wrote[0]}", "worked cases")


def check_refused(folder, cases):
    """Files that are refused, and some next to them."""
    for text, refused in cases:
        line, status = outcome(PROGRAM, "analyse", written(folder, "refused.toml", text))
        line = line.removeprefix("system refused ").rstrip("\n") if status == 14 else ""
        hold((line, status == 14) == (refused, bool(refused)), f"{text}: {line!r}, and not {refused!r}", "files")


def check_report(folder, number, system):
    """The report of a system, which it gives."""
    text = file_of(system)
    told, wrote = System(text).report(), outcome(PROGRAM, "analyse", written(folder, "system.toml", text))
    hold(wrote == told, f"system {number} differs:\n{text}\nby the rules:\n{told}\nby the program:\n{wrote}", "systems")
    return told[0]


def changed(draw, segments, tasks):
    """A schedule that may differ in one place."""
    rows = [list(it) for it in segments]
    place = draw.randrange(len(rows) + 1)
    kind = draw.randrange(6)
    if kind == 0 and place < len(rows):
        rows.pop(place)
    elif kind == 1:
        start = draw.randint(0, 200)
        rows.insert(place, [draw.choice(tasks), start, start + draw.randint(1, 5)])
    elif kind == 2 and place < len(rows):
        rows[place][2] += draw.randint(1, 3)
    elif kind == 3 and place < len(rows):
        rows[place][0] = draw.choice(tasks)
    elif kind == 4 and place + 1 < len(rows):
        rows[place], rows[place + 1] = rows[place + 1], rows[place]
    elif kind == 5 and place + 1 < len(rows):
        rows[place][2] = rows.pop(place + 1)[2]
        rows[place][2] = max(rows[place][2], rows[place][1] + 1)
    return rows


def check_run(folder, draw, number, system, report, trace):
    """The run of a trace that obeys, and what is written of it; gives the greatest response of each task."""
    bounds, run = bounds_in(report), Run(system, trace)
    file, other = f"{folder}/system.toml", written(folder, "trace.csv", rows_of(trace))
    seen = {name: max((it["end"] - it["arrival"] for it in jobs), default=0) for name, jobs in run.jobs.items()}
    late = [it for it in bounds if seen[it] > bounds[it]]
    hold(not late, f"system {number}: {late[:1]} is beyond its bound", "runs")
    segments = [list(it) for it in run.segments]
    buffers = buffers_text(System(file_of(system)), run, report)
    for told, words in (
        ((simulated_text(system, run), 0), ["simulate", file, other]),
        ((buffers, 0), ["buffers", file, other, "--workers", draw.randint(1, 4)]),
        ((schedule_text(segments), 0), ["schedule", file, other]),
    ):
        wrote = outcome(PROGRAM, *words)
        hold(wrote == told, f"system {number}: {words[0]}: {wrote} and not {told}:\n{rows_of(trace)}", "answers")
    for rows in (segments, changed(draw, segments, list(bounds)), changed(draw, segments, list(bounds))):
        wrote = outcome(PROGRAM, "audit", file, other, written(folder, "schedule.csv", schedule_text(rows)))
        told = audit_text(rows, segments)
        hold(wrote == told, f"system {number}: audit of {rows}: {wrote} and not {told}:\n{rows_of(trace)}", "answers")
    return seen


def check_runs(folder, draw, number, system, report, ways, kind, tally):
    """Runs of traces that are drawn in some ways; counts bounds on a kind of resource, and those that a run reaches."""
    bounds = bounds_in(report)
    several = [check_run(folder, draw, number, system, report, way(draw, system)) for way in ways]
    kinds = {it["name"]: it["kind"] for it in system["resource"]}
    names = [it["name"] for it in system["task"] if kinds[it["on"]] == kind and bounds[it["name"]] != OVERLOAD]
    tally["bounds"] += len(names)
    tally["reached"] += sum(max(it[name] for it in several) == bounds[name] for name in names)


def check_edits(folder, draw, number, system, some_edit):
    """A script with edits: its reports, and the edits that are refused."""
    edited, text, told = Edited(system), "", ""
    for line in range(1, 13):
        words = [str(it) for it in (some_edit(draw, edited.system) if line % 6 else ["report"])]
        text += " ".join(words) + "\n"
        if words == ["report"]:
            told += System(file_of(edited.system)).report()[0]
        elif rule := edited.take(*words):
            told += f"line {line} refused {rule}\n"
    report, status = System(file_of(edited.system)).report()
    wrote = outcome(PROGRAM, "session", f"{folder}/system.toml", written(folder, "script.txt", text))
    hold(wrote == (told + report, status), f"system {number}: by the script\n{text}{wrote}\n{told + report}", "scripts")


def check_hammer(folder, number):
    """No generated trace of a system is beyond a bound."""
    wrote = outcome(PROGRAM, "hammer", f"{folder}/system.toml", number, 4)
    hold(wrote[1] == 0 and wrote[0].endswith(" beyond 0\n"), f"system {number}: hammer: {wrote}", "calls of hammer")


def check_orders(folder, number, system, kind, rule):
    """Resources of a kind have no orders, by a rule of `assign`."""
    for it in system["resource"]:
        if it["kind"] == kind:
            wrote = outcome(PROGRAM, "assign", f"{folder}/system.toml", it["name"])
            told = f"assign refused {rule}\n", 18
            hold(wrote == told, f"system {number}: assign {it['name']}: {wrote}", "orders")


def check_system(folder, draw, number, system, some_edit, kind, tally):
    """All of this but orders, of a system some of whose resources are of a kind."""
    report = check_report(folder, number, system)
    check_runs(folder, draw, number, system, report, (random_trace, near_trace, random_trace), kind, tally)
    check_edits(folder, draw, number, system, some_edit)
    check_hammer(folder, number)
