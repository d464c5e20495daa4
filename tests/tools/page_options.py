"""Pages with what is asked for besides: chains, times of a tick, what would help, how far numbers may move."""
import decimal
import re
import tempfile
import tomllib

from lokwurmi_tools.runs.effect_chain_in_run import RunOfJobs, seen_of
from lokwurmi_tools.runs.jobs_in_run import read_schedule, read_trace
from lokwurmi_tools.shared.system_file import read_system
from tests.rules import effect_chains
from tests.support.calls import run, written
from tests.tools.pages import call, example, schedule_of


def check_chains(room, page_of):
    """A page with chains: their bounds, deadlines and verdicts by the plain rules, the parts of each bar, what the run
    shows, and that it is told where a source stays away."""
    file, listed, trace = (example("camera_brake", end) for end in (".toml", ".chains.toml", ".trace.csv"))
    with open(file, encoding="utf-8") as it:
        bounds = effect_chains.Bounds(it.read())
    with open(listed, "rb") as it:
        chains = tomllib.load(it)["chain"]
    schedule = example("camera_brake", ".schedule.csv")
    page = page_of("camera_brake", file, "--chains", listed, "--trace", trace, "--schedule", schedule)
    page.browser.size(1400)
    system, rows, wanted = read_system(file), page.table("chain-table"), []
    # what this finds is held against the plain rules by check_effects.py
    run = RunOfJobs(system, read_schedule(schedule, system), read_trace(trace))
    for it in chains:
        limits, seen = bounds.limits(it["tasks"]), seen_of(run, it["tasks"], "whenever").latest
        for what in ("reaction", "age"):
            deadline = "–" if it.get(what) is None else str(it[what])
            verdict, latest = effect_chains.verdict(limits[what], it.get(what)), str(seen[what].ticks())
            wanted.append([it["name"], what, str(limits[what]), deadline, verdict, latest])
    columns = ("Chain", "Of", "Bound", "Deadline", "Verdict", "Seen")
    page.hold([[row[key] for key in columns] for row in rows] == wanted, f"the chains are {rows}")
    check_parts(page, rows)
    words = page.text("#chains")
    page.hold("In this run all sources keep to that" in words, "the premise isn't told to be there")
    check_away(room, page_of)


def check_away(room, page_of):
    """A run in which a source stays away: `slow` has a period of 20 ticks."""
    chains = 'format = 1\nchain = [{ name = "all", tasks = ["sense", "filter", "act"] }]\n'
    listed = written(room, "all.toml", chains)
    trace = written(room, "away.csv", "event,fast,0\nevent,fast,10\nevent,slow,0\nevent,slow,50\n")
    schedule = written(room, "away_run.csv", schedule_of(example("effects", ".toml"), trace))
    page = page_of("away", example("effects", ".toml"), "--chains", listed, "--trace", trace, "--schedule", schedule)
    words = page.text("#chains")
    page.hold("In this run slow stays away: its events at 0 and 50 may be 20 apart at most." in words, words)


# chains of effects.toml that are met, one by how long data is held
MET = 'format = 1\nchain = [\n  { name = "brake", tasks = ["sense", "filter", "act"], reaction = 60, held = 70 },\n'
MET += '  { name = "show", tasks = ["sense", "act"], reaction = 50, age = 30 },\n]\n'


def check_chain_searches(room, program, page_of):
    """How far numbers may move, and other priorities, where chains count, in ticks and in times between ticks; the tile
    has all deadlines, and each place the premise."""
    with open(example("effects", ".toml"), encoding="utf-8") as it:
        text = it.read().replace('kind = "preemptive"', 'kind = "preemptive", limit = 500')
    bounds, file, listed = (
        effect_chains.Bounds(text),
        written(room, "met.toml", text),
        written(room, "listed.toml", MET),
    )
    page = page_of("chain_searches", file, "--chains", listed, "--sensitivity", "--optimise")
    limits = {it["name"]: bounds.limits(it["tasks"]) for it in tomllib.loads(MET)["chain"]}
    wanted = [(it["name"], what) for it in tomllib.loads(MET)["chain"] for what in ("reaction", "age", "held")]
    asked = [it for it in wanted if it != ("show", "held")]
    rows = [(it["Chain"], it["Of"], it["Bound"]) for it in page.table("chain-table")]
    page.hold(rows == [(name, what, str(limits[name][what])) for name, what in asked], f"the chains are {rows}")
    figures, head = page.text(".figures"), page.text("#verdict")
    page.hold("chains, 4 of 4 deadlines met, if sources stay near" in figures, f"the tiles say {figures}")
    page.hold("4 deadlines of chains are met, if sources stay near" in head, f"the head says {head}")
    moves = {(it["May move"], it["By"][0]): it for it in page.table("margin-table")}
    # the reaction of show is 9 + 3 + 24 + 9, of 50: its wait for act may be five ticks longer
    slow = moves["period of slow", "+"]
    page.hold((slow["As far as"], slow["Beyond that"]) == ("25", "chain show reaction"), f"the period of slow: {slow}")
    for name, what in [it for it in asked if it != ("brake", "age")]:
        last = moves[f"deadline of {name} {what}", "−"]["As far as"]
        page.hold(last == str(limits[name][what]), f"the deadline of {name}, {what}: {last}")
    said = page.text("#margins")
    # with shorter periods act has no bound first
    page.hold(
        "a chain stops 8 of 10 numbers" in said and "sources stay near" in said, f"how far numbers may move: {said}"
    )
    found = {(it["Chain"], it["Of"]): it["With these"] for it in page.table("priority-chain-table")}
    same = all(found[name, what] == str(limits[name][what]) for name, what in found)
    page.hold(same and len(found) == 4, f"priorities: {found}")
    # between ticks two waits have a tick more: 47, of 50
    page = page_of("chain_times", file, "--chains", listed, "--sensitivity", "--tick", "1ms")
    slow = next(it for it in page.table("margin-table") if it["May move"] == "period of slow" and it["By"][0] == "+")
    page.hold(slow["As far as"] == "23ms", f"the period of slow between ticks: {slow}")
    page = page_of("without_chains", file, "--sensitivity")
    page.hold("an effect chain may miss its own by then" in page.text("#margins"), "that chains don't count isn't told")


def check_no_order(page_of):
    """Where no order can do a page says so, and why: here a task waits for the pedal, which may never be pressed."""
    page = page_of(
        "no_order", example("brake_pedal", ".toml"), "--chains", example("brake_pedal", ".chains.toml"), "--optimise"
    )
    said = page.text("#priorities")
    wanted = "No order can do: source pedal (line "
    page.hold(wanted in said and "is sporadic" in said and "there may be one still" not in said, f"no order: {said}")


def check_parts(page, rows):
    """The parts of each bar of a chain: as long as what they tell, and their sum is the bound."""
    for place, row in enumerate(rows):
        bar = f"document.querySelectorAll('#chain-table .chain')[{place}]"
        ticks = [int(it.split()[-1]) for it in page.run(f"{bar}.getAttribute('aria-label')").split(", ")]
        widths = page.run(f"[...{bar}.querySelectorAll('i')].map((it) => it.getBoundingClientRect().width)")
        page.hold(sum(ticks) == int(row["Bound"]), f"the parts of {row['Chain']}, {row['Of']}: {ticks}")
        per = sum(widths) / sum(ticks)
        page.hold(
            all(abs(width - it * per) < 2 for it, width in zip(ticks, widths)),
            f"the bar of {row['Chain']}, {row['Of']}: {widths}",
        )


def time_of(ticks, tick):
    """A number of ticks of so many nanoseconds as the page has to show it, by decimal numbers, which are exact."""
    if not ticks:
        return "0"
    time = decimal.Decimal(abs(ticks)) * decimal.Decimal(tick)
    unit, size = next(
        ((unit, size) for unit, size in (("s", 10**9), ("ms", 10**6), ("us", 10**3)) if time >= size), ("ns", 1)
    )
    return ("−" if ticks < 0 else "") + format((time / size).normalize(), "f") + unit


def check_times(program, page_of):
    """Pages of which a tick has a time: each number of ticks is shown as exactly that time, and tables are sorted by
    it."""
    for name, tick, shown, more in (
        ("pedal", "1000", "1us", ["--trace", example("pedal", ".trace.csv")]),
        ("crossing_chains", "2500", "2.5us", ["--session", example("crossing_chains", ".script.txt")]),
        ("gateway", "333.3", "333.3ns", []),
    ):
        file = example(name, ".toml")
        page = page_of(f"{name}_{shown}", file, "--tick", shown, *more)
        page.browser.size(1400)
        head = page.text("#tick")
        page.hold(head.startswith(f"A tick is {shown}: ") and "shown exactly" in head, f"its head says {head}")
        report = call(program, "analyse", file)
        bounds = {task: int(worst) for task, worst in re.findall(r"^task (\S+) .* worst (\d+)$", report, re.M)}
        paths = re.findall(r"^path (\S+) best (\d+) worst (\d+) deadline (\S+)", report, re.M)
        check_times_in_tables(page, tick, bounds, paths)
        texts = page.run("[...document.querySelectorAll('.graph text')].map((it) => it.textContent)")
        page.hold(all(f"bound {time_of(worst, tick)}" in texts for worst in bounds.values()), f"the graph says {texts}")
        if name == "pedal":
            marks = page.run("[...document.querySelectorAll('.chart text')].map((it) => it.textContent)")
            page.hold("ms, where a tick is 1us" in marks, f"the chart says {marks}")
    page = page_of("two_tasks", example("two_tasks", ".toml"))
    page.hold(page.text("#tick") == "All times are in ticks.", "its head says what a number is")


def check_times_in_tables(page, tick, bounds, paths):
    """The tables of tasks and of paths, the parts of a bound, and the order by bounds."""
    rows = {row["Task"]: row["Bound"].split()[0] for row in page.table("task-table")}
    page.hold(rows == {task: time_of(worst, tick) for task, worst in bounds.items()}, f"the bounds are {rows}")
    keys = ("Path", "Best", "Worst", "Deadline", "Room")
    found = [[row[key].split()[0] for key in keys] for row in page.table("path-table")]
    wanted = []
    for path, best, worst, limit in paths:
        room = ["–", "–"] if limit == "-" else [time_of(int(limit), tick), time_of(int(limit) - int(worst), tick)]
        wanted.append([path, time_of(int(best), tick), time_of(int(worst), tick), *room])
    page.hold(found == wanted, f"the paths are {found}, and not {wanted}")
    first = page.run("document.querySelector('#task-table button[data-made]').dataset.made")
    page.browser.click(f"#task-table button[data-made='{first}']")
    lines = page.run(
        "[...document.querySelectorAll('#task-table tr.parts dl > div')]"
        ".map((line) => [...line.children].map((it) => it.textContent))"
    )
    page.hold(lines[-1][2] == time_of(bounds[first], tick), f"the parts of {first}: {lines}")
    page.browser.click("#task-table thead th:nth-child(11) button")
    order = [bounds[it] for it in page.shown("task-table") if it]
    page.hold(order == sorted(order), f"sorted by the bound: {order}")


def check_helps(program, page_of):
    """What would help a path on a page: each change of a number, which the edit of a script makes, and the greatest
    time with it by the program."""
    file = example("crossing_chains", ".toml")
    page = page_of("helps", file, "--helps")
    rows = page.run(
        "[...document.querySelectorAll('#helps tbody tr')]"
        ".map((row) => [...row.cells].map((it) => it.innerText.trim()))"
    )
    page.hold(
        len(rows) >= 1
        and page.run("[...document.querySelectorAll('#helps table')].map((it) => it.dataset.path)") == ["pb"],
        f"the changes are {rows}",
    )
    with open(file, encoding="utf-8") as it:
        executions = {task["name"]: task["best"] for task in tomllib.loads(it.read())["task"]}
    for what, worst, _ in rows:
        if change := re.fullmatch(r"greatest execution of (\S+) \d+ → (\d+)", what):
            with tempfile.NamedTemporaryFile("w", suffix=".txt") as script:
                script.write(f"exec {change[1]} {min(executions[change[1]], int(change[2]))} {change[2]}\n")
                script.flush()
                report = call(program, "session", file, script.name)
            page.hold(re.search(r"^path pb best \d+ worst (\d+)", report, re.M)[1] == worst, f"{what}: {worst}")


def check_searches(program, page_of):
    """How far numbers may move is what `lokwurmi sensitivity` tells, and the priorities are those of `lokwurmi
    optimise`."""
    page = page_of("two_tasks", example("two_tasks", ".toml"), "--sensitivity", "--optimise")
    done = run("sensitivity", "--program", program, example("two_tasks", ".toml"))
    lines = done.stdout.split("\n\n")[0].splitlines()[1:]
    rows = [" ".join(it).replace("−", "-") for it in page.rows("margin-table")]
    page.hold(rows == [" ".join(it.split()) for it in lines], f"how far numbers may move: {rows}")
    page.hold("All deadlines are met by the priorities of the file" in page.text("#priorities"), "its priorities")
    page.choose("margin-table", "kind", "jitter")
    page.hold(page.count_shown("margin-table") == f"2 of {len(rows)}", "the jitters")
    page = page_of("overload", example("overload", ".toml"), "--sensitivity", "--optimise")
    page.hold("Nothing may move, as this doesn't hold now: path pa" in page.text("#margins"), "nothing may move")
    said = page.text("#priorities")
    page.hold(
        "p, the most urgent first: a1, b2" in said and "q, the most urgent first: b1, a2" in said,
        f"the priorities: {said}",
    )
    edits = page.run("document.querySelector('#priorities pre').textContent")
    with tempfile.TemporaryDirectory() as room:
        script = written(room, "edits", edits)
        page.hold(
            call(program, "session", example("overload", ".toml"), script).endswith("overload 0 missed 0\n"),
            f"the edits: {edits}",
        )
