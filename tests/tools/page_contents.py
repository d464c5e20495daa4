"""What a page of an example shows, beside what the program writes: numbers, bars, loads, parts of bounds, a run, and
changes."""
import json
import math
import os
import re
import tomllib
from fractions import Fraction

from lokwurmi_tools.runs.jobs_in_run import jobs_in, read_schedule, read_trace
from lokwurmi_tools.shared.system_file import read_system
from tests.rules.runs import plain
from tests.tools.pages import call, example, percent, told


def check_numbers(page, program, with_trace):
    """The tables of tasks and of paths, beside the report and what is seen under a trace."""
    file = example(page.name, ".toml")
    tasks, paths = told(call(program, "analyse", file))
    rows = page.table("task-table")
    page.hold([it["Task"] for it in rows] == [it[1] for it in tasks], "the tasks aren't those of the report")
    for row, line in zip(rows, tasks):
        page.hold(
            (row["Resource"], row["Best"], row["Bound"]) == (line[2], line[-3], line[-1]), f"task {line[1]}: {row}"
        )
        if line[3] == "period":
            page.hold(
                (row["Period"], row["Jitter"], row["Distance"]) == (line[4], line[6], line[8]),
                f"the input of {line[1]}: {row}",
            )
        else:
            page.hold(row["Period"] == f"{line[4]} streams", f"the streams of {line[1]}: {row}")
    check_paths(page, paths)
    if with_trace:
        seen = told(call(program, "simulate", file, example(page.name, ".trace.csv")))
        check_seen(page, *seen[:2])


def check_paths(page, paths):
    """The table of paths."""
    rows = page.table("path-table") if paths else []
    page.hold(len(rows) == len(paths), f"there are {len(rows)} paths")
    for row, line in zip(rows, paths):
        room = str(int(line[7]) - int(line[5])) if line[7] != "-" and line[5] != "overload" else "–"
        page.hold(
            [row["Path"], row["Best"], row["Worst"], row["Deadline"].replace("–", "-"), row["Room"], row["Verdict"]]
            == [line[1], line[3], line[5], line[7], room.replace("-", "−"), line[8]],
            f"path {line[1]}: {row}",
        )


def check_seen(page, tasks, paths):
    """What is seen under a trace, of tasks also beside their bounds: 100 % only where a bound is reached."""
    for kind, lines, key in (("task", tasks, "Task"), ("path", paths, "Path")):
        by_name = {it[key]: it for it in page.table(f"{kind}-table")} if lines else {}
        for line in lines:
            row = by_name[line[1]]
            page.hold(row["Seen"].replace("–", "none") == line[-1], f"what is seen of {line[1]}: {row}")
            if kind == "task":
                is_known = row["Seen"] != "–" and row["Bound"] != "overload"
                share = f"{100 * int(row['Seen']) // int(row['Bound'])} %" if is_known else "–"
                page.hold(row["Of bound"] == share, f"what is seen of the bound of {line[1]}: {row}")


def check_bars(page):
    """The parts of each path's bar are as long as the bounds of its tasks, which are told, and the deadline is where it
    should be."""
    bounds = {it["Task"]: it["Bound"] for it in page.table("task-table")}
    system = read_system(example(page.name, ".toml"))
    for path in system.paths.values():
        row = f"document.querySelector('#path-table tr[data-name=\"{path.name}\"]')"
        label = page.run(f"{row}.querySelector('.chain').getAttribute('aria-label')")
        on = {name: it.on for name, it in system.tasks.items()}
        page.hold(
            label == ", ".join(f"{it} on {on[it]} {bounds[it]}" for it in path.tasks),
            f"the bar of {path.name} says {label}",
        )
        widths = page.run(f"[...{row}.querySelectorAll('.chain i')].map((it) => it.getBoundingClientRect().width)")
        text = page.run(f"{row}.cells[{row}.cells.length - 1].innerText")
        known = [(width, int(bounds[it])) for it, width in zip(path.tasks, widths) if bounds[it] != "overload"]
        page.hold(
            all(it in text for it in path.tasks) and all(str(bound) in text for _, bound in known),
            f"the bar of {path.name} doesn't tell each bound: {text}",
        )
        if path.deadline is not None and len(known) == len(widths):
            at = page.run(
                f"(() => {{ const it = {row}.querySelector('.chain');"
                " return it.querySelector('u').getBoundingClientRect().left - it.getBoundingClientRect().left; })()"
            )
            per = at / path.deadline
            page.hold(
                all(abs(width - bound * per) < 2 for width, bound in known),
                f"the parts of {path.name}: {known}, and the deadline is at {at}",
            )


def above(share):
    """A share in percent, rounded up."""
    return f"{math.ceil(share * 1000) / 10:.1f} %"


def check_loads(page):
    """The utilisation of each resource, summed here once more along the ways from sources."""
    system = tomllib.loads(open(example(page.name, ".toml"), encoding="utf-8").read())
    periods = {it["name"]: it["period"] for it in system["source"]}
    tasks = {it["name"]: it for it in plain(system)["task"]}

    def rate(name):
        return Fraction(1, periods[name]) if name in periods else sum(map(rate, tasks[name]["after"]))

    for row in page.table("resource-table"):
        load = sum(rate(name) * it["worst"] for name, it in tasks.items() if it["on"] == row["Resource"])
        page.hold(
            row["Utilisation"] == percent(load),
            f"the utilisation of {row['Resource']}: {row['Utilisation']}, and not {float(load):.4f}",
        )
    for row in page.table("task-table"):
        page.hold(
            row["Utilisation"] == percent(rate(row["Task"]) * tasks[row["Task"]]["worst"]),
            f"the utilisation of {row['Task']}: {row['Utilisation']}",
        )


def check_chart(page, program, schedule):
    """The Gantt chart has a lane a resource, and its jobs have the greatest responses that `simulate` tells."""
    file, trace = example(page.name, ".toml"), example(page.name, ".trace.csv")
    texts = page.run("[...document.querySelectorAll('.chart svg text')].map((it) => it.textContent.trim())")
    system = read_system(file)
    page.hold(
        all(any(it in text for text in texts) == bool(system.on(it)) for it in system.resources),
        f"the lanes of the chart: {texts}",
    )
    page.hold(
        "a job comes" in texts and not any("later than" in it for it in texts), f"the marks of the chart: {texts}"
    )
    page.hold("none of them takes longer than its bound" in page.text("#run"), "late jobs")
    jobs = jobs_in(system, read_schedule(schedule, system), read_trace(trace))
    for line in told(call(program, "simulate", file, trace))[0]:
        greatest = max((end - came for came, end in jobs[line[1]] if end is not None), default="none")
        page.hold(
            (str(len(jobs[line[1]])), str(greatest)) == (line[3], line[-1]),
            f"the jobs of {line[1]} on the chart: {jobs[line[1]]}",
        )


OPENED = "document.querySelector('#task-table tr[data-name=\"%s\"]').nextElementSibling"


# of each task whose parts are open: its name, and whether they are to be seen
BEHIND = (
    "[...document.querySelectorAll('#task-table tr.parts')]"
    ".map((it) => [it.previousElementSibling.dataset.name, it.offsetParent !== null])"
)
STACK = """(() => { const it = %s.querySelector('.stack'), left = (one) => one?.getBoundingClientRect().left;
  return [it.clientWidth, [...it.querySelectorAll('i')].map((part) => part.getBoundingClientRect().width),
          left(it.querySelector('u')) - left(it)]; })()"""


def check_parts(page, task, opened):
    """What is open behind a task: the parts of its bound, which add up to it, and their bar."""
    name, lines, text = task["Task"], page.lines(opened), page.text_of(opened)
    if task["Bound"] == "overload":
        page.hold("of the time" in text and not lines, f"what {name} has no bound for: {text}")
        return
    parts = [(*map(int, line[1].split(" · ")[:2]), int(line[2])) for line in lines if line[1]]
    came = sum(int(line[2].lstrip("−")) for line in lines if line[2].startswith("−"))
    is_whole = sum(ticks for _, _, ticks in parts) - came == int(task["Bound"]) == int(lines[-1][2])
    is_each = all(count * each == ticks for count, each, ticks in parts)
    page.hold(is_each and is_whole, f"the parts of {name}: {lines}")
    kinds = read_system(example(page.name, ".toml")).resources
    if kinds[task["Resource"]].kind == "fifo":
        # all jobs of a queue count alike, whatever their tasks
        is_told = name in [line[0] for line in lines] and "in no order of time" in text
    else:
        is_told = lines[0][0] == name and "in the busy window" in text
    page.hold(is_told and "started by" in text, f"what is told of {name}: {text}")
    wide, widths, mark = page.run(STACK % opened)
    per = wide / (int(task["Bound"]) + came)
    is_long = all(abs(width - per * ticks) < 2 for width, (_, _, ticks) in zip(widths, parts))
    page.hold(is_long and len(widths) == len(parts), f"the bar of {name}: {widths}, {parts}")
    page.hold(not came or abs(mark - per * came) < 2, f"the mark in the bar of {name}: {mark}, {came}")


def check_opened(page, tasks, keep):
    """The parts of the first tasks are open, and stay behind them where rows are sorted, filtered or narrow."""
    names = [it["Task"] for it in tasks[:4]]
    wanted = sorted([name, True] for name in names)
    page.hold(sorted(page.run(BEHIND)) == wanted, f"open are {page.run(BEHIND)}")
    for _ in range(2):
        page.browser.click("#task-table thead th:nth-child(11) button")
        page.hold(sorted(page.run(BEHIND)) == wanted, f"sorted, the open parts are {page.run(BEHIND)}")
    field = "document.querySelector('.tools[data-of=task-table] input')"
    page.run(f"{field}.value = 'no such word'")
    page.run(f"{field}.dispatchEvent(new Event('input', {{bubbles: true}}))")
    page.hold(all(not shown for _, shown in page.run(BEHIND)), "parts of a task that isn't shown are")
    page.hold(page.count_shown("task-table") == f"0 of {len(tasks)}", "the count of what is shown, with open parts")
    page.clear("task-table")
    stacks = "[...document.querySelectorAll('tr.parts .stack')]"
    for width in (1400, 420):
        page.browser.size(width)
        page.hold(page.is_in_window(), f"with open parts it is wider than a window of {width}")
        is_in = page.run(f"{stacks}.every((it) => it.getBoundingClientRect().right <= innerWidth)")
        page.hold(is_in, f"with open parts a bar ends beyond a window of {width}")
        for scheme in ("light", "dark") if keep else ():
            page.browser.look(scheme)
            page.browser.picture(os.path.join(keep, f"{page.name}.parts.{scheme}.{width}.png"), width)
    page.browser.look("light")
    page.browser.size(1400)
    for name in names:
        page.browser.click(f'#task-table button[data-made="{name}"]')
    page.hold(page.run(BEHIND) == [], f"not all are closed: {page.run(BEHIND)}")


def check_made(page, keep):
    """Each bound opens what it is made of, by mouse and by keyboard, and closes it again; the parts stay behind their
    task."""
    tasks = page.table("task-table")
    for place, it in enumerate(tasks):
        name, opened = it["Task"], OPENED % it["Task"]
        button = f'#task-table button[data-made="{name}"]'
        press = page.press if place % 2 == 0 else page.browser.click
        expanded = f"document.querySelector({json.dumps(button)}).getAttribute('aria-expanded')"
        press(button)
        page.hold(page.run(f"{opened}.className + {expanded}") == "partstrue", f"the bound of {name} doesn't open")
        check_parts(page, it, opened)
        if place >= 4:
            press(button)
            is_closed = page.run(f"!{opened}?.classList.contains('parts') && {expanded}") == "false"
            page.hold(is_closed, f"the bound of {name} doesn't close")
    check_opened(page, tasks, keep)
    # in the order of the file again
    page.run(
        "(() => { const body = document.querySelector('#task-table').tBodies[0]; const names = %s;"
        ' body.append(...names.map((it) => document.querySelector(`#task-table tr[data-name="${it}"]`))); })()'
        % json.dumps([it["Task"] for it in tasks])
    )


def check_made_paths(page):
    """Each worst time of a path opens the bounds along it, whose sum it is."""
    for it in page.table("path-table") if page.run("!!document.querySelector('#path-table')") else []:
        name = it["Path"]
        button = f'#path-table button[data-made="{name}"]'
        page.browser.click(button)
        opened = f"document.querySelector('{button}').closest('tr').nextElementSibling"
        lines = page.lines(opened)
        if it["Worst"] == "overload":
            page.hold(any(line[2] == "overload" for line in lines), f"along the path {name}: {lines}")
        else:
            *bounds, last = [int(line[2]) for line in lines]
            page.hold(sum(bounds) == last == int(it["Worst"]), f"along the path {name}: {lines}")
            page.hold("own work" in page.run(f"{opened}.innerText"), f"whom the path {name} waits for")
        page.browser.click(button)
        page.hold(
            page.run("document.querySelectorAll('#path-table tr.parts').length") == 0,
            f"what {name} waits for doesn't close",
        )


def check_changes(page, program):
    """Each column of changes has the bounds of one report, and each bound that changes has a row."""
    texts, part = [call(program, "analyse", example(page.name, ".toml"))], ""
    for line in call(program, "session", example(page.name, ".toml"), example(page.name, ".script.txt")).splitlines():
        part += "" if line.startswith("line ") else line + "\n"
        if line.startswith("summary"):
            texts.append(part)
            part = ""
    values = []
    for text in texts:
        tasks, paths = told(text)
        values.append({("task", it[1]): it[-1] for it in tasks} | {("path", it[1]): it[5] for it in paths})
    rows = {(row[0], row[1]): row[2:] for row in page.rows("change-table")}
    for key, cells in rows.items():
        for place, cell in enumerate(cells):
            first, now = values[0].get(key, "-"), values[place].get(key, "-")
            page.hold(cell.split()[0].replace("–", "-") == now, f"the change of {key}, report {place}: {cells}")
            change = int(now) - int(first) if first.isdigit() and now.isdigit() else 0
            page.hold(
                re.findall(r"[+−]\d+", cell) == ([f"{change:+d}".replace("-", "−")] if change else []),
                f"by how much {key} changes, report {place}: {cells}",
            )
    for key in set().union(*values):
        page.hold(key in rows or len({it.get(key) for it in values}) == 1, f"the change of {key} isn't shown")
    refused = re.findall(
        r"^line (\d+) refused",
        call(program, "session", example(page.name, ".toml"), example(page.name, ".script.txt")),
        re.M,
    )
    page.hold(re.findall(r"line (\d+) refused", page.text("#changes")) == refused, f"the refused edits are {refused}")
