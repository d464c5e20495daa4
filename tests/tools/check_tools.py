#!/usr/bin/env python3
"""Tries the Python commands over the systems of examples/, of all formats. Outside the gate.

Each system is drawn as a graph, with its report and without it, with --chains and without it. Each activator of each
task that is drawn must have its line, and no other line may be there; tasks with several activators have a double edge,
and tell their streams as the report does; bounds, deadlines and marks are those of the report. Each report and each
session is drawn as a chart, which must have the name of each path, and of each task where tasks are asked for. Where
Graphviz is there, it must take each graph. The streams of each task, from which the curve of its events is drawn, are
those that its report tells, and the steps of a curve are where it rises. What isn't a report or a picture's name is
refused. Gantt charts are tried by check_gantt.py.

Each command tells its words without the packages that it needs beside Python's own. Where they are missing it goes on
under Debian's Python, once, or ends with a line that says what to install; docs/BUILDING.md names the packages of all
commands.

    python3 -m tests.tools.check_tools
"""
import ast
import glob
import importlib.util
import os
import re
import shutil
import subprocess
import sys
import tempfile
import tomllib

from lokwurmi.model.event_models import first_windows, input_of, most_events
from lokwurmi_tools.commands.catalogue import COMMANDS
from lokwurmi_tools.shared.packages import PACKAGES
from lokwurmi_tools.shared.report import bounds_in, read_report
from lokwurmi_tools.shared.system_file import read_system
from tests import PACKAGES as SOURCES
from tests.rules.bounds import activators_of
from tests.support.calls import TOP, example_systems, hold, run, tell, tool, written
from tests.support.pictures import gantt, lines_of

if not importlib.util.find_spec("matplotlib"):
    sys.exit("check_tools.py: matplotlib isn't here: apt-get install python3-matplotlib, for /usr/bin/python3")


os.chdir(TOP)


def check_graph(file, report, chains):
    """The graph of a system, by its text; the name of a node is that of a task or a source after `task `."""
    with open(file, "rb") as it:
        system = tomllib.load(it)
    what = f"graph {file} {report or ''}{' --chains' if chains else ''}"
    done = run("graph", *(["--chains"] if chains else []), file, *([report] if report else []))
    hold(done.returncode == 0 and done.stderr == "", f"{what}: {done.stderr}")
    tasks = {it["name"]: it for it in system.get("task", [])}
    linked = {name for it in tasks.values() for name in activators_of(it)} | {
        name for name, it in tasks.items() if any(before in tasks for before in activators_of(it))
    }
    drawn = {name for name in tasks if not chains or name in linked}
    wanted = {(before, name) for name in drawn for before in activators_of(tasks[name])}
    found = re.findall(r'^  "task (\S+)" -> "task (\S+)"', done.stdout, re.M)
    hold(sorted(found) == sorted(wanted), f"{what}: its lines are {sorted(found)}")
    nodes = dict(re.findall(r'^    "task (\S+)" (\[label = .*\]);$', done.stdout, re.M))
    hold(set(nodes) == drawn, f"{what}: its tasks are {sorted(nodes)}")
    links = {link for path in system.get("path", []) for link in zip(path["tasks"], path["tasks"][1:])}
    coloured = set(re.findall(r'^  "task (\S+)" -> "task (\S+)" \[color', done.stdout, re.M))
    hold(coloured == {link for link in links if link in wanted}, f"{what}: its coloured lines are {sorted(coloured)}")
    for name in drawn & set(nodes):
        has_several = len(activators_of(tasks[name])) > 1
        hold(("peripheries = 2" in nodes[name]) == has_several, f"{what}: the edge of {name}")
    if report:
        hold_reported(what, system, lines_of(report), {name: nodes[name] for name in drawn & set(nodes)})
    return done.stdout


def hold_reported(what, system, lines, nodes):
    """Holds what the nodes of a graph tell of a report."""
    told = {line.split()[1]: line for line in lines if line.startswith("task ")}
    missed = {line.split()[1] for line in lines if line.startswith("path ") and line.endswith(" missed")}
    late = {name for path in system.get("path", []) if path["name"] in missed for name in path["tasks"]}
    for name, node in nodes.items():
        streams = re.search(r"\\nstreams (\d+)", node)
        hold(
            (re.search(r" streams (\d+) ", told[name]) or [None, None])[1] == (streams and streams[1]),
            f"{what}: the streams of {name}",
        )
        bound = told[name].split()[-1]
        hold(f'\\nbound {bound}"' in node, f"{what}: the bound of {name}")
        hold(("#f5b7b1" in node) == (bound == "overload"), f"{what}: {name} is marked as without a bound")
        hold(("#fbe3b5" in node) == (bound != "overload" and name in late), f"{what}: {name} is marked as late")


def check_charts(report, room):
    tasks = {line.split()[1] for line in lines_of(report) if line.startswith("task ")}
    paths = {line.split()[1] for line in lines_of(report) if line.startswith("path ")}
    for words in ([], ["--paths"]):
        picture = os.path.join(room, "chart.svg")
        done = run("chart", "--to", picture, *words, report)
        if words and not paths:
            hold(done.returncode == 1 and "nothing to draw" in done.stderr, f"chart --paths {report}: {done.stderr}")
            continue
        hold(done.returncode == 0, f"chart {report}: {done.stderr}")
        with open(picture, encoding="utf-8") as it:
            text = it.read()
        hold(all(f">{name}<" in text for name in paths), f"chart {report}: a path isn't there")
        hold(not paths or "light: best time" in text, f"chart {report}: the legend lacks the best time")
        hold(words or all(f"  {name}<" in text for name in tasks), f"chart {report}: a task isn't there")


def check_times(room):
    """Charts of which a tick is a microsecond, with what is told of them worked out by hand."""
    picture = os.path.join(room, "times.svg")
    done = run("chart", "--to", picture, "--tick", "1us", "examples/pedal.report.txt")
    hold(done.returncode == 0, f"chart --tick: {done.stderr}")
    with open(picture, encoding="utf-8") as it:
        texts = re.findall(r">([^<>]+)</text>", it.read())
    hold(
        "ms, where a tick is 1us" in texts and "ticks" not in texts and {"3.68ms", "60us", "7.5"} <= set(texts),
        f"chart --tick: {texts}",
    )
    words = [f"examples/pedal.{it}" for it in ("toml", "schedule.csv", "trace.csv", "report.txt")]
    longest = ["--from", "0", "--until", "6000", "--longest", "torque", "--tick", "1us"]
    texts = gantt(room, *words[:2], "--trace", words[2], "--report", words[3], *longest)[0]
    hold(
        "torque: 292us, bound 900us" in texts
        and "ms, where a tick is 1us" in texts
        and "6" in texts
        and "6000" not in texts,
        f"gantt --tick: {texts}",
    )


def check_streams(file, report):
    """The streams of each task beside the line of its report."""
    system, bounds = read_system(file), bounds_in(read_report(report))
    for line in map(str.split, lines_of(report)):
        if line[0] != "task":
            continue
        streams = input_of(system, bounds, line[1])
        if line[3] == "streams":
            hold(streams is None or len(streams) == int(line[4]), f"{report}: how many streams {line[1]} has")
        else:
            told = [line[4], line[6], line[8]]
            hold(
                told == ([line[4], "overload", "overload"] if streams is None else list(map(str, streams[0]))),
                f"{report}: the stream of {line[1]}",
            )
        for stream in streams or ():
            windows = first_windows(stream, 300)
            hold(
                all(most_events(stream, it) == sum(1 for first in windows if first <= it) for it in range(301)),
                f"{file}: where {stream} rises",
            )


def check_curves(room):
    """Curves of a task with two streams, and what is refused."""
    words = ["examples/gateway.toml", "examples/gateway.report.txt"]
    picture = os.path.join(room, "curve.svg")
    done = run("curve", "--beside", "4000", "16818", "0", "--to", picture, *words, "forward")
    hold(done.returncode == 0 and not done.stderr, f"curve: {done.stderr}")
    with open(picture, encoding="utf-8") as it:
        text = it.read()
    hold(
        all(
            f">{label}<" in text
            for label in ("wheel → wheel_frame", "button → button_frame", "period 4000, jitter 16818, distance 0")
        ),
        "curve: its labels",
    )
    hold(run("curve", "--to", picture, *words, "relayed").returncode == 0, "curve: a task behind another")
    for refusal, given in (
        ("no task of", [*words, "wheel"]),
        ("a window and a period are at least 1", ["--window", "0", *words, "forward"]),
        ("ticks has 20005005 events", ["--beside", "1", "0", "0", "--window", "20000000", *words, "forward"]),
        ("a picture's name ends with", ["--to", "picture.gif", *words, "forward"]),
        ("what starts it has no bound", ["examples/overload.toml", "examples/overload.report.txt", "a2"]),
    ):
        done = run("curve", *given)
        hold(done.returncode == 1 and refusal in done.stderr, f"curve {given}: {done.stderr}")


def check_other_reports(room):
    """A report that is seen to be of another system, or of an earlier state of this one, is refused by whoever takes a
    system and its report: what is drawn would have the numbers of both."""
    file, report = "examples/crossing_chains.toml", "examples/crossing_chains.report.txt"
    with open(file, encoding="utf-8") as it:
        text = it.read()
    with open("examples/crossing_chains.report.txt", encoding="ascii") as it:
        lines = it.read()
    picture = os.path.join(room, "other.svg")
    calls = (
        ["graph", file, "REPORT"],
        ["curve", "--to", picture, file, "REPORT", "a2"],
        ["gantt", "--to", picture, file, "examples/crossing_chains.schedule.csv"]
        + ["--trace", "examples/crossing_chains.trace.csv", "--report", "REPORT"],
    )
    hold('name = "a1", on = "p", after = "sa", best = 5' in text, "crossing_chains.toml isn't as it was")
    for place, (old, new, why) in enumerate(
        (
            ("task a1 p ", "task a3 p ", "task a1 is in the system alone"),
            ("task a1 p ", "task a1 q ", "task a1 has the resource q in the report, and p in the system"),
            ("distance 0 best 5 ", "distance 0 best 4 ", "task a1 has the best 4 in the report, and 5 in the system"),
            ("task a1 p period 100 ", "task a1 p period 90 ", "task a1 has the period 90 in the report, and 100 in"),
            (
                "worst 40 deadline 45 met",
                "worst 40 deadline 46 met",
                "path pa has the deadline 46 in the report, and 45",
            ),
        )
    ):
        hold(old in lines, f"{report}: {old}")
        other = written(room, f"other{place}.txt", lines.replace(old, new, 1))
        for call in calls:
            done = run(*(other if it == "REPORT" else it for it in call))
            told = f"{other}: it isn't of {file}: {why}" in done.stderr
            hold(done.returncode == 1 and told, f"{call[0]} {why}: {done.returncode} {done.stderr}")


def check_help():
    """The words of each command, under a Python that has no packages; what all of them are; and words that are none."""
    for it in COMMANDS:
        done = subprocess.run(
            [sys.executable, "-S", *tool(it.name)[1:], "--help"], capture_output=True, text=True, check=False
        )
        is_usage = done.stdout.startswith(f"usage: lokwurmi {it.name} ")
        hold(done.returncode == 0 and is_usage and not done.stderr, f"{it.name} --help without packages: {done.stderr}")
        hold(f"./lokwurmi {it.name} " in done.stdout, f"{it.name} --help: it has no example")
    for words in ("", "help", "--help"):
        done = run(words)
        shown = re.findall(r"^  (\S+(?: \S+)?)  +\S", done.stdout, re.M)
        hold(done.returncode == 0 and shown == [it.name for it in COMMANDS], f"lokwurmi_tools {words}: {done.stdout}")
    for words, said in (("nothing", "there is no such command; these are:"), ("import", "name one of network, log")):
        done = run(words)
        hold(done.returncode == 2 and said in done.stderr and not done.stdout, f"lokwurmi_tools {words}: {done.stderr}")


def script(room, name, text):
    file = written(room, name, "#!/bin/sh\n" + text)
    os.chmod(file, 0o755)
    return file


# calls a tool, where another Python than Debian's stands for that
BY_ANOTHER = """import sys
from lokwurmi_tools import __main__
from lokwurmi_tools.shared import packages
packages.DEBIAN = sys.argv[1]
sys.exit(__main__.perform(sys.argv[2:]))
"""


def check_packages(room):
    """What a tool does whose package this Python doesn't have, where another stands for Debian's."""
    picture = os.path.join(room, "chart.svg")
    bare = f'exec "{sys.executable}" -S "$@"\n'
    chart = ["chart", "--to", picture, "examples/pedal.report.txt"]
    page = ["page", "--to", os.path.join(room, "page.html"), "examples/pedal.toml"]
    hammer = ["campaign", "hammer", "--traces", "1", "examples/pedal.toml"]
    with_none, lying = script(room, "none", bare), script(
        room, "lying", f'case "$2" in "import tomllib"*) exit 0 ;; esac\n{bare}'
    )
    nowhere = os.path.join(room, "nowhere")
    with_all = script(room, "all", f'exec "{sys.executable}" "$@"\n')
    lacks, install = "the package matplotlib isn't here: ", "apt-get install python3-matplotlib"
    both = "the packages jinja2 and matplotlib aren't here: apt-get install python3-jinja2 python3-matplotlib"
    for words, debian, status, said in (
        (chart, with_none, 1, f"lokwurmi chart: {lacks}{install}; "),
        (chart, lying, 1, f"lokwurmi chart: {lacks}{install}\n"),
        (chart, nowhere, 1, f"lokwurmi chart: {lacks}"),
        ([*page, "--trace", "examples/pedal.trace.csv"], with_none, 1, f"lokwurmi page: {both}"),
        (page, with_none, 1, "lokwurmi page: the package jinja2 isn't here: apt-get install python3-jinja2"),
        (hammer, with_none, 2, "lokwurmi campaign: the package distributed isn't here: apt-get install python3-dis"),
        (chart, with_all, 0, ""),
    ):
        called = [sys.executable, "-S", "-c", BY_ANOTHER, debian, *words]
        done = subprocess.run(called, capture_output=True, text=True, check=False)
        hold(
            done.returncode == status and done.stderr.startswith(said) and done.stderr.count("\n") == bool(said),
            f"{words[0]} without packages, {debian}: {done.returncode} {done.stderr}",
        )
    hold(os.path.exists(picture), "chart doesn't go on under Debian's Python")


def packages_of(files):
    """The packages of the modules that some files have from elsewhere: not from the packages of this repository."""
    own = set(os.listdir(SOURCES))
    found = {"graphviz"}
    for file in files:
        with open(file, encoding="utf-8") as it:
            tree = ast.parse(it.read())
        names = {it.name.split(".")[0] for node in ast.walk(tree) if isinstance(node, ast.Import) for it in node.names}
        names |= {node.module.split(".")[0] for node in ast.walk(tree) if isinstance(node, ast.ImportFrom)}
        # dask comes with distributed
        found |= {
            PACKAGES.get(it, f"the package of {it}, which lokwurmi_tools/shared/packages.py doesn't have")
            for it in names - own - set(sys.stdlib_module_names) - {"dask"}
        }
    return found


def check_named():
    """docs/BUILDING.md names the packages of all commands, and the tutorial those of what it draws and of `ticks`."""
    of_all = packages_of(sorted(glob.glob(f"{SOURCES}/lokwurmi_tools/*.py")))
    used = {"graphviz", "python3-jinja2", "python3-matplotlib", "python3-tomlkit"}
    for page, wanted in (("docs/BUILDING.md", of_all), ("docs/TUTORIAL.md", used)):
        with open(page, encoding="utf-8") as it:
            lines = re.findall(r"apt-get install ([a-z0-9 -]+)", it.read())
        hold(any(wanted <= set(line.split()) for line in lines), f"{page}: it has no line with {sorted(wanted)}")


with tempfile.TemporaryDirectory() as room:
    files = example_systems()
    formats = set()
    for file in files:
        report = file[:-5] + ".report.txt"
        with open(file, "rb") as it:
            formats.add(tomllib.load(it)["format"])
        for chains in (False, True):
            check_graph(file, None, chains)
            graph = check_graph(file, report, chains)
            if shutil.which("dot"):
                done = subprocess.run(["dot", "-Tplain"], input=graph, capture_output=True, text=True, check=False)
                hold(done.returncode == 0 and not done.stderr, f"dot, of {file}: {done.stderr}")
        check_charts(report, room)
        check_streams(file, report)
    check_curves(room)
    check_other_reports(room)
    check_times(room)
    check_help()
    check_packages(room)
    check_named()
    hold(formats == {1, 2, 4}, f"examples/ has systems of all formats, and not of {formats} alone")
    for session in sorted(glob.glob("examples/*.session.txt")):
        # the last report is drawn, whose tasks may be others than before
        lines = lines_of(session)
        begins = max([place + 1 for place, line in enumerate(lines[:-1]) if line.startswith("summary ")], default=0)
        last = written(room, "last.txt", "\n".join(lines[begins:]) + "\n")
        charts = []
        for text in (session, last):
            picture = os.path.join(room, "chart.svg")
            hold(run("chart", "--to", picture, text).returncode == 0, f"chart {text}")
            with open(picture, encoding="utf-8") as it:
                charts.append(it.read())
        hold(charts[0] == charts[1], f"chart {session}: its last report is drawn")
    cut = written(room, "cut.txt", "task m cpu streams 2 best 1 worst 6\n")
    hold("there is no whole report" in run("chart", cut).stderr, "chart: a report without a summary")
    written(room, "cut.txt", "task m cpu streams two best 1 worst 6\nsummary tasks 1 overload 0 missed 0\n")
    hold("line 1 is no line of a report" in run("chart", cut).stderr, "chart: a line that isn't one")
    for name, words in (
        ("chart", ["examples/gateway.report.txt"]),
        ("graph", ["examples/gateway.toml"]),
        ("gantt", ["examples/pedal.toml", "examples/pedal.schedule.csv"]),
    ):
        hold(
            "a picture's name ends with" in run(name, "--to", os.path.join(room, "picture.gif"), *words).stderr,
            f"{name}: the name of a picture",
        )

tell(without="" if shutil.which("dot") else ", without Graphviz")
