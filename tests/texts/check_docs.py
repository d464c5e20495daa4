#!/usr/bin/env python3
"""Tries what the pages show: each call of ./lokwurmi with its output, each system that docs/FILES.md shows as refused,
and each edit that it shows as refused. docs/TUTORIAL.md is followed from its first line to its last: the files that it
has a reader write are written, added to and changed, and each call is made with the files as they are by then; at its
end they are those of examples/. Each call of a Python command in a block of a page, that writes a picture or a page of
docs/, is made once more, and must write what stands there: the same tables, and pictures that say the same. The tables
of docs/TIGHTNESS.md are worked out from the traces of examples/worst/, which are replayed; those of chains must have
sources that stay near. Outside the gate.

Of docs/TUTORIAL.md, and of the sections that tell of examples with several activators, the figures in the text are held
too: each number above 10 stands in a block or a table of its section of the page, in the files of those examples, or in
what docs/FILES.md says of keys, or is told by a sum before it; what is summed up, or told in milliseconds, stands
somewhere on the page; and each sum that ends with `=` and a number is right. The one stream of
examples/gateway_one_stream.toml, and what docs/ANALYSIS.md says of it, are worked out again.

    python3 -m tests.texts.check_docs [PART..]
"""
import glob
import os
import re
import shlex
import subprocess
import tempfile
import tomllib

from lokwurmi_tools.commands.catalogue import command_of
from lokwurmi_tools.runs.effect_chain_in_run import RunOfJobs, gaps_in, seen_of
from lokwurmi_tools.runs.jobs_in_run import read_trace, schedule_in
from lokwurmi_tools.shared.system_file import read_system
from tests.support.calls import (
    NEEDS_PROGRAM,
    TOP,
    example_systems,
    hold,
    python_with,
    reader_of,
    run,
    tell,
    tool,
    written,
)

os.chdir(TOP)
# what is said beside the output of a call is tried by check_messages.py
os.environ["LOKWURMI_QUIET"] = "1"
PYTHON = python_with("matplotlib", "jinja2")


def hold_same(what, wrote, told):
    """Holds what a program writes against what a page says."""
    hold(wrote == told, f"{what}\n  the page: {told!r}\n  the program: {wrote!r}")


def call(*words):
    return subprocess.run(["./lokwurmi", *words], stdout=subprocess.PIPE, text=True).stdout


def read(path):
    with open(path, encoding="utf-8") as it:
        return it.read()


BLOCK = re.compile(r"^(?:(Write into|Add to|Change in) `([\w.]+)`:\n\n)?```\w*\n(.*?)^```$", re.M | re.S)


def numbers(text):
    """The numbers in words, which may have commas between their thousands."""
    return {it.replace(",", "") for it in re.findall(r"\d+(?:,\d{3})*", text)}


def shown(text):
    """The numbers in the blocks and the tables of a text."""
    rows = re.findall(r"^\| .*", text, re.M)
    return {it for _, _, block in BLOCK.findall(text) for it in re.findall(r"\d+", block)}.union(*map(numbers, rows))


def check_figures(page, text, known, wide):
    """Holds the numbers of a text outside its blocks, and the sums in it; answers what these come to."""
    prose = re.sub(r"\]\([^)]*\)|<img[^>]*>", "]", BLOCK.sub("", text))
    sums = re.findall(r"([\d(][\d+\-·/() ,]*[\d)]) = (\d+(?:,\d{3})*)", prose)
    for left, right in sums:
        value = eval(left.replace("·", "*").replace(",", ""))
        hold_same(f"{page}: {left} = {right}", value, int(right.replace(",", "")))
        prose = prose.replace(f"{left} = {right}", "")
    results = {right.replace(",", "") for _, right in sums}
    # a tick of the pages is a microsecond
    summed = {it + "000" for it in re.findall(r"(\d+) ms", prose)}.union(*(numbers(left) for left, _ in sums))
    free = numbers(re.sub(r"[\w.]*[A-Za-z_.]\d+|\d+ ms", "", prose))
    for number in sorted((free - known - results) | (summed - wide - results), key=int):
        if int(number) > 10:
            hold_same(f"{page}: {text[:30]!r}: {number}", "in no block and in no file", number)
    return results


def follow(page, text, room):
    """Follows a page: each file that it writes, adds to or changes, and each call."""
    # the launcher has folders beside it
    for it in ("lokwurmi", "python", "examples"):
        os.symlink(os.path.abspath(it), os.path.join(room, it))
    files = {}
    for how, name, block in BLOCK.findall(text):
        if how == "Write into":
            files[name] = block
        elif how == "Add to":
            files[name] += "\n" + block
        elif how == "Change in":
            old, new = (
                "".join(line[1:] for line in block.splitlines(True) if line[0] in kept) for kept in (" -", " +")
            )
            hold_same(f"{page}: how often what changes is there", files[name].count(old), 1)
            files[name] = files[name].replace(old, new)
        elif block.startswith("$ "):
            command, told = block[2:].split("\n", 1)
            wrote = subprocess.run(["bash", "-c", command], cwd=room, stdout=subprocess.PIPE, text=True).stdout
            hold_same(f"{page}: {command}", wrote, told)
        if how:
            with open(os.path.join(room, name), "w", encoding="utf-8") as it:
                it.write(files[name])
    return files


def events(streams, window):
    """The most events that streams of a period, a jitter and a distance have together in a window."""
    return sum(
        min(-(-(window + jitter) // period), -(-window // distance) if distance else window + jitter)
        for period, jitter, distance in streams
    )


def least_jitter(period, streams):
    """The least jitter with which one stream of a period, without a distance, has as many events in each window as some
    have."""
    # what comes after the longest jitter repeats itself with the periods, all of which divide 100000
    longest = max(jitter for _, jitter, _ in streams) + 200000
    return max((events(streams, window) - 1) * period + 1 - window for window in range(1, longest))


def bounds(report):
    return {line.split()[1]: line.split()[-1] for line in report.splitlines() if line.startswith("task ")}


def check_streams(page, section, room):
    """The figures of docs/ANALYSIS.md about two streams and the one that stands for them."""
    files = ["examples/gateway.toml", "examples/gateway_one_stream.toml"]
    source = {it["name"]: it for it in tomllib.loads(read(files[1]))["source"]}

    def inputs(report):
        # what comes out of a frame: jitter by what its response varies, and as far apart as its least execution or what
        # is left of the distance
        for line in map(str.split, report.splitlines()):
            if line[1] in ("wheel_frame", "button_frame"):
                period, jitter, distance, best, worst = map(int, line[4::2])
                yield period, jitter + worst - best, max(distance - (worst - best), best)

    both, streams = source["both"], list(inputs(call("analyse", files[0])))
    hold_same(f"{page}: the jitter of the one", both["jitter"], least_jitter(both["period"], streams))
    one = [(both["period"], both["jitter"], 0)]
    for window, *told in re.findall(r"^\| (\d+) \| (\d+) \| (\d+) \|$", section, re.M):
        hold_same(f"{page}: a window of {window}", [str(events(it, int(window))) for it in (streams, one)], told)
    found = [bounds(call("analyse", file)) for file in files]
    for name, *told in re.findall(r"^\| `(\w+)` \| (\d+) \| (\d+) \|", section, re.M):
        hold_same(f"{page}: {name}", [it[name] for it in found], told)
    edits = re.findall(r"`(source \w+ \d+ \d+ \d+)`", section)
    reports = []
    for file, edit in zip(files, edits):
        reports.append(call("session", file, written(room, "script", edit)))
    jitter = least_jitter(both["period"], list(inputs(reports[0])))
    hold_same(f"{page}: the second jitter", edits[1:], [f"source both {both['period']} {jitter} 0"])
    relayed, forward, watch = ([bounds(report)[name] for report in reports] for name in ("relayed", "forward", "watch"))
    text = (
        f"`relayed` has the bound {relayed[0]} by two streams and {relayed[1]} by one; `forward` has {forward[0]} by"
        f" both, and `watch` {watch[0]} and {watch[1]}."
    )
    hold_same(f"{page}: with the edits", forward[0] == forward[1] and text in section, True)


PICTURE = re.compile(r"<svg.*?</svg>", re.S)


def said(text):
    """What a picture or a page of HTML says: the words in its pictures, and all that is outside of them."""
    pictures = PICTURE.findall(text)
    words = [re.findall(r"<(?:text|title)\b[^>]*>([^<]*)<", it) for it in pictures]
    return [] if len(pictures) == 1 and text.strip().endswith("</svg>") else PICTURE.sub("", text).splitlines(), [
        sorted(it) for it in words
    ]


def check_drawn(page, text, room, python):
    """The calls of Python commands in the blocks of a page that write into docs/."""
    for block in re.findall(r"^```\w*\n(.*?)^```$", text, re.M | re.S):
        for line in block.replace("\\\n", " ").splitlines():
            words = line.split()
            if words[:1] != ["./lokwurmi"] or not words[-1].startswith("docs/") or not command_of(words[1:]):
                continue
            drawn = os.path.join(room, os.path.basename(words[-1]))
            done = run("", *words[1:-1], drawn, python=python)
            hold_same(f"{page}: {line}", done.stderr, "")
            if not done.returncode:
                for wrote, told in zip(said(read(drawn)), said(read(words[-1]))):
                    hold_same(
                        f"{page}: {words[-1]}",
                        [it for it in wrote if it not in told],
                        [it for it in told if it not in wrote],
                    )
                    hold_same(f"{page}: {words[-1]}", wrote == told, True)


def check_called(page, text, python):
    """The calls of Python commands in the blocks of a page, of which several may stand in one, and what they tell: only
    its beginning where the page goes on with "and so on"."""
    for block, cut in re.findall(r"^```\n(\$ \./lokwurmi (?:(?!```).*\n)*)```(\n\nand so on)?", text, re.M):
        for part in re.split(r"^\$ \./lokwurmi ", block, flags=re.M)[1:]:
            words, told = part.split("\n", 1)
            if not command_of(shlex.split(words)):
                continue
            done = subprocess.run(
                [*tool("", python), *shlex.split(words)], stdout=subprocess.PIPE, text=True, check=False
            )
            hold_same(f"{page}: {words}", done.stdout[: len(told)] if cut else done.stdout, told)


def check_scripts(page, text, python):
    """The calls of scripts of examples/python and of the Python package in the blocks of a page, and what they write.
    What the pages' own scripts print is held by the tests of python/tests."""
    for words, told in re.findall(
        r"^```\n\$ python3 ((?:examples/python/|-m lokwurmi ).*)\n((?:(?!```).*\n)*)```", text, re.M
    ):
        environment = os.environ | {"PYTHONPATH": os.path.join(TOP, "python", "src")}
        done = subprocess.run(
            [python, *shlex.split(words)], stdout=subprocess.PIPE, text=True, check=False, env=environment
        )
        hold_same(f"{page}: {words}", done.stdout, told)


def worst_traces(name, kind, folder):
    """The traces of an example that examples/worst/ has, each as a file of its own: those of tasks and paths (`worst`),
    or of chains (`chain`)."""
    traces = {}
    for row in read(f"examples/worst/{name}.csv").splitlines(True):
        which, _, rest = row.partition(",")
        traces[which] = traces.get(which, "") + rest
    return [written(folder, f"{it}.csv", text) for it, text in traces.items() if it.startswith(kind)]


def latest(name, folder):
    """Of an example the bounds that are numbers, and the latest that its traces in examples/worst/ show."""
    found = {}
    for trace in worst_traces(name, "worst", folder):
        for kind, what, worst in re.findall(
            r"^(task|path) (\S+) .*worst (\d+)$", call("simulate", f"examples/{name}.toml", trace), re.M
        ):
            found[kind, what] = max(found.get((kind, what), 0), int(worst))
    report = re.findall(r"^(task|path) (\S+) .*?worst (\d+)\b", call("analyse", f"examples/{name}.toml"), re.M)
    return [(kind, what, int(bound), found.get((kind, what), 0)) for kind, what, bound in report]


def latest_of_chain(name, tasks, what, folder):
    """The bound of a chain of an example, and the latest that its traces in examples/worst/ show, all of whose sources
    stay near."""
    file, seen = f"examples/{name}.toml", 0
    system = read_system(file)
    for trace in worst_traces(name, "chain", folder):
        events = read_trace(trace)
        hold_same(f"{name}, {trace}: its sources stay near", gaps_in(system, events[0]), [])
        run = RunOfJobs(system, schedule_in(call("schedule", file, trace), trace, system), events)
        late = seen_of(run, tasks, "whenever").latest[what]
        seen = max(seen, late.ticks() if late else 0)
    return int(re.search(rf"\b{what} (\d+)", call("chain", file, *tasks).splitlines()[-1])[1]), seen


def ratio_of(seen, bound):
    """In four digits, rounded down: 1.0000 only where the bound is reached."""
    return f"{seen * 10_000 // bound / 10_000:.4f}"


def check_tightness(page, text, folder):
    """The rows of examples, and of single tasks and paths."""
    told = {}
    for names, *numbers in re.findall(r"^\| ([a-z_, ]+) \| (\d+) \| (\d+) \| (\S+) \|", text, re.M):
        every = []
        for name in names.split(", "):
            found = latest(name, folder)
            told |= {(name, *it[:2]): it[2:] for it in found}
            every += [it[2:] for it in found]
        hold_same(
            f"{page}: {names}",
            [
                str(len(every)),
                str(sum(seen == bound for bound, seen in every)),
                min(ratio_of(seen, bound) for bound, seen in every),
            ],
            numbers,
        )
        rest = re.search(rf"^\| {names} \|.*$", text, re.M)[0]
        for kind, what, seen, bound in re.findall(r"(task|path) `(\w+)`: (\d+) of (\d+)", rest):
            hold_same(f"{page}: {names}, {kind} {what}", told.get((names, kind, what)), (int(bound), int(seen)))
    for name, kind, what, bound, seen, ratio in re.findall(
        r"^\| (\w+) \| (task|path) `([\w.]+)` \| (\d+) \| (\d+) \| (\S+) \|", text, re.M
    ):
        hold_same(
            f"{page}: {name}, {kind} {what}",
            [told.get((name, kind, what)), ratio_of(int(seen), int(bound))],
            [(int(bound), int(seen)), ratio],
        )
    check_chain_rows(page, text, folder)
    # each example is in a row
    rows = {name for names in re.findall(r"^\| ([a-z_, ]+) \| \d+ \|", text, re.M) for name in names.split(", ")}
    hold_same(f"{page}: its examples", sorted(rows), sorted(os.path.basename(it)[:-5] for it in example_systems()))


def check_chain_rows(page, text, folder):
    """The rows of effect chains."""
    for name, chain, what, bound, seen, ratio in re.findall(
        r"^\| (\w+) \| chain `([\w, ]+)`, (\w+) \| (\d+) \| (\d+) \| (\S+) \|", text, re.M
    ):
        found = latest_of_chain(name, chain.split(", "), what, folder)
        hold_same(
            f"{page}: {name}, {what} of {chain}",
            [found, ratio_of(int(seen), int(bound))],
            [(int(bound), int(seen)), ratio],
        )


def check_blocks(room):
    """The blocks of all pages, but for the tutorial, which is followed."""
    for page in ["README.md", *sorted(glob.glob("docs/*.md")), *sorted(glob.glob("examples/*.md"))]:
        text = read(page) if page != "docs/TUTORIAL.md" else ""
        for words, told in re.findall(r"^```\n\$ \./lokwurmi (.*)\n((?:(?!```).*\n)*)```", text, re.M):
            if not command_of(shlex.split(words)):
                hold_same(f"{page}: {words}", call(*shlex.split(words)), told)
        if PYTHON and text:
            check_called(page, text, PYTHON)
            check_scripts(page, text, PYTHON)
            check_drawn(page, text, room, PYTHON)


def check_refusals(room):
    """The systems and the edits that docs/FILES.md shows as refused."""
    page = read("docs/FILES.md")
    for system, told in re.findall(r"```toml\n((?:(?!```).*\n)*)```\n\n`(system refused .*?)`", page):
        hold_same(f"docs/FILES.md: {told}", call("analyse", written(room, "file", system)), told + "\n")
    # the table's edits are of the system of two tasks, with a round robin resource beside
    ring = 'kind = "preemptive" }, { name = "ring", kind = "round-robin" }]'
    file = written(room, "file", read("examples/two_tasks.toml").replace('kind = "preemptive" }]', ring))
    table = page.split("### Edits that are refused")[1]
    for number, shown_edits in re.findall(r"^\| (\d) \| [^|]* \| (`.*`) \| [^|]* \|$", table, re.M):
        edits = re.findall(r"`(.*?)`", shown_edits)
        # the last of `one` after `other` comes first
        for example in [edits[::-1]] if "after" in shown_edits else [[it] for it in edits]:
            line = call("session", file, written(room, "script", "\n".join(example))).split("\n")[0]
            hold_same(f"docs/FILES.md: {example}", line, f"line {len(example)} refused {number}")


def check_tutorial(room):
    """The tutorial from its first line to its last, and its figures."""
    name, page = "docs/TUTORIAL.md", read("docs/TUTORIAL.md")
    files = follow(name, page, room)
    for file, kept in (("run.csv", "pedal.trace.csv"), ("schedule.csv", "pedal.schedule.csv")):
        hold_same(f"{name}: {file}", files[file], read(f"examples/{kept}"))
    hold_same(f"{name}: pedal.toml", tomllib.loads(files["pedal.toml"]), tomllib.loads(read("examples/pedal.toml")))
    keys = read("docs/FILES.md").split("## The system")[1].split("### Several activators")[0]
    told, wide = numbers(keys), numbers(keys) | shown(page)
    # a heading begins with the number of its step
    for part in re.split(r"^##+ (?:\d+\. )?", page, flags=re.M):
        told |= check_figures(name, part, told | shown(part), wide | told)


def check_activators(room):
    """The figures of the sections on several activators."""
    examples = ("gateway", "gateway_one_stream", "sensor_fusion")
    known = [read(file) for name in examples for file in glob.glob(f"examples/{name}.*")]
    known += [read("bench/RESULTS.md").split("### Several activators\n")[1].split("\n## ")[0]]
    for page, title in (("examples/README.md", "## Several activators"), ("docs/ANALYSIS.md", "## Several streams")):
        section = read(page).split(title + "\n")[1].split("\n## ")[0]
        found = shown(section).union(*map(numbers, known), *(re.findall(r"\d+", text) for text in known))
        # what comes of two edits is held below
        check_figures(page, re.sub(r"With `source [^\n]*?\. ", "", section), found, found)
    check_streams(page, section, room)


PARTS = {
    "blocks": check_blocks,
    "refusals": check_refusals,
    "tutorial": check_tutorial,
    "activators": check_activators,
    "tightness": lambda room: check_tightness("docs/TIGHTNESS.md", read("docs/TIGHTNESS.md"), room),
}


def main():
    reader = reader_of(__doc__, "tightness", NEEDS_PROGRAM)
    reader.add_argument("parts", metavar="PART", nargs="*", help=f"what is tried, all if absent: {', '.join(PARTS)}")
    for it in reader.parse_args().parts or PARTS:
        with tempfile.TemporaryDirectory() as room:
            PARTS[it](room)
    tell(without="" if PYTHON else ", without what Python commands draw: matplotlib and jinja2 are not here")


if __name__ == "__main__":
    main()
