"""Systems whose bounds were worked out by hand, random ones, and calls of `verdict` and `diff`, for their checks."""
import csv
import io
import json
import os
import random
import subprocess
import sys
import tempfile
import tomllib

from tests.rules import effect_chains
from tests.support import chain_texts, systems
from tests.support.calls import NEEDS_PROGRAM, TOP, add_number, hold, reader_of, tell, tool, written
from tests.support.stand_in import stand_in

try:
    import jsonschema
except ImportError:
    sys.exit("check_ci.py: the package jsonschema isn't here: apt-get install python3-jsonschema")


os.chdir(TOP)
# a has the bound 3, and b, which it interrupts once, 7 + 3 = 10
HAND = """format = 1
resource = [{ name = "cpu", kind = "preemptive" }]
source = [{ name = "sa", period = 10 }, { name = "sb", period = 20 }]
task = [
  { name = "a", on = "cpu", after = "sa", best = 1, worst = 3, priority = 1 },
  { name = "b", on = "cpu", after = "sb", best = 2, worst = 7, priority = 2 },
]
path = [
  { name = "pa", tasks = ["a"], deadline = 3 },
  { name = "pb", tasks = ["b"], deadline = 9 },
  { name = "pc", tasks = ["b"] },
]
"""
MET = HAND.replace("deadline = 9", "deadline = 12")
BARE = "".join(HAND.partition("path = [")[:1])
# the waits are 9 and 9, the responses 2 and 3: reaction and held are 23, the age is 23 - 9
TWO = """format = 1
resource = [{ name = "c1", kind = "preemptive" }, { name = "c2", kind = "preemptive" }]
source = [{ name = "sa", period = 10 }, { name = "sb", period = 10 }]
task = [
  { name = "a", on = "c1", after = "sa", best = 2, worst = 2, priority = 1 },
  { name = "b", on = "c2", after = "sb", best = 3, worst = 3, priority = 1 },
]
"""
# with 15 ticks of b in 20, and 3 of a in 10, there is more work than time
OVER = HAND.replace("worst = 7", "worst = 15").replace("deadline = 3", "deadline = 2")
CHAINS = """format = 1
chain = [
  { name = "ab", tasks = ["a", "b"], reaction = 24, age = 13, held = 30 },
  { name = "free", tasks = ["b", "a"] },
]
"""
HEAD = "kind,name,what,bound,deadline,slack,verdict,bound_time,deadline_time,slack_time,premise".split(",")
NEAR = "if sources stay near"


def schema_of(name):
    with open(os.path.join("docs", name), encoding="utf-8") as it:
        return jsonschema.Draft7Validator(json.load(it))


class Tools:
    """Calls of both tools, and the files that they are called with."""

    def __init__(self, folder, program):
        self.folder, self.program = folder, program

    def file(self, name, text):
        return written(self.folder, name, text)

    def call(self, name, *words, given=None):
        named = [] if "--program" in words else ["--program", self.program]
        words = [*tool(name), *named, *words]
        environment = {key: it for key, it in os.environ.items() if key != "LOKWURMI_QUIET"}
        done = subprocess.run(words, input=given, capture_output=True, text=True, check=False, env=environment)
        hold("Traceback" not in done.stderr, f"{words}: {done.stderr}")
        return done

    def rows(self, name, *words):
        """The rows of --csv, each a dictionary."""
        done = self.call(name, *words, "--csv")
        return list(csv.DictReader(io.StringIO(done.stdout, newline=""))), done.returncode

    def json(self, name, *words):
        done = self.call(name, *words, "--json")
        told = json.loads(done.stdout)
        for fault in SCHEMAS[name].iter_errors(told):
            hold(False, f"{name} {words}: {fault.json_path}: {fault.message}")
        hold(told["status"] == done.returncode, f"{name} {words}: its status is {done.returncode}")
        return told


SCHEMAS = {name: schema_of(f"lokwurmi.{name}.schema.json") for name in ("verdict", "diff")}


def row_of(*cells):
    """A row of the table of verdicts, of which what isn't given is empty."""
    return dict(zip(HEAD, [*cells, *[""] * (len(HEAD) - len(cells))]))


def check_pipes(tools, name, files):
    """A file that is a pipe, a reader that ends early, and a device that is full."""
    plain = tools.call(name, *files)
    with open(files[0], encoding="utf-8") as it:
        done = tools.call(name, "/dev/stdin", *files[1:], given=it.read())
    same = (done.returncode, done.stdout.replace("/dev/stdin", files[0])) == (plain.returncode, plain.stdout)
    hold(same, f"{name} of a pipe: {done.stdout}{done.stderr}")
    words = " ".join([*tool(name), *files, "--program", tools.program])
    done = subprocess.run(f"{words} | true", shell=True, capture_output=True, text=True, check=False)
    hold(done.stderr == "", f"{name}, whose reader ends early: {done.stderr}")
    done = subprocess.run(f"{words} >/dev/full", shell=True, capture_output=True, text=True, check=False)
    hold(done.returncode == 20 and done.stderr.count("\n") == 1, f"{name} >/dev/full: {done.stderr}")
    check_refused_pipe(tools, name, files)
    check_long_pipe(tools, name, files)


def check_refused_pipe(tools, name, files):
    """A pipe with a file of chains that is refused: the line and the word are told, by the name that was given."""
    text = 'format = 1\nchain = [{ name = "x", tasks = ["a", "zz"] }]\n'
    done = tools.call(name, *files[:1], *files[1:2] * (name == "diff"), "--chains", "/dev/stdin", given=text)
    told = '/dev/stdin:2:38: chain "x": no task is called "zz"'
    hold(done.returncode == 18 and told in done.stderr, f"{name} of refused chains: {done.returncode} {done.stderr}")


def check_long_pipe(tools, name, files):
    """A pipe with a system of format 4 that is longer than one of an older format may be, all of whose entries stand
    behind that length."""
    with open(files[0], encoding="utf-8") as it:
        head, _, rest = it.read().partition("\n")
    hold(head in ("format = 1", "format = 2"), f"the first line of {files[0]}: {head}")
    text = "format = 4\n" + f"# {'x' * 97}\n" * 10_600 + rest
    plain = tools.call(name, tools.file("long.toml", text), *files[1:])
    done = tools.call(name, "/dev/stdin", *files[1:], given=text)
    same = (done.returncode, done.stdout.replace("/dev/stdin", "long.toml")) == (plain.returncode, plain.stdout)
    hold(len(text) > 1_048_577 and same, f"{name} of a long pipe: {done.stdout}{done.stderr}{plain.stdout}")


def system_text(system):
    """A system as a file, with the deadlines of its paths."""
    rows = ["path = ["]
    for it in system["path"]:
        limit = "" if it["deadline"] is None else f", deadline = {it['deadline']}"
        rows.append(f'  {{ name = "{it["name"]}", tasks = ["{it["tasks"][0]}"]{limit} }},')
    head, _, rest = systems.file_of(system | {"path": []}).partition("\n")
    return "\n".join([head, *rows, "]", rest]) + "\n"


def random_pair(tools, number):
    """A random system with some paths and chains, the same with other executions and deadlines, and both as files."""
    draw = random.Random(number)
    system = systems.small_system(draw)
    names = [it["name"] for it in system["task"]]
    system["path"] = [
        {"name": f"p{k}", "tasks": [it], "deadline": draw.choice((None, draw.randint(1, 30)))}
        for k, it in enumerate(names)
    ]
    chains = [
        (f"c{k}", it, *(draw.choice((None, draw.randint(5, 90))) for _ in range(3)))
        for k, it in enumerate(systems.chains_in(draw, {it["name"]: it for it in system["task"]})[:4])
    ]
    found = []
    for version in "ab":
        text = system_text(system)
        found.append(
            (
                tools.file(f"{version}.toml", text),
                tools.file(f"{version}.chains.toml", chain_texts.text_of(chains)),
                text,
                chains,
            )
        )
        for it in system["task"]:
            it["worst"] = max(it["best"], it["worst"] + draw.choice((-1, 0, 0, 1, 2)))
        for it in system["path"]:
            it["deadline"] = draw.choice((it["deadline"], None, draw.randint(1, 30)))
        system["path"] = [it for it in system["path"] if draw.random() < 0.9]
        chains = [(*it[:3], draw.choice((it[3], draw.randint(5, 90))), it[4]) for it in chains if draw.random() < 0.9]
    return found


def rows_by_rules(text, chains):
    """What a table of verdicts has of a system and its chains, by the plain rules: bound, deadline and verdict."""
    bounds, found = effect_chains.Bounds(text), {}
    read = tomllib.loads(text)
    for it in read["task"]:
        found["task", it["name"], "response"] = (bounds.bound[it["name"]], None)
    for it in read.get("path", []):
        several = [bounds.bound[task] for task in it["tasks"]]
        worst = effect_chains.OVERLOAD if effect_chains.OVERLOAD in several else sum(several)
        found["path", it["name"], "latency"] = (worst, it.get("deadline"))
    for name, tasks, *limits in chains:
        for what, limit in zip(effect_chains.ASKED, limits):
            if what != "held" or limit is not None:
                found["chain", name, what] = (bounds.limits(tasks)[what], limit)
    return {key: (effect_chains.said(it[0]), it[1], effect_chains.verdict(*it)) for key, it in found.items()}


def run_checks(doc, *checks):
    """Runs the checks of a tool; each gets the tools, and how many random systems are asked for."""
    reader = reader_of(doc, "100", NEEDS_PROGRAM + ", and jsonschema")
    add_number(reader, "count", 40, "how many random systems")
    reader.add_argument("--program", default=os.path.join(TOP, "lokwurmi"), help="lokwurmi above this folder if absent")
    reader.add_argument("--by-rules", action="store_true", help="a stand-in by the plain rules answers")
    words = reader.parse_args()
    with tempfile.TemporaryDirectory() as folder:
        tools = Tools(folder, stand_in(folder) if words.by_rules else os.path.abspath(words.program))
        for check in checks:
            check(tools, words.count)
    tell()
