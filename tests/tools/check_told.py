#!/usr/bin/env python3
"""Tries what pages, `lokwurmi explain` and `python3 -m lokwurmi` tell beside bounds. Outside the gate; takes seconds,
and no network.

A system that the launcher has a notice on has it at the head of its page, in what `explain` says, and on standard
error of the package. The head of a page tells deadlines of paths from those of chains, and what has the least room. By
--strict a session whose edits were refused, and a page with a task without a bound, have a status of their own.

    python3 -m tests.tools.check_told [--program PROGRAM]
"""
import os
import re
import subprocess
import sys
import tempfile

from tests.support import verdicts
from tests.support.calls import NEEDS_PROGRAM, TOP, hold, python_with, reader_of, run, tell, written

MIXED = """format = 1
resource = [{ name = "can", kind = "can", bit = 2 }]
source = [{ name = "x", period = 10000 }, { name = "y", period = 10000 }]
task = [
  { name = "long", on = "can", after = "x", payload = 8, extended = true, priority = 217056256 },
  { name = "short", on = "can", after = "y", payload = 8, priority = 928 },
]
path = [{ name = "p", tasks = ["short"], deadline = 5000 }]
"""
TWO = f"""{verdicts.TWO}path = [
  {{ name = "one", tasks = ["a"], deadline = 9 }},
  {{ name = "two", tasks = ["b"], deadline = 9 }},
]
"""
ENVIRONMENT = {key: it for key, it in os.environ.items() if key != "LOKWURMI_QUIET"}
NOTICE = "goes on the bus before short"


def head_of(room, python, program, file, *words):
    """The head and the tiles of a page."""
    page = os.path.join(room, "page.html")
    done = run("page", file, "--program", program, "--to", page, *words, python=python)
    hold(done.returncode == 0, f"page of {file}: {done.stderr}")
    with open(page, encoding="utf-8") as it:
        text = it.read().split("</style>")[1].split('id="graph"')[0]
    return " ".join(re.sub(r"<[^>]+>", " ", text).split())


def check_notices(room, python, program):
    file = written(room, "mixed.toml", MIXED)
    hold(NOTICE in head_of(room, python, program, file), "the page has no notice")
    hold(NOTICE in run("explain", file, "short", "--program", program, python=python).stdout, "explain has no notice")
    words = [sys.executable, "-m", "lokwurmi", "--program", program, file]
    done = subprocess.run(words, capture_output=True, text=True, check=False)
    hold(NOTICE in done.stderr and done.stdout.startswith("task long"), f"python3 -m lokwurmi: {done.stderr}")


def check_badges(room, python, program):
    """Deadlines of chains are told from those of paths. By --tick a bound of a chain has a tick more for each wait, so
    that a deadline of 24 ticks isn't met."""
    file = written(room, "two.toml", TWO)
    alone = head_of(room, python, program, file)
    hold("both deadlines are met" in alone and "of room on two, the tightest path" in alone, alone)
    text = 'format = 1\nchain = [{ name = "ab", tasks = ["a", "b"], reaction = 24 }]\n'
    chains = ("--chains", written(room, "two.chains.toml", text))
    told = head_of(room, python, program, file, *chains)
    hold("both deadlines of paths are met" in told and "1 deadline of chains is met" in told, told)
    hold("of room on ab, the tightest chain, by its reaction" in told, told)
    hold("1 chain, 1 of 1 deadline met" in told, told)
    told = head_of(room, python, program, file, *chains, "--tick", "1ms")
    hold("1 deadline of chains is missed" in told, told)
    hold("1ms too many on ab" in told, told)
    hold("1 chain, 0 of 1 deadline met" in told, told)


def check_strict(room):
    """By --strict a refused edit is a status of its own, and so is a task without a bound on a page."""
    launcher = os.path.join(TOP, "lokwurmi")
    file = written(room, "strict.toml", TWO)
    over = written(room, "over.toml", TWO.replace("best = 2, worst = 2", "best = 2, worst = 20"))

    def call(*words):
        return subprocess.run([launcher, *words], capture_output=True, text=True, check=False, env=ENVIRONMENT)

    for script, status, wanted in (
        ("exec a 1 1\n", 0, 0),
        ("exec nobody 1 1\nexec a 1 1\n", 0, 5),
        ("exec a 10 10\nexec b 0 0\n", 1, 5),
        ("exec a 10 10\n", 1, 1),
        ("exec a 20 20\n", 2, 2),
        ("no edit\n", 15, 15),
    ):
        words = [file, written(room, "strict.script.txt", script)]
        plain, strict = call("session", *words), call("--strict", "session", *words)
        hold((plain.returncode, strict.returncode) == (status, wanted), f"--strict, {script!r}: {strict.returncode}")
        hold(plain.stdout == strict.stdout, f"--strict, {script!r}: another output: {strict.stdout}")
        said = "--strict: an edit was refused: the status is 5" in strict.stderr
        hold(said == (wanted == 5) and ("was refused:" in strict.stderr) == (wanted == 5), f"--strict: {strict.stderr}")
        quiet = call("--quiet", "--strict", "session", *words)
        hold((quiet.returncode, quiet.stderr) == (wanted, ""), f"--quiet --strict: {quiet.stderr}")
    page = os.path.join(room, "strict.html")
    for words, wanted in ((["--strict", "page", file], 0), (["page", over], 0), (["--strict", "page", over], 5)):
        done = call(*words, "--to", page)
        hold(done.returncode == wanted, f"{words}: {done.returncode}, {done.stderr}")
        hold(("a task has no bound: a" in done.stderr) == (wanted == 5), f"{words}: {done.stderr}")
    for words in ([], ["analyse", file], ["graph"]):
        done = call("--strict", *words)
        hold((done.returncode, done.stdout) == (10, "words refused\n"), f"--strict {words}: {done.returncode}")
        hold("--strict takes session or page" in done.stderr, f"--strict {words}: {done.stderr}")


def main():
    reader = reader_of(__doc__, "", NEEDS_PROGRAM + ", Jinja2 and Graphviz")
    reader.add_argument("--program", default=os.path.join(TOP, "lokwurmi"), help="lokwurmi above this folder if absent")
    program = os.path.abspath(reader.parse_args().program)
    python = python_with("jinja2", "matplotlib")
    if python is None:
        sys.exit("a package isn't here: apt-get install python3-jinja2 python3-matplotlib graphviz")
    os.chdir(TOP)
    with tempfile.TemporaryDirectory() as room:
        check_notices(room, python, program)
        check_badges(room, python, program)
        check_strict(room)
    tell()


if __name__ == "__main__":
    main()
