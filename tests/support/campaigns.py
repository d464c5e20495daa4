"""Calls of `lokwurmi campaign`, scripts that stand before the program, and processes, for the checks of campaigns.

LOKWURMI_PROGRAM may name another program than that of this repository.
"""
import contextlib
import os
import re
import shutil
import subprocess
import sys
import tempfile
import textwrap
import time

from tests.support import calls
from tests.support.calls import TOP, built, reader_of, run, tell, tool

CROSSING = os.path.join(TOP, "examples", "crossing_chains.toml")
CAR = os.path.join(TOP, "examples", "car_network.toml")
PROGRAM = os.environ.get("LOKWURMI_PROGRAM") or built("cpa_cli")
QUIET = {"stdout": subprocess.DEVNULL, "stderr": subprocess.DEVNULL}


def hold(is_so, what):
    """Tells each at once, since a campaign takes long."""
    print(f"{'ok   ' if is_so else 'WRONG'}  {what}", flush=True)
    calls.hold(is_so, what)


def words_of(program, *words):
    return [*tool("campaign"), *map(str, words), "--program", program]


def campaign(program, *words):
    return run("campaign", *words, "--program", program)


def begin(program, *words):
    """A campaign that runs on, with its workers in a group of processes of its own."""
    return subprocess.Popen(
        words_of(program, *words), stdout=subprocess.PIPE, stderr=subprocess.PIPE, text=True, start_new_session=True
    )


def program_of(*words):
    return subprocess.run([PROGRAM, *map(str, words)], capture_output=True, text=True, check=False).stdout


def added(file, calls):
    """What one hammer would write of the traces of several, by each number and how many traces it has."""
    jobs, worst, bound, ends = {}, {}, {}, [0, 0, 0]
    for number, traces in calls:
        for line in program_of("hammer", file, number, traces).splitlines():
            it = line.split()
            if it[0] == "summary":
                ends = [a + int(b) for a, b in zip(ends, it[2::2])]
                continue
            jobs[it[1]] = jobs.get(it[1], 0) + int(it[3])
            worst[it[1]] = max(worst.get(it[1], -1), -1 if it[5] == "none" else int(it[5]))
            bound[it[1]] = it[7]
    lines = [
        f"task {name} jobs {jobs[name]} worst {'none' if worst[name] < 0 else worst[name]} bound {bound[name]}\n"
        for name in jobs
    ]
    return "".join(lines) + "summary traces {} jobs {} beyond {}\n".format(*ends)


def stand_in(folder, name, text):
    """A script that is called in the program's place; $log takes a line of each hammer that went well, with its
    number, and beside it stands the process of each that was begun."""
    path = os.path.join(folder, name)
    with open(path, "w") as it:
        it.write(
            f"#!/bin/bash\nlog={folder}/{name}.log\nroom={folder}\nprogram={PROGRAM}\n"
            f'[ "$1" = hammer ] || exec "$program" "$@"\necho $$ >>"$log.begun"\n{text}\n'
        )
    os.chmod(path, 0o755)
    return path


def calls_in(path):
    """The numbers of hammer in the log of a stand-in."""
    try:
        with open(path + ".log") as it:
            return [line.split()[0] for line in it]
    except FileNotFoundError:
        return []


def under_way(path):
    """The processes of a stand-in's calls that go on; `sleep` may have taken a call's place."""
    found = []
    with contextlib.suppress(FileNotFoundError), open(path + ".log.begun") as it:
        for number in it.read().split():
            with contextlib.suppress(OSError), open(f"/proc/{number}/cmdline", "rb") as words:
                found += [number] if re.search(rb"\0hammer\0|^sleep\0", words.read()) else []
    return found


def wait_for(is_so, seconds=600):
    """Waits until something is so, on a busy machine too; whether it is."""
    end = time.monotonic() + seconds
    while not is_so() and time.monotonic() < end:
        time.sleep(0.1)
    return is_so()


def children(pid):
    """The processes below one, each with its words."""
    found = []
    lines = subprocess.run(
        ["ps", "-o", "pid=,args=", "--ppid", str(pid)], capture_output=True, text=True, check=False
    ).stdout.splitlines()
    for line in lines:
        number, _, words = line.strip().partition(" ")
        found += [(int(number), words), *children(int(number))]
    return found


# what is varied besides
SCRIPTS = """
[[vary]]
label = "order"
scripts = ["", "swap a2 b1", "remove a2"]
"""


def grid_of_help():
    """The grid that --help shows, which varies the execution of b2 and the period of sa; and that of scripts."""
    shown = re.search(r"^example, .*:\n((?:  .*\n)+)\n", run("campaign", "variants", "--help").stdout, re.M)[1]
    return textwrap.dedent(shown) + SCRIPTS


def main(doc, *groups):
    """Runs the groups of cases of a check, or the one that is asked for."""
    reader = reader_of(doc, f"--only {groups[-1].__name__}", "cpa_cli, and python3-distributed")
    names = [it.__name__ for it in groups]
    reader.add_argument("--only", choices=names, help="one group of cases")
    only = reader.parse_args().only
    if not os.access(PROGRAM, os.X_OK):
        sys.exit(f"{PROGRAM}: isn't built")
    if not shutil.which("dask-scheduler"):
        sys.exit("dask-scheduler isn't here: apt-get install python3-distributed")
    for it in groups:
        if only in (None, it.__name__):
            with tempfile.TemporaryDirectory() as folder:
                it(folder)
    tell()
