#!/usr/bin/env python3
"""Runs the checks outside of the proofs that docs/TESTING.md lists, or those named, and ends with a line as
`31 passed, 0 failed, 3 skipped`.

A name is that of a script without its ending. What this machine lacks for a check, as a package or a program that isn't
built, is a reason to skip it, and is told. The output of a check is shown where it finds a fault, or with --verbose.
The status is 1 where one does. With --quick each check tries less, the long ones are left out, several run side by
side, and all ends within five minutes.
"""
import argparse
import importlib.util
import os
import re
import shutil
import signal
import subprocess
import sys
import time
from collections.abc import Callable
from concurrent.futures import ThreadPoolExecutor, as_completed
from contextlib import nullcontext
from pathlib import Path
from threading import Lock
from typing import NamedTuple

TOP = Path(__file__).resolve().parent.parent
PAGE = TOP / "docs" / "TESTING.md"
EXAMPLES = """examples:
  python3 tests/run_all.py
  python3 tests/run_all.py --list
  python3 tests/run_all.py --quick
  python3 tests/run_all.py check_commands check_schema
"""
# the first cell of a row: a call, and maybe the names of further scripts of the same kind
ROW = re.compile(r"^\| (`(?:python3|bash|PYTHONPATH)[^|]*`) \|", re.M)
# seconds for all quick checks, and with how few left none is begun
QUICK_SECONDS = 285
LEAST_SECONDS = 5
# what Debian installs packages for, unless it is too old for these scripts
DEBIAN = "/usr/bin/python3"
IS_NEW = "import sys\nsys.exit(sys.version_info < (3, 11))"


def python_here() -> str:
    """The Python that runs the checks; nothing where there is none that is new enough."""
    there = [it for it in (DEBIAN, sys.executable) if os.path.exists(it)]
    return next((it for it in there if subprocess.run([it, "-c", IS_NEW], check=False).returncode == 0), "")


PYTHON = python_here()

PROGRAM = "cpa_cli"
DRAWS = "module:matplotlib module:jinja2 command:dot"
IMPORTS = "module:canmatrix module:lxml module:can module:tomlkit module:xlrd module:xlwt module:xlsxwriter"
# what each check needs: programs, packages of Python, commands, files
NEEDS = {
    "check_reports": PROGRAM,
    "check_runs": PROGRAM,
    "check_orders": PROGRAM,
    "check_large": f"{PROGRAM} module:numpy",
    "check_slack": PROGRAM,
    "check_offsets": PROGRAM,
    "check_queues": PROGRAM,
    "check_locks": PROGRAM,
    "check_effects": PROGRAM,
    "examples": PROGRAM,
    "check_edits": "command:rt",
    "check_hostile": PROGRAM + " command:gcc",
    "check_refused_memory": PROGRAM + " command:cc command:rt",
    "check_library": f"{PROGRAM} command:cc file:library/out/liblokwurmi.a",
    "check_docs": f"{PROGRAM} {DRAWS} {IMPORTS}",
    "check_messages": PROGRAM,
    "check_launcher": "command:script",
    "check_builds": "command:script",
    "check_installed": f"{PROGRAM} noted command:unshare file:library/out/liblokwurmi.a {DRAWS}",
    "check_python": "debian:mypy debian:pyflakes3 debian:pycodestyle debian:isort debian:black",
    "check_schema": "module:jsonschema",
    "check_tools": f"{PROGRAM} {DRAWS}",
    "check_gantt": f"{PROGRAM} {DRAWS}",
    "check_outputs": f"{PROGRAM} {DRAWS}",
    "check_page": f"{PROGRAM} {DRAWS} module:selenium command:chromedriver",
    "check_chain_tools": f"{PROGRAM} {DRAWS}",
    "check_explain": f"{PROGRAM} module:matplotlib",
    "check_helps": PROGRAM,
    "check_sensitivity": f"{PROGRAM} module:matplotlib",
    "check_optimise": PROGRAM,
    "check_choose_offsets": PROGRAM,
    "check_notebooks": f"{PROGRAM} module:canmatrix module:lxml module:matplotlib",
    "check_clock_tools": f"{PROGRAM} {DRAWS}",
    "check_imports": f"{PROGRAM} {IMPORTS}",
    "check_import_options": f"{PROGRAM} {IMPORTS}",
    "check_import_offsets": f"{PROGRAM} {IMPORTS}",
    "check_damaged_imports": IMPORTS,
    "check_logs": f"{PROGRAM} {IMPORTS}",
    "check_log_files": f"{PROGRAM} {IMPORTS}",
    "check_log_clocks": f"{PROGRAM} {IMPORTS}",
    "check_networks": f"{PROGRAM} {IMPORTS}",
    "check_ticks": f"{PROGRAM} {IMPORTS}",
    "check_told": f"{PROGRAM} {DRAWS} module:jsonschema",
    "check_ci": f"{PROGRAM} module:jsonschema",
    "check_diff": f"{PROGRAM} module:jsonschema",
    "check_worst": f"{PROGRAM} {DRAWS}",
    "check_campaign": f"{PROGRAM} module:distributed command:dask-scheduler",
    "check_campaign_clusters": f"{PROGRAM} module:distributed command:dask-scheduler",
    "list_reached": "command:rt",
}
# the checks of --quick, with fewer cases of those that draw them: what isn't proved comes first, and then the rules
# that the program is held against, so that on a slow machine these are left out
QUICK = {
    "check_commands": "",
    "check_edits": "--texts",
    "check_schema": "",
    "examples": "",
    "check_told": "",
    "check_ci": "3",
    "check_diff": "3",
    "check_completion": "",
    "python_tests": "",
    "check_ticks": "2",
    "check_networks": "2",
    "check_imports": "2",
    "check_import_options": "",
    "check_damaged_imports": "2",
    "check_logs": "2",
    "check_log_files": "",
    "check_log_clocks": "4",
    "check_docs": "",
    "check_chain_tools": "",
    "check_python": "",
    "check_messages": "--random 100",
    "check_statuses": "120",
    "check_notebooks": "",
    "check_tools": "",
    "check_outputs": "",
    "check_gantt": "",
    "check_reports": "100",
    "check_runs": "20",
    "check_offsets": "15",
    "check_queues": "20",
    "check_locks": "20",
    "check_optimise": "5 1",
    "check_sensitivity": "3",
    "check_helps": "5",
    "check_explain": "60",
    "check_orders": "15",
    "check_slack": "15",
    "check_effects": "--systems 30",
}


# those that count the processes of a campaign, of which one runs at a time
CAMPAIGNS = ("check_campaign", "check_campaign_clusters")
its_turn = Lock()


class Check(NamedTuple):
    """A check: its name, and its call."""

    name: str
    call: str


class Found(NamedTuple):
    """What came of a check: `passed`, `failed` or `skipped`, why, how long it took, and what it wrote."""

    check: Check
    outcome: str
    why: str
    seconds: float = 0
    text: str = ""


def name_of(call: str) -> str:
    """The name of the script of a call; that of the folder where a module of Python's own runs what is there."""
    if module := re.search(r" -m (?:tests|bench)\.[\w.]*?(\w+)(?: |$)", call):
        return module[1]
    script = re.search(r"([\w/]+)\.sh\b", call)
    if not script:
        return "python_tests"
    folder, _, name = script[1].rpartition("/")
    return "examples" if folder == "examples" else name


def checks_in(page: str) -> list[Check]:
    """The checks that a page lists, in its order."""
    calls: list[str] = []
    for row in ROW.findall(page):
        first, *more = re.findall(r"`([^`]+)`", row)
        # further ones stand in the folder of the first
        calls += [first, *(it if " " in it else f"{first.rpartition('.')[0]}.{it}" for it in more)]
    return [Check(name_of(it), it) for it in calls]


def quick_ones(checks: list[Check]) -> list[Check]:
    """Those of --quick, in its order, with what they are to try."""
    by_name = {it.name: it.call for it in checks}
    bare = {it: re.sub(r" \d+$", "", call) for it, call in by_name.items()}
    return [Check(it, f"{bare[it]} {words}".rstrip()) for it, words in QUICK.items()]


# ---- what a machine lacks


def lacks_program(crate: str) -> str:
    """Why a program can't be called at once; a check that called it would build it first, which takes up to an hour."""
    sys.path.append(str(TOP / "python" / "src"))
    from lokwurmi_tools.launcher.crates import Graph
    from lokwurmi_tools.launcher.records import is_other

    why = Graph(crate).why_stale(called=crate)
    if not why and is_other(crate):
        why = f"{crate} isn't the program that ./lokwurmi has built"
    return why


def lacks_note(_: str) -> str:
    """Why an installed copy can't be had at once: it is one of the program that ./lokwurmi has built."""
    from lokwurmi_tools.launcher.records import kit_of

    return "" if kit_of(PROGRAM) else f"./lokwurmi hasn't built {PROGRAM}"


def lacks_module(name: str) -> str:
    """Why a package of Python can't be loaded, by the Python that the tools go on under."""
    if PYTHON == sys.executable:
        is_there = importlib.util.find_spec(name) is not None
    else:
        words = [PYTHON, "-c", f"import importlib.util, sys\nsys.exit(importlib.util.find_spec({name!r}) is None)"]
        is_there = subprocess.run(words, check=False, capture_output=True).returncode == 0
    return "" if is_there else f"the package {name} isn't here"


def lacks_command(name: str) -> str:
    """Why a command can't be called."""
    return "" if shutil.which(name) else f"{name} isn't here"


def lacks_debian(name: str) -> str:
    """Why a command of Debian can't be called: another version would want another layout."""
    return "" if shutil.which(name) == f"/usr/bin/{name}" else f"Debian's {name} isn't here"


def lacks_file(name: str) -> str:
    """Why a file can't be read."""
    return "" if (TOP / name).exists() else f"{name} isn't built"


LACKS: dict[str, Callable[[str], str]] = {
    "module": lacks_module,
    "command": lacks_command,
    "debian": lacks_debian,
    "file": lacks_file,
    "noted": lacks_note,
}
looked_at: dict[str, str] = {}


def lacking(check: Check) -> str:
    """The first that a check needs and that isn't here, in words; each is looked for once."""
    if not PYTHON:
        return "Python 3.11 or later isn't here"
    for need in NEEDS.get(check.name, "").split():
        if need not in looked_at:
            kind, _, name = need.partition(":")
            looked_at[need] = LACKS.get(kind, lacks_program)(name or kind)
        if looked_at[need]:
            return looked_at[need]
    return ""


# ---- what is run


def call_of(check: Check) -> str:
    """The call of a check by the Python for which Debian installs packages."""
    return re.sub(r"(^|\s)(?:/usr/bin/)?python3\s", rf"\1{PYTHON} ", check.call, count=1)


def text_of_ended(work: subprocess.Popen[str]) -> str:
    """Ends a check with all that it has started in its group, and what it wrote; what left the group may write on."""
    os.killpg(work.pid, signal.SIGKILL)
    try:
        return work.communicate(timeout=LEAST_SECONDS)[0]
    except subprocess.TimeoutExpired:
        return ""


def found_by(check: Check, until: float | None, least: float = LEAST_SECONDS) -> Found:
    """Runs a check, up to a time where there is one and so many seconds are left."""
    if why := lacking(check):
        return Found(check, "skipped", why)
    began = time.monotonic()
    left = None if until is None else until - began
    if left is not None and left < least:
        return Found(check, "skipped", "no time is left")
    # a signal that is passed over here, as the end of the terminal under nohup, isn't by what is checked
    work = subprocess.Popen(
        ["env", "--default-signal", f"PYTHON={PYTHON}", "sh", "-c", call_of(check)],
        cwd=TOP,
        stdin=subprocess.DEVNULL,
        stdout=subprocess.PIPE,
        stderr=subprocess.STDOUT,
        text=True,
        errors="replace",
        start_new_session=True,
    )
    try:
        text, _ = work.communicate(timeout=left)
    except subprocess.TimeoutExpired:
        text = text_of_ended(work)
        seconds = time.monotonic() - began
        return Found(check, "skipped", f"not done after {seconds:.0f} s", seconds, text)
    some = re.search(r"skipped=(\d+)|, (\d+) skipped$", text, re.M)
    count = int(some[1] or some[2]) if some else 0
    why = f"{count} of its parts skipped" if count else ""
    return Found(check, "failed" if work.returncode else "passed", why, time.monotonic() - began, text)


def found_in_turn(check: Check, until: float | None) -> Found:
    """The same, where checks that would take each other's processes for their own wait for each other."""
    with its_turn if check.name in CAMPAIGNS else nullcontext():
        return found_by(check, until)


def show(it: Found, verbose: bool) -> None:
    """A line of a check, and what it wrote."""
    took = "" if it.outcome == "skipped" and not it.seconds else f"{it.seconds:6.0f} s"
    print(f"{it.check.name:<25}{it.outcome:<8}{took:<8}{f'  {it.why}' if it.why else ''}".rstrip(), flush=True)
    if it.outcome == "failed" or verbose and it.text:
        print(f"    {it.check.call}")
        print("".join(f"    {line}\n" for line in it.text.splitlines()), end="", flush=True)


def prepare(chosen: list[Check]) -> None:
    """Does once what checks side by side would do each: looks for what they need, and has matplotlib list the fonts,
    of which it would tell where that takes long."""
    needs = {need for it in chosen if not lacking(it) for need in NEEDS.get(it.name, "").split()}
    if "module:matplotlib" in needs:
        subprocess.run([PYTHON, "-c", "import matplotlib.font_manager"], check=False, capture_output=True)


def all_found(chosen: list[Check], asked: argparse.Namespace) -> list[Found]:
    """What comes of all checks, which are shown one by one."""
    until = time.monotonic() + QUICK_SECONDS if asked.quick else None
    jobs = asked.jobs or (min(4, os.cpu_count() or 1) if asked.quick else 1)
    prepare(chosen)
    found = []
    with ThreadPoolExecutor(jobs) as several:
        for done in as_completed([several.submit(found_in_turn, it, until) for it in chosen]):
            found.append(done.result())
            show(found[-1], asked.verbose)
    return found


def asked_for(words: list[str] | None, names: list[str]) -> argparse.Namespace:
    """The words of a call."""
    form = argparse.RawDescriptionHelpFormatter
    reader = argparse.ArgumentParser(description=__doc__, epilog=EXAMPLES, formatter_class=form)
    reader.add_argument("names", metavar="NAME", nargs="*", help="the checks to run")
    reader.add_argument("--list", action="store_true", help="only list them, with what this machine lacks")
    reader.add_argument("--quick", action="store_true", help="less of each, within five minutes")
    reader.add_argument("--jobs", metavar="N", type=int, help="so many side by side (1; with --quick up to 4)")
    reader.add_argument("--verbose", action="store_true", help="show what each writes")
    found = reader.parse_args(words)
    if unknown := [it for it in found.names if it not in names]:
        reader.error(f"{unknown[0]} is no check; there are {', '.join(names)}")
    if found.jobs is not None and found.jobs < 1:
        reader.error("--jobs takes a number from 1 up")
    return found


def main(words: list[str] | None = None) -> int:
    checks = checks_in(PAGE.read_text(encoding="utf-8"))
    asked = asked_for(words, [it.name for it in checks])
    several = quick_ones(checks) if asked.quick else checks
    chosen = [it for it in several if not asked.names or it.name in asked.names]
    if unknown := [it for it in asked.names if it not in [check.name for check in several]]:
        print(f"--quick leaves out {', '.join(unknown)}: call it without --quick", file=sys.stderr)
        return 2
    if asked.list:
        # a reader that ends early is no fault
        signal.signal(signal.SIGPIPE, signal.SIG_DFL)
        for it in chosen:
            why = lacking(it)
            print(f"{it.name:<25}{it.call}{f'  (skipped: {why})' if why else ''}")
        return 0
    outcomes = [it.outcome for it in all_found(chosen, asked)]
    counts = {it: outcomes.count(it) for it in ("passed", "failed", "skipped")}
    skipped = f", {counts['skipped']} skipped" if counts["skipped"] else ""
    print(f"{counts['passed']} passed, {counts['failed']} failed{skipped}")
    return 1 if counts["failed"] else 0


if __name__ == "__main__":
    sys.exit(main())
