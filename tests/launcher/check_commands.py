#!/usr/bin/env python3
"""Checks what comes from the one table of commands, python/src/lokwurmi_tools/launcher/table.py, and --write writes
it anew.

The tables of commands in README.md and docs/FILES.md stand between two marks each. The script `lokwurmi`, help,
completion, the man page and the refusals in words have to have the same commands, words and files; each example
has to name files that are there, in words that are accepted. docs/MAP.md has to have the longest chain of crates by
docs/times.csv. Outside the gate; takes a second.
"""
from __future__ import annotations

import argparse
import csv
import os
import re
import shlex
import subprocess
import sys
import tempfile
import time
from collections.abc import Callable
from pathlib import Path

from bench import plan_gate
from lokwurmi.model.commands import FILES
from lokwurmi_tools.commands import catalogue as commands
from lokwurmi_tools.launcher import completing, helping, manual
from lokwurmi_tools.launcher.crates import listed
from lokwurmi_tools.launcher.operands import operands_of
from lokwurmi_tools.launcher.table import BY_NAME, COMMANDS, OWN, WORDS
from lokwurmi_tools.launcher.wrong_words import first_fault
from tests import run_all
from tests.support.calls import TOP


def rows(*found: tuple[str, ...]) -> str:
    return "".join(f"| {' | '.join(it)} |\n" for it in found)


def calls_table() -> str:
    lines = [(f"`{it.called}`", it.brief) for it in COMMANDS]
    return rows(("`./lokwurmi` ..", "writes"), ("---", "---"), *lines)


def tools_table() -> str:
    lines = [(f"`{it.name}`", it.does) for it in commands.COMMANDS]
    return rows(("`./lokwurmi` ..", ""), ("---", "---"), *lines)


def words_table() -> str:
    lines = [(f"`{it.usage}`", it.writes) for it in COMMANDS]
    return rows(("Command", "What it writes"), ("---", "---"), *lines)


def ranges_table() -> str:
    scopes: dict[str, list[str]] = {}
    for name, it in WORDS.items():
        if it.scope:
            scopes.setdefault(it.scope, []).append("N, the workers" if name == "N" else name)
    return rows(("Word", "Range"), ("---", "---"), *((", ".join(names), scope) for scope, names in scopes.items()))


def own_table() -> str:
    lines = [(f"`{it.usage}`", f"{it.brief}. {it.more}".strip()) for it in OWN]
    return rows(("`./lokwurmi` ..", ""), ("---", "---"), *lines)


# each table, by its mark, and where it stands
TABLES: dict[str, tuple[str, Callable[[], str]]] = {
    "proved commands": ("README.md", calls_table),
    "tools": ("README.md", tools_table),
    "words": ("docs/FILES.md", words_table),
    "ranges": ("docs/FILES.md", ranges_table),
    "the launcher": ("docs/FILES.md", own_table),
}


class Faults:
    """What is wrong, and how much was looked at."""

    def __init__(self) -> None:
        self.looked = 0
        self.wrong: list[str] = []

    def hold(self, good: bool, what: str) -> None:
        self.looked += 1
        if not good:
            self.wrong.append(what)
            print(f"WRONG  {what}")


def with_table(text: str, mark: str, table: str) -> str | None:
    """A page with the table between its marks; None where they aren't there."""
    head, tail = f"<!-- {mark}: by tests/launcher/check_commands.py --write -->\n", f"<!-- end of {mark} -->\n"
    if text.count(head) != 1 or text.count(tail) != 1:
        return None
    before, rest = text.split(head)
    return f"{before}{head}\n{table}\n{tail}{rest.split(tail)[1]}"


def check_tables(faults: Faults, write: bool) -> None:
    for mark, (name, table) in TABLES.items():
        page = TOP / name
        text = page.read_text(encoding="utf-8")
        wanted = with_table(text, mark, table())
        faults.hold(wanted is not None, f'{name}: no marks of the table "{mark}"')
        if wanted is None or wanted == text:
            continue
        if write:
            page.write_text(wanted, encoding="utf-8")
            print(f'{name}: the table "{mark}" is written')
        else:
            faults.hold(False, f'{name}: the table "{mark}" differs: python3 -m tests.launcher.check_commands --write')


def check_script(faults: Faults) -> None:
    """The fast path has each command."""
    text = (TOP / "lokwurmi").read_text(encoding="utf-8")
    found = re.search(r"^([a-z |]+)\) ;;$", text, re.MULTILINE)
    names = found[1].split(" | ") if found else []
    faults.hold(names == [it.name for it in COMMANDS], f"lokwurmi has {names}")


def check_examples(faults: Faults) -> None:
    for it in COMMANDS:
        words = shlex.split(it.example)
        accepted = operands_of(it, words) is not None and not first_fault(it, words)
        faults.hold(accepted, f"the example of {it.name} is accepted")
        files = [word for word in words if "/" in word]
        faults.hold(all((TOP / word).is_file() for word in files), f"the files of the example of {it.name}")
    for tool in commands.COMMANDS:
        files = [word for word in shlex.split(tool.example) if word.startswith("examples/")]
        faults.hold(all((TOP / word).is_file() for word in files), f"the files of the example of {tool.name}")


def check_texts(faults: Faults) -> None:
    """Help, completion and the man page name all of it."""
    text, page, completion = helping.help_text(), manual.man_text(), completing.completion_text()
    for name in [*BY_NAME, *(it.name for it in commands.COMMANDS)]:
        faults.hold(f"\n  {name} " in text, f"help has {name}")
        faults.hold(f"\n.B {manual.escaped(name)}" in page, f"the man page has {name}")
        faults.hold(f"[{name.split()[0]}]=" in completion, f"completion has {name}")
    lines = text.splitlines()
    faults.hold(all(len(it) <= 80 for it in lines[:-1]), "help has lines of up to 80 letters")


# the calls of the first screen of README.md: what runs the main job, and what passes the tests
FIRST_CALLS = ("./lokwurmi analyse examples/two_tasks.toml", "bash .ci/run")


def check_first_calls(faults: Faults) -> None:
    """README.md names both commands in the table of its first screen, each with how long it takes, and .ci/run is the
    whole gate."""
    head = (TOP / "README.md").read_text(encoding="utf-8").split("\n## What is proved\n")[0]
    for call in FIRST_CALLS:
        row = re.search(rf"^\| `{re.escape(call)}` \| ([^|]+) \| [^|]+ \|$", head, re.M)
        takes = row[1] if row else ""
        faults.hold(re.search("minute|hour", takes) is not None, f"README.md has no row of `{call}` that says how long")
    gate = (TOP / ".ci" / "run").read_text(encoding="utf-8")
    faults.hold(
        re.search(r"^rt ci && python3 tests/run_all\.py --quick$", gate, re.M) is not None, ".ci/run isn't the gate"
    )


def gate_status(rt: int, checks: int) -> tuple[int, list[str]]:
    """The status of .ci/run, and what it has called, where both of its calls end with these statuses."""
    with tempfile.TemporaryDirectory() as folder:
        room, noted = Path(folder), Path(folder, "noted")
        for name, text in (
            (".ci/run", (TOP / ".ci" / "run").read_text(encoding="utf-8")),
            (
                "tests/run_all.py",
                f"import sys\nopen({str(noted)!r}, 'a').write(' '.join(sys.argv))\nsys.exit({checks})\n",
            ),
            ("rt", f'#!/bin/sh\necho rt "$@" >>{noted}\nexit {rt}\n'),
        ):
            Path(room, name).parent.mkdir(exist_ok=True)
            Path(room, name).write_text(text, encoding="utf-8")
            Path(room, name).chmod(0o755)
        path = os.pathsep.join([folder, os.environ["PATH"]])
        done = subprocess.run(["bash", room / ".ci" / "run"], env=os.environ | {"PATH": path}, check=False)
        return done.returncode, noted.read_text(encoding="utf-8").splitlines()


def check_gate(faults: Faults) -> None:
    """The gate passes where `rt ci` does and then the quick checks, which aren't begun where it fails."""
    both = ["rt ci", "tests/run_all.py --quick"]
    for rt, checks, wanted, calls in ((0, 0, 0, both), (0, 1, 1, both), (1, 0, 1, both[:1])):
        found = gate_status(rt, checks)
        faults.hold(found == (wanted, calls), f".ci/run after statuses {rt} and {checks}: {found}")


def check_door(faults: Faults) -> None:
    """tests/run_all.py knows each check of docs/TESTING.md, and says of each whether it passed, failed or lacks
    something."""
    names = [it.name for it in run_all.checks_in(run_all.PAGE.read_text(encoding="utf-8"))]
    faults.hold(len(set(names)) == len(names), f"docs/TESTING.md has a check twice: {names}")
    for what, known in (("NEEDS", run_all.NEEDS), ("QUICK", run_all.QUICK)):
        faults.hold(set(known) <= set(names), f"{what} of run_all.py has {set(known) - set(names)}")
    scripts = {it.stem for pattern in ("check_*.py", "check_*.sh") for it in (TOP / "tests").glob(f"*/{pattern}")}
    faults.hold(scripts <= set(names), f"docs/TESTING.md has no {sorted(scripts - set(names))}")
    for needs, call, wanted in (
        ("", "true", ("passed", "")),
        ("", "echo 'OK (skipped=7)'", ("passed", "7 of its parts skipped")),
        ("", "false", ("failed", "")),
        ("command:no-such-command", "true", ("skipped", "no-such-command isn't here")),
        ("module:no_such_module", "true", ("skipped", "the package no_such_module isn't here")),
        ("file:no/such/file", "true", ("skipped", "no/such/file isn't built")),
    ):
        run_all.NEEDS["tried"] = needs
        found = run_all.found_by(run_all.Check("tried", call), None)
        faults.hold((found.outcome, found.why) == wanted, f"run_all.py, {call} that needs {needs!r}: {found}")
    for call in ("sleep 600", "setsid sleep 30"):
        found = run_all.found_by(run_all.Check("late", call), time.monotonic() + 1, least=-60)
        is_so = found.outcome == "skipped" and "not done after" in found.why
        faults.hold(is_so, f"run_all.py, a check without end: {found}")
    found = run_all.found_by(run_all.Check("late", "true"), time.monotonic())
    faults.hold((found.outcome, found.why) == ("skipped", "no time is left"), f"run_all.py, no time left: {found}")


def check_package(faults: Faults) -> None:
    """What the package knows of commands: which there are."""
    faults.hold(list(FILES) == [it.name for it in COMMANDS], f"lokwurmi/model/commands.py has {list(FILES)}")


def longest_chain(top: str, seconds: dict[str, int]) -> list[str]:
    """The crates that follow each other below one, and itself, with the most seconds."""
    uses = listed()
    found: dict[str, list[str]] = {}

    def total_of(chain: list[str]) -> int:
        return sum(seconds.get(it, 0) for it in chain)

    def chain_to(name: str) -> list[str]:
        if name not in found:
            below = max(map(chain_to, uses[name]), key=total_of, default=[])
            found[name] = [*below, name]
        return found[name]

    return chain_to(top)


def check_times(faults: Faults) -> None:
    """docs/MAP.md has how long the gate takes, and the longest chain of crates below the program, by docs/times.csv,
    and that has each crate."""
    with open(TOP / "docs" / "times.csv", encoding="utf-8", newline="") as it:
        seconds = {row["crate"]: int(row["proofs"] or 0) for row in csv.DictReader(it)}
    missing = set(listed()) - set(seconds)
    if missing:
        print(f"docs/times.csv tells nothing of {', '.join(sorted(missing))}: a build counts a minute for each")
    chain = longest_chain("cpa_cli", seconds)
    told = " > ".join(f"{it} {seconds.get(it, 0)}" for it in chain)
    told += f" {sum(seconds.get(it, 0) for it in chain)} in all"
    text = (TOP / "docs" / "MAP.md").read_text(encoding="utf-8").partition("## Times")[2]
    shown = re.search(r"^```\n(cpa_.*?)^```", text, re.MULTILINE | re.DOTALL)
    faults.hold(shown is not None and " ".join(shown[1].split()) == told, f"docs/MAP.md: the longest chain is {told}")
    planned = plan_gate.told((1, 2, 4))
    faults.hold(f"```\n{planned}\n```\n" in text, f"docs/MAP.md: by python3 -m bench.plan_gate it is\n{planned}")


def main() -> None:
    reader = argparse.ArgumentParser(
        description=__doc__,
        epilog="python3 -m tests.launcher.check_commands --write",
        formatter_class=argparse.RawDescriptionHelpFormatter,
    )
    reader.add_argument("--write", action="store_true", help="write the tables of README.md and docs/FILES.md")
    words = reader.parse_args()
    faults = Faults()
    check_tables(faults, words.write)
    for check in (
        check_script,
        check_examples,
        check_texts,
        check_first_calls,
        check_gate,
        check_door,
        check_package,
        check_times,
    ):
        check(faults)
    print(f"{faults.looked} looked at, {len(faults.wrong)} wrong")
    sys.exit(1 if faults.wrong else 0)


if __name__ == "__main__":
    main()
