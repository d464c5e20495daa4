#!/usr/bin/env python3
"""Tries what `lokwurmi` says of refusals and notices.

Each case of tests/messages/*.txt is a call, of files that differ from those of tests/messages/base in some lines; what
the program writes, its status, and the whole text beside it are compared with those that are kept there. With --keep
they are written anew, to be read. With --random so many system files, scripts, traces, schedules and sessions are
damaged at random, from examples/ and from generated systems: what lokwurmi/refusals finds in each has to be the
program's own line, and nothing in a file that is accepted. Outside the gate; the program has to be built.

A case has a title, what is changed, the call, what the program writes after its status, and what is said:

    === a key that isn't known
    system.toml
    - worst = 900
    + wcet = 900
    $ analyse system.toml
    14 system refused reason 1 task 1
    | system.toml:31:1: ..

Lines with `-` that stand together in a file give way to those with `+`; `+` alone is put at its end; `>` begins a file
anew.
"""
from __future__ import annotations

import glob
import os
import random
import shlex
import shutil
import subprocess
import sys
import tempfile
import traceback
from collections import Counter
from collections.abc import Callable, Iterator
from concurrent.futures import ThreadPoolExecutor
from dataclasses import dataclass, field

from lokwurmi.files.documents import Document
from lokwurmi.refusals import edits, front, notices, schedule, script
from lokwurmi.refusals.toml_faults import fault_in
from lokwurmi.refusals.trace import TraceOfSystem
from tests.support.calls import TOP, example_systems, reader_of, written
from tests.support.damage import damaged, damaged_rows, damaged_script, with_locks, with_queues, with_regions

CASES = os.path.join(TOP, "tests", "messages")
PROGRAM = os.path.join(TOP, "crates", "cpa_cli", "out", "cpa_cli")


@dataclass
class Case:
    """A case: its lines up to the call, the words of the call, and what is kept of it."""

    title: str
    made: list[str] = field(default_factory=list)
    words: str = ""
    kept: list[str] = field(default_factory=list)

    def text(self, kept: list[str]) -> str:
        return "\n".join([f"=== {self.title}", *self.made, f"$ {self.words}", *kept, ""])


def cases_in(path: str) -> Iterator[Case]:
    case = None
    with open(path, encoding="utf-8") as it:
        lines = it.read().splitlines()
    for line in lines:
        if line.startswith("=== "):
            if case:
                yield case
            case = Case(line[4:])
        elif line.startswith("$ "):
            case.words = line[2:]
        elif case and case.words and line:
            case.kept.append(line)
        elif case and line:
            case.made.append(line)
    if case:
        yield case


def change(text: str, old: list[str], new: list[str]) -> str:
    """The text with some lines in place of others, or at its end."""
    if not old:
        return text + "".join(it + "\n" for it in new)
    lines = text.splitlines()
    places = [at for at in range(len(lines)) if lines[at : at + len(old)] == old]
    if not places:
        raise ValueError(f"no such lines: {old}")
    at = places[0]
    return "\n".join([*lines[:at], *new, *lines[at + len(old) :]]) + "\n"


def make(room: str, case: Case) -> None:
    """The files of a case."""
    name, old, new = "", [], []

    def write() -> None:
        if not (old or new):
            return
        path = os.path.join(room, name)
        with open(path, encoding="utf-8", errors="surrogateescape") as it:
            text = change(it.read(), old, new)
        with open(path, "w", encoding="utf-8", errors="surrogateescape") as it:
            it.write(text)

    for line in [*case.made, "end"]:
        sign, rest = line[:1], line[2:]
        # a first line to take out begins the next change
        if (sign == "-" and new) or sign not in ("-", "+"):
            write()
            old, new = [], []
        if sign == "-":
            old.append(rest)
        elif sign == "+":
            new.append(rest)
        elif sign == ">":
            with open(os.path.join(room, name), "ab") as it:
                it.write(
                    rest.encode().decode("unicode_escape").encode("latin-1") + b"\n"
                    if "\\" in rest
                    else rest.encode() + b"\n"
                )
        elif sign == "!":
            subprocess.run(["bash", "-c", rest], cwd=room, check=True)
        else:
            name = line
            if name != "end" and not os.path.exists(os.path.join(room, name)):
                open(os.path.join(room, name), "w", encoding="utf-8").close()


def run(case: Case) -> list[str]:
    """What a call of a case writes and says, as it is kept."""
    with tempfile.TemporaryDirectory() as room:
        shutil.copytree(os.path.join(CASES, "base"), room, dirs_exist_ok=True)
        make(room, case)
        environment = {key: value for key, value in os.environ.items() if key not in ("LOKWURMI_QUIET", "NO_COLOR")} | {
            "LOKWURMI_FAULTS": "1",
            "LC_ALL": "C.UTF-8",
        }
        program = os.path.join(TOP, "lokwurmi")
        words = [program, *shlex.split(case.words)]
        if "<(" in case.words or "$'" in case.words:
            words = ["bash", "-c", f"{shlex.quote(program)} {case.words}"]
        done = subprocess.run(
            words, cwd=room, capture_output=True, env=environment, stdin=subprocess.DEVNULL, check=False
        )
    wrote, said = (it.decode("utf-8", "replace").replace(f"{TOP}/docs/", "docs/") for it in (done.stdout, done.stderr))
    lines = wrote.splitlines()
    first = f"{done.returncode} {lines[0] if lines else ''}".rstrip()
    return [
        first,
        *(f"  {it}" for it in lines[1:] if it.startswith("line ")),
        *(f"| {it}".rstrip() for it in said.splitlines()),
    ]


def check_cases(keep: bool, only: str) -> tuple[int, int]:
    tried = wrong = 0
    for path in sorted(glob.glob(os.path.join(CASES, "*.txt"))):
        if only and not os.path.basename(path).startswith(only):
            continue
        texts, cases = [], list(cases_in(path))
        with ThreadPoolExecutor(4) as pool:
            ran = list(pool.map(run, cases))
        for case, got in zip(cases, ran):
            tried += 1
            texts.append(case.text(got))
            if got != case.kept and not keep:
                wrong += 1
                print(
                    f"{os.path.basename(path)}: {case.title}:",
                    *(f"  kept {it}" for it in case.kept),
                    *(f"  now  {it}" for it in got),
                    sep="\n",
                )
        if keep:
            with open(path, "w", encoding="utf-8") as it:
                it.write("\n".join(texts))
        print(f"{os.path.basename(path)}: {len(texts)} cases")
    return tried, wrong


# ---- damaged at random


def wrote(*words: str) -> list[str]:
    """What the program itself writes."""
    done = subprocess.run([PROGRAM, *words], capture_output=True, text=True, errors="surrogateescape", check=False)
    return done.stdout.splitlines()


class Room:
    """A folder with one file of each sort, and what differed."""

    def __init__(self, folder: str, seed: int):
        self.folder, self.draw, self.seen, self.wrong = folder, random.Random(seed), Counter(), 0
        paths = [os.path.join(TOP, it) for it in example_systems()]
        paths.append(os.path.join(CASES, "base", "system.toml"))
        self.systems = [read(it) for it in paths]
        self.systems += ["\n".join(wrote("generate", str(number), str(number % 5))) + "\n" for number in range(8)]
        self.systems += [by(self.draw, it) for it in self.systems for by in (with_regions, with_queues, with_locks)]

    def attempt(self, sort: str, trial: Callable[[], None]) -> None:
        """A trial. Whatever it raises is told, with the files that it looked at, as what differs is."""
        try:
            trial()
        except Exception as fault:
            self.wrong += 1
            kept = shutil.copytree(self.folder, tempfile.mkdtemp(prefix="lokwurmi-raises-"), dirs_exist_ok=True)
            where = traceback.extract_tb(fault.__traceback__)[-1]
            print(f"{sort}: {type(fault).__name__}: {fault}; {where.filename}:{where.lineno}; {kept}")

    def write(self, name: str, text: str) -> str:
        path = os.path.join(self.folder, name)
        with open(path, "w", encoding="utf-8", errors="surrogateescape", newline="") as it:
            it.write(text)
        return path

    def hold(self, sort: str, program: str, here: str, *files: str) -> None:
        self.seen[sort, " ".join(it for it in program.split() if not it.isdigit() or "reason" in program)[:28]] += 1
        if program != here:
            self.wrong += 1
            folder = tempfile.mkdtemp(prefix="lokwurmi-differs-")
            kept = [shutil.copy(it, folder) for it in files]
            print(f"{sort}: the program: {program!r}, here: {here!r}; {' '.join(kept)}")

    def names(self, text: str) -> list[str]:
        document = Document(text)
        return [it["name"] for entries in document.entries.values() for it in entries]

    def system(self) -> None:
        text = damaged(self.draw, self.draw.choice(self.systems))
        path = self.write("system.toml", text)
        first = wrote("analyse", path)[0]
        file = front.read_system(path)
        if fault_in(file):
            here = f"not TOML {path}"
        else:
            found = front.refusal_of(path)
            here = found[1].line if found else "accepted"
            if not found:
                # no notice may fail on what is accepted
                notices.of_system(Document(file.text))
        self.hold(
            "system", first if first.startswith(("system refused", "not TOML", "too long")) else "accepted", here, path
        )

    def valid(self) -> tuple[str, str]:
        text = self.draw.choice(self.systems)
        return self.write("system.toml", text), text

    def script(self) -> None:
        path, text = self.valid()
        other = self.write("script.txt", damaged_script(self.draw, self.names(text)))
        lines = wrote("session", path, other)
        file = front.read_script(other)
        fault = script.fault_in(file)
        first = next((it for it in lines if it.startswith("script refused")), "accepted")
        self.hold("script", first, f"script refused {fault[0]}" if fault else "accepted", path, other)
        if not fault:
            told = [it.words for it in edits.refused_edits(Document(text), file)[1]]
            refused = [it for it in lines if it.startswith("line ")]
            for program, here in zip([*refused, "no more"], [*told, "no more"]):
                self.hold("edit", program, here, path, other)

    def trace(self) -> None:
        path, text = self.valid()
        sources = [it["name"] for it in Document(text).entries["source"]] or ["s"]
        rows = [
            f"event,{self.draw.choice(sources)},{time * self.draw.choice([1, 50, 5000])}"
            for time in range(self.draw.randint(0, 9))
        ]
        names = self.names(text)
        rows += [
            f"exec,{self.draw.choice(names or ['a'])},{self.draw.randint(1, 300)}"
            for _ in range(self.draw.randint(0, 3))
        ]
        text_of = "\n".join(rows) + "\n"
        other = self.write(
            "trace.csv", damaged_rows(self.draw, text_of, names) if self.draw.random() < 0.7 else text_of
        )
        lines = wrote("simulate", path, other)
        found = TraceOfSystem(Document(text), front.read(other))
        first = lines[0] if lines and lines[0].startswith("trace") else "accepted"
        here = f"trace refused {found.fault[0]}" if found.fault else "accepted"
        if first.startswith("trace disobeys"):
            # the rows that the line speaks of are found
            here = first if not found.fault and found.disobeys(first.split()[2:]) else here
        self.hold("trace", first, here, path, other)

    def schedule(self) -> None:
        name = self.draw.choice(["crossing_chains", "long_window", "round_robin", "pedal"])
        path, trace, kept = (
            os.path.join(TOP, "examples", name + it) for it in (".toml", ".trace.csv", ".schedule.csv")
        )
        text = read(path)
        rows = "\n".join(read(kept).splitlines()[: self.draw.randint(0, 6)]) + "\n"
        other = self.write("schedule.csv", damaged_rows(self.draw, rows, self.names(text)))
        lines = wrote("audit", path, trace, other)
        fault = schedule.fault_in(Document(text), front.read(other))
        first = lines[0] if lines and lines[0].startswith("schedule refused") else "accepted"
        self.hold("schedule", first, f"schedule refused {fault[0]}" if fault else "accepted", path, other)


def read(path: str) -> str:
    with open(path, encoding="utf-8") as it:
        return it.read()


def check_random(count: int, seed: int) -> int:
    with tempfile.TemporaryDirectory() as folder:
        room = Room(folder, seed)
        for number in range(count):
            room.attempt("system", room.system)
            if number % 2 == 0:
                room.attempt("script", room.script)
                room.attempt("trace", room.trace)
            if number % 5 == 0:
                room.attempt("schedule", room.schedule)
            if number % 200 == 199:
                print(f"{number + 1} of {count} damaged systems, {room.wrong} differ", flush=True)
    for (sort, what), times in sorted(room.seen.items()):
        print(f"{sort:9} {times:6} {what}")
    return room.wrong


def check_look(room: str) -> int:
    """Colours in a terminal alone, nothing where it is to be quiet, and no letter of a file that a terminal would
    obey."""
    wrong = 0
    file = written(
        room, "s.toml", 'format = 1\nsource = [{ name = "\\u001b[31m", period = 10 }] # \x1b\n'.replace("\x1b", "")
    )
    call = shlex.join([os.path.join(TOP, "lokwurmi"), "analyse", file])
    plain = {key: value for key, value in os.environ.items() if key not in ("LOKWURMI_QUIET", "NO_COLOR")} | {
        "TERM": "xterm"
    }

    def called(words: list[str], more: dict[str, str]) -> subprocess.CompletedProcess[str]:
        nothing = subprocess.DEVNULL
        return subprocess.run(words, capture_output=True, text=True, env=plain | more, stdin=nothing, check=False)

    for what, more, wanted in (
        ("in a terminal", {}, True),
        ("with NO_COLOR", {"NO_COLOR": "1"}, False),
        ("in a dumb terminal", {"TERM": "dumb"}, False),
    ):
        said = called(["script", "-qec", call, "/dev/null"], more).stdout
        good = ("\033[1m" in said) == wanted and "help:" in said and "\033[31m" not in said
        wrong += not good
        print(f"{'ok   ' if good else 'WRONG'} {what}: colours {wanted}")
    for what, words, more in (("--quiet", ["--quiet"], {}), ("LOKWURMI_QUIET=1", [], {"LOKWURMI_QUIET": "1"})):
        done = called([os.path.join(TOP, "lokwurmi"), *words, "analyse", file], more)
        good = done.stderr == "" and done.stdout == "system refused reason 3 source 1\n" and done.returncode == 14
        wrong += not good
        print(f"{'ok   ' if good else 'WRONG'} {what}: nothing but the line")
    return wrong


def main() -> None:
    needs = "the programs, built by ./lokwurmi analyse, ./lokwurmi schedule and ./lokwurmi chain"
    reader = reader_of(__doc__, "--random 3000 --seed 7", needs)
    reader.add_argument("--keep", action="store_true", help="write what is said now into the cases")
    reader.add_argument("--only", metavar="PART", default="", help="only files of cases whose name begins so")
    reader.add_argument(
        "--random",
        metavar="N",
        type=int,
        default=1000,
        help="so many damaged systems, and half as many scripts and traces; 1000 if absent",
    )
    reader.add_argument("--seed", type=int, default=1)
    words = reader.parse_args()
    tried, wrong = check_cases(words.keep, words.only)
    if not words.keep and not words.only:
        with tempfile.TemporaryDirectory() as room:
            wrong += check_look(room)
        wrong += check_random(words.random, words.seed)
    print(f"{tried} cases, {wrong} faults")
    sys.exit(1 if wrong else 0)


if __name__ == "__main__":
    main()
