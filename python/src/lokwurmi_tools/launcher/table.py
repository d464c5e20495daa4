"""The one table of commands: what help, completion, the man page, and the tables of README.md and docs/FILES.md come
from.

The tools, which are no part of what is proved, stand in lokwurmi_tools/commands/catalogue.py.
"""
from __future__ import annotations

from typing import NamedTuple

from lokwurmi.model.commands import FILES

VERSION = "1.0"
# the toolchains that have proved the repository
KITS = ("rattle-kit-13f", "rattle-kit-13b")
# the command of the launcher's own that a build without proofs is called by
UNPROVED = "--unproved"
STRICT = "--strict"
MORE_TASKS = "[TASK..]"
WORKERS = "--workers"
RUNNING = "--while-running"


class Command(NamedTuple):
    """A proved command: its words, what it writes, in short and in full, and an example."""

    name: str
    # the words behind its files
    others: tuple[str, ...]
    writes: str
    brief: str
    example: str
    option: str = ""
    statuses: str = ""
    note: str = ""
    premise: str = ""

    @property
    def words(self) -> tuple[str, ...]:
        """What its words stand for, but for an option: names in `WORDS`."""
        return (*("FILE" if it == "system" else it.upper() for it in FILES[self.name]), *self.others)

    @property
    def usage(self) -> str:
        """The command with its words; what a chain's flag is stands in the note."""
        return " ".join((self.name, *self.words, *([f"[{WORKERS} N]"] if self.option == WORKERS else [])))

    @property
    def called(self) -> str:
        """The command with its words but for --workers, as README.md has it."""
        return " ".join((self.name, *([f"[{RUNNING}]"] if self.option == RUNNING else []), *self.words))

    @property
    def full_usage(self) -> str:
        """The command with all that it takes, as the man page has it."""
        return self.called if self.option == RUNNING else self.usage


class Word(NamedTuple):
    """What one word stands for: in help, as a range in docs/FILES.md, and what completes it."""

    explained: str
    scope: str = ""
    least: int = 0
    most: int = 0
    ending: str = ""
    part: str = ""

    @property
    def is_file(self) -> bool:
        return bool(self.ending)

    @property
    def is_number(self) -> bool:
        return self.most > 0


NEAR = (
    "it holds where no source falls silent: events that come farther apart than period and jitter say void it;"
    " events and ends lie on whole ticks"
)
MISSED = "1: a deadline is missed; 2: a bound is overload"
COMMANDS = (
    Command(
        "analyse",
        (),
        "the bounds of the system in FILE",
        "the bounds of the system in FILE",
        "examples/two_tasks.toml",
        option=WORKERS,
        statuses=MISSED,
    ),
    Command(
        "session",
        (),
        "what a script's edits would bring: a report wherever it asks for one",
        "the bounds that a script of edits asks for",
        "examples/crossing_chains.toml examples/crossing_chains.script.txt",
        option=WORKERS,
        statuses="1: a deadline is missed at the end; 2: a bound is overload there",
    ),
    Command(
        "simulate",
        (),
        "what is observed when a recorded trace is replayed on the system",
        "what is observed when a trace is replayed",
        "examples/crossing_chains.toml examples/crossing_chains.trace.csv",
    ),
    Command(
        "generate",
        ("NUMBER", "SIZE"),
        "a generated system of SIZE chains, as a system file; NUMBER is the seed",
        "a generated system of SIZE chains",
        "42 1",
    ),
    Command(
        "load",
        ("NUMBER", "SIZE"),
        "a summary of the analysis of that generated system",
        "a summary of that system's analysis",
        "42 1",
        option=WORKERS,
        statuses=MISSED,
    ),
    Command(
        "hammer",
        ("NUMBER", "TRACES"),
        "the greatest responses under generated traces, beside the bounds",
        "the worst in generated traces, and bounds",
        "examples/long_window.toml 1 1",
    ),
    Command(
        "assign",
        ("RESOURCE",),
        (
            "priorities on a resource under which the bounds of its tasks are within their deadlines, or that there are"
            " none"
        ),
        "priorities by which deadlines are met",
        "examples/deadline_order.toml cpu",
        statuses="3: no order meets them",
    ),
    Command(
        "slack",
        ("TASK",),
        "by how much the greatest execution of a task may grow while all deadlines are met",
        "by how much the worst of TASK may grow",
        "examples/sae_can.toml m16",
        option=WORKERS,
        statuses="3: a deadline is missed already, or a path with one has no bound",
    ),
    Command(
        "buffers",
        (),
        "how many jobs of each task and resource can wait at one time, and how many do under a recorded trace",
        "how many jobs can wait, and how many do",
        "examples/long_window.toml examples/long_window.trace.csv",
        option=WORKERS,
        note="for the bounds alone TRACE may be empty: /dev/null",
    ),
    Command(
        "audit",
        (),
        "whether a recorded schedule is that of the run under a trace, or where the two first differ",
        "whether a recorded schedule is the run's",
        "examples/round_robin.toml examples/round_robin.trace.csv examples/round_robin.schedule.csv",
        statuses="4: they differ",
    ),
    Command(
        "schedule",
        (),
        "the schedule of the run under a trace: a row TASK,START,END for each stretch in which a job runs",
        "the schedule of the run under a trace",
        "examples/crossing_chains.toml examples/crossing_chains.trace.csv",
    ),
    Command(
        "chain",
        ("TASK", MORE_TASKS),
        (
            "bounds of a chain of tasks, each of which reads what the one before wrote last, where no source falls"
            " silent: its reaction time, and the age of its data at the end of a job and until it is overwritten"
        ),
        "how late a chain reacts, how old data gets",
        "examples/effects.toml sense filter act",
        option=RUNNING,
        statuses="2: a bound is overload",
        note="--while-running, as the first word or the last: less, where tasks read only while they run",
        premise=NEAR,
    ),
    Command(
        "chains",
        (),
        "the same of many chains, which stand in a file with deadlines for their reaction time, the age of their data,"
        " and how old it gets until it is overwritten",
        "the same of many, beside their deadlines",
        "examples/effects.toml examples/effects.chains.toml",
        statuses=MISSED,
        premise=NEAR,
    ),
)
BY_NAME = {it.name: it for it in COMMANDS}
# the crate of the program, and the words that the program is first run with there
CRATE = "cpa_cli"
FIRST_WORDS = ("analyse", "data/two_tasks.toml")
WORDS = {
    "FILE": Word('a system file ("The system")', ending=".toml"),
    "SCRIPT": Word('edits of the system, a line each ("The script")', ending=".txt"),
    "TRACE": Word('recorded events, executions and phases ("The trace")', ending=".csv"),
    "SCHEDULE": Word('what ran from when to when ("Recorded schedules")', ending=".csv"),
    "CHAINS": Word('chains and their deadlines ("Chains with deadlines")', ending=".toml"),
    "RESOURCE": Word("the name of a preemptive or CAN resource in FILE", "the name of one in FILE", part="resource"),
    "TASK": Word("the name of a task in FILE", "the name of one in FILE", part="task"),
    MORE_TASKS: Word("up to 31 more, in the order of the data", "up to 31 more of them", part="task"),
    "NUMBER": Word("the seed, 0 to 4294967295: another one gives others", "0 to 4,294,967,295", 0, 4294967295),
    "SIZE": Word("how many chains, 0 to 128", "0 to 128", 0, 128),
    "TRACES": Word("how many of them, 1 to 10000", "1 to 10,000", 1, 10000),
    "N": Word("so many threads, 1 to 64; what is written is the same", "1 to 64; 1 if absent", 1, 64),
}
MOST_TASKS = 32


class Own(NamedTuple):
    """A call that the launcher answers itself: its words, what it does, and more of that for its own help and the man
    page."""

    usage: str
    brief: str
    more: str = ""
    example: str = ""


OWN = (
    Own("--help [COMMAND]", "this, or a command's words and an example"),
    Own("--version", "the version, the toolchain, the commit"),
    Own("--quiet COMMAND ..", "no more than its output (LOKWURMI_QUIET=1)"),
    Own(
        "--strict COMMAND ..",
        "status 5 where a reader alone would see it",
        (
            "COMMAND is session or page. Of session: an edit was refused, so that the reports are of another system."
            " Of page: a task has no bound. What is written is as ever. For jobs that go by the status."
        ),
        "--strict session examples/crossing_chains.toml examples/crossing_chains.script.txt",
    ),
    Own(
        "--unproved COMMAND ..",
        "a first look: the same sources, no proofs",
        (
            "The toolchain compiles the sources and runs them with checks, in a minute or so, and proves nothing."
            " Standard output and status are as ever, of up to 1 MiB and ten minutes. It never stands in for a proved"
            " answer by itself."
        ),
        "--unproved analyse examples/two_tasks.toml",
    ),
    Own(
        "install [PREFIX]",
        "copies the program and tools to PREFIX",
        (
            "PREFIX is ~/.local if absent. The copy needs neither the checkout, nor the toolchain, nor a C compiler,"
            " also on another machine of the same kind. A program that isn't built is proved and built first."
        ),
        "install ~/.local",
    ),
    Own(
        "uninstall [PREFIX]",
        "takes away what install wrote there",
        "It removes the files that install has listed, and no others.",
        "uninstall ~/.local",
    ),
    Own(
        "build-library",
        "the library for C and Python, proved",
        (
            "It writes library/out/liblokwurmi.a, library/out/liblokwurmi.so and a wheel of the Python package, and"
            " needs a C compiler (cc, or what CC names). docs/LIBRARY.md tells how they are used."
        ),
        "build-library",
    ),
    Own(
        "--completion",
        "a script: bash completes these words by it",
        "Write into ~/.bashrc: source <(lokwurmi --completion). An installed copy has it where bash looks for it.",
        "--completion",
    ),
)
OWN_BY_NAME = {it.usage.split()[0]: it for it in OWN}
