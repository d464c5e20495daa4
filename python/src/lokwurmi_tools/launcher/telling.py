"""What is said beside what the program writes: refusals in words, hints by status, and notices."""
from __future__ import annotations

import io
import os
import signal
import sys

from lokwurmi_tools.launcher.helping import names
from lokwurmi_tools.launcher.operands import operands_of
from lokwurmi_tools.launcher.paths import PAGE
from lokwurmi_tools.launcher.table import BY_NAME, RUNNING, Command
from lokwurmi_tools.launcher.wrong_words import said_of

# seconds of work after which a hint by the status has to do
PATIENCE = 10
# the statuses whose line says which file and where, so that the file is read again
IN_FILES = range(11, 20)
# what a status says, and the section of docs/FILES.md with more
HINTS = {
    3: (
        (
            "assign: no order of priorities meets the deadlines of the tasks; slack: a deadline is missed already, or a"
            " path with one has no bound. What to do: "
        ),
        "Statuses",
    ),
    4: (
        (
            "the recorded schedule isn't that of the run under this trace: the line has the first segment that differs,"
            " and what is expected in its place. What it may mean: "
        ),
        "Recorded schedules",
    ),
    11: ("the file couldn't be opened or read: look at its name, its folder and its permissions. More: ", "Statuses"),
    12: (
        (
            "the file is longer than such a file may be: 1 MiB for a system or a script, 16 MiB for a trace or a"
            " schedule. More: "
        ),
        "Statuses",
    ),
    13: (
        "the system file isn't TOML: look for a missing quote, bracket or comma, or a key that stands twice. More: ",
        "Refusals",
    ),
    14: (
        (
            "the file is TOML but no system: the line has the number of the reason, and the list and place of the"
            ' entry, from 1, or file 0 for the file as a whole. Where a task\'s "after" is a list, the file has format'
            " = 2; where a task has a region, or a source is sporadic or on a clock, it has format = 4. Each reason,"
            " and what to change: "
        ),
        "Refusals",
    ),
    15: (
        "a line of the script is none of its forms, or there are too many: no edit was made. The forms: ",
        "The script",
    ),
    16: (
        (
            "a row of the trace isn't one that fits the system, or the trace has too many rows or starts too many jobs."
            " What to change: "
        ),
        "Status 16",
    ),
    17: (
        (
            "the trace is readable, but does what the system file rules out, so no bound is claimed for it. What it"
            " tells you: "
        ),
        "Status 17",
    ),
    18: (
        (
            "the word after the file names nothing that the command can take: assign wants a preemptive, ceiling or CAN"
            " resource on which each task is activated by sources alone, slack a task, chain tasks; or the file of"
            " chains is refused. Each number, and what to change: "
        ),
        "Status 18",
    ),
    19: (
        (
            "a row of the schedule isn't TASK,START,END with a task of the system and times in range, or there are too"
            " many. What to change: "
        ),
        "Status 19",
    ),
    20: ("the output couldn't be written whole: is the disk full, or was the pipe closed? More: ", "Statuses"),
    30: ("there wasn't enough memory, and what was written may be only a part. More: ", "Statuses"),
}


def hint(status: int, words: list[str]) -> str:
    """What is said of a status where nothing more is known of the call."""
    if status == 10:
        return said_of(words, names())
    if status not in HINTS:
        return ""
    said, section = HINTS[status]
    return f'lokwurmi: {said}{PAGE}, "{section}"\n'


def in_words(status: int, line: str, command: Command, words: list[str]) -> bool:
    """Says it by reading the files again, where that finds something to say, in time, and nothing is wrong with what
    would."""
    found = operands_of(command, words)
    if status == 10 or found is None:
        return False
    # by the work that it takes, so that a busy machine keeps no words back
    signal.signal(signal.SIGPROF, out_of_patience)
    signal.setitimer(signal.ITIMER_PROF, PATIENCE)
    if isinstance(sys.stderr, io.TextIOWrapper):
        sys.stderr.reconfigure(encoding="utf-8", errors="backslashreplace")
    try:
        from lokwurmi.refusals.front import main

        # which waits a chain counts hangs on the flag
        flag = [RUNNING] if RUNNING in words else []
        return main([str(status), line, command.name, *found.words, *flag]) == 0
    except Exception:
        if os.environ.get("LOKWURMI_FAULTS"):
            raise
        return False
    finally:
        signal.setitimer(signal.ITIMER_PROF, 0)


def out_of_patience(number: int, frame: object) -> None:
    raise TimeoutError


def tell(status: int, wrote: str, words: list[str]) -> None:
    """What there is to say after a call, by what the program wrote: its first line, or of a session that ends with 0 to
    2 the lines of refused edits."""
    command = BY_NAME[words[0]]
    if status <= 2:
        if command.words[0] == "FILE":
            in_words(status, wrote, command, words[1:])
    elif not in_words(status, wrote if status in IN_FILES else "", command, words[1:]):
        sys.stderr.write(hint(status, words))
