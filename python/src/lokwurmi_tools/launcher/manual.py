"""The man page of `lokwurmi`, from the tables of commands."""
from __future__ import annotations

from lokwurmi_tools.commands.catalogue import COMMANDS as TOOLS
from lokwurmi_tools.launcher.table import COMMANDS, OWN, VERSION, WORDS, Command, Own

STATUSES = (
    ("0", "all is done; no deadline is missed, and no bound is overload."),
    (
        "1, 2",
        (
            "of analyse, session, load, chains and verdict: a deadline is missed; of these and chain: a bound is"
            " overload. Of diff: a deadline is newly missed; a bound is lost."
        ),
    ),
    (
        "3",
        (
            "of assign: no order of priorities meets; of slack: a deadline is missed already, or a path with one has no"
            " bound."
        ),
    ),
    ("4", "of audit: the recorded schedule isn't that of the run."),
    ("5", "by \\-\\-strict alone. Of session: an edit was refused. Of page: a task has no bound."),
    ("10", "the words aren't accepted."),
    (
        "11 to 19",
        "a file can't be read, is too long, or is refused; the line on standard output says which one and where.",
    ),
    ("20", "the output couldn't be written."),
    ("30", "out of memory."),
    ("70", "of the launcher: the program couldn't be built, installed or tried."),
)
HEAD = """\
.TH LOKWURMI 1 "" "lokwurmi {version}" "User Commands"
.SH NAME
lokwurmi \\- bounds on the timing of distributed real\\-time systems, with proofs
.SH SYNOPSIS
.B lokwurmi
.RB [ \\-\\-quiet ]
.I COMMAND WORD ..
.SH DESCRIPTION
Lokwurmi reads which tasks run where, for how long and how often.
It writes bounds on the worst\\-case response time of each task and on the worst latency of each path.
In every trace that obeys the sources and execution ranges, each job and each path with a printed bound is complete
within it.
The commands of the first list are proved: each function of the program is proved to meet its contract.
What the second list has isn't.
"""
TAIL = """\
.SH ENVIRONMENT
.TP
.B LOKWURMI_QUIET
1 keeps back what is said on standard error beside the output.
.TP
.B LOKWURMI_JOBS
how many crates a build proves at a time.
.TP
.B NO_COLOR
no colours in a terminal.
.SH PREMISES
A trace starts with no pending job; events, executions and phases are as the system file allows.
In each tick runs who the step rule says, and switching takes no time.
It isn't claimed that hardware behaves so, that a bound is reached, or that none is tighter.
.SH SEE ALSO
The folder docs of the repository, or of an installed copy (lib/lokwurmi/docs): TUTORIAL.md, FILES.md with all words,
keys and statuses, SOUNDNESS.md.
"""


def escaped(text: str) -> str:
    """A text as roff takes it."""
    text = text.replace("\\", "\\e").replace("-", "\\-").replace("'", "\\(aq")
    return f"\\&{text}" if text.startswith((".", "\\(aq")) else text


def entry(head: str, *paragraphs: str) -> str:
    return f".TP\n.B {escaped(head)}\n" + "\n.br\n".join(escaped(it) for it in paragraphs if it) + "\n"


def of_command(it: Command) -> str:
    return entry(
        it.full_usage,
        f"writes {it.writes}.",
        f"Status: {it.statuses}." if it.statuses else "",
        f"{it.note}." if it.note else "",
        f"{it.premise}." if it.premise else "",
        f"Example: lokwurmi {it.name} {it.example}",
    )


def of_own(it: Own) -> str:
    return entry(it.usage, f"{it.brief}.", it.more)


def man_text() -> str:
    """The whole page."""
    return "".join(
        (
            HEAD.format(version=VERSION),
            ".SH PROVED COMMANDS\n",
            *map(of_command, COMMANDS),
            ".SH WORDS\n",
            *(entry(name, it.explained) for name, it in WORDS.items()),
            ".SH TOOLS\nThese call the proved commands, and aren't proved themselves.\nEach has \\-\\-help.\n",
            *(entry(it.name, f"{it.does}.", f"Example: lokwurmi {it.example}") for it in TOOLS),
            ".SH THE LAUNCHER\n",
            *map(of_own, OWN),
            ".SH EXIT STATUS\n",
            *(entry(*it) for it in STATUSES),
            TAIL,
        )
    )
