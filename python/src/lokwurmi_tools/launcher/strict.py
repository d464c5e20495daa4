"""`--strict`: a status of its own where what was asked for isn't what was answered, for jobs that go by the status.

Of `session` that is an edit that was refused, so that the reports are of another system; of `page` a task without a
bound.
"""
from __future__ import annotations

import sys
from collections.abc import Callable
from functools import partial

from lokwurmi.model.statuses import Status
from lokwurmi_tools.launcher import helping
from lokwurmi_tools.launcher.operands import note_missing, operands_of, shown
from lokwurmi_tools.launcher.paths import is_installed, program
from lokwurmi_tools.launcher.running import run
from lokwurmi_tools.launcher.table import BY_NAME, CRATE, STRICT
from lokwurmi_tools.launcher.telling import tell
from lokwurmi_tools.launcher.wrong_words import refuse


def session(words: list[str], quiet: bool) -> int:
    """The call of `session`, whose status is 5 where it would be 0 to 2 and an edit was refused."""
    command = BY_NAME["session"]
    operands = operands_of(command, words)
    if operands is None:
        return refuse(["session", *words], helping.names(), quiet)
    if not is_installed():
        from lokwurmi_tools.launcher.build import build

        build(["session", *words], partial(note_missing, operands))
    status, wrote = run([str(program(CRATE)), "session", *words], True)
    if not quiet:
        tell(status, wrote, ["session", *words])
    if status > 2 or not wrote:
        return status
    if not quiet:
        count = len(wrote.split("\n"))
        edits = "an edit was" if count == 1 else f"{count} edits were"
        print(
            f"lokwurmi: {STRICT}: {edits} refused: the status is {Status.LACKING} in place of {status}", file=sys.stderr
        )
    return Status.LACKING


def perform(words: list[str], quiet: bool, call_tool: Callable[[list[str]], int]) -> int:
    """A call with --strict before it."""
    if words[:1] == ["session"]:
        return session(words[1:], quiet)
    if words[:1] == ["page"]:
        return call_tool(["page", STRICT, *words[1:]])
    word = f", and {shown(words[0])} is none" if words else ""
    return refuse([], helping.names(), True) if quiet else refused(f"{STRICT} takes session or page{word}")


def refused(why: str) -> int:
    """Refuses words, and says why."""
    status = refuse([], helping.names(), True)
    print(f"lokwurmi: {why}", file=sys.stderr)
    return status
