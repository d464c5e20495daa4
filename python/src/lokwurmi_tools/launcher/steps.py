"""The steps that the script `lokwurmi` hands to Python: what isn't a call of a program that is built."""
from __future__ import annotations

import os
import sys
from collections.abc import Callable
from functools import partial

from lokwurmi_tools.launcher import helping
from lokwurmi_tools.launcher.operands import note_missing, operands_of, shown
from lokwurmi_tools.launcher.paths import SOURCES, is_installed, program
from lokwurmi_tools.launcher.table import BY_NAME, CRATE, OWN_BY_NAME, STRICT, UNPROVED
from lokwurmi_tools.launcher.wrong_words import refuse

FAILED = 70
# the descriptor on which the script hands over what the program wrote
WROTE = 3


def is_quiet() -> bool:
    return os.environ.get("LOKWURMI_QUIET", "") not in ("", "0")


def is_tool(words: list[str]) -> bool:
    from lokwurmi_tools.commands.catalogue import COMMANDS

    return any(words[0] == it.name.split()[0] for it in COMMANDS)


def asks_for_help(words: list[str]) -> bool:
    if not words:
        return sys.stdout.isatty()
    return words[0] in helping.HELP or words[0] in OWN_BY_NAME and any(it in ("--help", "-h") for it in words[1:])


def answer(words: list[str]) -> int:
    """Answers words that are no call of a program: help, tools, and what the launcher does itself."""
    if words and words[0] in BY_NAME and {"--help", "-h"} & set(words):
        return helping.answer_help(words)
    if asks_for_help(words):
        named = helping.asked_of(words)
        return call_tool([named, "--help"]) if named and is_tool([named]) else helping.answer_help(words)
    if not words or words[0] not in OWN_BY_NAME:
        return call_tool(words) if words and is_tool(words) else refuse(words, helping.names(), is_quiet())
    return OWN_STEPS[words[0]](words[1:])


def tell_version(words: list[str]) -> int:
    return helping.written(helping.version_text())


def tell_completion(words: list[str]) -> int:
    from lokwurmi_tools.launcher.completing import completion_text

    return helping.written(completion_text())


def call_tool(words: list[str]) -> int:
    """Goes on as the tool, under this Python with all that is installed for it."""
    path = os.pathsep.join([str(SOURCES), *filter(None, [os.environ.get("PYTHONPATH")])])
    environment = os.environ | {"PYTHONPATH": path}
    os.execve(sys.executable, [sys.executable, "-m", "lokwurmi_tools", *words], environment)


def unproved(words: list[str]) -> int:
    """An answer by the same sources without proofs, for a command and nothing else."""
    if words[:1] == ["--quiet"]:
        os.environ["LOKWURMI_QUIET"], words = "1", words[1:]
    if words and words[0] not in BY_NAME and (is_tool(words) or words[0] in OWN_BY_NAME):
        print(f"lokwurmi: {UNPROVED} takes a proved command, and {shown(words[0])} is none", file=sys.stderr)
        return 10
    operands = operands_of(BY_NAME[words[0]], words[1:]) if words and words[0] in BY_NAME else None
    if operands is None:
        return refuse(words, helping.names(), is_quiet())
    if is_installed():
        print(
            f"lokwurmi: {UNPROVED} compiles the sources, which an installed copy hasn't; what it calls is proved",
            file=sys.stderr,
        )
        return FAILED
    from lokwurmi_tools.launcher.unproved import answer_unproved

    return answer_unproved(BY_NAME[words[0]], words[1:], operands, is_quiet())


def strict(words: list[str]) -> int:
    """A call whose status tells what else is only said."""
    if words[:1] == ["--quiet"]:
        os.environ["LOKWURMI_QUIET"], words = "1", words[1:]
    from lokwurmi_tools.launcher.strict import perform

    return perform(words, is_quiet(), call_tool)


def by_installing(name: str) -> Callable[[list[str]], int]:
    def perform(words: list[str]) -> int:
        from lokwurmi_tools.launcher import installing

        return installing.perform(name, words)

    return perform


def build_library(words: list[str]) -> int:
    from lokwurmi_tools.launcher.library import perform

    return perform(words)


def put_behind(words: list[str]) -> int:
    """--quiet that doesn't stand first, or twice."""
    return refuse(["--quiet", *words], helping.names(), is_quiet())


OWN_STEPS: dict[str, Callable[[list[str]], int]] = {
    "--help": helping.answer_help,
    "--version": tell_version,
    "--quiet": put_behind,
    STRICT: strict,
    UNPROVED: unproved,
    "install": by_installing("install"),
    "uninstall": by_installing("uninstall"),
    "build-library": build_library,
    "--completion": tell_completion,
}


def build(words: list[str]) -> int:
    """Builds the program that a command needs, where it is stale, and then runs it: what it would refuse isn't worth
    a build."""
    from lokwurmi_tools.launcher.running import run
    from lokwurmi_tools.launcher.telling import tell

    command = BY_NAME[words[0]]
    operands = operands_of(command, words[1:])
    if operands is None:
        return refuse(words, helping.names(), is_quiet())
    if is_installed():
        print(f"lokwurmi: {program(CRATE)} isn't there: install it again", file=sys.stderr)
        return FAILED
    from lokwurmi_tools.launcher.build import build as build_program

    build_program(words, partial(note_missing, operands))
    status, wrote = run([str(program(CRATE)), *words], words[0] == "session")
    if not is_quiet():
        tell(status, wrote, words)
    return status


def tell_after(words: list[str]) -> int:
    """Says what there is to say after a call that the script has made, and of which it hands over what was written."""
    from lokwurmi_tools.launcher.telling import tell

    with open(WROTE, encoding="utf-8", errors="surrogateescape") as it:
        wrote = it.read().rstrip("\n")
    tell(int(words[0]), wrote, words[1:])
    return 0


STEPS = {"answer": answer, "build": build, "tell": tell_after}


def main(words: list[str]) -> int:
    """A step by its name, with its words."""
    try:
        return STEPS[words[0]](words[1:])
    except KeyboardInterrupt:
        from lokwurmi_tools.launcher.running import end_by

        end_by(2)
