"""The script by which bash completes the words of `lokwurmi`: the words of the tables of commands, and what goes by
them."""
from __future__ import annotations

import shlex
from collections.abc import Mapping
from pathlib import Path

from lokwurmi_tools.commands.catalogue import COMMANDS as TOOLS
from lokwurmi_tools.launcher.table import COMMANDS, OWN_BY_NAME, WORDS

RULES = Path(__file__).with_name("completion.bash")


def as_array(name: str, entries: Mapping[str, str]) -> str:
    """An associative array of bash."""
    words = " ".join(f"[{shlex.quote(key)}]={shlex.quote(value)}" for key, value in entries.items())
    return f"declare -gA _lokwurmi_{name}=({words})\n"


def tool_words() -> dict[str, str]:
    """The first words of the tools, each with the second ones where it has such."""
    found: dict[str, str] = {}
    for it in TOOLS:
        first, _, second = it.name.partition(" ")
        found[first] = f"{found.get(first, '')} {second}".strip()
    return found


def completion_text() -> str:
    arrays = (
        as_array("words", {it.name: " ".join(it.words) for it in COMMANDS}),
        as_array("options", {it.name: it.option for it in COMMANDS if it.option}),
        as_array("tools", tool_words()),
        as_array("endings", {name: it.ending for name, it in WORDS.items() if it.ending}),
        as_array("parts", {name: it.part for name, it in WORDS.items() if it.part}),
        f"_lokwurmi_own=({' '.join(OWN_BY_NAME)})\n",
    )
    return "# shellcheck shell=bash\n" + "".join(arrays) + RULES.read_text(encoding="utf-8")
