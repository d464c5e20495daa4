"""The words of a call that stand for something, without its options, where the program accepts them by their form."""
from __future__ import annotations

import os
import sys
from typing import NamedTuple

from lokwurmi_tools.launcher.table import MORE_TASKS, MOST_TASKS, RUNNING, WORDS, WORKERS, Command


class Operands(NamedTuple):
    """The words after a command but for its option, each with what it stands for."""

    sorts: list[str]
    words: list[str]

    @property
    def files(self) -> list[str]:
        return [word for sort, word in zip(self.sorts, self.words) if WORDS[sort].is_file]


def shown(word: str) -> str:
    """A word in quotes, with nothing that a terminal would obey."""
    return (
        "'"
        + "".join(it if it.isprintable() else ascii(it)[1:-1].replace("\\udc", "\\x") for it in word).replace(
            "'", "\\'"
        )
        + "'"
    )


def without_flag(words: list[str]) -> list[str]:
    """The words of `chain` without the flag, which stands first or last."""
    if words[:1] == [RUNNING]:
        return words[1:]
    return words[:-1] if words[-1:] == [RUNNING] else words


def without_workers(words: list[str]) -> list[str] | None:
    """The words without --workers and its number, or None where these aren't as the program takes them."""
    left: list[str] = []
    number = None
    rest = list(words)
    while rest:
        it = rest.pop(0)
        if number is None and (it.startswith(f"{WORKERS}=") or it == WORKERS and rest):
            number = rest.pop(0) if it == WORKERS else it.partition("=")[2]
            if not number or number.startswith("-"):
                return None
        else:
            left.append(it)
    return left


def operands_of(command: Command, words: list[str]) -> Operands | None:
    """The operands, or None where the program refuses the words whatever the numbers and files are.

    That is the definition `is_regular` of crates/cpa_words/specs/Words.antt.
    """
    sorts = list(command.words)
    left: list[str] | None = words
    if command.option == RUNNING:
        left = without_flag(words)
    elif command.option == WORKERS:
        left = without_workers(words)
    if left is None:
        return None
    if sorts[-1] == MORE_TASKS:
        if not 2 <= len(left) <= MOST_TASKS + 1:
            return None
        sorts = ["FILE", *["TASK"] * (len(left) - 1)]
    if len(left) != len(sorts) or any(not it or it.startswith("-") for it in left):
        return None
    return Operands(sorts, left)


def note_missing(operands: Operands) -> None:
    """Says which files can't be read, before what takes long."""
    for it in operands.files:
        if not os.access(it, os.R_OK) or os.path.isdir(it):
            print(
                f"lokwurmi: note: {shown(it)} can't be read, and has to be there once the program is built",
                file=sys.stderr,
            )
