"""Entries of a system file as TOML."""
import json
import operator
import re
from collections.abc import Mapping
from typing import Any

from lokwurmi.errors import LokwurmiError, WrongType

# a text that needs no escapes, as each name that is accepted
_is_plain = re.compile(r"[A-Za-z0-9_.-]*").fullmatch


def _number_text(it: int) -> str:
    """A whole number, which TOML has of 64 bits."""
    if not -(2**63) <= it < 2**63:
        raise LokwurmiError(f"a number of {it.bit_length()} bits is no value of a system file, which has 64 at most")
    return str(it)


def value_text(it: Any) -> str:
    """A value as TOML."""
    if isinstance(it, str):
        if any("\ud800" <= letter <= "\udfff" for letter in it):
            raise WrongType(f"{it!r} has half of a pair of UTF-16, and is no text")
        # what JSON writes is a text of TOML, but for DEL
        return f'"{it}"' if _is_plain(it) else json.dumps(it).replace("\x7f", "\\u007F")
    if isinstance(it, bool):
        return "true" if it else "false"
    if isinstance(it, int):
        return _number_text(int(it))
    if isinstance(it, (list, tuple)):
        return "[" + ", ".join(map(value_text, it)) + "]"
    if isinstance(it, Mapping):
        return table_text(it)
    if isinstance(it, float):
        return repr(it)
    try:
        # a whole number of another library, as numpy.int64
        return _number_text(operator.index(it))
    except TypeError as fault:
        says = f"{it!r} is no value of a system file: write a whole number, a text, or a list of these"
        raise WrongType(says) from fault


def table_text(entry: Mapping[str, Any]) -> str:
    """A table on one line."""
    return "{ " + ", ".join([f"{key} = {value_text(value)}" for key, value in entry.items()]) + " }"


def entry_text(entry: Mapping[str, Any]) -> str:
    """An entry, on a line of its own."""
    try:
        return f"  {table_text(entry)},\n"
    except LokwurmiError as fault:
        fault.args = (f"{entry.get('name')!r}: {fault}",)
        raise
