"""Writes a system as the text of a file, for the tools beside it."""
from collections.abc import Mapping
from typing import Any

from lokwurmi.files.toml_text import value_text


def toml_of(values: Mapping[str, Any]) -> str:
    """The file of a system, of the values that stand in it."""
    lines = [f"format = {values['format']}"]
    for part in ("resource", "source", "task", "path"):
        for it in values.get(part, []):
            lines += [f"[[{part}]]", *(f"{key} = {value_text(value)}" for key, value in it.items())]
    return "\n".join(lines) + "\n"
