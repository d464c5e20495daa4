"""Entries and comments of a system file, for the tools that write one."""
import os
import sys
import textwrap
from collections.abc import Iterable
from typing import Any

from lokwurmi.files.toml_text import value_text
from lokwurmi.files.whole_files import write_whole
from lokwurmi_tools.shared.faults import Fault

# how long a line of a comment may be
WIDTH = 118


def with_values(keys: dict[str, Any]) -> dict[str, Any]:
    """The keys that have a value."""
    return {key: value for key, value in keys.items() if value is not None}


def entry(keys: dict[str, Any]) -> str:
    """An entry on a line, of the keys that have a value."""
    return "{ " + ", ".join(f"{key} = {value_text(value)}" for key, value in with_values(keys).items()) + " }"


def printable(line: str) -> str:
    """A line whose control characters are blanks."""
    return "".join(it if it.isprintable() else " " for it in line)


def comment(line: str) -> str:
    """A line as a comment, with what isn't ASCII written out."""
    return ("# " + printable(line).encode("ascii", "backslashreplace").decode()).rstrip()


def comments(line: str) -> list[str]:
    """A line that may be long as comments, which keep its indent."""
    indent = " " * (len(line) - len(line.lstrip()))
    parts = textwrap.wrap(
        line.lstrip(),
        WIDTH,
        initial_indent=indent,
        subsequent_indent="    ",
        break_long_words=False,
        break_on_hyphens=False,
    )
    return [comment(it) for it in parts]


def check_folders(*files: str | None) -> None:
    """Ends the command before it searches where the folder of a file that it is to write isn't there."""
    for it in files:
        if it and not os.path.isdir(os.path.dirname(it) or "."):
            raise Fault(f"{it}: can't be written: there is no folder {os.path.dirname(it)}; make it first")


def put(text: str, file: str | None) -> None:
    """Writes the text into the file, or to the standard output where none is named; ends the tool where it can't be
    written."""
    if file is None:
        sys.stdout.write(text)
        return
    try:
        write_whole(file, text.encode("utf-8"))
    except BrokenPipeError:
        # the file is a pipe, whose reader has enough of it
        raise
    except OSError as fault:
        raise Fault(f"{file}: can't be written: {fault.strerror}")


def put_and_tell(text: str, file: str | None, told: Iterable[str]) -> None:
    """Writes the text, and lines on the standard error: behind a file, which is whole though nobody may read them;
    before the standard output, which may be the same terminal."""
    if file is not None:
        put(text, file)
    for line in told:
        print(printable(line), file=sys.stderr)
    if file is None:
        put(text, file)
