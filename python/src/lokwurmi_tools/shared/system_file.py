"""Reads a system file. One that the program refuses ends the command as the program would, with what `lokwurmi` says of
it."""
import sys
import tomllib
from collections.abc import Sequence
from typing import NoReturn

from lokwurmi.files.documents import Document
from lokwurmi.files.text_files import File, decoded
from lokwurmi.model.statuses import Status
from lokwurmi.model.view import SystemView
from lokwurmi.refusals.front import Call, is_regular, look_for
from lokwurmi.refusals.remark import printable
from lokwurmi.refusals.rules import first_refusal
from lokwurmi.refusals.sentences import notices_of
from lokwurmi.refusals.silence import AskedChain, sentences_on
from lokwurmi.refusals.toml_faults import fault_in
from lokwurmi.results.verdicts import CLOCK_WORDS
from lokwurmi_tools.shared.faults import Fault, Told
from lokwurmi_tools.shared.program import LAUNCHER, call, is_built


def read_system(name: str) -> SystemView:
    """What stands in a system file."""
    try:
        with open(name, "rb") as it:
            data = it.read()
    except OSError:
        end(Status.FILE_UNREAD, f"cannot read {name}", name)
    file = File(name, decoded(data).replace("\r\n", "\n"))
    remark = fault_in(file)
    document = None if remark else Document(file.text)
    found = document and first_refusal(document)
    if remark or found:
        status, line = asked(name) or (
            (Status.SYSTEM_REFUSED, found.line) if found else (Status.NOT_TOML, f"not TOML {name}")
        )
        if status >= Status.FILE_UNREAD:
            here = remark if status == Status.NOT_TOML else found.remark if found and found.line == line else None
            end(status, line, name, look_for(sys.stderr).text(file, here) if here else None)
    if document is None:
        why = remark.says if remark else "it isn't TOML"
        raise Fault(f"{printable(name)}: the program accepts it, but it can't be read here: {why}")
    return SystemView.of(document.values)


def noticed_in(name: str) -> list[str]:
    """The notices on a system file that is accepted, and what its bounds presume where they use clocks, a sentence
    each."""
    with open(name, "rb") as it:
        text = decoded(it.read()).replace("\r\n", "\n")
    return [*notices_of(text), *clock_words_on(text)]


def clock_words_on(text: str) -> list[str]:
    """What bounds presume of a system file that is accepted, where they use clocks."""
    if "clock" not in text:
        return []
    try:
        return clock_words_of(SystemView.of(Document(text).values))
    except (tomllib.TOMLDecodeError, RecursionError):
        return []


def clock_words_of(view: SystemView) -> list[str]:
    """What bounds of a system presume, where they use clocks."""
    return [CLOCK_WORDS] if view.clocks_in_bounds else []


def silences_in(name: str, chains: Sequence[AskedChain], while_running: bool = False) -> list[str]:
    """Which bounds of chains of a system file that is accepted are open, since a task waits for a sporadic source, a
    sentence each."""
    with open(name, "rb") as it:
        return sentences_on(decoded(it.read()).replace("\r\n", "\n"), chains, while_running)


def asked(name: str) -> tuple[int, str] | None:
    """What the program says of a file that seems to be refused, where it is built."""
    if not is_regular(name) or not is_built():
        return None
    status, text = call(LAUNCHER, "analyse", name)
    return status, text.split("\n", 1)[0]


def end(status: int, line: str, name: str, told: str | None = None) -> NoReturn:
    """Says what there is to say of a refused file, and ends."""
    sys.stderr.write(told or told_of(status, line, "analyse", name) or f"{printable(line)}\n")
    raise Told(status)


def told_of(status: int, line: str, command: str, *words: str) -> str | None:
    """What to say of a call that was refused, by the program's line."""
    return Call(status, line, command, words, look_for(sys.stderr)).told()
