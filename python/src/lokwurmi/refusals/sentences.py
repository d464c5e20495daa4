"""What is said of a system or a refusal in words: the sentences of the launcher, in texts and without a terminal.

The sentences are those of `lokwurmi.refusals`, which is loaded at the first refusal, or where a system deserves a
notice.
"""
import tomllib
from collections.abc import Mapping, Sequence
from typing import TYPE_CHECKING, Any

from lokwurmi.model.limits import MOST_SHORT

if TYPE_CHECKING:
    from lokwurmi.files.text_files import File
    from lokwurmi.refusals.remark import Remark


def sentence(remark: "Remark") -> str:
    """A remark as one sentence: what is wrong, and what helps."""
    return f"{remark.says}: {remark.helps}" if remark.helps else remark.says


def placed(file: "File", remark: "Remark") -> str:
    """The same, behind the line where it is wrong."""
    line = f"line {file.place(remark.span[0])[0]}: " if remark.span else ""
    return line + sentence(remark)


def may_deserve_notice(parts: Mapping[str, Mapping[str, Any]]) -> bool:
    """A cheap look at the entries of a system, which have to be read as a file where it answers True."""
    used: set[str] = set()
    for it in parts["task"].values():
        used |= {it.after} if isinstance(it.after, str) else set(it.after)
    if set(parts["source"]) - used or any(it.clock is not None for it in parts["source"].values()):
        return True
    buses = {it.name for it in parts["resource"].values() if it.kind == "can"}
    return any(
        it.on in buses and isinstance(it.priority, int) and it.priority > MOST_SHORT for it in parts["task"].values()
    )


def notices_of(text: str) -> list[str]:
    """The notices on a system file that is accepted."""
    from lokwurmi.files.documents import Document
    from lokwurmi.refusals import notices
    from lokwurmi.refusals.rules import first_refusal

    try:
        document = Document(text)
    except (tomllib.TOMLDecodeError, RecursionError):
        return []
    return [] if first_refusal(document) else [sentence(it) for it in notices.of_system(document)]


def notices_of_answer(command: str, text: str, name: str, is_found: bool) -> list[str]:
    """The notices on what `assign` or `slack` has answered of a system file: which deadlines it counted."""
    from lokwurmi.files.documents import Document
    from lokwurmi.refusals import notices

    document = Document(text)
    found = notices.without_deadlines(document)
    if command == "assign":
        found = notices.of_assign(document, name, is_found)
    return [sentence(it) for it in found]


def edit_words(edit: str, rule: int, system: str) -> str:
    """Why an edit of a system breaks a rule, and what helps; nothing where that isn't found here."""
    from lokwurmi.files.documents import Document
    from lokwurmi.files.text_files import File
    from lokwurmi.refusals import edits

    found = edits.refused_edits(Document(system), File("the edit", edit))[1]
    why = next((it for it in found if it.rule == rule), None)
    return f"{why.why}: {why.remark.helps}" if why else ""


def notices_of_script(script: str, refused: Sequence[tuple[int, int]], system: str) -> list[str]:
    """The notices on the edits of a script that were refused, each by its line and its rule."""
    from lokwurmi.files.documents import Document
    from lokwurmi.files.text_files import File
    from lokwurmi.refusals import edits

    found = edits.refused_edits(Document(system), File("the script", script))[1]
    told = {(it.line, it.rule): sentence(it.remark) for it in found}
    plain = "an edit was refused by rule {}"
    return [f"line {line}: {told.get((line, rule), plain.format(rule))}" for line, rule in refused]


def _no_toml(file: "File") -> str:
    """Why a text isn't TOML, with the line."""
    from lokwurmi.files.text_files import File
    from lokwurmi.refusals.toml_faults import fault_in

    file = File(file.name, file.text.removeprefix("\ufeff").replace("\r\n", "\n"))
    remark = fault_in(file)
    return placed(file, remark) if remark else ""


def refusal_words(line: str, system: str, texts: Sequence[str] = (), words: Sequence[str | int] = ()) -> str:
    """What there is to say of a line by which the program refused a call over a system and other texts; nothing where
    it isn't found here."""
    from lokwurmi.files.documents import Document
    from lokwurmi.files.text_files import File
    from lokwurmi.refusals import chains, schedule, script
    from lokwurmi.refusals.remark import Remark
    from lokwurmi.refusals.rules import first_refusal
    from lokwurmi.refusals.trace import TraceOfSystem
    from lokwurmi.refusals.words import remark_on

    line = line.rstrip("\n")
    files = [File("the text", it) for it in texts]
    if line.startswith("script refused ") and files:
        return _on(script.fault_in(files[0]), line)
    if line.startswith("not TOML "):
        return _no_toml(files[0] if line == "not TOML chains" else File("", system))
    try:
        document = Document(system)
    except (tomllib.TOMLDecodeError, RecursionError):
        return ""
    remark: Remark | None = None
    if line.startswith("system refused "):
        found = first_refusal(document)
        remark = found.remark if found and found.line == line else None
    elif line.startswith("chains refused ") and files:
        return _on(chains.fault_in(files[0], [it["name"] for it in document.entries["task"]]), line)
    elif line.startswith("trace refused ") and files:
        return _on(TraceOfSystem(document, files[0]).fault, line)
    elif line.startswith("schedule refused ") and len(files) > 1:
        return _on(schedule.fault_in(document, files[1]), line)
    elif words:
        remark = remark_on(document, line, [str(it) for it in words])
    return sentence(remark) if remark else ""


def _on(fault: "tuple[str, Remark] | None", line: str) -> str:
    """The sentence of a fault, where the program found the same."""
    return sentence(fault[1]) if fault and line.endswith(f" refused {fault[0]}") else ""
