"""System files as texts: what a system writes, and the entries of what is read."""
import tomllib
from typing import Any

from lokwurmi.errors import LokwurmiError
from lokwurmi.files.documents import PARTS, Document
from lokwurmi.files.toml_text import entry_text
from lokwurmi.model.conversion import Converter
from lokwurmi.model.entries import KINDS, Entry
from lokwurmi.model.formats import least_format
from lokwurmi.model.limits import NEWEST
from lokwurmi.model.units import Time


def _ascii(text: str) -> str:
    return text.encode("ascii", "backslashreplace").decode()


def head_of(tick: Time, converter: Converter) -> str:
    """What a file says of its ticks, in comments."""
    head, told = f"# A tick is {tick}.\n", converter.told
    if told:
        head += f"# {converter.rounded_text()}\n"
        head += "".join(f"#   {_ascii(str(it))}\n" for it in told)
    if more := converter.more_text():
        head += f"# {_ascii(more)}\n"
    if converter.has_units and (bare := converter.bare_text()):
        head += f"# {_ascii(bare)}\n"
    return head


def system_text(values: dict[str, list[dict[str, Any]]], least: int) -> str:
    """The file of a system's entries in ticks, in the least format that has all of them, and is no less than this."""
    lists = "".join(f"{part} = [\n{''.join(map(entry_text, rows))}]\n" for part, rows in values.items() if rows)
    return f"format = {max(least, least_format(values))}\n{lists}"


def entries_in(text: str, has_units: bool) -> tuple[dict[str, dict[str, Entry]], bool]:
    """The entries of a system file, by part and name, and whether its format is the newest. What no entry can be made
    of raises an error, in the words of the launcher; all else is the program's to judge. With units, a resource may
    have a bit rate."""
    from lokwurmi.files.text_files import File
    from lokwurmi.refusals.rules import first_misshapen
    from lokwurmi.refusals.sentences import placed

    try:
        document = Document(text.replace("\r\n", "\n"))
    except tomllib.TOMLDecodeError as fault:
        raise LokwurmiError(f"the text isn't TOML: {fault}") from fault
    if remark := first_misshapen(document, has_units):
        raise LokwurmiError(placed(File("", document.text), remark))
    entries = {part: {it["name"]: KINDS[part](**it) for it in document.entries[part]} for part in PARTS}
    return entries, document.values.get("format") == NEWEST
