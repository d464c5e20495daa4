"""Files of chains: read, and written with their deadlines in ticks."""
import tomllib
from collections.abc import Collection, Iterable
from typing import Any

from lokwurmi.errors import LokwurmiError, NoTick
from lokwurmi.files.documents import Document
from lokwurmi.files.toml_text import entry_text
from lokwurmi.model.conversion import Converter, Rounding
from lokwurmi.model.entries import Chain
from lokwurmi.model.limits import CHAIN_KEYS, TIMES
from lokwurmi.model.units import Time

OFF = "a tick off for each wait that a bound counts"
"""What a comment of a file of chains says whose deadlines have less, by `lokwurmi ticks`."""


def has_ticks_off(text: str) -> bool:
    """Whether the deadlines of a file of chains have a tick less for each wait already."""
    return any(line.startswith("#") and OFF in line for line in text.splitlines())


def in_ticks(chain: Chain, tick: Time | None) -> tuple[dict[str, Any], list[Rounding]]:
    """The keys of a chain in a file, and what was rounded of its deadlines."""
    entry = {key: value for key in CHAIN_KEYS if (value := getattr(chain, key)) is not None}
    if not any(isinstance(entry.get(key), (str, Time)) for key in TIMES["chain"]):
        return entry, []
    if tick is None:
        raise NoTick(f"chain {chain.name!r} has a deadline with a unit")
    converter = Converter(tick.nanoseconds)
    converter.set_times("chain", entry)
    return entry, converter.told


def chains_in(text: str, tasks: Collection[str]) -> list[Chain]:
    """The chains of a file, in order, of a system that has such tasks; an error says what is wrong with it, in the
    words of the launcher."""
    from lokwurmi.files.text_files import File
    from lokwurmi.refusals.chains import fault_in
    from lokwurmi.refusals.sentences import placed

    file = File("", text)
    try:
        entries = Document(text, ("chain",)).values.get("chain", [])
    except tomllib.TOMLDecodeError as fault:
        raise LokwurmiError(f"it isn't TOML: {fault}") from None
    if found := fault_in(file, list(tasks)):
        raise LokwurmiError(placed(file, found[1]))
    return [Chain(it["name"], it["tasks"], it.get("reaction"), it.get("age"), it.get("held")) for it in entries]


def written(chains: Iterable[Chain], tick: Time | None = None) -> tuple[str, list[Rounding]]:
    """The file of chains, and what was rounded of their deadlines."""
    rows, told = "", []
    for it in chains:
        entry, rounded = in_ticks(it, tick)
        rows += entry_text(entry)
        told += rounded
    return f"format = 1\nchain = [\n{rows}]\n" if rows else "format = 1\n", told
