"""Notices on effect chains that wait for a sporadic source, by name and line: which of their bounds that leaves
open."""
from __future__ import annotations

import tomllib
from collections.abc import Iterable, Iterator, Sequence
from itertools import pairwise
from typing import NamedTuple

from lokwurmi.files.documents import Document
from lokwurmi.files.text_files import File
from lokwurmi.model.entries import Chain
from lokwurmi.model.limits import Kind
from lokwurmi.model.view import SystemView
from lokwurmi.refusals.remark import Note, Remark, listed
from lokwurmi.refusals.rules import first_refusal
from lokwurmi.refusals.spots import spots_in
from lokwurmi.results.effect_chains import kinds_of, waits_of

MOST, MOST_NAMED = 5, 4
MORE = "Effect chains"
ASKED = ("reaction", "age", "held")
HELP = (
    "without the key the source never falls silent: any two of its events are at most as far apart as its period and"
    " jitter say"
)


class AskedChain(NamedTuple):
    """A chain by its name, which may be empty, its tasks, and the bounds that are told of it."""

    name: str
    tasks: Sequence[str]
    asked: Sequence[str] = ASKED


class Silence(NamedTuple):
    """A wait that nothing bounds: the sporadic source, the task that waits, and the bounds that count the wait, by the
    names of their chains."""

    source: str
    task: str
    bounds: dict[str, tuple[str, ...]]


def asked_of(chains: Iterable[Chain]) -> list[AskedChain]:
    """What `chains` tells of each chain: what is held only where it has a deadline."""
    return [AskedChain(it.name, it.tasks, ASKED if it.held is not None else ASKED[:2]) for it in chains]


def asked_in(text: str) -> list[AskedChain]:
    """The same of a file of chains that is accepted."""
    return asked_of(Chain(**it) for it in Document(text, ("chain",)).entries["chain"])


def is_above(view: SystemView, before: str, name: str) -> bool:
    """Whether a task that reads only while it runs can't read while the one before is pending."""
    writer, reader = view.tasks[before], view.tasks[name]
    is_same = writer.on == reader.on and view.kind(name) == Kind.PREEMPTIVE
    return is_same and reader.region == 1 and writer.rank < reader.rank


def kinds_in(view: SystemView, tasks: Sequence[str], while_running: bool = False) -> list[str]:
    """The kinds of a chain's steps."""
    kinds = kinds_of(tasks, {name: list(view.tasks[name].after) for name in tasks})
    for place, (before, name) in enumerate(pairwise(tasks), 1):
        if while_running and kinds[place] == "register" and is_above(view, before, name):
            after = view.tasks[name].after
            is_one = after == view.tasks[before].after and len(after) == 1 and after[0] in view.sources
            kinds[place] = "same-source" if is_one else "above"
    return kinds


def silences_in(view: SystemView, chains: Sequence[AskedChain], while_running: bool = False) -> list[Silence]:
    """The waits of some chains that nothing bounds, in the order of the chains."""
    found: dict[tuple[str, str], Silence] = {}
    for chain in chains:
        counted = waits_of(kinds_in(view, chain.tasks, while_running))
        for name in dict.fromkeys(chain.tasks):
            places = [place for place, it in enumerate(chain.tasks) if it == name]
            bounds = tuple(what for what in chain.asked if any(place in counted[what] for place in places))
            for source in view.sporadic_sources_of(name) if bounds else ():
                known = found.setdefault((source, name), Silence(source, name, {}))
                known.bounds[chain.name] = bounds
    return list(found.values())


def open_bounds(bounds: dict[str, tuple[str, ...]]) -> str:
    """Which bounds of which chains there aren't."""
    by_bounds: dict[tuple[str, ...], list[str]] = {}
    for chain, several in bounds.items():
        by_bounds.setdefault(several, []).append(chain)
    parts = []
    for several, names in by_bounds.items():
        rest = [f"{len(names) - MOST_NAMED} more"] if len(names) > MOST_NAMED else []
        which = listed([*names[:MOST_NAMED], *rest])
        parts.append(listed(several) + (f" of chain{'s' if len(names) > 1 else ''} {which}" if names[0] else ""))
    is_one = len(by_bounds) == 1 and all(len(it) == 1 for it in by_bounds) and len(bounds) == 1
    return f"{', and '.join(parts)} {'is' if is_one else 'are'}n't bounded"


def says_of(it: Silence, source: str = "", task: str = "") -> str:
    """A wait that nothing bounds, in words; behind the names may stand where they are."""
    waits = f"nothing bounds how long `{it.task}`{task} waits for it"
    return f"source {it.source}{source} is sporadic: {waits}, so {open_bounds(it.bounds)}"


def remarks_on(document: Document, chains: Sequence[AskedChain], while_running: bool = False) -> Iterator[Remark]:
    """Notices on the chains of a system that is accepted."""
    if not any(it.get("sporadic") for it in document.entries["source"]):
        return
    spots = {it.entry["name"]: it for part in ("source", "task") for it in spots_in(document, part)}
    found = silences_in(SystemView.of(document.values), chains, while_running)
    for place, it in enumerate(found[:MOST], 1):
        left = len(found) - MOST
        more = f"; {left} more wait{'s' if left > 1 else ''} like this" if place == MOST and left > 0 else ""
        notes = [Note(f"`{it.task}` waits for it", spots[it.task].value("name"))]
        yield Remark(says_of(it), spots[it.source].value("sporadic"), HELP + more, notes, MORE, is_notice=True)


def sentences_on(text: str, chains: Sequence[AskedChain], while_running: bool = False) -> list[str]:
    """The same without the lines of the file, a sentence each, with their numbers."""
    try:
        document = Document(text)
    except (tomllib.TOMLDecodeError, RecursionError):
        return []
    if not any(it.get("sporadic") for it in document.entries["source"]) or first_refusal(document):
        return []
    file = File("", document.text)
    spots = {it.entry["name"]: it for part in ("source", "task") for it in spots_in(document, part)}

    def line(name: str) -> str:
        return f" (line {file.place(spots[name].value('name')[0])[0]})"

    found = silences_in(SystemView.of(document.values), chains, while_running)
    return [says_of(it, line(it.source), line(it.task)) for it in found]
