"""Why a file of chains is refused, in words: the first reason that applies, with the place that the program tells,
found by the same rules in the same order (docs/FILES.md, "Chains with deadlines")."""
from __future__ import annotations

import tomllib
from collections.abc import Callable, Iterator, Sequence
from dataclasses import replace

from lokwurmi.files.documents import Document
from lokwurmi.files.system_keys import by_word, is_integer, is_name, is_texts
from lokwurmi.files.text_files import File
from lokwurmi.model.limits import CHAIN_KEYS, MOST_CHAINS, MOST_IN_CHAIN, MOST_IN_NAME, MOST_TICKS, TIMES
from lokwurmi.refusals.remark import Note, Remark, listed, mean, nearest, printable
from lokwurmi.refusals.spots import Spot, spots_in

MORE = "Chains with deadlines"
TOP_KEYS = ("format", "chain")
DEADLINES = tuple(TIMES["chain"])
OTHER_KEYS = by_word(
    {
        "tasks": "path chain",
        "reaction": "deadline latency reactiontime max_reaction",
        "age": "dataage data_age max_age",
        "name": "label id",
    }
)
"""What others call a key of a chain."""
TYPES: dict[str, tuple[str, Callable[[object], bool]]] = {
    "name": ("a text", lambda it: isinstance(it, str)),
    "tasks": ("an array of texts", is_texts),
    **{it: ("a whole number", is_integer) for it in DEADLINES},
}
MISSING = {"name": 'write name = "brake"', "tasks": 'write tasks = ["first", "second"], in the order of the data'}

Found = Iterator[tuple[Spot, Remark]]


def fault_in(file: File, tasks: Sequence[str]) -> tuple[str, Remark] | None:
    """The end of the program's line for a file of chains over these tasks, and what to say; None where there is no
    fault."""
    try:
        chains = Document(file.text, ("chain",))
    except (UnicodeError, tomllib.TOMLDecodeError, RecursionError):
        return None
    if found := of_top(chains):
        return f"reason {found[0]} file 0", replace(found[1], more=MORE)
    rules = {1: of_form, 2: of_range, 3: of_name, 4: of_twice, 5: of_nothing, 11: of_count, 12: of_many}
    for reason, rule in rules.items():
        for spot, remark in rule(chains, tasks):
            return f"reason {reason} {spot.placed}", replace(remark, more=MORE)
    return None


def of_top(chains: Document) -> tuple[int, Remark] | None:
    values, root = chains.values, chains.root
    form = values.get("format")
    if is_integer(form) and form != 1:
        return 13, Remark(f"the format is {form}, and has to be 1", root.values["format"].span)
    for key in values:
        if key not in TOP_KEYS:
            says = f"the key `{printable(key)}` isn't known{mean(key, TOP_KEYS, '`')}"
            helps = "at the top stand format = 1 and chain, each as [[chain]] or in one array"
            return 1, Remark(says, root.keys[key], helps)
    if "format" not in values:
        return 1, Remark("the key `format` is missing at the top of the file", None, "write format = 1")
    if not is_integer(form):
        return 1, Remark("`format` has to be the number 1", root.values["format"].span, "format = 1")
    if not isinstance(values.get("chain", []), list):
        helps = 'write [[chain]] with two brackets, or chain = [{ name = "..", tasks = ["..", ".."] }]'
        return 1, Remark("`chain` has to be an array of tables", root.keys["chain"], helps)
    return None


def of_form(chains: Document, _: Sequence[str]) -> Found:
    for spot in spots_in(chains):
        if not isinstance(spot.entry, dict):
            yield spot, Remark(f"{spot.placed} is no table", spot.span, '{ name = "..", tasks = [..] }')
            continue
        for key, value in spot.entry.items():
            if key not in CHAIN_KEYS:
                near = OTHER_KEYS.get(key.lower().replace("-", "_")) or nearest(key, CHAIN_KEYS)
                guess = f"; did you mean `{near}`?" if near else ""
                helps = f"the keys of a chain are {listed(CHAIN_KEYS)}"
                yield spot, spot.remark(f"the key `{printable(key)}` isn't known{guess}", spot.key(key), helps)
            elif not TYPES[key][1](value):
                helps = "write ticks alone, without quotes, unit or point" if key in DEADLINES else ""
                yield spot, spot.remark(f"`{key}` has to be {TYPES[key][0]}", spot.value(key), helps)
        for key, helps in MISSING.items():
            if key not in spot.entry:
                yield spot, spot.remark(f"the key `{key}` is missing", spot.span, helps)


def of_range(chains: Document, _: Sequence[str]) -> Found:
    for spot in spots_in(chains):
        for key in DEADLINES:
            if key in spot.entry and not 1 <= spot.entry[key] <= MOST_TICKS:
                where = "below 1" if spot.entry[key] < 1 else f"above {MOST_TICKS}"
                says = f"`{key}` is {spot.entry[key]}, {where}"
                yield spot, spot.remark(says, spot.value(key), f"`{key}` is 1 to {MOST_TICKS} ticks")


def of_name(chains: Document, _: Sequence[str]) -> Found:
    helps = f"a name has 1 to {MOST_IN_NAME} of the letters A to Z and a to z, digits, _, - and ."
    for spot in spots_in(chains):
        if not is_name(spot.entry["name"]):
            yield spot, Remark(f"{spot.placed} of the file: its name hasn't the form of one", spot.value("name"), helps)


def of_twice(chains: Document, _: Sequence[str]) -> Found:
    seen: dict[str, Spot] = {}
    for spot in spots_in(chains):
        if (first := seen.setdefault(spot.entry["name"], spot)) is not spot:
            notes = [Note(f"{first.placed} has it already", first.value("name"))]
            says = f'{spot.placed} of the file: the name "{spot.entry["name"]}" is taken'
            yield spot, Remark(says, spot.value("name"), "give one of them another name", notes)


def of_nothing(chains: Document, tasks: Sequence[str]) -> Found:
    known = set(tasks)
    for spot in spots_in(chains):
        for item, name in enumerate(spot.entry["tasks"]):
            if name not in known:
                says = f'no task is called "{printable(name)}"{mean(name, tasks)}'
                begins = "a chain has tasks alone, and begins behind the source"
                yield spot, spot.remark(
                    says, spot.item("tasks", item), f"the tasks of the system are {some_of(tasks)}; {begins}"
                )


def of_count(chains: Document, _: Sequence[str]) -> Found:
    for spot in spots_in(chains):
        count = len(spot.entry["tasks"])
        if not 1 <= count <= MOST_IN_CHAIN:
            says = f"{spot.called} has {count or 'no'} tasks"
            yield spot, Remark(says, spot.value("tasks"), f"a chain has 1 to {MOST_IN_CHAIN} tasks")


def of_many(chains: Document, _: Sequence[str]) -> Found:
    count = len(chains.entries["chain"])
    if count > MOST_CHAINS:
        spot = Spot(chains, "chain", MOST_CHAINS)
        says = f"there are {count} chains, and a file has at most {MOST_CHAINS}"
        yield spot, Remark(says, spot.span, "cut the file into several")


def some_of(names: Sequence[str]) -> str:
    """The first of some names."""
    return f"{listed([printable(it) for it in names[:8]])}{' and more' if len(names) > 8 else ''}"
