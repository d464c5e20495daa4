"""Reads TOML documents: system files, and files of chains.

The program reads TOML 1.1, and Python's tomllib reads TOML 1.0: what is new in TOML 1.1 is read here too. Nothing is
judged here. A document has its values, of whatever form they are, and where each key and each value stands.
"""
import tomllib
from collections.abc import Mapping, Sequence
from functools import cached_property
from typing import Any

from lokwurmi.files.toml_1_1 import older
from lokwurmi.files.toml_spans import Place, Span, places_in
from lokwurmi.model.formats import FORMATS, WITH_LISTS
from lokwurmi.model.limits import NEWEST

PARTS = ("resource", "source", "task", "path")
"""The lists of a system file."""
Table = dict[str, Any]
"""A table of a document, as an entry of a system file, of whatever form its values are."""


def activators(task: Mapping[str, Any]) -> list[str]:
    """The names of a task's activators."""
    after: str | list[str] = task["after"]
    return [after] if isinstance(after, str) else after


def values_in(text: str) -> dict[str, Any]:
    """The values of a document; one that isn't TOML raises tomllib.TOMLDecodeError.

    >>> values_in("it = { a = 1, }")
    {'it': {'a': 1}}
    """
    try:
        return tomllib.loads(text)
    except tomllib.TOMLDecodeError:
        return tomllib.loads(older(text))


class Document:
    """The values of a document, and where they stand in its text. The entries of a part are there where it is an array.

    >>> document = Document('format = 1\\n[[task]]\\nname = "a"\\n')
    >>> document.entries["task"], document.text_of(document.value_span("task", 0, "name"))
    ([{'name': 'a'}], '"a"')
    """

    def __init__(self, text: str, parts: Sequence[str] = PARTS) -> None:
        # the mark that some editors put first is no part of it
        self.text = text.removeprefix("\ufeff")
        self.values = values_in(self.text)
        self.entries: dict[str, list[Any]] = {
            part: self.values[part] if isinstance(self.values.get(part), list) else [] for part in parts
        }

    @property
    def form(self) -> int:
        """Its format; the newest where it tells none that is known."""
        found = self.values.get("format")
        return found if type(found) is int and found in FORMATS else NEWEST

    @property
    def has_lists(self) -> bool:
        """Whether its format has lists of activators."""
        return self.values.get("format") in FORMATS and self.form >= WITH_LISTS

    @cached_property
    def root(self) -> Place:
        """Where the keys and values at the top stand."""
        return places_in(older(self.text))

    def text_of(self, span: Span) -> str:
        return self.text[span[0] : span[1]]

    def place(self, part: str, at: int) -> Place:
        """The place of an entry, which counts from 0."""
        return self.root.values[part].items[at]

    def key_span(self, part: str, at: int, key: str) -> Span:
        return self.place(part, at).keys[key]

    def value_span(self, part: str, at: int, key: str) -> Span:
        return self.place(part, at).values[key].span

    def item_span(self, part: str, at: int, key: str, item: int) -> Span:
        """Where one of the texts of a value stands, or the value where it is a text."""
        place = self.place(part, at).values[key]
        return place.items[item].span if place.is_array else place.span
