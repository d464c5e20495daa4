"""An entry of a document of which something is said: how it is called, and where it and its keys stand."""
from __future__ import annotations

from collections.abc import Iterator, Sequence
from dataclasses import dataclass

from lokwurmi.files.documents import Document, Table
from lokwurmi.files.toml_spans import Span
from lokwurmi.refusals.remark import Note, Remark, printable


@dataclass(frozen=True)
class Spot:
    """An entry, by its list and its place in it, from 0."""

    document: Document
    part: str
    at: int

    @property
    def entry(self) -> Table:
        """What it has, of whatever form."""
        found: Table = self.document.entries[self.part][self.at]
        return found

    @property
    def placed(self) -> str:
        """Its list and its place, from 1."""
        return f"{self.part} {self.at + 1}"

    @property
    def called(self) -> str:
        """The entry in words: by its name where it has one, else by its place."""
        name = self.entry.get("name") if isinstance(self.entry, dict) else None
        is_named = isinstance(name, str) and name
        return f'{self.part} "{printable(str(name))}"' if is_named else f"{self.placed} of the file"

    @property
    def span(self) -> Span:
        """Where it stands; a section by its heading."""
        return self.document.place(self.part, self.at).span

    def key(self, key: str) -> Span:
        """Where a key of it stands."""
        return self.document.key_span(self.part, self.at, key)

    def value(self, key: str) -> Span:
        """Where the value of a key stands."""
        return self.document.value_span(self.part, self.at, key)

    def item(self, key: str, item: int) -> Span:
        """Where one of the texts of a value stands, or the value where it is a text."""
        return self.document.item_span(self.part, self.at, key, item)

    def remark(self, says: str, span: Span, helps: str = "", notes: Sequence[Note] = ()) -> Remark:
        """What is wrong with it."""
        return Remark(f"{self.called}: {says}", span, helps, notes)


def spots_in(document: Document, *parts: str) -> Iterator[Spot]:
    """The entries of some lists, or of all."""
    for part in parts or document.entries:
        for at in range(len(document.entries[part])):
            yield Spot(document, part, at)
