"""Rows of comma-separated values, each with its number and the place where it begins, for traces and schedules."""
from __future__ import annotations

import csv
import io
from collections.abc import Iterator, Sequence
from dataclasses import dataclass

from lokwurmi.files.text_files import File
from lokwurmi.files.toml_spans import Span
from lokwurmi.refusals.remark import Note, Remark

Fault = tuple[str, Remark]
"""What the program's line says of a row, which is a key of ROW_FAULTS, and what to say."""


@dataclass(frozen=True, slots=True)
class Row:
    """A row of a file: its number, from 1, its fields, and the line on which it begins."""

    file: File
    number: int
    fields: list[str]
    line: int

    @property
    def span(self) -> Span:
        return self.file.span_of_line(self.line)

    def field(self, at: int) -> Span:
        """Where a field stands; the whole row where its text can't be found as it is."""
        start, end = self.span
        line = self.file.text[start:end]
        if '"' in line or len(line.split(",")) != len(self.fields):
            return start, end
        place = start + sum(len(it) + 1 for it in self.fields[:at])
        return place, max(place + 1, place + len(self.fields[at]))

    def remark(self, says: str, helps: str, at: int | None = None, notes: Sequence[Note] = ()) -> Remark:
        """What is wrong with a field of it, or with all of it."""
        return Remark(f"row {self.number}: {says}", self.span if at is None else self.field(at), helps, notes)

    def wrong_count(self, helps: str) -> Fault:
        count = len(self.fields)
        says = f"row {self.number} has {count} field{'s' if count > 1 else ''}, and wants 3"
        return "malformed", Remark(says, self.span, helps)

    def heading(self, what: str, form: str) -> Fault:
        says = f"row 1 looks like a heading, and a {what} has none"
        return "malformed", Remark(says, self.span, "leave it out: " + form)


def rows_in(file: File) -> Iterator[Row]:
    """The rows without empty lines."""
    csv.field_size_limit(1 << 30)
    reader, number, last = csv.reader(io.StringIO(file.text, newline="")), 0, 0
    for fields in reader:
        line, last = last + 1, reader.line_num
        if fields:
            number += 1
            yield Row(file, number, fields, line)


def is_number(word: str) -> bool:
    return word.isascii() and word.isdigit() and len(word) <= 10


def no_number(word: str) -> str:
    """Why a word is no number."""
    if not word:
        return "the number is missing"
    if word.strip() != word:
        return f"a blank stands beside the number in `{word}`"
    if word.startswith(("-", "+")):
        return f"`{word}` has a sign"
    return f"`{word}` isn't 1 to 10 digits"
