"""A file as a text, and where its lines begin."""
from __future__ import annotations

from bisect import bisect_right

from lokwurmi.files.toml_spans import Span


def decoded(data: bytes) -> str:
    """The text that bytes are, without the mark that some editors put first; bytes that are none stay recognisable."""
    return data.decode("utf-8", "surrogateescape").removeprefix("\ufeff")


def reason_of(fault: Exception) -> str:
    """Why a file can't be read, in words that don't name it again."""
    return getattr(fault, "strerror", None) or str(fault)


class File:
    """A file's name and text, and where its lines begin."""

    def __init__(self, name: str, text: str):
        self.name = name
        self.text = text
        self.starts = [0, *(at + 1 for at, it in enumerate(text) if it == "\n")]

    def place(self, at: int) -> tuple[int, int]:
        """The line and the column, from 1."""
        line = bisect_right(self.starts, at)
        return line, at - self.starts[line - 1] + 1

    def line(self, number: int) -> str:
        start = self.starts[number - 1]
        end = self.text.find("\n", start)
        return self.text[start : len(self.text) if end < 0 else end].rstrip("\r")

    def span_of_line(self, number: int) -> Span:
        start = self.starts[number - 1]
        return start, start + len(self.line(number))
