"""Remarks on a file as compilers make them: the place, what is wrong, the line with a mark below the word, and what
helps."""
from __future__ import annotations

import os
import unicodedata
from collections.abc import Sequence
from dataclasses import dataclass

from lokwurmi.files.text_files import File
from lokwurmi.files.toml_spans import Span

# the folder of the repository, where this package lies in one: above python/src/lokwurmi/refusals
TOP = os.path.normpath(os.path.join(os.path.dirname(os.path.abspath(__file__)), *[os.pardir] * 4))
# the most columns of a line that are shown
WIDTH = 100
BOLD, RED, YELLOW, BLUE, PLAIN = "\033[1m", "\033[1;31m", "\033[1;33m", "\033[34m", "\033[0m"


@dataclass(frozen=True)
class Note:
    """Another place that matters, and what is there."""

    says: str
    span: Span


@dataclass(frozen=True)
class Remark:
    """What is wrong in a stretch of a file, or with the file as a whole; what helps; and the section of
    docs/FILES.md."""

    says: str
    span: Span | None = None
    helps: str = ""
    notes: Sequence[Note] = ()
    more: str = ""
    is_notice: bool = False


def is_utf_8(word: str) -> bool:
    """Whether the bytes of a word are UTF-8."""
    return not any("\udc80" <= it <= "\udcff" for it in word)


def printable(text: str) -> str:
    """The text without what a terminal would obey; a tabulator stays."""
    # of a text that was no UTF-8 each such byte is a half of a pair
    codes = {it: ord(it) - 0xDC00 if "\udc80" <= it <= "\udcff" else ord(it) for it in set(text) - {"\t"}}
    hidden = {ord(it): f"\\x{code:02x}" if code < 256 else "?" for it, code in codes.items() if not it.isprintable()}
    return text.translate(hidden)


def columns(text: str) -> int:
    """How many columns a text without tabulators takes."""
    return sum(0 if unicodedata.combining(it) else 2 if unicodedata.east_asian_width(it) in "WF" else 1 for it in text)


def page(name: str) -> str:
    """The path of a page of this repository, from here where it is below."""
    path = os.path.join(TOP, "docs", name)
    if not os.path.isdir(os.path.dirname(path)):
        return f"docs/{name}"
    try:
        near = os.path.relpath(path)
    except OSError:
        return path
    return path if near.startswith("..") else near


class Look:
    """How remarks are written: with colours or without."""

    def __init__(self, coloured: bool):
        self.coloured = coloured

    def paint(self, colour: str, text: str) -> str:
        return f"{colour}{text}{PLAIN}" if self.coloured else text

    def head(self, file: File, span: Span | None, says: str, kind: str = "") -> str:
        where = printable(file.name)
        if span:
            where += ":%d:%d" % file.place(span[0])
        kind = self.paint(YELLOW, kind) if kind else ""
        return f"{self.paint(BOLD, where + ':')} {kind}{says}"

    def marked(self, file: File, span: Span, colour: str) -> list[str]:
        """The line, and a mark below the stretch; of a long line the part around that."""
        number, column = file.place(span[0])
        whole = file.line(number)
        start = min(column - 1, len(whole))
        end = max(start, min(len(whole), start + span[1] - span[0]))
        first = max(0, min(start - WIDTH // 3, len(whole) - WIDTH)) if len(whole) > WIDTH else 0
        last = min(len(whole), first + WIDTH)
        before, word = printable(whole[first:start]), printable(whole[start : min(end, last)])
        rest = printable(whole[min(end, last) : last])
        before = ("..." if first else "") + before
        gap = "".join("\t" if it == "\t" else " " * columns(it) for it in before)
        mark = "^" * max(1, columns(word.replace("\t", " ")))
        edge = f"{number:5} |"
        rest += "..." if last < len(whole) else ""
        below = f"{'|':>{len(edge)}}"
        return [
            f"{self.paint(BLUE, edge)} {before}{word}{rest}",
            f"{self.paint(BLUE, below)} {gap}{self.paint(colour, mark)}",
        ]

    def text(self, file: File, remark: Remark) -> str:
        colour = YELLOW if remark.is_notice else RED
        lines = [self.head(file, remark.span, remark.says, "notice: " if remark.is_notice else "")]
        if remark.span:
            lines += self.marked(file, remark.span, colour)
        for note in remark.notes:
            lines.append(self.head(file, note.span, note.says))
            lines += self.marked(file, note.span, BLUE)
        lines += self.tail(remark.helps, remark.more)
        return "\n".join(lines) + "\n"

    def tail(self, helps: str, more: str) -> list[str]:
        lines = [f"  {self.paint(BOLD, 'help:')} {helps}"] if helps else []
        if more:
            lines.append(f'  {self.paint(BOLD, "more:")} {page("FILES.md")}, "{more}"')
        return lines


def nearest(word: str, known: Sequence[str]) -> str | None:
    """The known word that was most likely meant: by its letters in either case, or nearly by them."""
    import difflib

    by_letters = {it.lower(): it for it in reversed(known)}
    found = difflib.get_close_matches(word.lower(), by_letters, 1, 0.6)
    return by_letters[found[0]] if found else None


def mean(word: str, known: Sequence[str], quote: str = '"') -> str:
    """A question after the nearest word, where there is one."""
    near = nearest(word, known)
    return f"; did you mean {quote}{near}{quote}?" if near else ""


def listed(words: Sequence[str], last: str = "and") -> str:
    return words[0] if len(words) == 1 else f"{', '.join(words[:-1])} {last} {words[-1]}" if words else "none"
