#!/usr/bin/env python3
"""Measures how hard the pages are to read: words a sentence, and characters a table cell.

    python3 -m tests.texts.measure_pages
    python3 -m tests.texts.measure_pages --worst 5 README.md docs/FILES.md

A line is printed for each page, and then the longest sentences and cells of all of them. Blocks of code aren't counted,
nor are table cells of fewer than nine words; a word of code within a sentence counts as one word.
"""
import argparse
import pathlib
import re
import sys
from typing import NamedTuple

from tests.support.calls import TOP

PAGES = ["README.md", *sorted(f"docs/{it.name}" for it in TOP.glob("docs/*.md"))]
PAGES += ["examples/README.md", "python/README.md", "bench/RESULTS.md"]
# a table cell of fewer words is a heading or a name, and no sentence
LEAST_IN_CELL = 9
# where a sentence ends: a point, a colon before a list, or a mark, and then a blank or the end
END = re.compile(r"(?<=[.!?])[)\"*]*\s+(?=[\"*(`\[]*[A-Z0-9`])")


class Piece(NamedTuple):
    """A sentence or a table cell: its length, where it stands, and its text."""

    length: int
    page: str
    line: int
    text: str


class Page(NamedTuple):
    """What is measured of a page: its sentences by words, and its table cells by characters."""

    name: str
    sentences: list[Piece]
    cells: list[Piece]


def plain(text: str) -> str:
    """A text without links, pictures and marks."""
    text = re.sub(r"!?\[([^\]]*)\]\([^)]*\)", r"\1", text)
    text = re.sub(r"<[^>]*>", "", text)
    return re.sub(r"`[^`]*`", "`code`", text).replace("**", "")


def paragraphs_in(lines: list[str]) -> list[tuple[int, str]]:
    """The paragraphs, list items and table rows of a page, each with the number of its first line; code is left out."""
    found: list[tuple[int, str]] = []
    in_code, goes_on = False, False
    for number, line in enumerate(lines, 1):
        if line.lstrip().startswith("```"):
            in_code, goes_on = not in_code, False
        elif in_code or not line.strip() or line.startswith("#"):
            goes_on = False
        elif goes_on and not re.match(r"\s*(- |\d+\. |\|)", line) and not found[-1][1].startswith("|"):
            found[-1] = (found[-1][0], f"{found[-1][1]} {line.strip()}")
        else:
            found.append((number, re.sub(r"^(- |\d+\. )", "", line.strip())))
            goes_on = True
    return found


def measured(file: pathlib.Path) -> Page:
    """The sentences and table cells of a page."""
    name = str(file.relative_to(TOP)) if file.is_relative_to(TOP) else str(file)
    page = Page(name, [], [])
    for number, text in paragraphs_in(file.read_text(encoding="utf-8").splitlines()):
        parts, least = [text], 1
        if text.startswith("|"):
            least = LEAST_IN_CELL
            if re.fullmatch(r"[|\s:-]+", text):
                continue
            parts = [plain(it).strip() for it in re.split(r"(?<!\\)\|", text)[1:-1]]
            page.cells.extend(Piece(len(it), name, number, it) for it in parts if it)
        for part in parts:
            sentences = [it for it in END.split(plain(part)) if len(it.split()) >= least]
            page.sentences.extend(Piece(len(it.split()), name, number, it) for it in sentences)
    return page


def line_of(page: Page) -> str:
    """What is said of a page."""
    words = sum(it.length for it in page.sentences)
    each = words / len(page.sentences) if page.sentences else 0.0
    longest = max((it.length for it in page.sentences), default=0)
    cell = max((it.length for it in page.cells), default=0)
    said = f"{words:6} words, {each:5.1f} a sentence, the longest {longest:3}"
    return f"{page.name:22} {said}; longest cell {cell:4} characters"


def worst_of(pieces: list[Piece], count: int, what: str) -> list[str]:
    """The longest pieces, a line each."""
    order = sorted(pieces, key=lambda it: -it.length)[:count]
    return [f"{it.page}:{it.line}: {it.length} {what}: {it.text[:90]}" for it in order]


def main() -> None:
    reader = argparse.ArgumentParser(description=__doc__, formatter_class=argparse.RawDescriptionHelpFormatter)
    reader.add_argument("pages", nargs="*", metavar="PAGE", type=pathlib.Path, help="the pages; all if absent")
    reader.add_argument("--worst", metavar="N", type=int, default=10, help="how many are listed; 10 if absent")
    given = reader.parse_args()
    files = given.pages or [TOP / it for it in PAGES]
    for file in files:
        if not file.is_file():
            sys.exit(f"{file}: there is no such page")
    pages = [measured(file.resolve()) for file in files]
    print("\n".join(map(line_of, pages)))
    print("\n".join(worst_of([it for page in pages for it in page.sentences], given.worst, "words")))
    print("\n".join(worst_of([it for page in pages for it in page.cells], given.worst, "characters")))


if __name__ == "__main__":
    main()
