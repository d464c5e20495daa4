"""Scripts in words: the lines that are none of their forms (status 15)."""
from __future__ import annotations

import re
from collections.abc import Iterator
from dataclasses import dataclass, replace

from lokwurmi.files.system_keys import is_name, is_name_letter
from lokwurmi.files.text_files import File
from lokwurmi.files.toml_spans import Span
from lokwurmi.model.limits import MOST_SCRIPT_LINES
from lokwurmi.refusals.remark import Remark, listed, nearest
from lokwurmi.refusals.rows import is_number

MORE = "The script"
# the words after the first: those in small letters are numbers
FORMS = {
    "exec": ("TASK", "min", "max"),
    "priority": ("TASK", "n"),
    "swap": ("TASK", "TASK"),
    "slot": ("TASK", "n"),
    "source": ("NAME", "p", "j", "d"),
    "offset": ("NAME", "n"),
    "add": ("NAME", "RES", "AFTER", "min", "max", "n"),
    "remove": ("TASK",),
    "report": (),
}
OTHER_WORDS = {
    "wcet": "exec",
    "set": "exec",
    "prio": "priority",
    "delete": "remove",
    "analyse": "report",
    "analyze": "report",
    "print": "report",
    "period": "source",
    "jitter": "source",
    "phase": "offset",
    "start": "offset",
    "rm": "remove",
    "del": "remove",
    "payload": "exec",
}


@dataclass(frozen=True)
class Line:
    """A line that isn't skipped: its number, its words, and where each stands."""

    number: int
    words: list[str]
    spans: list[Span]


def form_of(keyword: str) -> str:
    return " ".join([keyword, *(it.upper() for it in FORMS[keyword])])


def line_count(text: str) -> int:
    return text.count("\n") + (not text.endswith("\n") and text != "")


def lines_in(file: File) -> Iterator[Line]:
    for number, start in enumerate(file.starts, 1):
        end = file.starts[number] - 1 if number < len(file.starts) else len(file.text)
        line = file.text[start:end].removesuffix("\r")
        found = list(re.finditer(r"[^ \t]+", line))
        if found and not found[0][0].startswith("#"):
            yield Line(number, [it[0] for it in found], [(start + it.start(), start + it.end()) for it in found])


def is_form(line: Line) -> bool:
    keyword, *words = line.words
    sorts = FORMS.get(keyword)
    return (
        sorts is not None
        and len(words) == len(sorts)
        and all(is_name(word) if sort.isupper() else is_number(word) for sort, word in zip(sorts, words))
    )


def fault_in(file: File) -> tuple[str, Remark] | None:
    """The program's words for the first fault of a script, and what to say."""
    if (lines := line_count(file.text)) > MOST_SCRIPT_LINES:
        says = f"the script has {lines} lines, and {MOST_SCRIPT_LINES} are the most"
        return "too many lines", Remark(says, None, "cut it, or leave comments and empty lines out", more=MORE)
    for line in lines_in(file):
        if not is_form(line):
            return f"line {line.number}", replace(remark_on(line), more=MORE)
    return None


def remark_on(line: Line) -> Remark:
    keyword, *words = line.words
    if keyword not in FORMS:
        return unknown_word(line)
    sorts, form = FORMS[keyword], f"the form is: {form_of(keyword)}"
    end = line.spans[-1][1]
    comment = next((at for at, it in enumerate(line.words) if at and it.startswith("#")), None)
    if comment is not None:
        helps = "give the comment a line of its own"
        return Remark("a comment can't stand behind an edit", (line.spans[comment][0], end), helps)
    if len(words) > len(sorts):
        if "=" in words:
            return Remark("a `=` can't stand in an edit", line.spans[words.index("=") + 1], form)
        here = "is 1" if len(words) == 1 else f"are {len(words)}"
        says = f"`{keyword}` takes {count(len(sorts))}, and here {here}"
        return Remark(says, (line.spans[len(sorts) + 1][0], end), form)
    for sort, word, span in zip(sorts, words, line.spans[1:]):
        if not (is_name(word) if sort.isupper() else is_number(word)):
            return Remark(wrong_word(sort, word), span, form + in_digits(sort, word))
    missing = [it.upper() for it in sorts[len(words) :]]
    are = "is" if len(missing) == 1 else "are"
    says = f"`{keyword}` takes {count(len(sorts))}: {listed(missing)} {are} missing"
    return Remark(says, (line.spans[0][0], end), form)


def count(number: int) -> str:
    return "no word" if not number else f"{number} word{'s' if number > 1 else ''}"


def unknown_word(line: Line) -> Remark:
    word = line.words[0]
    if word.startswith("\ufeff"):
        return Remark("a byte order mark stands before the first word", line.spans[0], "save the script without it")
    if word.lower() == "region":
        helps = (
            "no edit changes a region: write a file for each, or ask lokwurmi sensitivity FILE --only region how far"
            " one may grow"
        )
        return Remark(f"`{word}` begins no edit", line.spans[0], helps)
    if word.lower() == "clock":
        helps = "no edit puts a source on a clock, or takes it off: write a file for each; `offset NAME N` moves it"
        return Remark(f"`{word}` begins no edit", line.spans[0], helps)
    near = OTHER_WORDS.get(word.lower()) or nearest(word, list(FORMS))
    guess = f"; did you mean `{near}`?" if near else ""
    helps = (
        f"the form is: {form_of(near)}"
        if near
        else f"a line begins with {listed(list(FORMS), 'or')}; a comment begins with #"
    )
    return Remark(f"`{word}` begins no edit{guess}", line.spans[0], helps)


def in_digits(sort: str, word: str) -> str:
    """The number that a word of another form writes."""
    return (
        f"; write {int(word, 0)}"
        if sort.islower() and re.fullmatch(r"0x[0-9a-fA-F]+|[1-9]\d{0,2}(_\d{3})+", word)
        else ""
    )


def wrong_word(sort: str, word: str) -> str:
    if sort.isupper():
        wrong = next((it for it in word if not is_name_letter(it)), None)
        quoted = word.strip("\"'") != word
        return f"`{word}` is no name: " + (
            "names stand without quotes here"
            if quoted
            else f"it has {wrong!r}"
            if wrong
            else "it has more than 64 letters"
        )
    if re.fullmatch(r"[+-]\d+", word):
        return f"`{word}` is no number: it has a sign"
    if re.fullmatch(r"\d+\D+", word):
        return f"`{word}` is no number: {sort.upper()} is 1 to 10 digits alone"
    return f"`{word}` is no number: {sort.upper()} is 1 to 10 digits"
