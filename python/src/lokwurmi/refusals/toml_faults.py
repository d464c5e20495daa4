"""Why bytes are no TOML document, in words: what tomllib found, and what most likely led to it (status 13)."""
from __future__ import annotations

import re
import tomllib
from dataclasses import replace

from lokwurmi.files.documents import values_in
from lokwurmi.files.text_files import File
from lokwurmi.files.toml_1_1 import older, open_mark
from lokwurmi.files.toml_spans import Span
from lokwurmi.refusals.remark import Note, Remark

MORE = "Statuses"
PLACED = re.compile(r"(.*) \(at (?:line (\d+), column (\d+)|end of document)\)", re.S)


def fault_in(file: File) -> Remark | None:
    """What is wrong; None where it is TOML as far as tomllib knows."""
    found = fault_of(file)
    return found and replace(found, more=MORE)


def fault_of(file: File) -> Remark | None:
    try:
        file.text.encode("utf-8")
        return too_large(file, values_in(file.text))
    except UnicodeEncodeError as fault:
        says = f"the byte 0x{ord(file.text[fault.start]) - 0xDC00:02x} isn't UTF-8"
        return Remark(says, (fault.start, fault.start + 1), "save the file as UTF-8, or write ASCII")
    except tomllib.TOMLDecodeError as fault:
        return told(file, str(fault))
    except RecursionError:
        return Remark("arrays or tables lie in each other too deep")


def too_large(file: File, value: object) -> Remark | None:
    """A whole number of more than 64 bits, which TOML doesn't have."""
    if isinstance(value, (dict, list)):
        parts = value.values() if isinstance(value, dict) else value
        return next((it for it in (too_large(file, part) for part in parts) if it), None)
    if not isinstance(value, int) or -(2**63) <= value < 2**63:
        return None
    digits = re.search("_?".join(str(abs(value))), file.text)
    return Remark(
        f"the number {value} has more than 64 bits",
        digits.span() if digits else None,
        "write one in the range of its key",
    )


def told(file: File, message: str) -> Remark:
    found = PLACED.fullmatch(message)
    what = found[1] if found else message
    # it counts lines of what it was given, whose letters stand where those of the file do
    given = File(file.name, older(file.text))
    at = (
        len(file.text.rstrip("\n"))
        if not found or not found[2]
        else given.starts[int(found[2]) - 1] + int(found[3]) - 1
    )
    if key := re.match(r"Duplicate inline table key '(.*)'", what):
        return key_twice(file, key[1], at)
    for begin, tell in TELLERS.items():
        if what.startswith(begin):
            if remark := tell(file, at):
                return remark
    helps = "look for a quote, a bracket, a comma or a `=` that is missing"
    return at_word(file, at, f"this isn't TOML: {what[:1].lower()}{what[1:]}", helps)


def at_letter(says: str, at: int, helps: str) -> Remark:
    """A remark on a letter."""
    return Remark(says, (at, at + 1), helps)


def at_word(file: File, at: int, says: str, helps: str, notes: tuple[Note, ...] = ()) -> Remark:
    """A remark on the word at a place; at the end of the document on its last line that isn't empty."""
    at = min(at, len(file.text.rstrip()))
    return Remark(says, (at, at + max(1, len(word_at(file, at)))), helps, notes)


def word_at(file: File, at: int) -> str:
    return re.split(r"[\s,\]}=#]", file.text[at:], maxsplit=1)[0]


def line_start(file: File, at: int) -> int:
    return file.text.rfind("\n", 0, at) + 1


def open_quote(file: File, at: int) -> int | None:
    """Where on the line of a place the text begins that isn't closed before it."""
    opened = None
    start = line_start(file, at)
    for place in range(start, at):
        letter = file.text[place]
        if opened is None and letter == "#":
            return None
        if opened is None and letter in "\"'":
            opened = place
        elif opened is not None and letter == file.text[opened] and file.text[place - 1] != "\\":
            opened = None
    return opened


def unclosed_text(file: File, at: int) -> Remark | None:
    opened = open_quote(file, at)
    if opened is None or (at < len(file.text) and file.text[at] != "\n"):
        return None
    line, _ = file.place(opened)
    quote = file.text[opened]
    helps = f"close it with {quote}"
    if quote in file.text[line_start(file, opened) : opened]:
        helps += "; or a quote before it is missing or too many"
    return Remark(f"the text that begins here isn't closed on line {line}", (opened, at), helps)


def illegal(file: File, at: int) -> Remark:
    helps = "take the letter out; in a text write \\u and its four digits"
    return unclosed_text(file, at) or at_word(file, at, f"{file.text[at : at + 1]!r} can't stand here", helps)


def backslash(file: File, at: int) -> Remark:
    says = 'in ".." a backslash begins an escape, and this is none'
    return Remark(says, (max(at - 1, 0), at + 1), "write two of them, or put the text into '..'")


def no_value(file: File, at: int) -> Remark:
    word = word_at(file, at)
    if not word:
        is_end = file.text[at : at + 1] in ("", "\n", "#", ",", "]", "}")
        helps = "write a number, a text in quotes, true or false, or an array in [ ]"
        return at_word(file, at, "a value is missing here" if is_end else "this is no value", helps)
    if word.lower() in ("true", "false", "yes", "no", "on", "off"):
        meant = "true" if word.lower() in ("true", "yes", "on") else "false"
        return at_word(file, at, f"`{word}` is no value", f"write {meant}, in small letters")
    if file.text[at + len(word) :].lstrip(" \t").startswith("=") and "[" in file.text[:at]:
        return at_word(file, at, "an array isn't closed before this", "a ] is missing further up")
    if word[0] in "+-.0123456789":
        helps = "write digits alone, with no zero before them"
        return at_word(file, at, f"`{word}` is no number as TOML writes them", helps)
    return at_word(file, at, f"`{word}` is no value: a text stands in quotes", f'write "{word.strip(chr(34))}"')


def wrong_number(file: File, at: int) -> Remark | None:
    """What follows digits makes no number of them."""
    line, rest = line_start(file, at), file.text[at:].split("\n", 1)[0]
    before = re.split(r"[^\w.+-]", file.text[line:at])[-1]
    start, word = at - len(before), before + word_at(file, at)
    number = re.search(r"(?<![\w.])[+-]?\d[\d_]*[ \t]*\Z", file.text[line:at])
    if number and re.match(r"[A-Za-zµ%]{1,3}(?![\w])", rest):
        start = line + number.start()
        word = file.text[start:at] + word_at(file, at)
        helps = f"write ticks alone, as {number[0].strip()}; a tick is whatever you take it for"
        says = f"`{word}` is no number: a unit can't stand here"
    elif number and rest.startswith("."):
        says, helps = (
            f"`{word}` is no number: digits are missing behind the point",
            f"write a whole number, as {before}",
        )
    elif number and (digits := re.match(r",(\d+)", rest)):
        word = before + digits[0]
        helps = "write a whole number; take a finer tick where it has a fraction"
        helps = f"write {word.replace(',', '')}" if len(digits[1]) == 3 else helps
        says = f"`{word}` is no number: it has a comma"
    elif before in ("0", "+0", "-0") and rest[:1].isdigit():
        says, helps = f"`{word}` begins with a zero, which TOML doesn't allow", f"write {word.lstrip('0') or '0'}"
    else:
        return None
    return Remark(says, (start, start + len(word)), helps)


def after_value(file: File, at: int) -> Remark:
    """Something follows a value or a heading on its line."""
    rest = file.text[at:].split("\n", 1)[0]
    if found := wrong_number(file, at):
        return found
    if rest.startswith("//") or rest.startswith("--"):
        return at_word(file, at, "this isn't a comment", "a comment begins with #")
    if rest.startswith(","):
        helps = (
            "a list stands in [ ]" if rest[1:].strip() else "leave it out: in a section each key has a line of its own"
        )
        return at_letter("a comma can't stand here", at, helps)
    if rest.startswith(";"):
        return at_letter("a semicolon can't stand here", at, "leave it out: a line's end is enough")
    if re.match(r"[\w\"'-]+\s*=", rest):
        helps = "give each key a line of its own, or write the entry as { .., .. }"
        return at_word(file, at, "a second key stands on this line", helps)
    if rest[:1] in "]}":
        return at_letter(f"`{rest[0]}` closes nothing", at, "leave it out, or open it further up")
    helps = "a quote may be missing or too many; a comment begins with #"
    return at_word(file, at, "something stands here behind a value", helps)


def no_equals(file: File, at: int) -> Remark:
    if file.text[at : at + 1] == ":":
        return at_letter("a key and its value have a `=` between them, not a `:`", at, "write key = value")
    start = line_start(file, at)
    key = file.text[start:at].strip()
    end = file.span_of_line(file.place(start)[0])[1]
    if re.fullmatch(r"\w+\]+", file.text[start:end].strip()):
        return Remark("a heading begins with [[ and ends with ]]", (start, end), f"write [[{key.strip(']')}]]")
    helps = f"write {key} = .." if re.fullmatch(r"[\w-]+", key) else "write key = value; a comment begins with #"
    return Remark("a `=` is missing in this line", (start, max(start + 1, end)), helps)


def twice(file: File, at: int) -> Remark | None:
    """A key that stands twice in a table, or a list that is told in two ways."""
    start = line_start(file, at)
    number, _ = file.place(start)
    head = re.match(r"\s*\[+\s*([\w-]+)", file.line(number))
    if head:
        return heading_twice(file, start, head[1])
    found = re.match(r"\s*([\w-]+)\s*=", file.line(number))
    if not found:
        return None
    span, mend = key_span(start, found), "take one of them out; if another entry begins here, its heading"
    for line in range(number - 1, 0, -1):
        if file.line(line).lstrip().startswith("["):
            break
        if re.match(rf"\s*{found[1]}\s*=", file.line(line)):
            place = file.starts[line - 1] + file.line(line).index(found[1])
            notes = (Note("it stands here already", (place, place + len(found[1]))),)
            return Remark(f"the key `{found[1]}` stands twice in this table", span, f"{mend} [[ ]] is missing", notes)
    return Remark(f"the key `{found[1]}` stands twice", span, f"{mend} is missing")


def key_twice(file: File, key: str, at: int) -> Remark:
    places = [it.start() for it in re.finditer(rf"(?<![\w-]){re.escape(key)}(?=[\"']?\s*=)", file.text[:at])]
    second = places[-1] if places else at
    notes = (Note("it stands here already", (places[-2], places[-2] + len(key))),) if len(places) > 1 else ()
    says = f"the key `{key}` stands twice in this table"
    return Remark(says, (second, second + len(key)), "take one of them out", notes)


def key_span(start: int, found: re.Match[str]) -> Span:
    return start + found.start(1), start + found.end(1)


def heading_twice(file: File, start: int, key: str) -> Remark:
    number, _ = file.place(start)
    same = re.compile(rf"\s*\[*\s*{re.escape(key)}\s*[\]=]")
    other = next((line for line in range(1, number) if same.match(file.line(line))), None)
    notes = (Note("here it is for the first time", file.span_of_line(other)),) if other else ()
    both = f"a list is either written so or as {key} = [..]"
    helps = f"begin each entry with [[{key}]], two brackets on either side; {both}"
    says = f"`{key}` is told a second time, in another way than a list of entries"
    return Remark(says, file.span_of_line(number), helps, notes)


def begins(file: File, at: int, mark: str, what: str) -> tuple[Note, ...]:
    """Where what isn't closed before a place begins."""
    opened = open_mark(file.text, at, mark)
    return (Note(f"the {what} begins here", (opened, opened + 1)),) if opened is not None else ()


def unclosed_array(file: File, at: int) -> Remark:
    if quoted := unclosed_text(file, at):
        return quoted
    if file.text[at - 1] in "\"'" and file.text[at].isalnum():
        helps = 'each text stands in a pair of quotes: ["a", "b"]'
        return at_word(file, at, "a quote is missing or too many before this", helps)
    says, helps = (
        "an array isn't closed before this, or has no comma",
        "write a comma between two values, and ] at the end",
    )
    return at_word(file, at, says, helps, begins(file, at, "[", "array"))


def unclosed_table(file: File, at: int) -> Remark:
    says = "an inline table isn't closed before this, or has no comma"
    helps = "write a comma between two keys, and } at the end"
    return at_word(file, at, says, helps, begins(file, at, "{", "table"))


def no_key(file: File, at: int) -> Remark:
    letter = file.text[at : at + 1]
    # a table may go over several lines
    before = file.text[:at].rstrip()
    if before.endswith((",", "{")) and open_mark(file.text, at, "{") is not None:
        return unclosed_table(file, at)
    if letter in "}]" and letter:
        return at_letter(f"`{letter}` closes nothing", at, "leave it out, or open it further up")
    if letter == "{" and not file.text[:at].strip():
        helps = "a system file has lines of the form key = value below headings as [[task]]"
        return at_letter("this isn't TOML but maybe JSON", at, helps)
    if letter == "=":
        return at_letter("the key is missing before `=`", at, "write key = value")
    if file.text.startswith(("//", "/*"), at) or letter in (";", "%", "!"):
        return at_letter("this isn't a comment", at, "a comment begins with #")
    return at_word(file, at, "no key can begin so", "a key is one of letters, digits, _ and -; a comment begins with #")


def no_heading_end(file: File, at: int) -> Remark:
    line = file.span_of_line(file.place(at)[0])
    name = re.match(r"\s*\[+\s*([\w-]*)", file.text[line[0] : line[1]])
    return Remark("the heading isn't closed", line, f"write [[{name[1] if name and name[1] else '..'}]]")


TELLERS = {
    "Illegal character": illegal,
    "Found invalid character": illegal,
    "Unterminated string": unclosed_text,
    'Expected "\'"': unclosed_text,
    "Unescaped '\\'": backslash,
    "Invalid value": no_value,
    "Expected newline or end of document": after_value,
    "Expected '=' after a key": no_equals,
    "Cannot overwrite a value": twice,
    "Cannot declare": twice,
    "Cannot mutate": twice,
    "Cannot redefine": twice,
    "Unclosed array": unclosed_array,
    "Unclosed inline table": unclosed_table,
    "Invalid initial character for a key part": no_key,
    "Invalid statement": no_key,
    "Expected ']]'": no_heading_end,
    "Expected ']'": no_heading_end,
}
