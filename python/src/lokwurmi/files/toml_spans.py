"""Where the keys and values of a TOML document stand in its text. The document is one that tomllib has accepted, so
that this looks for ends alone and judges nothing: other readers of TOML here give no lines or columns."""
import tomllib
from dataclasses import dataclass, field

Span = tuple[int, int]
BLANKS = " \t\r"
# what may follow a number, a truth value or a date
ENDS = ",]}#\n"


@dataclass
class Place:
    """Where a value stands. A section's place is its heading."""

    start: int
    end: int
    is_array: bool = False
    items: list["Place"] = field(default_factory=list)
    """What is in an array."""
    values: dict[str, "Place"] = field(default_factory=dict)
    """What is in a table, by its keys."""
    keys: dict[str, Span] = field(default_factory=dict)
    """Where the keys of a table stand."""

    @property
    def span(self) -> Span:
        return self.start, self.end

    def table(self, key: str, span: Span) -> "Place":
        """The table at a key: of an array the last one; a new one where there is none yet."""
        if key not in self.values:
            self.keys[key] = span
            self.values[key] = Place(*span)
        found = self.values[key]
        return found.items[-1] if found.is_array else found


class Scanner:
    """Goes through a document from its beginning to its end."""

    def __init__(self, text: str) -> None:
        self.text = text
        self.at = 0

    def skip(self, blanks: str) -> None:
        """Over blanks, and over comments where line ends are among these."""
        while self.at < len(self.text):
            if self.text[self.at] in blanks:
                self.at += 1
            elif self.text[self.at] == "#" and "\n" in blanks:
                end = self.text.find("\n", self.at)
                self.at = len(self.text) if end < 0 else end
            else:
                return

    def document(self) -> Place:
        root = table = Place(0, 0)
        self.skip(BLANKS + "\n")
        while self.at < len(self.text):
            if self.text[self.at] == "[":
                table = self.heading(root)
            else:
                self.pair(table)
            self.skip(BLANKS + "\n")
        return root

    def heading(self, root: Place) -> Place:
        """The table that a heading begins."""
        start, several = self.at, self.text.startswith("[[", self.at)
        self.at += 2 if several else 1
        keys = self.keys()
        self.at += 2 if several else 1
        table = root
        for key, span in keys[:-1]:
            table = table.table(key, span)
        key, span = keys[-1]
        if not several:
            found = table.table(key, span)
            found.start, found.end = start, self.at
            return found
        table.keys.setdefault(key, span)
        every = table.values.setdefault(key, Place(start, self.at, is_array=True))
        every.items.append(Place(start, self.at))
        return every.items[-1]

    def pair(self, table: Place) -> None:
        """A key, which may have dots, and its value."""
        keys = self.keys()
        self.at += 1
        self.skip(BLANKS)
        for key, span in keys[:-1]:
            table = table.table(key, span)
        key, span = keys[-1]
        table.keys[key] = span
        table.values[key] = self.value()

    def keys(self) -> list[tuple[str, Span]]:
        """The parts of a key, and what stands behind them is next."""
        found = []
        while True:
            self.skip(BLANKS)
            start = self.at
            if self.text[start] in "\"'":
                self.string()
                found.append((unquoted(self.text[start : self.at]), (start, self.at)))
            else:
                while self.text[self.at] not in " \t.=]":
                    self.at += 1
                found.append((self.text[start : self.at], (start, self.at)))
            self.skip(BLANKS)
            if self.text[self.at] != ".":
                return found
            self.at += 1

    def value(self) -> Place:
        start = self.at
        first = self.text[start]
        if first in "\"'":
            self.string()
        elif first == "[":
            items = self.array()
            return Place(start, self.at, True, items)
        elif first == "{":
            found = Place(start, start)
            self.inline(found)
            found.end = self.at
            return found
        else:
            while self.at < len(self.text) and self.text[self.at] not in ENDS:
                self.at += 1
            return Place(start, start + len(self.text[start : self.at].rstrip(BLANKS)))
        return Place(start, self.at)

    def string(self) -> None:
        quote = self.text[self.at]
        if self.text.startswith(quote * 3, self.at):
            self.at += 3
            while not self.text.startswith(quote * 3, self.at):
                self.at += 2 if self.text[self.at] == "\\" and quote == '"' else 1
            self.at += 3
            # up to two quotes may stand before the three that end it
            while self.at < len(self.text) and self.text[self.at] == quote:
                self.at += 1
            return
        self.at += 1
        while self.text[self.at] != quote:
            self.at += 2 if self.text[self.at] == "\\" and quote == '"' else 1
        self.at += 1

    def array(self) -> list[Place]:
        found = []
        self.at += 1
        self.skip(BLANKS + "\n")
        while self.text[self.at] != "]":
            found.append(self.value())
            self.skip(BLANKS + "\n")
            if self.text[self.at] == ",":
                self.at += 1
                self.skip(BLANKS + "\n")
        self.at += 1
        return found

    def inline(self, table: Place) -> None:
        self.at += 1
        self.skip(BLANKS + "\n")
        while self.text[self.at] != "}":
            self.pair(table)
            self.skip(BLANKS + "\n")
            if self.text[self.at] == ",":
                self.at += 1
                self.skip(BLANKS + "\n")
        self.at += 1


def unquoted(word: str) -> str:
    """What a quoted key is, whose escapes tomllib reads."""
    return str(tomllib.loads("it = " + word)["it"])


def places_in(text: str) -> Place:
    return Scanner(text).document()
