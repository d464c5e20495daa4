"""TOML 1.1 for a reader of TOML 1.0. The program reads TOML 1.1, in which an inline table may go over several lines,
have comments and end with a comma; Python's tomllib reads TOML 1.0. What is new is put out by blanks, so that all else
stays in its place."""
import re

TOKEN = re.compile(
    r'"""(?:\\.|[^\\])*?"""|\'\'\'.*?\'\'\'|"(?:\\.|[^"\\\n])*"?|\'[^\'\n]*\'?|#[^\n]*|[\[\]{},\n]|[^\s\[\]{},"\'#]+',
    re.S,
)
HEADING = re.compile(r"[ \t]*\[\[?[ \t]*[\w.\"'-]+[ \t]*\]\]?[ \t]*(?:#[^\n]*)?\r?(?:\n|\Z)")


# how much of a key and its value there is by now
NOTHING, KEY, EQUALS, VALUE = range(4)


class Blanks:
    """Goes through a text and finds what stands in inline tables that TOML 1.0 doesn't know."""

    def __init__(self, text: str) -> None:
        self.text = text
        # what is open, and how far its last key and value are
        self.opened: list[tuple[str, int]] = []
        self.comma: int | None = None
        self.found: list[tuple[int, int]] = []

    def may_break(self) -> bool:
        """Whether a line may end here, which it may in no other inline table."""
        return self.opened[-1:] in ([("{", NOTHING)], [("{", VALUE)])

    def take(self, it: re.Match[str]) -> None:
        token = it[0]
        if token == "\n" and self.opened and HEADING.match(self.text, it.end()):
            # what is open isn't closed at all
            self.opened = []
        if token == "\n" or token.startswith("#"):
            if self.may_break():
                self.found.append(it.span())
            return
        if token == "}" and self.comma is not None and self.opened[-1:] == [("{", NOTHING)]:
            self.found.append((self.comma, self.comma + 1))
        self.comma = it.start() if token == "," else None
        if token in "]}":
            del self.opened[-1:]
        else:
            self.go_on(token)
        if token in "[{":
            self.opened.append((token, NOTHING))

    def go_on(self, token: str) -> None:
        if not self.opened:
            return
        mark, state = self.opened[-1]
        if token == ",":
            state = NOTHING
        elif token.strip("\"'") == token and "=" in token:
            state = EQUALS if token.endswith("=") else VALUE
        else:
            state = VALUE if state >= EQUALS else KEY
        self.opened[-1] = mark, state


def older(text: str) -> str:
    """The same text with blanks for line ends, comments and last commas in inline tables, letter by letter as long as
    before."""
    blanks = Blanks(text)
    for it in TOKEN.finditer(text):
        blanks.take(it)
    letters = list(text)
    for start, end in blanks.found:
        letters[start:end] = " " * (end - start)
    return "".join(letters)


def open_mark(text: str, before: int, mark: str) -> int | None:
    """Where the array or the inline table begins, told by its bracket, that isn't closed before a place."""
    opened: list[int] = []
    for it in TOKEN.finditer(text, 0, before):
        if it[0] == "\n" and HEADING.match(text, it.end()):
            opened = []
        if it[0] in "[{":
            opened.append(it.start())
        elif it[0] in "]}":
            del opened[-1:]
    return next((at for at in reversed(opened) if text[at] == mark), None)
