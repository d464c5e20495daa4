"""What ends a campaign, and how it says so."""
import sys


class Wrong(Exception):
    """What the words, a grid or a folder ask for can't be done."""


class CallRefused(Exception):
    """The program refuses what it was given, and would do so anywhere: its status, its text and the script."""

    def __init__(self, status: int, text: str, script: str | None):
        super().__init__(status, text, script)
        self.status, self.text, self.script = status, text, script


class Failed(Exception):
    """Something that may go well another time."""


def say(text: str) -> None:
    """A line on standard error; in a terminal, in the place of how far it is."""
    start = "\r\033[K" if sys.stderr.isatty() else ""
    print(f"{start}lokwurmi campaign: {text}", file=sys.stderr, flush=True)
