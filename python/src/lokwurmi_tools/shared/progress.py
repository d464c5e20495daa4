"""How far a long call is, on standard error: a line that is written over in a terminal, else one now and then."""
import sys
import time

# seconds between two lines, in a terminal and elsewhere
TERMINAL, ELSEWHERE = 0.2, 5.0


def span(seconds: float) -> str:
    """A time in the unit that fits it."""
    if seconds < 100:
        return f"{seconds:.0f} s"
    return f"{seconds / 60:.0f} min" if seconds < 6000 else f"{seconds / 3600:.1f} h"


class Progress:
    """The line of a tool, which began when this was made."""

    def __init__(self, tool: str):
        self.tool, self.start = tool, time.monotonic()
        self.is_terminal = sys.stderr.isatty()
        # elsewhere a call that is soon over writes nothing
        self.told = 0.0 if self.is_terminal else self.start

    def left(self, share: float, ends: float | None = None) -> str:
        """A guess of the time to go, by the share of the work that is done, and by when it ends at the latest."""
        if share <= 0:
            return ""
        now = time.monotonic()
        guess = (now - self.start) * (1 - share) / share
        return f", some {span(max(0.0, guess if ends is None else min(guess, ends - now)))} to go"

    def show(self, text: str) -> None:
        """Writes the line, unless the last one was just written."""
        now = time.monotonic()
        if now - self.told < (TERMINAL if self.is_terminal else ELSEWHERE):
            return
        self.told = now
        if self.is_terminal:
            # a line that is longer than the terminal is wide couldn't be written over
            print(f"\r\033[K\033[?7l{self.tool}: {text}\033[?7h", end="", file=sys.stderr, flush=True)
        else:
            print(f"{self.tool}: {text}", file=sys.stderr, flush=True)

    def clear(self) -> None:
        """Makes room for other lines."""
        if self.is_terminal:
            print("\r\033[K", end="", file=sys.stderr, flush=True)
            self.told = 0.0
