"""Runs the program beside this process, which so sees its status: signals that come are handed on to it."""
from __future__ import annotations

import os
import resource
import signal
import subprocess
from collections.abc import Sequence
from typing import NoReturn

HANDED_ON = (signal.SIGINT, signal.SIGTERM, signal.SIGHUP, signal.SIGQUIT)


def end_by(number: int) -> NoReturn:
    """Ends this process as a signal does by itself, so that whoever called sees it."""
    resource.setrlimit(resource.RLIMIT_CORE, (0, 0))
    signal.signal(number, signal.SIG_DFL)
    os.kill(os.getpid(), number)
    os._exit(128 + number)


def run(words: Sequence[str], is_session: bool) -> tuple[int, str]:
    """The status of a program, and of what it writes what there may be something to say of: its first line, or of a
    session that ends with 0 to 2 the lines of refused edits. All is handed on as it comes; where it can't be written,
    the status is 20, as the program's own would be. Where a signal ended it, this process ends by that too."""
    kept = Kept()
    with Heard() as heard:
        child = subprocess.Popen(words, close_fds=False, restore_signals=True, stdout=subprocess.PIPE)
        heard.hand_to(child)
        is_whole = pass_on(child, kept)
        status = child.wait()
    if status < 0:
        end_by(-status)
    status = status if is_whole else 20
    lines = kept.edits if is_session and status <= 2 else [kept.first] if status > 2 else []
    return status, b"\n".join(lines).decode("utf-8", "surrogateescape")


def pass_on(child: subprocess.Popen[bytes], kept: Kept) -> bool:
    """Writes what a program does, as it comes, and whether all could be written."""
    assert child.stdout is not None
    with child.stdout as source:
        while part := os.read(source.fileno(), 1 << 16):
            kept.take(part)
            try:
                while part:
                    part = part[os.write(1, part) :]
            except OSError:
                return False
    return True


class Kept:
    """The first line of what is written part by part, and the lines of refused edits."""

    def __init__(self) -> None:
        self.first, self.edits = b"", list[bytes]()
        self.rest, self.has_first = b"", False

    def take(self, part: bytes) -> None:
        *lines, self.rest = (self.rest + part).split(b"\n")
        if lines and not self.has_first:
            self.first, self.has_first = lines[0], True
        self.edits += [it for it in lines if it.startswith(b"line ")]


class Heard:
    """Signals that come while a program is started and runs: they are handed on to it. What was ignored from the start
    stays so."""

    def __init__(self) -> None:
        self.child: subprocess.Popen[bytes] | None = None
        self.early: list[int] = []

    def __enter__(self) -> Heard:
        heard = [it for it in HANDED_ON if signal.getsignal(it) is not signal.SIG_IGN]
        self.before = {it: signal.signal(it, self._hand_on) for it in heard}
        return self

    def __exit__(self, *_: object) -> None:
        for number, handler in self.before.items():
            signal.signal(number, handler)

    def _hand_on(self, number: int, _: object) -> None:
        if self.child:
            self.child.send_signal(number)
        else:
            self.early.append(number)

    def hand_to(self, child: subprocess.Popen[bytes]) -> None:
        """Hands signals on to this program, and those that came before it was there."""
        self.child = child
        for number in self.early:
            child.send_signal(number)
