"""`--unproved`: an answer by the same sources, which the toolchain's `rt try` compiles and runs with checks, and no
proof.

Nothing of it is kept, so that nothing unproved ever lies where the proved program is.
"""
from __future__ import annotations

import os
import re
import shutil
import signal
import stat
import subprocess
import sys
import tempfile
import time
from pathlib import Path
from typing import BinaryIO, NoReturn

from lokwurmi_tools.launcher import operands as of_words
from lokwurmi_tools.launcher import shown
from lokwurmi_tools.launcher.build import ENDINGS, FAILED, need_rt, note_changes
from lokwurmi_tools.launcher.operands import Operands
from lokwurmi_tools.launcher.paths import TOP
from lokwurmi_tools.launcher.plan import clock
from lokwurmi_tools.launcher.processes import Work
from lokwurmi_tools.launcher.running import end_by
from lokwurmi_tools.launcher.shown import say
from lokwurmi_tools.launcher.table import CRATE, Command
from lokwurmi_tools.launcher.telling import tell

# seconds that the compiled program may take; `rt try` has 60 by itself
SECONDS = 600
# a pipe gets a line as often, in seconds
OFTEN = 60
PAUSE = 0.2
# names that `rt try` keeps for itself in the folder of the program
TAKEN = ("", "..", "program", "stdin", "stdout", "stderr")
# the greatest file that a command reads, and a byte more, by which it is too long
MOST_BYTES = (16 << 20) + 1
ENDED = re.compile(r"^run=ended status=(\d+) .*proved=no$", re.MULTILINE)
# what `rt try` says where there is no answer, and what that is in words
WHY = (
    ("wrote more than 1048576 bytes", "what it writes is above 1 MiB, the limit of a call without proofs"),
    (
        "did not end within the time limit",
        f"it took more than {SECONDS // 60} minutes, the limit of a call without proofs",
    ),
)
PROVED_INSTEAD = "the proved program has no such limit: call it without --unproved"


class Handed:
    """The words as the program gets them under `rt try`, with the files that are handed over beside them.

    The program runs in a folder of its own. A path below this folder is handed over under its own name; another is made
    absolute; and what can't be opened a second time, as a pipe, is copied. In a line of refusal the words are put back.
    """

    def __init__(self, operands: Operands, given: list[str], room: Path):
        self.room = room
        self.flags: list[str] = []
        self.put_back: dict[str, str] = {}
        # a word stands for a file where an operand does; an option's number never has a name of a file
        files = list(operands.files)
        self.words = [self._word(it) if it in files else it for it in given]

    def _word(self, word: str) -> str:
        name = os.path.normpath(word)
        is_taken = "=" in word or name.split("/")[0] in TAKEN
        if word == "/dev/stdin" or not os.path.exists(word) or os.path.isdir(word):
            # what can't be read here can't be read there
            return self._renamed(word, os.path.abspath(word)) if is_taken else word
        if not stat.S_ISREG(os.stat(word).st_mode):
            return self._renamed(word, str(self._copied(word)))
        if is_taken:
            return self._renamed(word, os.path.abspath(word))
        self.flags += ["--data", f"{name}={os.path.abspath(word)}"]
        return word

    def _renamed(self, word: str, name: str) -> str:
        if name != word:
            self.put_back[name] = word
        return name

    def _copied(self, word: str) -> Path:
        copy = self.room / f"copy{len(self.put_back)}"
        with open(word, "rb") as source:
            copy.write_bytes(source.read(MOST_BYTES))
        return copy

    def restored(self, text: bytes) -> bytes:
        """A line of refusal that names a file, with the word that the user wrote."""
        for name, word in self.put_back.items():
            for head in (b"cannot read ", b"too long ", b"not TOML "):
                if text == head + os.fsencode(name) + b"\n":
                    return head + os.fsencode(word) + b"\n"
        return text


class Unproved:
    """One call without proofs."""

    def __init__(self, command: Command, words: list[str], operands: Operands):
        self.command, self.words = command, words
        self.begun = time.monotonic()
        self.work = Work()
        self.folder = tempfile.mkdtemp(prefix="lokwurmi-unproved-")
        self.room = Path(self.folder)
        self.handed = Handed(operands, words, self.room)

    def so_far(self) -> str:
        return clock(time.monotonic() - self.begun)

    def interrupted(self, number: int) -> NoReturn:
        for it in ENDINGS:
            signal.signal(it, signal.SIG_IGN)
        self.work.end()
        shutil.rmtree(self.folder, ignore_errors=True)
        shown.wipe()
        end_by(number)

    def try_it(self, output: BinaryIO, errors: BinaryIO) -> int:
        """The status of `rt try`; a terminal sees how long it takes, and a pipe gets a line a minute."""
        flags = ["--seconds", str(SECONDS), *self.handed.flags]
        called = ["rt", "try", *flags, "--", self.command.name, *self.handed.words]
        given = None if "/dev/stdin" in self.handed.words else subprocess.DEVNULL
        self.work.start(called, TOP / "crates" / CRATE, output, errors, given)
        told = time.monotonic()
        while (status := self.work.status()) is None:
            shown.draw(f"compiling without proofs, and running; {self.so_far()} so far, of a minute or so")
            if not shown.is_live() and time.monotonic() - told >= OFTEN:
                told = time.monotonic()
                say(f"{self.so_far()} so far")
            time.sleep(PAUSE)
        shown.wipe()
        return status

    def perform(self, quiet: bool) -> int:
        with open(self.room / "text", "w+b") as output, open(self.room / "said", "w+b") as errors:
            status = self.try_it(output, errors)
            output.seek(0)
            errors.seek(0)
            text, said = output.read(), errors.read().decode("utf-8", "replace")
        ended = ENDED.findall(said)
        if not ended or int(ended[-1]) != status:
            return self.tell_failure(status, said)
        return self.answer(status, self.handed.restored(text), quiet)

    def answer(self, status: int, text: bytes, quiet: bool) -> int:
        try:
            sys.stdout.buffer.write(text)
            sys.stdout.buffer.flush()
        except OSError:
            # as the program answers where its output can't be written
            os.dup2(os.open(os.devnull, os.O_WRONLY), 1)
            status = 20
        if not quiet:
            lines = text.decode("utf-8", "surrogateescape").split("\n")
            edits = [it for it in lines if it.startswith("line ")] if self.command.name == "session" else []
            tell(status, lines[0] if status > 2 else "\n".join(edits), [self.command.name, *self.words])
        return status

    def tell_failure(self, status: int, said: str) -> int:
        """Says why there is no answer: a limit in words, else what `rt try` says."""
        why = next((words for form, words in WHY if f"checked: no-answer: the program {form}" in said), "")
        if why:
            what = f"{why}; {PROVED_INSTEAD}"
        elif status < 0:
            what = f"rt try was ended by signal {-status}, which isn't of this call: call it again"
        else:
            what = f"rt try ended with status {status}" + (
                "; what it says stands above" if said else ", and said nothing"
            )
            sys.stderr.write(said)
        say(f"no answer, after {self.so_far()}: {what}")
        return FAILED


def answer_unproved(command: Command, words: list[str], operands: Operands, quiet: bool) -> int:
    need_rt("--unproved compiles the sources")
    of_words.note_missing(operands)
    # said to whoever is quiet too: nothing else tells such an answer from a proved one
    say(
        "unproved: this answer is by the same sources, compiled without proofs in a minute or so, and not by the proved"
        " program"
    )
    if not quiet:
        note_changes()
    call = Unproved(command, words, operands)
    for it in ENDINGS:
        if signal.getsignal(it) is not signal.SIG_IGN:
            signal.signal(it, lambda number, _: call.interrupted(number))
    try:
        return call.perform(quiet)
    finally:
        shutil.rmtree(call.folder, ignore_errors=True)
