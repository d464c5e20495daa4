"""What answers a call: the proved library in this process, or the proved program as a process of its own.

Both answer the same bytes, but for the name of the file in a line of refusal.
"""
from collections.abc import Sequence
from typing import Protocol

from lokwurmi.calls.library import Library
from lokwurmi.calls.program import Program
from lokwurmi.calls.texts import bytes_of
from lokwurmi.errors import CallFailed, NoEngine, SessionClosed, WrongType
from lokwurmi.files import report_lines as lines
from lokwurmi.model.statuses import Status
from lokwurmi.refusals.program_lines import error_of

ANSWERED = {"schedule": (Status.OK,), "assign": (Status.OK, Status.NONE)}
"""Of some commands, whose answer may be empty or has no last line of its own, the statuses of an answer."""


class Engine(Protocol):
    """Answers calls of the program over texts in memory."""

    def call(self, command: str, files: Sequence[bytes], words: Sequence[str | int] = ()) -> tuple[int, str]:
        """The status of a command over texts of its files, in their order, and the text that it writes."""
        ...


class KeptSession(Protocol):
    """A system under edits, which is kept between calls. Each text and status is that of library/lokwurmi.h."""

    def edit(self, line: str) -> tuple[int, str]:
        """0 where the edit is made; 15 where it isn't one, 21 where it breaks a rule, with the program's line."""
        ...

    def numbers(self) -> tuple[list[int | None], list[int | None]]:
        """The bounds of all tasks, and those of all paths, in ticks and in order; None where there is none."""
        ...

    def report(self) -> tuple[int, str]:
        """The status and the text of the report."""
        ...

    def close(self) -> None:
        """Frees what is kept; a second time it does nothing."""
        ...


class KeptByScript:
    """The same by any engine: the edits that were made are a script, which is replayed from its beginning for each
    edit.

    The answers are the same, and it is slower: each edit costs a call, which makes all edits before it once more.
    A script has 10,000 lines at most, and so many edits are possible.
    """

    def __init__(self, engine: Engine, system: bytes):
        self._engine, self._system, self._made = engine, system, ""
        status, text = engine.call("analyse", [system])
        if not Status.is_answer(status):
            raise error_of(status, text)
        self._report: tuple[int, str] | None = (status, text)

    def edit(self, line: str) -> tuple[int, str]:
        before = self._made.count("\n")
        script = self._made + line + ("" if line.endswith("\n") else "\n")
        status, text = self._engine.call("session", [self._system, bytes_of(script)])
        if status == Status.SCRIPT_REFUSED:
            return status, lines.LINE.sub(lambda it: f"line {int(it[1]) - before}", text)
        if not Status.is_answer(status):
            return status, text
        edits = [it for it in line.split("\n") if it.strip(" \t\r") and not it.lstrip(" \t").startswith("#")]
        if len(edits) != 1 or edits[0].split()[0] == "report":
            return Status.SCRIPT_REFUSED, "script refused no edit\n"
        first, _, rest = text.partition("\n")
        if found := lines.REFUSED.fullmatch(first):
            return Status.EDIT_REFUSED, f"line {int(found[1]) - before} refused {found[2]}\n"
        self._made, self._report = self._made + edits[0].strip(" \t\r") + "\n", (status, text)
        return 0, ""

    def numbers(self) -> tuple[list[int | None], list[int | None]]:
        tasks, paths, _ = lines.reports_in(self.report()[1].splitlines())[-1]
        return [it["worst"] for it in tasks.values()], [it["worst"] for it in paths.values()]

    def report(self) -> tuple[int, str]:
        if self._report is None:
            raise SessionClosed("the session is closed")
        return self._report

    def close(self) -> None:
        self._report = None


_chosen: Engine | None = None


def checked(engine: Engine) -> Engine:
    """An engine; what can't be called as one is refused."""
    if not callable(getattr(engine, "call", None)):
        raise WrongType(f"{engine!r} is no engine: write Library() or Program(), or leave it out")
    return engine


def use(engine: Engine | None) -> None:
    """Has all calls that name no engine be answered by this one; by the default one again where it is None."""
    global _chosen
    _chosen = None if engine is None else checked(engine)


def default_engine(command: str = "analyse") -> Engine:
    """The engine that was set by `use`; else the library, and where there is none, or an older one without the command,
    the program."""
    global _chosen
    if _chosen is None:
        try:
            _chosen = Library()
        except NoEngine:
            _chosen = Program()
    if isinstance(_chosen, Library) and not _chosen.has(command):
        try:
            return Program()
        except NoEngine:
            # the library says what it lacks
            return _chosen
    return _chosen


def answer(
    command: str, files: Sequence[bytes], words: Sequence[str | int] = (), engine: Engine | None = None
) -> tuple[int, str]:
    """The status, which is below 10, and the text of a call; raises what it is refused by."""
    chosen = default_engine(command) if engine is None else checked(engine)
    status, text = chosen.call(command, files, words)
    if not Status.is_answer(status):
        raise error_of(status, text)
    if status not in ANSWERED.get(command, (status,)):
        raise CallFailed(status, text)
    return status, text


def keep(system: bytes, engine: Engine | None = None) -> KeptSession:
    """A session that is kept: by the library where it has them, else by a script that any engine replays."""
    chosen = default_engine() if engine is None else checked(engine)
    if isinstance(chosen, Library) and chosen.has("open"):
        return chosen.keep(system)
    return KeptByScript(chosen, system)
