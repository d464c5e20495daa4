"""What is raised. Whatever is refused says why in words, by the tables of `lokwurmi.refusals.reasons`."""
from lokwurmi.model.limits import MOST_SCRIPT_LINES
from lokwurmi.model.statuses import Status
from lokwurmi.refusals.reasons import CHAIN_REASONS, EDIT_RULES, SYSTEM_REASONS, WORD_REASONS

RULES = EDIT_RULES
"""The rules that an edit may break."""


class LokwurmiError(Exception):
    """Anything that goes wrong here."""


class NoEngine(LokwurmiError):
    """There is neither a library nor a program, or it hasn't the command."""


class NotInstalled(LokwurmiError, ImportError):
    """A package that draws or makes tables isn't there."""

    def __init__(self, module: str, package: str):
        super().__init__(
            f"this needs {module}: on Debian and Ubuntu `apt-get install {package}`, elsewhere"
            f" `python3 -m pip install {module}`"
        )


class WrongType(LokwurmiError, TypeError):
    """Something has another type than is asked for, as a text where a list of tasks has to be."""


class UnitsRefused(LokwurmiError, ValueError):
    """A time or a unit can't be taken: it has another form, no safe side, or too many ticks."""


class NoTick(UnitsRefused):
    """A time with a unit was given or asked for, and there is no tick."""

    def __init__(self, what: str):
        super().__init__(f"{what}: there is no tick to count in: give the system one, as System(tick='1us')")


class SessionClosed(LokwurmiError):
    """A session was used after its end."""


class Unreadable(LokwurmiError):
    """A text isn't what was asked for, as one that is no report."""


class CallFailed(LokwurmiError):
    """A call that ended in no answer: out of memory (30), a fault of a file (11, 20), or a signal (below 0)."""

    def __init__(self, status: int, text: str = ""):
        self.status = status
        self.text = text
        what: dict[int, str] = {
            Status.OUT_OF_MEMORY: "out of memory",
            Status.FILE_UNREAD: "a file couldn't be read",
            Status.SINK_FAILED: "the output couldn't be written",
            Status.NO_PROGRAM: "the program couldn't be built",
        }
        told = f": {text.strip()}" if text.strip() else ""
        super().__init__(f"status {status}: {what.get(status, 'the call was ended')}{told}")


class Refused(LokwurmiError):
    """Something that was handed over isn't accepted. `status` and `text` are those of the program."""

    def __init__(self, status: int, text: str, words: str):
        self.status = status
        self.text = text
        super().__init__(words)


class WordsRefused(Refused):
    """A number is out of its range, or a name is no word."""


class FileTooLong(Refused):
    """A text is longer than such a file may be."""


class NotToml(Refused):
    """The system file isn't TOML."""


class SystemRefused(Refused):
    """The file is TOML and no system.

    `reason` is the number of the reason, `part` is `resource`, `source`, `task`, `path` or `file`, `place` the place of
    the entry in its list, from 1, and `name` the entry's name, where the system was built here. `what` is what is wrong
    in the entry, where that was found.
    """

    def __init__(
        self, status: int, text: str, reason: int, part: str, place: int, name: str | None = None, what: str = ""
    ):
        self.reason, self.part, self.place, self.name = reason, part, place, name
        where = "the file" if part == "file" else f"{part} {name!r}" if name is not None else f"{part} {place}"
        why = SYSTEM_REASONS[reason]
        what = what.removeprefix(f'{part} "{name}": ') or why.says
        super().__init__(status, text, f"{where}: {why.heading} (reason {reason}): {what}")


class ScriptRefused(Refused):
    """A line of the script is none of its forms (`line`, from 1), or there are too many (`line` is None)."""

    def __init__(self, status: int, text: str, line: int | None):
        self.line = line
        many = f"the script has more than {MOST_SCRIPT_LINES:,} lines"
        if text == "script refused no edit\n":
            many = "the text isn't one edit: write one line, as exec b 2 8"
        form = f"line {line} of the script has none of the forms of docs/FILES.md"
        super().__init__(status, text, many if line is None else form)


class EditRefused(Refused):
    """An edit of a session can't be made, and nothing was changed. `rule` is the rule that it breaks (RULES), `edit`
    its line, and `why` what the launcher says of it, where that was found."""

    def __init__(self, edit: str, rule: int, why: str = ""):
        self.edit, self.rule, self.why = edit, rule, why
        words = f"{edit}: {EDIT_RULES[rule]} (rule {rule}){': ' if why else ''}{why}"
        super().__init__(0, f"line 1 refused {rule}\n", words)

    def __reduce__(self) -> tuple[type, tuple[str, int, str]]:
        return EditRefused, (self.edit, self.rule, self.why)


class _RowRefused(Refused):
    """A row isn't accepted: `row`, from 1, and `why`, which is `malformed`, `name` or `range`; or there are too many,
    and `row` is None."""

    what = "text"

    def __init__(self, status: int, text: str, row: int | None, why: str):
        self.row, self.why = row, why
        super().__init__(status, text, f"the {self.what} is refused: {why if row is None else f'row {row}: {why}'}")


class TraceRefused(_RowRefused):
    """The trace is malformed: `row`, from 1, and `why`, which is `malformed`, `name` or `range`; or there are too many
    rows or jobs."""

    what = "trace"


class ScheduleRefused(_RowRefused):
    """The schedule is malformed: `row`, from 1, and `why`, which is `malformed`, `name` or `range`; or there are too
    many rows."""

    what = "schedule"


class TraceDisobeys(Refused):
    """The trace doesn't obey the system; `text` tells the first breach."""

    def __init__(self, status: int, text: str):
        super().__init__(status, text, text.strip())


class NameRefused(Refused):
    """The resource of an order, the task whose slack is asked for, or one of a chain can't be taken; `reason` is the
    number in the line."""

    def __init__(self, status: int, text: str, command: str, reason: int):
        self.reason = reason
        chain = f"no task has the name in place {reason} of the chain"
        super().__init__(status, text, chain if command == "chain" else WORD_REASONS[command, reason])


class ChainsRefused(Refused):
    """The chains aren't accepted: `reason` is the number in the line, `place` that of the chain, from 1, or 0 for all
    of them, and `name` its name, where it is known."""

    def __init__(self, status: int, text: str, reason: int, place: int, name: str | None = None):
        self.reason, self.place, self.name = reason, place, name
        where = f"chain {name!r}" if name is not None else f"chain {place}" if place else "the file of chains"
        why = CHAIN_REASONS[reason]
        super().__init__(status, text, f"{where}: {why.heading} (reason {reason}): {why.says}")
