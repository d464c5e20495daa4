"""Has a system and its chains judged by the program, for the tools that give one status for all of it."""
import os
import sys
import tempfile
from collections.abc import Iterable, Iterator
from contextlib import contextmanager
from fractions import Fraction

from lokwurmi.errors import LokwurmiError
from lokwurmi.files.documents import Document
from lokwurmi.files.text_files import decoded
from lokwurmi.model.limits import LIMITS, MOST_BYTES, NEWEST
from lokwurmi.model.units import Time
from lokwurmi.model.view import SystemView
from lokwurmi.refusals.front import is_regular
from lokwurmi.refusals.remark import printable
from lokwurmi.refusals.silence import asked_in, sentences_on
from lokwurmi.results.effect_chains import ChainsReport, chains_report, judged_between_ticks
from lokwurmi.results.reports import Report, reports
from lokwurmi_tools.shared.chain_files import read_chains
from lokwurmi_tools.shared.faults import Fault, Told
from lokwurmi_tools.shared.program import call, end_refused
from lokwurmi_tools.shared.system_file import clock_words_on, noticed_in
from lokwurmi_tools.shared.times import Scale

# statuses of the program: where it doesn't take words, where an output can't be written, and out of memory; and that of
# the launcher where there is no answer
NO_WORDS, NO_MEMORY, FAILED = 10, 30, 70
# a byte more than a system of any format or a file of chains may have: what is cut off there is refused as too long
ENOUGH = max(LIMITS[NEWEST].file_bytes, *MOST_BYTES.values()) + 1


class Given:
    """A file by the name that was given, and by one under which it can be read several times: of a pipe that is a
    copy."""

    def __init__(self, name: str, room: str):
        self.name = self.path = name
        if is_regular(name):
            return
        try:
            with open(name, "rb") as it:
                data = it.read(ENOUGH)
        except OSError:
            # the program says what there is to say of it
            return
        self.path = os.path.join(room, str(len(os.listdir(room))))
        with open(self.path, "wb") as copy:
            copy.write(data)

    def text(self) -> str:
        """What stands in it, with line feeds alone."""
        with open(self.path, "rb") as it:
            return decoded(it.read()).replace("\r\n", "\n")


@contextmanager
def room() -> Iterator[str]:
    """A folder for copies of pipes."""
    with tempfile.TemporaryDirectory(prefix="lokwurmi") as it:
        yield it


def answered(program: str, command: str, *files: Given) -> str:
    """What the program writes of files; a refusal ends the tool by its status, with its line and its words."""
    status, text = call(program, command, *(it.path for it in files))
    if 0 <= status < NO_WORDS:
        return text
    end_refused(status, text, command, *(it.path for it in files), names={it.path: it.name for it in files})


def time_of(tick: Fraction | None) -> Time | None:
    """The time of a tick, if there is one."""
    return None if tick is None else Time(tick)


def report_of(program: str, file: Given, tick: Fraction | None = None) -> Report:
    """The report of a system file."""
    return reports(answered(program, "analyse", file), time_of(tick))[-1]


def view_of(file: Given) -> SystemView:
    """What stands in a system file that was accepted."""
    try:
        return SystemView.of(Document(file.text()).values)
    except (OSError, ValueError, RecursionError) as fault:
        raise Fault(f"{file.name}: the program accepts it, but it can't be read here: {fault}")


def chains_of(program: str, file: Given, chains: Given, tick: Fraction | None = None) -> ChainsReport:
    """The judged chains of a file; with a tick each bound has one more for each of its waits, with which it holds
    between ticks too."""
    found = chains_report(answered(program, "chains", file, chains), time_of(tick))
    if tick is None:
        return found
    view = view_of(file)
    tasks = {it.name: it.tasks for it in read_chains(chains.path, view)}
    return judged_between_ticks(found, tasks, {name: list(it.after) for name, it in view.tasks.items()})


@contextmanager
def distinct() -> Iterator[None]:
    """What goes wrong has a status that is none of those that say something of bounds."""
    try:
        yield
    except MemoryError as fault:
        raise Fault("out of memory", NO_MEMORY) from fault
    except LokwurmiError as fault:
        if getattr(fault, "status", 1) >= NO_WORDS:
            raise
        raise Told(FAILED) if isinstance(fault, Told) else Fault(str(fault), FAILED) from fault


def silences(file: Given, chains: Given | None) -> list[str]:
    """The waits for sporadic sources that leave bounds of chains open, a sentence each."""
    return [] if chains is None else sentences_on(file.text(), asked_in(chains.text()))


def premises_on(file: Given) -> list[str]:
    """What the bounds of a system file presume that was accepted, where it has clocks."""
    return clock_words_on(file.text())


def tell(file: Given, notices: Iterable[str]) -> None:
    """Says notices on a file on standard error, but where `--quiet` keeps them back."""
    if os.environ.get("LOKWURMI_QUIET", "") in ("", "0"):
        for it in notices:
            print(f"{printable(file.name)}: notice: {it}", file=sys.stderr)


def notices_on(file: Given, chains: Given | None) -> list[str]:
    """The notices on a system file that was accepted, and on its chains."""
    return [*noticed_in(file.path), *silences(file, chains)]


def put(text: str) -> None:
    """Writes what a tool answers."""
    sys.stdout.write(text)
    sys.stdout.flush()


class TickTexts:
    """How ticks are shown: as they are, and with the time that they are behind them where a tick has one."""

    def __init__(self, tick: Fraction | None):
        self.scale, self.is_timed = Scale(tick), tick is not None

    def text(self, ticks: int | None, sign: str = "") -> str:
        """So many ticks, or `overload`; above 0 with a sign."""
        if ticks is None:
            return "overload"
        plus = sign if ticks > 0 else ""
        return f"{plus}{ticks}" + (f" ({plus}{self.scale.text(ticks)})" if self.is_timed else "")
