"""Prints the report of a system file: `python3 -m lokwurmi FILE`.

The text and the status are those of `lokwurmi analyse FILE`. What is refused is said in words on standard error.
"""
import argparse
import os
import signal
import sys
import warnings
from pathlib import Path

from lokwurmi.calls.engines import Engine, default_engine
from lokwurmi.calls.library import Library
from lokwurmi.calls.program import Program
from lokwurmi.calls.system import System
from lokwurmi.errors import LokwurmiError, NoEngine, SystemRefused, Unreadable
from lokwurmi.files.documents import Document
from lokwurmi.model.conversion import NoUnitWarning, RoundingWarning
from lokwurmi.model.statuses import Status
from lokwurmi.model.units import Time
from lokwurmi.refusals.program_lines import error_of
from lokwurmi.refusals.sentences import notices_of, refusal_words
from lokwurmi.results.reports import reports

EXAMPLE = """example:
  python3 -m lokwurmi examples/two_tasks.toml

status:
  0 all deadlines are met; 1 one is missed; 2 a task has no bound; 10 and above: refused, as docs/FILES.md says;
  70 there is neither a library nor a program
"""


def tick_word(word: str) -> Time:
    """The time of a tick, for argparse."""
    try:
        return Time.of(word)
    except ValueError as fault:
        raise argparse.ArgumentTypeError(str(fault)) from fault


def asked_for(words: list[str] | None) -> argparse.Namespace:
    """The words of a call."""
    form = argparse.RawDescriptionHelpFormatter
    reader = argparse.ArgumentParser("python3 -m lokwurmi", description=__doc__, epilog=EXAMPLE, formatter_class=form)
    reader.add_argument("file", metavar="FILE", help="a system file")
    which = reader.add_mutually_exclusive_group()
    which.add_argument("--program", metavar="PROGRAM", help="the program that analyses, in place of the library")
    which.add_argument("--library", metavar="LIBRARY", help="the library that analyses; that of the package if absent")
    what = "the time of a tick, as 1us: then times in FILE may have units, and each is rounded to its safe side"
    reader.add_argument("--tick", metavar="TIME", type=tick_word, help=what)
    return reader.parse_args(words)


def engine_of(asked: argparse.Namespace) -> Engine:
    """What analyses."""
    if asked.program is not None:
        return Program(asked.program)
    return Library(asked.library) if asked.library is not None else default_engine()


def text_of_file(asked: argparse.Namespace) -> bytes:
    """The system file, in ticks; roundings and numbers without a unit stand on standard error."""
    if asked.tick is None:
        return Path(asked.file).read_bytes()
    with warnings.catch_warnings():
        warnings.simplefilter("ignore", RoundingWarning)
        warnings.simplefilter("ignore", NoUnitWarning)
        system = System.from_file(asked.file, tick=asked.tick)
        text = system.to_toml()
    for it in system.roundings:
        print(it, file=sys.stderr)
    if bare := system._bare_text():
        print(bare, file=sys.stderr)
    return text.encode()


def refused(status: int, wrote: str, text: bytes) -> LokwurmiError:
    """Why a file isn't accepted, in words."""
    fault = error_of(status, wrote)
    if not isinstance(fault, SystemRefused):
        if why := refusal_words(wrote, text.decode("utf-8", "surrogateescape")):
            fault.args = (f"{fault}: {why}",)
        return fault
    several = Document(text.decode("utf-8", "surrogateescape")).values.get(fault.part, [])
    it = several[fault.place - 1] if isinstance(several, list) and 1 <= fault.place <= len(several) else None
    entry = it if isinstance(it, dict) else {}
    what = refusal_words(wrote, text.decode("utf-8", "surrogateescape"))
    return SystemRefused(status, wrote, fault.reason, fault.part, fault.place, entry.get("name"), what)


def is_written(text: str) -> bool:
    """Writes the report; says so where that can't be done, as on a full disk."""
    # a standard output that was closed is None
    if sys.stdout is not None:
        try:
            sys.stdout.write(text)
            sys.stdout.flush()
            return True
        except OSError:
            # nothing is left for the end of the process to write
            os.dup2(os.open(os.devnull, os.O_WRONLY), sys.stdout.fileno())
    print("the output can't be written", file=sys.stderr)
    return False


def is_report(wrote: str) -> bool:
    """Whether a report was written as a whole; says so where not, as of a program that is another one."""
    try:
        reports(wrote)
    except Unreadable as fault:
        print(f"what analyses isn't lokwurmi, or was ended: {fault}", file=sys.stderr)
        return False
    return True


def main(words: list[str] | None = None) -> int:
    """Prints the report, and gives the status."""
    asked = asked_for(words)
    try:
        engine = engine_of(asked)
        text = text_of_file(asked)
        status, wrote = engine.call("analyse", [text])
    except OSError as fault:
        print(f"cannot read {asked.file}")
        print(f"{asked.file}: can't be read: {fault.strerror or fault}", file=sys.stderr)
        return Status.FILE_UNREAD
    except NoEngine as fault:
        print(fault, file=sys.stderr)
        return Status.NO_PROGRAM
    except LokwurmiError as fault:
        print(fault, file=sys.stderr)
        return Status.WORDS_REFUSED
    if status >= Status.WORDS_REFUSED:
        told = str(refused(status, wrote, text))
        # the line of the program names the file
        wrote = (
            f"{wrote.removesuffix('system' + chr(10))}{asked.file}\n"
            if status in (Status.FILE_TOO_LONG, Status.NOT_TOML)
            else wrote
        )
        print(f"{asked.file}: {told}", file=sys.stderr)
    elif not is_report(wrote):
        return Status.NO_PROGRAM
    else:
        for it in notices_of(text.decode("utf-8", "surrogateescape").replace("\r\n", "\n")):
            print(f"{asked.file}: notice: {it}", file=sys.stderr)
    if not is_written(wrote):
        return Status.SINK_FAILED
    return status if status >= 0 else 128 - status


if __name__ == "__main__":
    # a reader of the output that ends early is no fault
    if hasattr(signal, "SIGPIPE"):
        signal.signal(signal.SIGPIPE, signal.SIG_DFL)
    sys.exit(main())
