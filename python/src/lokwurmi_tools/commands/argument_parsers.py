"""Readers of the words behind a command: argparse stands in this room alone."""
import argparse
import itertools
import os
import sys
import textwrap
from collections.abc import Callable, Sequence
from dataclasses import fields
from typing import Any, NoReturn, TypeVar

from lokwurmi.model.units import time_of
from lokwurmi_tools.commands.catalogue import named
from lokwurmi_tools.shared.faults import Fault, Told
from lokwurmi_tools.shared.program import LAUNCHER

# how many letters a line of prose has at most, and the status of words that the program doesn't accept
WIDTH, NO_WORDS = 120, 10
# the words that name a file to write, and what those are called that name one to read
WRITTEN = ("--to", "--output", "--script", "--draw")
READ = ("A", "B", "CHAINS", "DATABASE", "FILE", "GRID", "LOG", "REPORT", "SCHEDULE", "SCRIPT", "SYSTEM", "TRACE")
# the typed options of a room
Options = TypeVar("Options")


class HelpForm(argparse.RawDescriptionHelpFormatter):
    """A help whose prose is as wide as the terminal, up to WIDTH; lines that are indented, as examples, stay."""

    def _fill_text(self, text: str, width: int, indent: str) -> str:
        # argparse leaves two columns free
        room, lines = min(WIDTH, self._width + 2), []
        for is_prose, several in itertools.groupby(text.splitlines(), lambda it: it[:1].strip() != ""):
            if is_prose:
                lines += textwrap.wrap(" ".join(several), room, break_long_words=False, break_on_hyphens=False)
            else:
                lines += several
        return "\n".join(indent + it for it in lines)


class StoredOnce(argparse._StoreAction):
    """A word with a value, which stands once: of two the first would be passed over."""

    def __call__(self, parser: Any, namespace: Any, values: Any, option_string: str | None = None) -> None:
        if option_string is not None and self.dest in parser.seen:
            parser.error(f"{option_string} stands twice: write it once")
        parser.seen.add(self.dest)
        super().__call__(parser, namespace, values, option_string)


class WordReader(argparse.ArgumentParser):
    """A reader of words that refuses an option that stands twice, and a file to write that is read, too."""

    def __init__(self, *words: Any, **more: Any):
        super().__init__(*words, **more)
        self.seen: set[str] = set()
        self.given: list[str] = []
        for name in (None, "store"):
            self.register("action", name, StoredOnce)

    def parse_known_args(self, args: Any = None, namespace: Any = None) -> Any:
        self.seen.clear()
        self.given = list(sys.argv[1:] if args is None else args)
        found, rest = super().parse_known_args(args, namespace)
        self.check_files(found)
        return found, rest

    def error(self, message: str) -> NoReturn:
        """The same, with what helps where a file begins as an option does, or words that belong together don't stand
        so."""
        if file := next((it for it in self.given if it.startswith("-") and os.path.exists(it)), None):
            message += f"; write ./{file} for the file {file}"
        elif message.startswith("unrecognized arguments") and not message.split(": ")[1].startswith("-"):
            message += "; words that aren't options stand together, behind the options or before them"
        super().error(message)

    def files_of(self, words: argparse.Namespace, is_written: bool) -> list[tuple[str, str]]:
        """The files to write, or those to read, each with the word that names it."""
        found = []
        for it in self._actions:
            option = next((name for name in it.option_strings if name in WRITTEN), None)
            if (option is not None) is is_written and (is_written or it.metavar in READ):
                value = getattr(words, it.dest, None)
                several: Sequence[Any] = value if isinstance(value, list) else [value]
                found += [(option or str(it.metavar), one) for one in several if isinstance(one, str)]
        return found

    def check_files(self, words: argparse.Namespace) -> None:
        """Refuses to write a file over one that is read, or one over another."""
        written = self.files_of(words, True)
        for place, (option, file) in enumerate(written):
            for other, one in self.files_of(words, False) + written[:place]:
                if is_same(file, one):
                    raise Fault(f"{option} {file}: {other} names the same file: write another one")


def is_same(one: str, other: str) -> bool:
    """Whether two names are those of one file, that is there or not; devices and pipes may be written and read."""
    if os.path.isfile(one) and os.path.isfile(other):
        return os.path.samefile(one, other)
    return not os.path.exists(one) and os.path.realpath(one) == os.path.realpath(other)


def reader_of(name: str, description: str | None, examples: str = "") -> argparse.ArgumentParser:
    """A reader of a command's words, whose help has an example that runs."""
    epilog = examples or f"example:\n  ./lokwurmi {named(name).example}"
    return WordReader(prog=f"lokwurmi {name}", description=description, epilog=epilog, formatter_class=HelpForm)


def options_of(kind: type[Options], words: argparse.Namespace, **more: Any) -> Options:
    """The typed options of a room: each field has the word of its name, or what is told beside the words."""
    names = [it.name for it in fields(kind)]
    return kind(**{name: more[name] if name in more else getattr(words, name) for name in names})


def word_of(reader: Callable[[str], Any]) -> Callable[[str], Any]:
    """A reader of one word for argparse, whose message is that of the ValueError."""

    def read(word: str) -> Any:
        try:
            return reader(word)
        except ValueError as fault:
            raise argparse.ArgumentTypeError(str(fault)) from fault

    return read


def parsed(reader: argparse.ArgumentParser, arguments: list[str] | None) -> argparse.Namespace:
    """The words of a call whose status says something of bounds; words that aren't accepted end with that of the
    program, since 2 says something here."""
    try:
        return reader.parse_args(arguments)
    except SystemExit as end:
        if end.code:
            raise Told(NO_WORDS) from end
        raise


def add_tick(reader: argparse.ArgumentParser) -> None:
    """The word that has times shown in place of ticks."""
    says = "the time of a tick, as 1us: shows times in place of ticks"
    reader.add_argument("--tick", metavar="TIME", type=word_of(time_of), help=says)


def check_span(start: int, until: int | None) -> None:
    """Refuses a part of a picture, in ticks, that has none."""
    if start < 0 or until is not None and until <= start:
        raise Fault("the time from --from to --until has no tick")


def add_program(reader: argparse.ArgumentParser) -> None:
    """The word that names the program that is called."""
    where = (
        "what is called; if absent the script lokwurmi of the repository, which builds the program, or lokwurmi in PATH"
    )
    reader.add_argument("--program", metavar="PROGRAM", default=LAUNCHER, help=where)


def add_picture(reader: argparse.ArgumentParser, is_required: bool = False) -> None:
    """The word that names the picture that is written."""
    says = "a name that ends with .svg, .png or .pdf"
    reader.add_argument("--to", metavar="PICTURE", required=is_required, help=says)
