"""Runs a command: `python3 -m lokwurmi_tools COMMAND ..`, which `lokwurmi COMMAND ..` calls."""
import os
import signal
import sys
from typing import NoReturn

from lokwurmi.errors import LokwurmiError
from lokwurmi.refusals.remark import printable
from lokwurmi_tools.commands.catalogue import COMMANDS, ToolCommand, command_of
from lokwurmi_tools.shared.faults import Fault, Told
from lokwurmi_tools.shared.packages import Missing, go_on
from lokwurmi_tools.shared.pipes import Output, Patient
from lokwurmi_tools.shared.streams import open_streams

# the signals that end a command once it is tidied up
ENDING = (signal.SIGTERM, signal.SIGHUP)


def commands_text() -> str:
    """The commands, a line each."""
    return "\n".join(f"  {it.name:<15}  {it.does}" for it in COMMANDS)


def is_asked_for_help(words: list[str]) -> bool:
    return words[:1] in ([], ["help"], ["-h"], ["--help"])


def find(words: list[str]) -> tuple[str, int]:
    """What is said where words begin with no command, and the status."""
    several = [it for it in COMMANDS if it.name.split()[:1] == words[:1]]
    if several and words[1:] in (["-h"], ["--help"]):
        return "\n".join(f"  ./lokwurmi {it.name} --help  {it.does}" for it in several), 0
    if several:
        names = ", ".join(it.name.split()[1] for it in several)
        return f"lokwurmi {words[0]}: name one of {names}: ./lokwurmi {words[0]} --help", 2
    return f"lokwurmi {words[0]}: there is no such command; these are:\n{commands_text()}", 2


def end_by(number: int) -> NoReturn:
    """Ends by a signal, as a program does that doesn't know of it."""
    # what is left to write has no reader
    os.dup2(os.open(os.devnull, os.O_WRONLY), sys.stdout.fileno())
    signal.signal(number, signal.SIG_DFL)
    os.kill(os.getpid(), number)
    raise SystemExit(128 + number)


def say(fault: str) -> None:
    """Says what ends a command, without what a terminal would obey."""
    print("\n".join(map(printable, fault.split("\n"))), file=sys.stderr)


def answered(command: ToolCommand, words: list[str]) -> int:
    """The status of a command whose output is out."""
    try:
        status = command.main()(words) or 0
    except SystemExit:
        # of --help, or of a word that isn't known
        sys.stdout.flush()
        raise
    sys.stdout.flush()
    return status


def run(words: list[str]) -> int:
    """Runs a command, and gives its status; what it has written is out."""
    found = command_of(words)
    if found is None:
        text, status = find(words)
        print(text, file=sys.stderr if status else sys.stdout, flush=True)
        return status
    command, rest = found
    try:
        return answered(command, rest)
    except LokwurmiError as fault:
        if not isinstance(fault, Told):
            say(f"lokwurmi {command.name}: {fault}")
        status = getattr(fault, "status", 1)
        return status if status > 0 else 1
    except Missing as fault:
        return go_on(command.name, fault, words)
    except KeyboardInterrupt as end:
        print(f"lokwurmi {command.name}: interrupted", file=sys.stderr)
        if end.args:
            end_by(end.args[0])
        return 130


def perform(words: list[str]) -> int:
    """The same, and help; where who reads has enough of it this ends as a program does then. What is told on standard
    error has no say in that before the end, so that a file is whole by then."""
    open_streams()
    sys.stderr = told = Patient(sys.stderr)  # type: ignore[assignment]
    sys.stdout = written = Output(sys.stdout)  # type: ignore[assignment]
    try:
        if not is_asked_for_help(words):
            status = run(words)
        else:
            print(
                f"{commands_text()}\n\n./lokwurmi COMMAND --help shows the words of each, and an example.", flush=True
            )
            status = 0
    except BrokenPipeError:
        end_by(signal.SIGPIPE)
    except Fault as fault:
        say(f"lokwurmi: {fault}")
        status = fault.status
    finally:
        sys.stdout, sys.stderr = written.stream, told.stream
    if told.is_left:
        end_by(signal.SIGPIPE)
    return status


def interrupted(number: int, _: object) -> NoReturn:
    """Ends a command by a signal once its temporary files are gone. One more is passed over: `timeout` sends two."""
    for it in ENDING:
        signal.signal(it, signal.SIG_IGN)
    raise KeyboardInterrupt(number)


def main() -> NoReturn:
    for it in ENDING:
        # under nohup a signal is ignored
        if signal.getsignal(it) is signal.SIG_DFL:
            signal.signal(it, interrupted)
    sys.exit(perform(sys.argv[1:]))


if __name__ == "__main__":
    main()
