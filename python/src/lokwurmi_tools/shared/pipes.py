"""A standard error whose reader may have enough: what a command has to do it does whole, and ends as by the signal. And
a standard output that may not be written: then a command ends by the status of the program for that."""
import os
from typing import Any, TextIO

from lokwurmi.model.statuses import Status
from lokwurmi_tools.shared.faults import Fault


def drop(stream: TextIO) -> None:
    """Has nothing be left of a stream for the end of the process to write."""
    os.dup2(os.open(os.devnull, os.O_WRONLY), stream.fileno())


class Output:
    """A stream of text that ends the command where it can't be written; a reader that has enough is no such fault."""

    def __init__(self, stream: TextIO):
        self.stream = stream

    def write(self, text: str) -> int:
        try:
            return self.stream.write(text)
        except BrokenPipeError:
            raise
        except OSError as fault:
            raise self.fault(fault) from fault

    def flush(self) -> None:
        try:
            self.stream.flush()
        except BrokenPipeError:
            raise
        except OSError as fault:
            raise self.fault(fault) from fault

    def fault(self, fault: OSError) -> Fault:
        """What ends the command."""
        drop(self.stream)
        return Fault(f"the output can't be written: {fault.strerror}", Status.SINK_FAILED)

    def __getattr__(self, name: str) -> Any:
        return getattr(self.stream, name)


class Patient:
    """A stream of text that takes what nobody reads any more, and keeps that it was so. What can't be written, as to a
    terminal that is gone, is lost."""

    def __init__(self, stream: TextIO):
        self.stream, self.is_left = stream, False

    def write(self, text: str) -> int:
        if not self.is_left:
            try:
                self.stream.write(text)
                self.stream.flush()
            except BrokenPipeError:
                self.is_left = True
            except OSError:
                drop(self.stream)
        return len(text)

    def flush(self) -> None:
        """All is out already."""

    def __getattr__(self, name: str) -> Any:
        return getattr(self.stream, name)
