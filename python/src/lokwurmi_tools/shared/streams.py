"""The standard streams of a process that may have been started without one."""
import os
import sys


def open_streams() -> None:
    """Has both outputs be there, so that no file takes the place of one that was closed: to a standard output that was
    closed nothing can be written, and what is told on such a standard error is lost."""
    for number, mode in ((1, os.O_RDONLY), (2, os.O_WRONLY)):
        try:
            os.fstat(number)
        except OSError:
            opened = os.open(os.devnull, mode)
            if opened != number:
                os.dup2(opened, number, inheritable=False)
                os.close(opened)
    if sys.stdout is None:
        sys.stdout = open(1, "w", encoding="utf-8", closefd=False)
    if sys.stderr is None:
        sys.stderr = open(2, "w", encoding="utf-8", closefd=False)
