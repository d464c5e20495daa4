"""A system file that was read once and analysed once, for all that is told of it."""
import os
import stat
from dataclasses import dataclass

from lokwurmi.model.view import SystemView
from lokwurmi.refusals.remark import printable
from lokwurmi.results.reports import Report
from lokwurmi_tools.shared.faults import Fault
from lokwurmi_tools.shared.program import often, written_by
from lokwurmi_tools.shared.report import reports_in
from lokwurmi_tools.shared.system_file import read_system


@dataclass(frozen=True)
class Analysed:
    """A system file, what stands in it, the report that `lokwurmi analyse` wrote of it, and the program that was
    called, as it was named."""

    file: str
    program: str
    view: SystemView
    report: Report

    @property
    def direct(self) -> str:
        """What to call for more, without the launcher between; it hasn't `chain`, `chains` and `schedule`."""
        return often(self.program)


def is_pipe(file: str) -> bool:
    """Whether a file is a pipe, which is read once."""
    try:
        mode = os.stat(file).st_mode
    except OSError:
        return False
    return stat.S_ISFIFO(mode) or stat.S_ISSOCK(mode)


def analysed(program: str, file: str) -> Analysed:
    """A system file with its report; one that is refused ends the command, and so does a pipe: what is read here isn't
    left for the program."""
    if is_pipe(file):
        raise Fault(
            f"{printable(file)}: this command reads its file several times: write what comes from a pipe into one"
        )
    view = read_system(file)
    text = written_by(program, "analyse", file)
    return Analysed(file, program, view, reports_in(text, file)[-1])
