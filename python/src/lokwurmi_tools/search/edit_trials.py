"""Tries edits of a system, each alone, in one session of the proved program, for the tools beside it."""
import tempfile
from typing import NamedTuple

from lokwurmi.results.reports import Report
from lokwurmi_tools.shared.faults import OwnFault
from lokwurmi_tools.shared.program import call
from lokwurmi_tools.shared.report import reports_in


class Trial(NamedTuple):
    """Lines of a script that change a system, and those that change it back."""

    edits: list[str]
    back: list[str]

    def lines(self) -> list[str]:
        return [*self.edits, "report", *self.back]


def reports_after(program: str, file: str, trials: list[Trial], before: Report) -> list[Report]:
    """The report of a file after each of some trials alone. The report of the file as it is must come at the end
    again."""
    # a file without a name, of which nothing is left behind; the standard input may be the system
    with tempfile.TemporaryFile("w", encoding="ascii") as script:
        script.write("".join(f"{line}\n" for it in trials for line in it.lines()))
        script.seek(0)
        number = script.fileno()
        status, text = call(program, "session", file, f"/dev/fd/{number}", opened=(number,))
    is_refused = text.startswith("line ") or "\nline " in text
    if not 0 <= status < 10 or is_refused:
        raise OwnFault(f"lokwurmi session ends with {status}: {text[:200]!r}")
    reports = reports_in(text, "lokwurmi session")
    if len(reports) != len(trials) + 1 or reports[-1] != before:
        raise OwnFault("the system isn't as before after the edits")
    return reports[:-1]
