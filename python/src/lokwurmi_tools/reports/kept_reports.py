"""Reads reports that `lokwurmi analyse` and `lokwurmi chains` wrote into files. One that isn't whole, or whose counts
and verdicts don't fit its numbers, is refused at its line and word."""
import re
from collections.abc import Sequence
from typing import NoReturn

from lokwurmi.model.units import Time
from lokwurmi.refusals.remark import printable
from lokwurmi.results.effect_chains import ChainsReport, chains_report
from lokwurmi.results.reports import Report, reports
from lokwurmi_tools.shared.faults import Fault

# the status of what is no system, and so of what is no report
NO_REPORT = 14
# how many letters of a word that doesn't fit are shown at most
MOST_SHOWN = 80
# how a line of a report begins; one of a system file goes on with `=`
BEGINS = re.compile(r"(?:task|path|summary|chain|line|step) +[^\s=]")
# a number has 64 bits at most
NAME, NUMBER = "[A-Za-z0-9_.-]{1,64}", "[0-9]{1,20}"
BOUND, LIMIT = f"{NUMBER}|overload", f"{NUMBER}|-"
VERDICT = "met|missed|unknown|none"
WORDS = {
    NAME: "a name",
    NUMBER: "a number",
    BOUND: "a number or overload",
    LIMIT: "a number or -",
    VERDICT: "met, missed, unknown or none",
}
JUDGED = (BOUND, "deadline", LIMIT, VERDICT)
ENDS = ("best", NUMBER, "worst", BOUND)
# the forms of the lines, each a list of what its words match
OF_REPORT: tuple[tuple[str, ...], ...] = (
    ("task", NAME, NAME, "period", NUMBER, "jitter", BOUND, "distance", BOUND, *ENDS),
    ("task", NAME, NAME, "streams", NUMBER, *ENDS),
    ("path", NAME, "best", NUMBER, "worst", *JUDGED),
    ("summary", "tasks", NUMBER, "overload", NUMBER, "missed", NUMBER),
)
CHAIN = ("chain", NAME, "tasks", NUMBER, "reaction", *JUDGED, "age", *JUDGED)
OF_CHAINS: tuple[tuple[str, ...], ...] = (
    CHAIN,
    (*CHAIN, "held", *JUDGED),
    ("summary", "chains", NUMBER, "overload", NUMBER, "missed", NUMBER, "if", "sources", "stay", "near"),
)


def is_report(text: str) -> bool:
    """Whether a text begins as a report does, and not as a system file or a file of chains."""
    first = next((line for line in text.splitlines() if line.strip()), "")
    return BEGINS.match(first) is not None


class ReportFile:
    """The lines of a report in a file, of the forms that it may have."""

    def __init__(self, name: str, text: str, command: str, forms: Sequence[Sequence[str]]):
        self.name, self.command, self.forms = name, command, forms
        self.lines = text.splitlines()

    def refuse(self, place: int, says: str) -> NoReturn:
        helps = f"keep what `lokwurmi {self.command}` writes as it is"
        raise Fault(f"{self.name}: line {place}: {says}; {helps}", NO_REPORT)

    def check_form(self, place: int, line: str) -> None:
        """Refuses a line that has none of the forms, at its first word that doesn't fit."""
        words = line.split(" ")
        best = (-1, "")
        for form in self.forms:
            at = next((k for k, it in enumerate(form) if k == len(words) or not re.fullmatch(it, words[k])), len(form))
            if at == len(form) == len(words):
                return
            best = max(best, (at, form[at] if at < len(form) else ""))
        word = f"`{printable(words[best[0]][:MOST_SHOWN])}`" if best[0] < len(words) else "the end of the line"
        wanted = f"isn't {WORDS.get(best[1], f'`{best[1]}`')}" if best[1] else "is a word too many"
        self.refuse(place, f"{word} {wanted}")

    def check(self) -> None:
        """Refuses lines that are none of a report, a name that stands there twice, and more than one report."""
        seen: set[tuple[str, ...]] = set()
        for place, line in enumerate(self.lines, 1):
            if place > 1 and self.lines[place - 2].startswith("summary "):
                self.refuse(place, "something stands behind the report: of several, as `session` writes, take one")
            self.check_form(place, line)
            key = tuple(line.split(" ")[:2])
            if key in seen:
                self.refuse(place, f"the {key[0]} `{key[1]}` stands there twice")
            seen.add(key)
            self.check_verdicts(place, line)
        if not self.lines or not self.lines[-1].startswith("summary "):
            self.refuse(len(self.lines) or 1, "the report isn't whole: its last line begins with summary")

    def check_verdicts(self, place: int, line: str) -> None:
        """Refuses a verdict that isn't that of its numbers."""
        for bound, limit, verdict in re.findall(rf" ({BOUND}) deadline ({LIMIT}) ({VERDICT})", line):
            wanted = "none" if limit == "-" else "unknown"
            if limit != "-" and bound != "overload":
                wanted = "met" if int(bound) <= int(limit) else "missed"
            if verdict != wanted:
                self.refuse(place, f"`{verdict}` is no verdict on {bound} with the deadline {limit}: that is {wanted}")

    def check_counts(self, wanted: Sequence[int]) -> None:
        """Refuses a summary whose counts aren't those of the lines."""
        found = [int(it) for it in re.findall(r" (\d+)", self.lines[-1])]
        if found != list(wanted):
            told = " ".join(map(str, wanted))
            self.refuse(len(self.lines), f"the counts of the summary aren't those of the lines, {told}")


def report_in(name: str, text: str, tick: Time | None) -> Report:
    """The report that `analyse` wrote into a file."""
    kept = ReportFile(name, text, "analyse", OF_REPORT)
    kept.check()
    tasks = [it for it in kept.lines if it.startswith("task ")]
    missed = sum(it.startswith("path ") and it.endswith(" missed") for it in kept.lines)
    kept.check_counts([len(tasks), sum(it.endswith(" overload") for it in tasks), missed])
    return reports(text, tick)[-1]


def chains_in(name: str, text: str) -> ChainsReport:
    """The judged chains that `chains` wrote into a file."""
    kept = ReportFile(name, text, "chains", OF_CHAINS)
    kept.check()
    rows = [it.split(" ")[2:] for it in kept.lines[:-1]]
    kept.check_counts([len(rows), sum("overload" in it for it in rows), sum("missed" in it for it in rows)])
    return chains_report(text)
