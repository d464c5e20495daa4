"""Reads the lines that Lokwurmi writes. docs/FILES.md says what each of them means; times are in ticks."""
import re
from collections.abc import Sequence
from typing import Any

from lokwurmi.errors import Unreadable

_STREAM = r"period (?P<period>\d+) jitter (?P<jitter>\d+|overload) distance (?P<distance>\d+|overload)"
TASK = re.compile(
    rf"task (?P<name>\S+) (?P<on>\S+) (?:{_STREAM}|streams (?P<streams>\d+))"
    r" best (?P<best>\d+) worst (?P<worst>\d+|overload)"
)
PATH = re.compile(
    r"path (?P<name>\S+) best (?P<best>\d+) worst (?P<worst>\d+|overload) deadline (?P<deadline>\d+|-)"
    r" (?P<verdict>met|missed|unknown|none)"
)
SUMMARY = re.compile(r"summary tasks (\d+) overload (\d+) missed (\d+)")
LINE = re.compile(r"line (\d+)")
REFUSED = re.compile(r"line (\d+) refused (\d+)")
SEEN_TASK = re.compile(r"task (\S+) jobs (\d+) done (\d+) worst (\d+|none)")
SEEN_PATH = re.compile(r"path (\S+) passages (\d+) worst (\d+|none)")
SEEN_SUMMARY = re.compile(r"summary jobs (\d+) done (\d+) end (\d+)")
HAMMERED = re.compile(r"task (\S+) jobs (\d+) worst (\d+|none) bound (\d+|overload)")
HAMMERED_SUMMARY = re.compile(r"summary traces (\d+) jobs (\d+) beyond (\d+)")
PRIORITY = re.compile(r"priority (\S+) (\d+)")
ASSIGNED = re.compile(r"assigned (\S+) tasks (\d+)")
SLACK = re.compile(r"slack (\S+) (?:(\d+) next (missed|limit)|none)")
BUFFER = re.compile(r"buffer (\S+) bound (\d+|overload) peak (\d+)")
RESOURCE = re.compile(r"resource (\S+) bound (\d+|overload) peak (\d+)")
QUEUE = re.compile(r"queue (\S+) work (\d+|overload)")
WRONG = re.compile(r"audit wrong segment (\d+) expected (?:none|(\S+) (\d+) (\d+))")
SEGMENT = re.compile(r"(\S+),(\d+),(\d+)")
# what the bounds of effect chains presume
_PREMISE = " if sources stay near"
STEP = re.compile(r"step (?P<name>\S+) (?P<kind>\S+) wait (?P<wait>\d+|overload) response (?P<response>\d+|overload)")
TOTAL = re.compile(
    r"chain(?P<running> while-running)? tasks \d+ reaction (?P<reaction>\d+|overload) age (?P<age>\d+|overload)"
    rf" held (?P<held>\d+|overload){_PREMISE}"
)
_JUDGED = r"(?P<{0}>\d+|overload) deadline (?P<{0}_deadline>\d+|-) (?P<{0}_verdict>met|missed|unknown|none)"
CHAIN = re.compile(
    rf"chain (?P<name>\S+) tasks (?P<tasks>\d+) reaction {_JUDGED.format('reaction')} age {_JUDGED.format('age')}"
    rf"(?: held {_JUDGED.format('held')})?"
)
CHAINS = re.compile(rf"summary chains (\d+) overload (\d+) missed (\d+){_PREMISE}")


def summary_of_chains(chains: int, overload: int, missed: int) -> str:
    """The last line of what `chains` writes."""
    return f"summary chains {chains} overload {overload} missed {missed}{_PREMISE}"


def number(word: str) -> int | None:
    """A number, or None for `overload`, for `none` and for no deadline."""
    return int(word) if word.isdigit() else None


def task_in(it: re.Match[str]) -> dict[str, Any]:
    """What a task's line says. Where it has several streams, it has no period, no jitter and no distance."""
    period, jitter, distance = (word and number(word) for word in it.group("period", "jitter", "distance"))
    return {
        "on": it["on"],
        "period": period,
        "jitter": jitter,
        "distance": distance,
        "streams": int(it["streams"] or 1),
        "best": int(it["best"]),
        "worst": number(it["worst"]),
    }


def path_in(it: re.Match[str]) -> dict[str, Any]:
    """What a path's line says."""
    worst, deadline = number(it["worst"]), number(it["deadline"])
    return {"best": int(it["best"]), "worst": worst, "deadline": deadline, "verdict": it["verdict"]}


Parts = tuple[dict[str, dict[str, Any]], dict[str, dict[str, Any]], dict[int, int]]


def reports_in(lines: Sequence[str]) -> list[Parts]:
    """The reports of some lines, in order: the tasks and the paths of each, dictionaries by name, and which edits were
    refused before it, the reason by the number of the line."""
    found: list[Parts] = []
    tasks: dict[str, dict[str, Any]] = {}
    paths: dict[str, dict[str, Any]] = {}
    refused: dict[int, int] = {}
    for place, line in enumerate(lines, 1):
        if it := TASK.fullmatch(line):
            tasks[it["name"]] = task_in(it)
        elif it := PATH.fullmatch(line):
            paths[it["name"]] = path_in(it)
        elif SUMMARY.fullmatch(line):
            found.append((tasks, paths, refused))
            tasks, paths, refused = {}, {}, {}
        elif it := REFUSED.fullmatch(line):
            refused[int(it[1])] = int(it[2])
        else:
            raise Unreadable(f"line {place} is no line of a report: {line}")
    if not found or tasks or paths:
        raise Unreadable("there is no whole report; its last line begins with summary")
    return found


def seen_in(lines: Sequence[str]) -> tuple[dict[str, dict[str, Any]], dict[str, dict[str, Any]], int]:
    """What `simulate` observed: the tasks and the paths, each a dictionary by name, and the end of the run."""
    tasks: dict[str, dict[str, Any]] = {}
    paths: dict[str, dict[str, Any]] = {}
    end = None
    for place, line in enumerate(lines, 1):
        if it := SEEN_TASK.fullmatch(line):
            tasks[it[1]] = {"jobs": int(it[2]), "done": int(it[3]), "worst": number(it[4])}
        elif it := SEEN_PATH.fullmatch(line):
            paths[it[1]] = {"passages": int(it[2]), "worst": number(it[3])}
        elif it := SEEN_SUMMARY.fullmatch(line):
            end = int(it[3])
        else:
            raise Unreadable(f"line {place} is no line of a run: {line}")
    if end is None:
        raise Unreadable("there is no whole run; its last line begins with summary")
    return tasks, paths, end


def texts_in(text: str) -> list[str]:
    """The reports in what a session wrote, each as its text, which ends with the line of its summary."""
    found, start = [], 0
    while start < len(text):
        # no line before that of the summary begins with its word
        last = start if text.startswith("summary ", start) else text.find("\nsummary ", start) + 1
        end = text.find("\n", last) + 1
        if not end or not last and start:
            raise Unreadable("there is no whole report; its last line begins with summary")
        found.append(text[start:end])
        start = end
    return found
