"""Why files and edits are refused: the numbers in the program's lines, in words (docs/FILES.md, whose headings these
are)."""
from typing import NamedTuple

from lokwurmi.model.formats import FORMATS
from lokwurmi.model.limits import (
    LIMITS,
    MOST_CHAINS,
    MOST_IN_CHAIN,
    MOST_IN_NAME,
    MOST_SECTIONS,
    MOST_STARTS,
    MOST_STREAMS,
    MOST_TICKS,
    NEWEST,
)


class Reason(NamedTuple):
    """A reason: its heading, and what may be wrong with the entry that a line names."""

    heading: str
    says: str


_FORMATS = f"{', '.join(map(str, FORMATS[:-1]))} or {FORMATS[-1]}"


def _counts(form: int) -> str:
    """How many entries a format has room for."""
    *first, last = (f"{most:,} {part}s" for part, most in LIMITS[form].entries.items())
    return f"{', '.join(first)} and {last}"


_LARGER = f"; in format {NEWEST} {_counts(NEWEST)}" if LIMITS[NEWEST] != LIMITS[FORMATS[0]] else ""
SYSTEM_REASONS = {
    13: Reason("another format", f"the format is {_FORMATS}"),
    1: Reason("the form", "it hasn't the form: a key that isn't known or is missing, or a value of another type"),
    2: Reason("a number out of its range", "a number is out of its range"),
    3: Reason(
        "a name of another form", f"its name hasn't the form of one: 1 to {MOST_IN_NAME} letters, digits, _, - and ."
    ),
    4: Reason("a name twice", "an earlier entry has its name"),
    5: Reason("a name of nothing", "a name in it names nothing"),
    6: Reason("no source at the beginning", "what starts it leads to no source"),
    7: Reason("a chain too long", f"a chain up to it has more than {MOST_IN_CHAIN} tasks"),
    8: Reason("a priority twice", "an earlier task of its resource has its priority"),
    9: Reason(
        "what doesn't fit the kind", "a key in it doesn't fit the kind of the resource, or one is missing for it"
    ),
    10: Reason("best above worst", "`best` is above `worst`"),
    11: Reason("a path that isn't linked", "it has no task, or one that doesn't come after the one before it"),
    12: Reason("too many entries", f"there are at most {_counts(FORMATS[0])}{_LARGER}"),
    14: Reason("no activator, or too many", f"it has no activator, one twice, or more than {MOST_STREAMS} streams"),
    15: Reason(
        "a clock that repeats too seldom",
        f"with it the cycle of its clock is above {MOST_TICKS:,} ticks, or has more than {MOST_STARTS:,} events",
    ),
    16: Reason(
        "critical sections that don't fit",
        f"it has more than {MOST_SECTIONS} critical sections, some that cross or stand beside a region, or a lock that"
        " a task on another resource has",
    ),
}
"""Why a system file is refused, by the reason of status 14."""
CHAIN_REASONS = {
    13: Reason("another format", "the format is 1"),
    1: SYSTEM_REASONS[1],
    2: Reason("a number out of its range", f"a deadline is 1 to {MOST_TICKS:,} ticks"),
    3: SYSTEM_REASONS[3],
    4: SYSTEM_REASONS[4],
    5: Reason("a name of no task", "a name in it names no task"),
    11: Reason("the number of tasks", f"it has no task, or more than {MOST_IN_CHAIN}"),
    12: Reason("too many entries", f"there are at most {MOST_CHAINS} chains"),
}
"""Why a file of chains is refused, by the reason of status 18."""
EDIT_RULES = {
    1: "a name names nothing, or no such thing as is wanted",
    2: "the kind of the resource has no such number",
    3: "a number is out of its range",
    4: "another task of the resource has the priority",
    5: "the least execution is above the greatest",
    6: "the task is among another's activators, or a path names it",
    7: "a source or a task has the name already",
    8: "there are as many tasks as its format has room for",
    9: f"the chain would have more than {MOST_IN_CHAIN} tasks",
    10: "the offset isn't below the period, or the clock's cycle or its events are too many",
}
"""The rules that an edit may break."""
WORD_REASONS = {
    ("assign", 1): "no resource has the name",
    ("assign", 2): "its tasks have no priorities",
    ("assign", 3): "a task on it has a task among its activators",
    ("assign", 4): "a task on it comes after a source on a clock, and it is a bus, or a task has a region or a lock",
    ("slack", 1): "no task has the name",
}
"""Why the resource of `assign` or the task of `slack` is refused."""
ROW_FAULTS = {
    "malformed": "it hasn't the three fields of its form",
    "name": "a name in it names nothing that it may",
    "range": "a number in it is out of its range",
}
"""What is wrong with a row of a trace or a schedule."""


def section_of(reason: int) -> str:
    """The heading of a reason in docs/FILES.md, "Refusals"."""
    return f"{reason}: {SYSTEM_REASONS[reason].heading}"
