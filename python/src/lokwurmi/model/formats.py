"""The formats of a system file, and what each has that those before it haven't (docs/FILES.md, "The system")."""
from collections.abc import Iterable, Mapping
from typing import Any

from lokwurmi.model.limits import LIMITS, NEWEST, times_of

FORMATS = tuple(LIMITS)
"""The formats of a system file, the newest one last."""
WITH_LISTS = 2
"""The first format in which a task's `after` may be a list."""
KEYS_SINCE = {
    "resource": {"rate": 4},
    "source": {"sporadic": 4, "clock": 4, "offset": 4},
    "task": {"region": 4, "locks": 4},
}
"""The keys of each list that a later format has alone, each with the first that has it."""
KINDS_SINCE = {"fifo": 4, "ceiling": 4}
"""The kinds of resource that a later format has alone, each with the first that has it."""


def _is_beyond(form: int, entries: Mapping[str, list[Mapping[str, Any]]]) -> bool:
    """Whether there are more entries, or longer times, than a format has room for."""
    limits, newest = LIMITS[form], LIMITS[NEWEST]
    if limits == newest:
        return False
    times, longer = times_of(limits), times_of(newest)
    for part, rows in entries.items():
        most = {key: most for key, (_, _, most) in times[part].items() if most < longer[part][key][2]}
        too_long = any(isinstance(row.get(key), int) and row[key] > most[key] for row in rows for key in most)
        if too_long or len(rows) > limits.entries[part]:
            return True
    return False


def least_format(entries: Mapping[str, Iterable[Mapping[str, Any]]]) -> int:
    """The least format that has all that some entries have, by their lists; the least of all where none has it.

    >>> least_format({"task": [{"name": "a", "after": "s"}]}), least_format({"task": [{"name": "a", "after": ["s"]}]})
    (1, 2)
    """
    lists = {part: list(several) for part, several in entries.items()}
    later = [keys[key] for part, keys in KEYS_SINCE.items() for it in lists.get(part, []) for key in it if key in keys]
    later += [form for kind, form in KINDS_SINCE.items() for it in lists.get("resource", []) if it.get("kind") == kind]
    wanted = max(later, default=FORMATS[0])
    if any(isinstance(it.get("after"), list) for it in lists.get("task", [])):
        wanted = max(wanted, WITH_LISTS)
    fitting = [form for form in FORMATS if form >= wanted and not _is_beyond(form, lists)]
    return fitting[0] if fitting else wanted
