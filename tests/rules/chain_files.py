"""When a file of chains is refused, as plain rules."""
import re
import tomllib

NAME = re.compile(r"[A-Za-z0-9_.-]{1,64}")
KEYS = {"name", "tasks", "reaction", "age", "held"}
MOST_TASKS, MOST_CHAINS, MOST_TICKS = 32, 128, 1_000_000_000
# TOML 1.1, which the program reads, allows a comma behind the last key of an inline table, and tomllib doesn't; no text
# of these files has such a sign
LAST_COMMA = re.compile(r",(\s*\})")


def has_form(entry):
    """A table with a name, a list of names of tasks, and integers as deadlines, and nothing else."""
    if not isinstance(entry, dict) or set(entry) - KEYS or not isinstance(entry.get("name"), str):
        return False
    tasks = entry.get("tasks")
    is_list = isinstance(tasks, list) and all(isinstance(it, str) for it in tasks)
    return is_list and all(type(entry.get(key, 0)) is int for key in ("reaction", "age", "held"))


def first(entries, is_wrong):
    """The place of the first entry that something is wrong with, from 1."""
    return next((place for place, it in enumerate(entries, 1) if is_wrong(it)), None)


def refusal_of(text, names):
    """Why a file of chains is refused over a system with tasks of these names: the reason, and the place of a chain or
    0; ("toml", 0) where it is no TOML; None where it isn't refused."""
    try:
        read = tomllib.loads(LAST_COMMA.sub(r"\1", text))
    except tomllib.TOMLDecodeError:
        return "toml", 0
    form, entries = read.get("format"), read.get("chain", [])
    if type(form) is int and form != 1:
        return 13, 0
    if type(form) is not int or set(read) - {"format", "chain"} or not isinstance(entries, list):
        return 1, 0
    if place := first(entries, lambda it: not has_form(it)):
        return 1, place
    known = [it["name"] for it in entries]
    wrong = {
        2: lambda it: any(not 1 <= it.get(key, 1) <= MOST_TICKS for key in ("reaction", "age", "held")),
        3: lambda it: not NAME.fullmatch(it["name"]),
        4: lambda it: known.index(it["name"]) < next(k for k, other in enumerate(entries) if other is it),
        5: lambda it: any(name not in names for name in it["tasks"]),
        11: lambda it: not 1 <= len(it["tasks"]) <= MOST_TASKS,
    }
    found = ((reason, first(entries, is_wrong)) for reason, is_wrong in wrong.items())
    many = (12, MOST_CHAINS + 1) if len(entries) > MOST_CHAINS else None
    return next((it for it in found if it[1]), many)
