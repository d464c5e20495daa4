"""Critical sections of tasks in words: what is wrong with their form, their numbers and names, and reason 16 of status
14."""
from __future__ import annotations

from collections.abc import Iterator

from lokwurmi.files.documents import Document, Table
from lokwurmi.files.system_keys import LOCK_KEYS, bare, holds, is_integer, is_name
from lokwurmi.files.toml_spans import Place, Span
from lokwurmi.model.limits import MOST_SECTIONS, NEWEST
from lokwurmi.refusals.remark import Note, Remark, nearest
from lokwurmi.refusals.spots import Spot, spots_in

LOCKS = "locks"
AS_TABLES = 'write locks = [{ name = "bus", start = 0, length = 5 }]: the lock, after how many ticks of each job it is'
MEANT = {
    "name": 'give the name of the lock: name = ".."',
    "start": "write start = N: after how many ticks of each job the section begins, 0 where it does at once",
    "length": "write length = N: for how many ticks of the job the lock is held",
}
OTHER_WORDS = {
    "start": ("offset", "begin", "after", "from", "at"),
    "length": ("duration", "worst", "wcet", "ticks", "hold", "region", "time", "len"),
    "name": ("lock", "resource", "mutex", "semaphore", "id"),
}
CEILING_TOLD = (
    "a lock's ceiling isn't written: it is the smallest priority number among the tasks that have the lock in their"
    ' `locks`, on a resource of the kind "ceiling"'
)
IN_TASKS = (
    'locks are told by the tasks that take them: on a resource of the kind "ceiling" a task has locks = [{ name ='
    f' "bus", start = 0, length = 5 }}], with `format = {NEWEST}`'
)


def sections(spot: Spot) -> list[Table]:
    """The critical sections of a task whose form is that of one."""
    found: list[Table] = spot.entry.get(LOCKS, [])
    return found


def place_of(spot: Spot, item: int) -> Place:
    """Where one of them stands."""
    return spot.document.place(spot.part, spot.at).values[LOCKS].items[item]


def name_span(spot: Spot, item: int) -> Span:
    return place_of(spot, item).values["name"].span


def has_keys(value: object) -> bool:
    """Whether a value is an array of tables with the keys of sections, whatever they have."""
    return isinstance(value, list) and all(isinstance(it, dict) and it.keys() == LOCK_KEYS.keys() for it in value)


def wrong_list(spot: Spot, what: str, has_types: bool = True) -> Remark:
    """Of a value of `locks`, told in words, that hasn't the form; without types that of its keys."""
    value = spot.entry[LOCKS]
    helps = f"{AS_TABLES} taken, and for how many it is held"
    if isinstance(value, dict):
        return spot.remark(f"`{LOCKS}` is one table, and has to be an array of them", spot.value(LOCKS), helps)
    if not isinstance(value, list):
        return spot.remark(f"`{LOCKS}` is {what}, and has to be an array of tables", spot.value(LOCKS), helps)
    return next(found for item in range(len(value)) if (found := wrong_section(spot, item, helps, has_types)))


def wrong_section(spot: Spot, item: int, helps: str, has_types: bool) -> Remark | None:
    """What is wrong with the form of one."""
    value = spot.entry[LOCKS][item]
    if not isinstance(value, dict):
        return spot.remark(f"its lock {item + 1} is no table", spot.item(LOCKS, item), helps)
    place = place_of(spot, item)
    for key, it in value.items():
        if key not in LOCK_KEYS:
            near = meant_by(key, [one for one in LOCK_KEYS if one not in value])
            guess, ways = (f"; did you mean `{near}`?", MEANT[near]) if near else ("", told_of(key))
            return spot.remark(f"the key `{key}` isn't known in its lock {item + 1}{guess}", place.keys[key], ways)
        if has_types and not holds(LOCK_KEYS[key], it, False):
            wanted = "a text in quotes" if key == "name" else "a whole number"
            says = f"`{key}` of its lock {item + 1} isn't {wanted}"
            return spot.remark(says, place.values[key].span, number_remedy(key, it) or MEANT[key])
    missing = next((key for key in LOCK_KEYS if key not in value), None)
    return spot.remark(f"its lock {item + 1} has no `{missing}`", place.span, MEANT[missing]) if missing else None


def meant_by(key: str, left: list[str]) -> str | None:
    """The key of a section that was most likely meant, of those that it hasn't."""
    meant = next((one for one, several in OTHER_WORDS.items() if bare(key) in several), None)
    return meant if meant in left else nearest(bare(key), left)


def told_of(key: str) -> str:
    return CEILING_TOLD if bare(key) == "priority" or "ceiling" in bare(key) else "leave it out"


def number_remedy(key: str, value: object) -> str:
    """What to write in place of a number that isn't whole, or has a unit."""
    if key == "name" or not isinstance(value, (str, float)):
        return ""
    more = ", a tick more than it lasts" if key == "length" else ""
    way = "" if isinstance(value, float) else "; or turn the file into one of ticks: lokwurmi ticks FILE --tick 1us"
    return f"write whole ticks{more}: {key} = N{way}"


def out_of_range(spot: Spot) -> Iterator[Remark]:
    """Numbers of sections that are out of their ranges: reason 2."""
    for item, it in enumerate(sections(spot)):
        for key, rule in LOCK_KEYS.items():
            if is_integer(it[key]) and not rule.least <= it[key] <= rule.most:
                end = f"below {rule.least}" if it[key] < rule.least else f"above {rule.most}"
                says = f'`{key}` of its lock "{it["name"]}" is {it[key]}, {end}'
                helps = f"`{key}` is {rule.least} to {rule.most} ticks"
                helps += ": a section that takes no tick is left out" if key == "length" and it[key] == 0 else ""
                yield spot.remark(says, place_of(spot, item).values[key].span, helps)


def wrong_names(spot: Spot) -> Iterator[tuple[int, str]]:
    """The names of locks that haven't the form of one: reason 3."""
    return ((item, it["name"]) for item, it in enumerate(sections(spot)) if not is_name(it["name"]))


def end_of(it: Table) -> int:
    """After how many ticks of a job a section is over."""
    return int(it["start"] + it["length"])


def crosses(one: Table, other: Table) -> bool:
    """Whether the second of two sections begins within the first, and ends behind it."""
    return bool(one["start"] < other["start"] < end_of(one) < end_of(other))


def mislocked(document: Document) -> Iterator[tuple[Spot, Remark]]:
    """The tasks whose sections are too many, stand beside a region, or cross, and those with a lock of a task on
    another resource: reason 16."""
    users: dict[str, Spot] = {}
    for spot in spots_in(document, "task"):
        several = sections(spot)
        if len(several) > MOST_SECTIONS:
            yield spot, too_many(spot, len(several))
        if several and spot.entry.get("region", 1) > 1:
            yield spot, beside_region(spot)
        for first, one in enumerate(several):
            for second, other in enumerate(several):
                if crosses(one, other):
                    yield spot, crossing(spot, first, second)
        for item, it in enumerate(several):
            if (other_user := users.setdefault(it["name"], spot)).entry["on"] != spot.entry["on"]:
                yield spot, elsewhere(spot, item, other_user)


def too_many(spot: Spot, count: int) -> Remark:
    says = f"it has {count} critical sections, and {MOST_SECTIONS} are the most"
    helps = (
        "of sections of one lock the longest alone counts for a bound: leave shorter ones out, where no run is to be"
        " followed"
    )
    return spot.remark(says, place_of(spot, MOST_SECTIONS).span, helps)


def beside_region(spot: Spot) -> Remark:
    helps = (
        "write a region as a lock that the most urgent task of the resource has, too, with a section for each part of"
        " the job that isn't preempted; or leave `locks` out, with a region as long as the longest section"
    )
    notes = [Note(f"its region is {spot.entry['region']}", spot.value("region"))]
    return spot.remark("it has critical sections beside a region", spot.key(LOCKS), helps, notes)


def crossing(spot: Spot, first: int, second: int) -> Remark:
    """Of two sections that neither nest nor are apart."""
    one, other = sections(spot)[first], sections(spot)[second]
    says = (
        f'its section of "{other["name"]}" begins within that of "{one["name"]}" and ends behind it:'
        f" ticks {other['start'] + 1} to {end_of(other)} of a job, and {one['start'] + 1} to {end_of(one)}"
    )
    helps = (
        "locks are given back in the reverse order in which they were taken: let the first section have"
        f" length = {end_of(other) - one['start']}, so that the second is within it, or end as the second begins,"
        f" with length = {other['start'] - one['start']}"
    )
    notes = [Note(f'the section of "{one["name"]}"', place_of(spot, first).span)]
    return spot.remark(says, place_of(spot, second).span, helps, notes)


def elsewhere(spot: Spot, item: int, other: Spot) -> Remark:
    """Of a lock that a task on another resource has."""
    lock, on, there = sections(spot)[item]["name"], spot.entry["on"], other.entry["on"]
    says = f'its lock "{lock}" is taken on resource "{on}", and by {other.called} on "{there}"'
    helps = (
        "a lock belongs to one resource, as a ceiling says nothing of tasks on another: give the locks different names"
        " if they are two; locks between processors, as spinlocks, aren't modelled"
    )
    at = next(place for place, it in enumerate(sections(other)) if it["name"] == lock)
    return spot.remark(
        says, name_span(spot, item), helps, [Note(f"there {other.called} takes it", name_span(other, at))]
    )
