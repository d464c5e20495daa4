"""What the entries of a system file hold: keys, types and ranges, as docs/FILES.md has them."""
from __future__ import annotations

from collections.abc import Sequence
from dataclasses import dataclass
from functools import cache

from lokwurmi.files.documents import PARTS
from lokwurmi.frames import MOST_CLASSICAL, MOST_ETHERNET
from lokwurmi.model.formats import KEYS_SINCE, KINDS_SINCE
from lokwurmi.model.limits import LIMITS, MOST_BIT, MOST_IN_NAME, MOST_PRIORITY, MOST_RATE, NEWEST, Kind, times_of

TOP_KEYS = ("format", *PARTS)
KINDS = tuple(it.value for it in Kind)
"""The kinds of resource in the newest format."""


def kinds_of(form: int) -> tuple[str, ...]:
    """The kinds of resource in a format."""
    return tuple(it for it in KINDS if KINDS_SINCE.get(it, form) <= form)


@dataclass(frozen=True)
class Key:
    """What a key holds: `text`, `integer`, `truth`, `texts`, `after` or `locks`; of an integer the range; whether each
    entry has it."""

    holds: str
    least: int = 0
    most: int = 0
    is_required: bool = False


@cache
def keys_of(form: int) -> dict[str, dict[str, Key]]:
    """The keys of each list in a format."""
    times = {
        part: {key: Key("integer", least, most, key == "period") for key, (_, least, most) in keys.items()}
        for part, keys in times_of(LIMITS[form]).items()
    }
    name, source, task = {"name": Key("text", is_required=True)}, times["source"], times["task"]
    offset = source.pop("offset")
    payload = MOST_ETHERNET if "fifo" in kinds_of(form) else MOST_CLASSICAL
    newest = {
        "resource": {
            **name,
            "kind": Key("text", is_required=True),
            **times["resource"],
            "bit": Key("integer", 1, MOST_BIT),
            "rate": Key("integer", 1, MOST_RATE),
        },
        "source": {**name, **source, "sporadic": Key("truth"), "clock": Key("text"), "offset": offset},
        "task": {
            **name,
            "on": Key("text", is_required=True),
            "after": Key("after", is_required=True),
            "best": task["best"],
            "worst": task["worst"],
            "payload": Key("integer", 0, payload),
            "extended": Key("truth"),
            "priority": Key("integer", 0, MOST_PRIORITY),
            "slot": task["slot"],
            "region": task["region"],
            "locks": Key("locks"),
        },
        "path": {**name, "tasks": Key("texts", is_required=True), **times["path"]},
    }
    since = {part: KEYS_SINCE.get(part, {}) for part in newest}
    return {
        part: {key: it for key, it in keys.items() if since[part].get(key, 0) <= form} for part, keys in newest.items()
    }


KEYS = keys_of(NEWEST)
"""The keys of each list in the newest format."""


LOCK_KEYS = {
    "name": Key("text", is_required=True),
    **{key: Key("integer", least, most, True) for key, (_, least, most) in times_of(LIMITS[NEWEST])["lock"].items()},
}
"""The keys of a critical section, each of which it has."""


def by_word(words: dict[str, str]) -> dict[str, str]:
    """Each of some words with what it stands for."""
    return {word: meant for meant, several in words.items() for word in several.split()}


OTHER_KEYS = by_word(
    {
        "worst": "wcet maximum max",
        "best": "bcet minimum min",
        "priority": "prio id identifier canid msgid",
        "payload": "dlc length bytes size",
        "extended": "isextended ide",
        "after": "activator activators activation activatedby trigger source input",
        "on": "resource cpu processor core ecu bus mappedto",
        "slot": "quantum timeslice slice budget",
        "region": (
            "npr nonpreemptiveregion schedule preemptable preemptible preemptive nonpreemptable "
            "nonpreemptive cooperative blocking"
        ),
        "period": "cycle cycletime interval t p",
        "jitter": "j",
        "distance": "d dmin mindistance minimumdistance",
        "locks": "lock mutex mutexes semaphore semaphores critical criticalsection criticalsections sections resources",
        "sporadic": "aperiodic issporadic eventtriggered onevent",
        "clock": "timebase timer counter scheduletable oscounter",
        "offset": "offsets phase phases start startoffset startdelay releaseoffset initialoffset",
        "bit": "bittime",
        "rate": "bitspertick linkrate linkspeed speed bandwidth",
        "kind": "scheduler scheduling policy type",
        "tasks": "chain",
        "deadline": "e2e endtoend",
        "name": "id_ label",
        "format": "version",
        "resource": "cpus processors buses",
        "source": "events streams",
        "task": "frames messages",
        "path": "chains",
    }
)
"""What others call a key, in lower case without marks between words, each with the key that is meant."""
OTHER_KINDS = by_word(
    {
        "preemptive": (
            "spp fp fps fpps fixedpriority priority osek cooperative fpds limitedpreemptive autosar rm dm cpu"
        ),
        "round-robin": "rr roundrobin timeslice",
        "tdma": "tt timetriggered",
        "can": "canbus can2.0 spnp fpnp npfp nonpreemptive bus",
        "fifo": "fcfs queue firstcomefirstserved firstinfirstout port switch switchport ethernet egress",
        "ceiling": (
            "pcp icpp ipcp icp hlp srp priorityceiling immediateceiling immediatepriorityceiling ceilings"
            " priorityprotect ceilinglocking highestlocker stackresource"
        ),
    }
)
"""What others call a kind."""
# of those kinds the ones of tasks that give way at some places alone, and the ones of tasks that never do
WITH_REGIONS = ("cooperative", "fpds", "limitedpreemptive")
WITHOUT_PREEMPTION = ("spnp", "fpnp", "npfp", "nonpreemptive")
# what others call a port of a switch
OF_PORTS = ("port", "switch", "switchport", "ethernet", "egress")
# what others call CAN FD
FLEXIBLE = ("canfd", "fd", "canflexibledatarate", "isocanfd")
# what others call the ceiling of a lock
CEILINGS = ("ceiling", "threshold")


def bare(word: str) -> str:
    """A word in lower case without marks between its parts."""
    return word.lower().translate({ord(it): None for it in " _-"})


def is_integer(value: object) -> bool:
    return isinstance(value, int) and not isinstance(value, bool)


def is_texts(value: object) -> bool:
    return isinstance(value, list) and all(isinstance(it, str) for it in value)


def is_lock(value: object) -> bool:
    """Whether a value has the form of a critical section."""
    return (
        isinstance(value, dict)
        and value.keys() == LOCK_KEYS.keys()
        and all(holds(LOCK_KEYS[key], it, False) for key, it in value.items())
    )


def holds(key: Key, value: object, has_lists: bool) -> bool:
    """Whether a value is of the key's type."""
    if key.holds == "integer":
        return is_integer(value)
    if key.holds == "truth":
        return isinstance(value, bool)
    if key.holds == "texts":
        return is_texts(value)
    if key.holds == "locks":
        return isinstance(value, list) and all(is_lock(it) for it in value)
    if key.holds == "after" and has_lists and is_texts(value):
        return True
    return isinstance(value, str)


def is_name(word: str) -> bool:
    return 0 < len(word) <= MOST_IN_NAME and all(is_name_letter(it) for it in word)


def is_name_letter(letter: str) -> bool:
    return letter.isascii() and (letter.isalnum() or letter in "_-.")


def ranges(part: str, keys: Sequence[str]) -> str:
    return ", ".join(f"{it}: {KEYS[part][it].least} to {KEYS[part][it].most}" for it in keys)
