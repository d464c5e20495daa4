"""The form of a system file in words: reasons 13 and 1 of status 14."""
from __future__ import annotations

import re
from collections.abc import Sequence

from lokwurmi.files.documents import PARTS, Document, Table
from lokwurmi.files.system_keys import (
    CEILINGS,
    FLEXIBLE,
    KEYS,
    KINDS,
    OF_PORTS,
    OTHER_KEYS,
    OTHER_KINDS,
    TOP_KEYS,
    WITH_REGIONS,
    WITHOUT_PREEMPTION,
    bare,
    holds,
    is_integer,
    keys_of,
    kinds_of,
)
from lokwurmi.model.formats import FORMATS, KEYS_SINCE, KINDS_SINCE, least_format
from lokwurmi.model.limits import MOST_TICKS, NEITHER, TIMES, UP
from lokwurmi.refusals.locks import CEILING_TOLD, IN_TASKS, LOCKS
from lokwurmi.refusals.locks import has_keys as has_keys_of_locks
from lokwurmi.refusals.locks import wrong_list as wrong_locks
from lokwurmi.refusals.remark import Note, Remark, listed, nearest
from lokwurmi.refusals.spots import Spot, spots_in

# the key of tasks, and those of sources, that format 4 has alone
REGION, SPORADIC, CLOCK, OFFSET = "region", "sporadic", "clock", "offset"
OF_SOURCES = {
    SPORADIC: (
        "`sporadic = true` says that the source may fall silent; its period is its least distance in the long run"
    ),
    CLOCK: "sources that name one clock keep their distances, as those of one timer do; each has its `offset` on it",
    OFFSET: "`offset` says how long after the start of its `clock` the first event of the source comes",
}
# the keys that may have a unit in a file for `lokwurmi ticks`, each with its safe side, and such a time
WITH_UNITS = {"bit": UP} | {key: side for keys in TIMES.values() for key, (side, _, _) in keys.items()}
UNIT_TIME = re.compile(r"\d+(?:\.\d+)? ?(?:ns|us|ms|s|bits?|bytes?)", re.ASCII)
AN = {"resource": "a resource", "source": "a source", "task": "a task", "path": "a path"}
TYPES = {
    "text": "a text in quotes",
    "integer": "a whole number",
    "truth": "true or false",
    "texts": 'an array of texts, as ["a", "b"]',
    "locks": "an array of tables",
    "after": "a text, or with `format = 2` or 4 an array of texts",
}
MISSING = {
    "name": 'give it a name of letters, digits, _, - and .: name = ".."',
    "kind": 'write kind = "preemptive", "round-robin", "tdma" or "can", or with `format = 4` "fifo" or "ceiling"',
    "period": f"write period = N: how many ticks lie between two events, 1 to {MOST_TICKS}",
    "on": 'write on = "..": the resource that it runs on',
    "after": 'write after = "..": the source or the task that starts it',
    "tasks": 'write tasks = ["..", ".."]: its tasks, from the first to the last',
}
LONG_FRAME = (
    "frames of CAN FD stand on can, with the best and worst that lokwurmi lengths tells, as lengths fd 64 --bitrate"
    " 500000 --data-bitrate 2000000, in place of payload"
)
PORTS = (
    "; a port that sends frames in the order in which they came is fifo, with format = 4; one with strict priorities is"
    " can, with the best and worst that lokwurmi lengths ethernet tells"
)
# a rate has no safe side: a lower one makes least lengths greater
NO_WHOLE_RATE = (
    "take another tick, in which whole bits go over the port; or leave it out, and give frames the best and worst that"
    " lokwurmi lengths ethernet tells, in place of payload"
)
OF_NO_TASK = (
    "clocks and offsets belong to sources: those whose events keep their distances name one `clock`, and each has its"
    " `offset`, with `format = 4`"
)
NO_PREEMPTION = (
    "; can, with best and worst, is a whole processor without preemption; single tasks that aren't preempted stand on"
    " preemptive with a region of at least worst, with format = 4"
)


def kind_of(value: object) -> str:
    """What a value is, in words."""
    if isinstance(value, bool):
        return "a truth value"
    names = {int: "a whole number", float: "a number with a fraction", str: "a text", list: "an array", dict: "a table"}
    return names.get(type(value), "a date or a time")


def format_span(document: Document) -> tuple[int, int]:
    """Where the format stands."""
    return document.root.values["format"].span


def other_format(document: Document) -> Remark | None:
    value = document.values.get("format")
    if not is_integer(value) or value in FORMATS:
        return None
    helps = (
        "write `format = 1`, `format = 2` so that a task's `after` may be a list, or `format = 4` so that a task may"
        " have a `region` or `locks`, a source be `sporadic` or on a `clock`, and a resource be a queue (`fifo`) or"
        " have priority ceilings (`ceiling`), too"
    )
    return Remark(f"the format {value} isn't known: it is 1, 2 or 4", format_span(document), helps)


def top(document: Document) -> Remark | None:
    """What is wrong at the top of the file."""
    for key in document.values:
        if key not in TOP_KEYS:
            return unknown_top_key(document, key)
    for part in PARTS:
        if not isinstance(document.values.get(part, []), list):
            return no_array(document, part)
    return format_of(document)


def unknown_top_key(document: Document, key: str) -> Remark:
    meant = OTHER_KEYS.get(bare(key))
    near = meant if meant in TOP_KEYS else nearest(key, TOP_KEYS)
    guess = f"; did you mean `{near}`?" if near else ""
    helps = "at the top stand format, resource, source, task and path"
    owners = [part for part in PARTS if key in KEYS[part]]
    if OTHER_KEYS.get(bare(key), bare(key)) == LOCKS and not near:
        helps = IN_TASKS
    elif owners and not near:
        helps = f"`{key}` is a key of {AN[owners[0]]}: it stands below its heading [[{owners[0]}]]"
    return Remark(f"the key `{key}` isn't known at the top of the file{guess}", document.root.keys[key], helps)


def no_array(document: Document, part: str) -> Remark:
    span, value = document.root.values[part].span, document.values[part]
    if isinstance(value, dict):
        says = f"[{part}] begins one table, and the file wants a list of them"
        return Remark(says, span, f"write [[{part}]], once before each {part}")
    helps = f"write a section [[{part}]] for each, or {part} = [{{ name = .. }}, ..]"
    return Remark(f"`{part}` is {kind_of(value)}, and has to be an array of tables", span, helps)


def format_of(document: Document) -> Remark | None:
    entries = {part: [it for it in several if isinstance(it, dict)] for part, several in document.entries.items()}
    value, helps = document.values.get("format"), f"write `format = {least_format(entries)}` as the first line"
    if value is None:
        inside = [it for it in spots_in(document) if isinstance(it.entry, dict) and "format" in it.entry][:1]
        below = "here `format` stands below a heading, and so belongs to"
        notes = [Note(f"{below} {it.called}", it.key("format")) for it in inside]
        says = "the key `format` is missing at the top of the file"
        return Remark(says, None, helps + ", above all headings", notes)
    if is_integer(value):
        return None
    says = f"`format` is {kind_of(value)}, and has to be the whole number 1, 2 or 4"
    return Remark(says, format_span(document), helps)


def entry(spot: Spot) -> Remark | None:
    """What is wrong with the form of an entry: what can be pointed at before what is missing."""
    if remark := no_table(spot) or unknown(spot):
        return remark
    value, keys = spot.entry, keys_of(spot.document.form)[spot.part]
    for key in value:
        if not holds(keys[key], value[key], spot.document.has_lists):
            return wrong_type(spot, key)
    if spot.part == "resource" and value.get("kind", "can") not in kinds_of(spot.document.form):
        return unknown_kind(spot)
    if remark := missing(spot):
        return remark
    return executions(spot) if spot.part == "task" else without_clock(spot) if spot.part == "source" else None


def shape(spot: Spot, others: Sequence[str]) -> Remark | None:
    """The same, but for the types of values: whether it has the keys of an entry, to which others may be added, and its
    critical sections theirs."""
    if remark := no_table(spot) or unknown(spot, others) or missing(spot):
        return remark
    if LOCKS in spot.entry and not has_keys_of_locks(spot.entry[LOCKS]):
        return wrong_locks(spot, kind_of(spot.entry[LOCKS]), has_types=False)
    is_old = isinstance(spot.entry.get("after"), list) and not spot.document.has_lists
    wrong = "name" if not isinstance(spot.entry["name"], str) else "after" if is_old else ""
    return wrong_type(spot, wrong) if wrong else None


def no_table(spot: Spot) -> Remark | None:
    if isinstance(spot.entry, dict):
        return None
    says = f"{spot.placed} is {kind_of(spot.entry)}, and has to be a table"
    return Remark(says, spot.span, f'each {spot.part} is a table, as {{ name = "..", .. }}')


def unknown(spot: Spot, others: Sequence[str] = ()) -> Remark | None:
    known = {*keys_of(spot.document.form)[spot.part], *others}
    found = next((key for key in spot.entry if key not in known), None)
    return None if found is None else unknown_key(spot, found)


def missing(spot: Spot) -> Remark | None:
    keys = keys_of(spot.document.form)[spot.part]
    found = next((key for key, it in keys.items() if it.is_required and key not in spot.entry), None)
    return spot.remark(f"the key `{found}` is missing", spot.span, MISSING[found]) if found else None


def key_meant(key: str, known: list[str], value: Table) -> str | None:
    """The key of an entry that was most likely meant, if the entry hasn't that as well."""
    left = [it for it in known if it not in value]
    meant = OTHER_KEYS.get(bare(key))
    if meant in left:
        return meant
    return bare(key) if bare(key) in left else nearest(key, left)


def unknown_key(spot: Spot, key: str) -> Remark:
    if key in KEYS_SINCE.get(spot.part, {}):
        return old_format(spot, key)
    near, helps = way_of(spot, key)
    guess = f"; did you mean `{near}`?" if near else ""
    return spot.remark(f"the key `{key}` isn't known{guess}", spot.key(key), helps)


def way_of(spot: Spot, key: str) -> tuple[str | None, str]:
    """The key that was most likely meant by one that isn't known, and what helps."""
    part, known = spot.part, list(keys_of(spot.document.form)[spot.part])
    near, name = key_meant(key, known, spot.entry), spot.entry.get("name", "..")
    if part == "task" and key == "deadline":
        return None, f'a deadline belongs to a path: [[path]] name = "{name}", tasks = ["{name}"], deadline = ..'
    if part in ("task", "resource") and bare(key) in CEILINGS:
        return None, CEILING_TOLD
    if part == "task" and OTHER_KEYS.get(bare(key)) == LOCKS and LOCKS not in spot.entry:
        return LOCKS, IN_TASKS
    if part == "resource" and OTHER_KEYS.get(bare(key), bare(key)) == LOCKS:
        return None, IN_TASKS
    if part == "task" and OTHER_KEYS.get(bare(key)) == REGION and REGION not in spot.entry:
        helps = "for so many ticks a job isn't preempted; one with a region of at least `worst` never is"
        return REGION, helps + ("" if REGION in known else "; it needs `format = 4`")
    meant = OTHER_KEYS.get(bare(key), key)
    if part == "source" and meant in OF_SOURCES and meant not in spot.entry:
        return meant, OF_SOURCES[meant] + ("" if meant in known else "; it needs `format = 4`")
    if part == "task" and meant in (CLOCK, OFFSET):
        return None, OF_NO_TASK
    if part == "resource" and bare(key) == "bitrate":
        is_port = spot.entry.get("kind") == "fifo"
        way = "rate = N, how many bits go in a tick" if is_port else "bit = N, the time of a bit in ticks"
        return None, f"it is for files with units: lokwurmi ticks FILE --tick 1us; or write {way}"
    helps = f"the keys of {AN[part]} are {listed(known)}"
    if key in TOP_KEYS and not near:
        return None, f"`{key}` belongs to the top of the file, above all headings in [[ ]]"
    if not near and (owners := [it for it in KEYS if key in KEYS[it]]):
        helps = f"`{key}` is a key of {AN[owners[0]]}; those of {AN[part]} are {listed(known)}"
    return near, helps


def old_format(spot: Spot, key: str) -> Remark:
    """Of an entry with a key that a later format has."""
    number, notes = spot.document.values["format"], [Note("the format of this file", format_span(spot.document))]
    helps = f"write `format = {KEYS_SINCE[spot.part][key]}`, which has all that format {number} has"
    has = f"a `{key}`" if key == REGION else f"the key `{key}`"
    return spot.remark(f"it has {has}, which format {number} hasn't", spot.key(key), helps, notes)


def wrong_type(spot: Spot, key: str) -> Remark:
    value, wanted = spot.entry[key], keys_of(spot.document.form)[spot.part][key].holds
    if wanted in ("texts", "after") and isinstance(value, list):
        return wrong_list(spot, key, value)
    if wanted == LOCKS:
        return wrong_locks(spot, kind_of(value))
    says = f"`{key}` is {kind_of(value)}, and has to be {TYPES[wanted]}"
    span = spot.value(key)
    return spot.remark(says, span, remedy(wanted, value, key, spot.document.text_of(span)))


def wrong_list(spot: Spot, key: str, value: list[object]) -> Remark:
    if key == "tasks" or spot.document.has_lists:
        item = next(it for it, text in enumerate(value) if not isinstance(text, str))
        wanted = f"be {TYPES['texts']}" if key == "tasks" else "hold texts"
        says = f"`{key}` holds {kind_of(value[item])}, and has to {wanted}"
        return spot.remark(says, spot.item(key, item), "write each name in quotes")
    notes = [Note("the format of this file", format_span(spot.document))]
    helps = "write `format = 2`" if len(value) != 1 else f'write `format = 2`, or after = "{value[0]}"'
    return spot.remark(f"`{key}` is a list, which format 1 hasn't", spot.value(key), helps, notes)


def remedy(wanted: str, value: object, key: str, written: str) -> str:
    """What to write in place of a value of another type."""
    if key == REGION and (isinstance(value, bool) or isinstance(value, str) and not re.search(r"\d", value)):
        return "write ticks: a task that is never preempted has a region of at least `worst`, as region = 1000000"
    if wanted == "integer":
        return number_remedy(value, key)
    if wanted == "truth":
        return f"write {key} = true or {key} = false, without quotes"
    if wanted == "texts" and isinstance(value, str):
        return f'write {key} = ["{value}"]'
    if wanted in ("text", "after"):
        if isinstance(value, list) and len(value) == 1:
            return f'write {key} = "{value[0]}"'
        return f'write {key} = "{written}"' if not isinstance(value, (list, dict)) else f'write one name: {key} = ".."'
    return ""


def number_remedy(value: object, key: str) -> str:
    """What to write in place of a value that is no whole number."""
    if isinstance(value, str) and re.fullmatch(r"[+-]?\d+", value.strip()):
        return f"write it without quotes: {key} = {int(value)}"
    if isinstance(value, str) and key == "rate":
        return (
            "write how many bits go over the port in a tick, as rate = 100 at 100 Mbit/s where a tick is a microsecond;"
            " or write bitrate = 100000000, and have the file turned: lokwurmi ticks FILE --tick 1us --to TICKS.toml"
        )
    if isinstance(value, str) and key not in WITH_UNITS:
        return f"write a whole number, without quotes: {key} = N"
    if isinstance(value, str) and UNIT_TIME.fullmatch(value):
        alone = "write ticks alone, one more than the region lasts" if key == REGION else "write ticks alone"
        ways = "lokwurmi ticks FILE --tick 1us --to TICKS.toml"
        return f"{alone}; or turn the file into one of ticks, rounded to the safe side: {ways}"
    if isinstance(value, str):
        return "write ticks alone, without quotes and unit; a tick is whatever you take it for, as a microsecond"
    if isinstance(value, float):
        if value.is_integer():
            return f"write it without a point: {key} = {int(value)}"
        if key == "rate":
            return NO_WHOLE_RATE
        if key not in WITH_UNITS:
            return f"write a whole number: {key} = N"
        finer, side = "take a finer tick, of which it is a multiple", WITH_UNITS[key]
        way = f"{side} and add a tick" if key == REGION else side
        return finer if side == NEITHER else f"{finer}; or round it {way}, which is the safe side of `{key}`"
    return f"one number stands for all jobs of an entry: write {key} = N" if isinstance(value, list) else ""


def unknown_kind(spot: Spot) -> Remark:
    value, known = spot.entry["kind"], kinds_of(spot.document.form)
    if value in KINDS:
        return old_kind(spot, value)
    same = next((it for it in KINDS if bare(it) == bare(value)), None)
    near = OTHER_KINDS.get(bare(value)) or same or nearest(value, KINDS)
    helps = f"the kinds are {listed(known)}"
    if near == "fifo":
        helps += PORTS if bare(value) in OF_PORTS else ", and fifo with format = 4" if near not in known else ""
    elif bare(value) in WITH_REGIONS:
        helps += "; on preemptive, tasks that cooperate have a region each, with format = 4"
    elif bare(value) in WITHOUT_PREEMPTION:
        helps += NO_PREEMPTION
    elif bare(value) in FLEXIBLE:
        near, helps = "can", LONG_FRAME
    guess = f'; did you mean "{near}"?' if near else ""
    return spot.remark(f'the kind "{value}" isn\'t known{guess}', spot.value("kind"), helps)


def old_kind(spot: Spot, kind: str) -> Remark:
    """Of a resource of a kind that a later format has."""
    number, notes = spot.document.values["format"], [Note("the format of this file", format_span(spot.document))]
    helps = f"write `format = {KINDS_SINCE[kind]}`, which has all that format {number} has"
    return spot.remark(f'its kind is "{kind}", which format {number} hasn\'t', spot.value("kind"), helps, notes)


def without_clock(spot: Spot) -> Remark | None:
    """Of a source with an offset on no clock."""
    if OFFSET not in spot.entry or CLOCK in spot.entry:
        return None
    helps = 'write clock = ".." beside it, the same at all sources that keep their distances; or leave it out'
    return spot.remark("`offset` stands without `clock`", spot.key(OFFSET), helps)


def executions(spot: Spot) -> Remark | None:
    """A task has `best` and `worst`, or `payload` in place of both; `extended` goes with `payload`."""
    value = spot.entry
    has = [it for it in ("best", "worst") if it in value]
    if "payload" in value and has:
        notes = [Note("the payload, of which its execution is worked out", spot.key("payload"))]
        helps = "a frame has `payload` alone; a task with an execution of its own has `best` and `worst` alone"
        return spot.remark(f"`{has[0]}` stands beside `payload`", spot.key(has[0]), helps, notes)
    if "payload" in value or (len(has) == 2 and "extended" not in value):
        return None
    if "extended" in value:
        helps = (
            "it tells that a frame has an identifier of 29 bits: give the task a `payload` in place of `best` and"
            " `worst`, or leave `extended` out"
        )
        return spot.remark("`extended` stands without `payload`", spot.key("extended"), helps)
    if has:
        other = "worst" if has == ["best"] else "best"
        helps = f"write {other} = N too: an execution lies between the two, and they may be equal"
        return spot.remark(f"the key `{other}` is missing beside `{has[0]}`", spot.key(has[0]), helps)
    helps = "write best = N and worst = N; on a CAN bus payload = N, 0 to 8 bytes, may stand in their place"
    if "fifo" in kinds_of(spot.document.form):
        helps += ", on a queue 0 to 1500"
    return spot.remark("it has no execution: `best` and `worst`, or `payload`, are missing", spot.span, helps)
