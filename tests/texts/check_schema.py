#!/usr/bin/env python3
"""Holds docs/lokwurmi.schema.json against what else says how a system file looks, and docs/lokwurmi.units.schema.json,
of files whose times have units, against it. Outside the gate.

Each system of examples/ names the schema in its first line and is accepted by it. Ranges and defaults are those of the
table in docs/FILES.md, and a number just outside its range is refused. Of the files that docs/FILES.md shows as
refused, the schema refuses those whose reason it can say, and no other. The schema with units is this one with a text
as another form of each time; --write writes it. docs/lokwurmi.chains.schema.json, of files of chains, is held in the
same way against the files of chains that there are, and against what docs/FILES.md says of their keys.
docs/lokwurmi.verdict.schema.json, of what `lokwurmi verdict --json` writes, accepts what is written of each report of
examples/, with a tick and without, and nothing from which a key is gone or to which one was added. So does
docs/lokwurmi.diff.schema.json, of what `lokwurmi diff --json` writes, of any two of them.

    python3 -m tests.texts.check_schema [--write]
"""
import copy
import glob
import json
import os
import re
import sys
import tomllib

from lokwurmi.model.units import Time
from lokwurmi.results.differences import Changes
from lokwurmi.results.effect_chains import chains_report
from lokwurmi.results.reports import reports
from lokwurmi.results.verdicts import Verdicts
from lokwurmi_tools.reports.verdict_texts import json_of
from tests.support.calls import TOP, example_systems, hold, reader_of, tell

try:
    import jsonschema
except ImportError:
    sys.exit(
        "check_schema.py: the package jsonschema isn't here: pip install jsonschema, or apt-get install"
        " python3-jsonschema"
    )

FIRST_LINE = "#:schema ../docs/lokwurmi.schema.json\n"
# what a JSON schema can say; the other examples are refused for several keys or entries together, as a distance above
# its period
SAID = {"13", "1", "3", "9", "11", "14"}
reader = reader_of(__doc__, "", "the package jsonschema, and nothing that is built")
reader.add_argument("--write", action="store_true", help="writes the schema with units anew, from that of ticks")
WORDS = reader.parse_args()


def read(*parts):
    with open(os.path.join(TOP, *parts), encoding="utf-8") as it:
        return it.read()


schema = json.loads(read("docs", "lokwurmi.schema.json"))
jsonschema.Draft7Validator.check_schema(schema)
validator = jsonschema.Draft7Validator(schema)

examples = [os.path.basename(it) for it in example_systems()]
for name in examples:
    text = read("examples", name)
    hold(text.startswith(FIRST_LINE), f"examples/{name}: its first line doesn't name the schema")
    for error in validator.iter_errors(tomllib.loads(text)):
        hold(False, f"examples/{name}: {error.json_path}: {error.message}")

page = read("docs", "FILES.md")
for reason, text in re.findall(r"### (\d+): [^\n]*\n\n```toml\n(.*?)```", page, re.S):
    hold(
        validator.is_valid(tomllib.loads(text)) == (reason not in SAID),
        f"docs/FILES.md: the example of reason {reason}",
    )
    if reason == "1":
        # the section has a second one
        second = page.split("### 1: ")[1].split("```toml\n")[2].split("```")[0]
        hold(not validator.is_valid(tomllib.loads(second)), "docs/FILES.md: the second example of reason 1")

LOCK = {"name": "x", "start": 0, "length": 1}
# one entry of each kind that is accepted, with all keys that go together
WHOLE = {
    "resource": [
        {"name": "r", "kind": "tdma", "gap": 1},
        {"name": "c", "kind": "can", "bit": 1, "limit": 1},
        {"name": "p", "kind": "preemptive"},
        {"name": "q", "kind": "fifo", "rate": 1},
        {"name": "l", "kind": "ceiling"},
    ],
    "source": [
        {"name": "s", "period": 1000000000, "jitter": 1, "distance": 1, "sporadic": True, "clock": "c", "offset": 1}
    ],
    "task": [
        {"name": "t", "on": "r", "after": "s", "best": 1, "worst": 1, "slot": 1},
        {"name": "f", "on": "c", "after": "s", "payload": 1, "extended": True, "priority": 1},
        {"name": "g", "on": "p", "after": "s", "best": 1, "worst": 1, "priority": 1, "region": 1},
        {"name": "h", "on": "q", "after": "s", "payload": 1},
        {"name": "i", "on": "l", "after": "s", "best": 1, "worst": 1, "priority": 1, "locks": [dict(LOCK)]},
    ],
    "path": [{"name": "p", "tasks": ["t"], "deadline": 1}],
}


def accepts(part, place, key, value, form=4):
    file = in_format(form)
    file[part][place][key] = value
    return validator.is_valid(file)


def accepts_last(part, key, value, form):
    """The same of the last entry of a format that has a key."""
    places = [k for k, entry in enumerate(in_format(form)[part]) if key in entry]
    return accepts(part, places[-1], key, value, form)


# the keys of a source that format 4 has alone
OF_SOURCES = ("sporadic", "clock", "offset")


def in_format(number):
    """A file with all keys that a format has."""
    file = {"format": number, **copy.deepcopy(WHOLE)}
    if number < 3:
        del file["task"][3:], file["resource"][3:], file["task"][2]["region"]
        for key in OF_SOURCES:
            del file["source"][0][key]
    return file


for number in (1, 2, 4):
    hold(validator.is_valid(in_format(number)), f"format {number}: a file with all keys isn't accepted")
    for part, key in (("task", "region"), ("task", "locks"), *(("source", it) for it in OF_SOURCES)):
        later, place = in_format(number), next(k for k, entry in enumerate(WHOLE[part]) if key in entry)
        # beside a priority in each format
        place = place if place < len(later[part]) else 2
        later[part][place][key] = WHOLE[part][-1][key] if key == "locks" else WHOLE[part][place][key]
        if key == "offset":
            hold(not validator.is_valid(later) or number == 4, f"format {number}: an offset without a clock")
            later[part][place]["clock"] = "c"
        hold(validator.is_valid(later) == (number == 4), f"format {number}: the key {key} of a {part}")
    for entry in (
        {"name": "r2", "kind": "fifo"},
        {"name": "r2", "kind": "fifo", "rate": 672},
        {"name": "r2", "kind": "ceiling"},
    ):
        later = in_format(number)
        later["resource"].append(entry)
        hold(validator.is_valid(later) == (number == 4), f"format {number}: {entry}")
    later = in_format(number)
    later["task"].append({"name": "k", "on": "q", "after": "s", "best": 1, "worst": 1})
    hold(validator.is_valid(later) == (number == 4), f"format {number}: a task with neither priority nor slot")
for place, beside in ((0, "slot"), (1, "payload"), (3, "payload alone")):
    hold(not accepts("task", place, "region", 1), f"a region beside {beside} is accepted")
    hold(not accepts("task", place, "locks", [LOCK]), f"locks beside {beside} are accepted")
    hold(accepts("task", place, "locks", []), f"no locks beside {beside} aren't accepted")
for changed, is_in in (
    ({"region": 1}, True),
    ({"region": 2}, False),
    ({"region": 2, "locks": []}, True),
    *(({"locks": it}, False) for it in ("x", ["x"], {}, [{}], [LOCK | {"ceiling": 1}])),
    *(({"locks": [{key: it for key, it in LOCK.items() if key != gone}]}, False) for gone in LOCK),
    *(({"locks": [LOCK | it]}, False) for it in ({"name": "a b"}, {"start": -1}, {"length": 0}, {"start": 1.5})),
    *(({"locks": [LOCK | {key: 10_000_000 + more}]}, not more) for key in ("start", "length") for more in (0, 1)),
    *(({"locks": [LOCK] * count}, count == 64) for count in (64, 65)),
):
    file = in_format(4)
    file["task"][4].update(changed)
    hold(validator.is_valid(file) == is_in, f"a task with {str(changed)[:80]}")
for place in (0, 1, 2, 4):
    hold(not accepts("resource", place, "rate", 1), f"a rate on {WHOLE['resource'][place]['kind']} is accepted")
for place, key in ((0, "priority"), (1, "slot"), (3, "slot")):
    hold(not accepts("task", place, key, 1), f"a {key} beside {sorted(WHOLE['task'][place])} is accepted")
hold(not accepts("task", 3, "extended", True), "a frame on a port with an identifier of 29 bits is accepted")
hold(not accepts("task", 1, "payload", 9), "a frame of 9 bytes with a priority is accepted")
for number, names, is_in in (
    (1, ["s"], False),
    (2, "s", True),
    (2, ["s", "t"], True),
    (2, [], False),
    (2, ["s", "s"], False),
    (2, [1], False),
    (3, ["s", "t"], False),
    (4, ["s", "t"], True),
):
    file = in_format(number)
    file["task"][1]["after"] = names
    hold(validator.is_valid(file) == is_in, f"format {number} with after = {names!r}")
told = {}
part = None
for row in re.findall(r"^\| (\w*) ?\| (`.*?) \| (.*?) \| (.*?) \| (.*?) \|$", page.split("\n## Refusals\n")[0], re.M):
    part = row[0] or part
    for key in re.findall(r"`(\w+)`", row[1]):
        told.setdefault(part, {})[key] = row[2:]
of_lock = {key: it[:2] for key, it in told.pop("lock", {}).items()}
wanted = {"name": ("text", "name"), "start": ("integer", "0 to 10,000,000"), "length": ("integer", "1 to 10,000,000")}
hold(of_lock == wanted, f"docs/FILES.md: the keys of a lock are {of_lock}")
hold(set(told) == set(WHOLE), "docs/FILES.md: the table of keys wasn't found")
for part, keys in told.items():
    said = schema["definitions"][part]["properties"]
    hold(
        set(keys) == set(said), f"{part}: its keys are {sorted(keys)} in docs/FILES.md and {sorted(said)} in the schema"
    )
    for key, (kind, within, absent) in keys.items():
        hold("description" in said[key], f"{part}.{key}: no description")
        if kind != "integer":
            continue
        low, high, larger = re.match(
            r"([\d,]+) to ([\d,]*\d|the period)(?:, with `format = 4` to ([\d,]*\d))?", within
        ).groups()
        low, high = int(low.replace(",", "")), 1000000000 if high == "the period" else int(high.replace(",", ""))
        # the greatest in each format; the keys of regions, clocks and ports are of the newest alone
        is_new = key in ("region", "offset", "rate")
        if key == "payload":
            # that of a frame on a port
            larger = re.findall(r"[\d,]*\d", within)[-1]
        most = {4: int(larger.replace(",", "")) if larger else high} | ({} if is_new else {1: high, 2: high})
        hold(
            (said[key]["minimum"], said[key]["maximum"]) == (low, most[4]),
            f"{part}.{key}: its range isn't {low} to {most[4]}",
        )
        for form, high in most.items():
            for value, is_in in ((low - 1, False), (low, True), (high, True), (high + 1, False), (str(low), False)):
                hold(
                    accepts_last(part, key, value, form) == is_in,
                    f"format {form}, {part}.{key} = {value!r}: should be {'accepted' if is_in else 'refused'}",
                )
        number = absent.replace(",", "")
        hold(
            said[key].get("default") == (int(number) if number.isdigit() else None),
            f"{part}.{key}: its default isn't {absent}",
        )
    hold(not accepts(part, 0, "unknown", 1), f"{part}: a key that isn't known is accepted")
file = in_format(4)
del file["source"][0]["clock"]
hold(not validator.is_valid(file), "an offset without a clock is accepted")
for name, is_in in (("a-b_c.Dx", True), ("", False), ("left wheel", False), ("n" * 64, True), ("n" * 65, False)):
    hold(accepts("resource", 0, "name", name) == is_in, f"the name {name!r}")

# files whose times have units
UNITS_FILE = os.path.join("docs", "lokwurmi.units.schema.json")
UNITS_LINE = "#:schema ../../docs/lokwurmi.units.schema.json\n"
TIMES = {
    "resource": ("limit", "gap", "bit"),
    "source": ("period", "jitter", "distance", "offset"),
    "task": ("best", "worst", "slot", "region"),
    "lock": ("start", "length"),
    "path": ("deadline",),
}
# what a time may be beside a number of ticks; of bits only where a resource has a bit rate
ON_RESOURCES = {"resource": ("limit", "gap"), "task": ("best", "worst", "slot", "region"), "lock": ("start", "length")}


def with_units(whole):
    """The schema with a text as another form of each time."""
    whole = copy.deepcopy(whole)
    whole["title"] += " with units"
    whole["description"] = (
        "A system of resources, sources, tasks and paths. A time is a number of ticks, or a text with a unit, which"
        " `lokwurmi ticks` turns into ticks."
    )
    for part, keys in TIMES.items():
        for key in keys:
            entry = whole["definitions"][part]["properties"][key]
            number = {word: entry.pop(word) for word in ("type", "minimum", "maximum")}
            units = "(ns|us|ms|s|bits?|bytes?)" if key in ON_RESOURCES.get(part, ()) else "(ns|us|ms|s)"
            entry["description"] += ' Or a text with a unit, as "250 us".'
            entry["anyOf"] = [number, {"type": "string", "pattern": f"^[0-9]+([.][0-9]+)? ?{units}$"}]
    properties = whole["definitions"]["resource"]["properties"]
    properties["bitrate"] = {
        "description": "Bits per second, in place of bit or rate; times of its tasks may then be of bits and bytes.",
        "type": "integer",
        "minimum": 1,
    }
    whole["definitions"]["resource"]["allOf"] += [{"not": {"required": [key, "bitrate"]}} for key in ("bit", "rate")]
    return whole


wanted = json.dumps(with_units(schema), indent=2) + "\n"
if WORDS.write:
    with open(os.path.join(TOP, UNITS_FILE), "w", encoding="utf-8") as file:
        file.write(wanted)
units = json.loads(read(UNITS_FILE))
hold(
    json.loads(wanted) == units,
    f"{UNITS_FILE} isn't what the schema of ticks gives: python3 -m tests.texts.check_schema --write",
)
jsonschema.Draft7Validator.check_schema(units)
validator = jsonschema.Draft7Validator(units)
with_unit = sorted(it for it in os.listdir(os.path.join(TOP, "examples", "units")) if it.endswith(".toml"))
for name in with_unit:
    text = read("examples", "units", name)
    hold(text.startswith(UNITS_LINE), f"examples/units/{name}: its first line doesn't name the schema")
    for error in validator.iter_errors(tomllib.loads(text)):
        hold(False, f"examples/units/{name}: {error.json_path}: {error.message}")
for name in examples:
    hold(validator.is_valid(tomllib.loads(read("examples", name))), f"examples/{name} isn't accepted by {UNITS_FILE}")


def accepts_time(part, key, value):
    """Whether an entry, or a lock of a task, may have a value."""
    if part == "lock":
        return accepts("task", 4, "locks", [LOCK | {key: value}])
    return accepts(part, next(k for k, entry in enumerate(WHOLE[part]) if key in entry), key, value)


for part, keys in TIMES.items():
    for key in keys:
        for value, is_in in (
            ("250 us", True),
            ("16.667ms", True),
            ("1 s", True),
            ("5", False),
            ("1 week", False),
            ("-1 us", False),
            (1, True),
            (1.5, False),
            ("8 bit", key in ON_RESOURCES.get(part, ())),
            ("84 bytes", key in ON_RESOURCES.get(part, ())),
        ):
            hold(
                accepts_time(part, key, value) == is_in,
                f"{UNITS_FILE}: {part}.{key} = {value!r}: should be {'accepted' if is_in else 'refused'}",
            )
hold(not accepts("resource", 1, "bitrate", 500000), "bit and bitrate together are accepted")
hold(not accepts("resource", 3, "bitrate", 500000), "rate and bitrate together are accepted")
hold(
    validator.is_valid({"format": 1, "resource": [{"name": "c", "kind": "can", "bitrate": 500000}]}),
    "a bit rate isn't accepted",
)

# files of chains
CHAINS_FILE = os.path.join("docs", "lokwurmi.chains.schema.json")
CHAINS_LINE = "#:schema ../docs/lokwurmi.chains.schema.json\n"
chains_schema = json.loads(read(CHAINS_FILE))
jsonschema.Draft7Validator.check_schema(chains_schema)
chains = jsonschema.Draft7Validator(chains_schema)
with_chains = sorted(it for it in os.listdir(os.path.join(TOP, "examples")) if it.endswith(".chains.toml"))
for name in with_chains:
    text = read("examples", name)
    hold(text.startswith(CHAINS_LINE), f"examples/{name}: its first line doesn't name the schema")
    for error in chains.iter_errors(tomllib.loads(text)):
        hold(False, f"examples/{name}: {error.json_path}: {error.message}")
section = page.split("\n### Chains with deadlines\n")[1].split("\n### Why a file of chains")[0]
keys = re.findall(r"^\| `(\w+)` \|", section, re.M)
hold(keys == list(chains_schema["definitions"]["chain"]["properties"]), f"docs/FILES.md has {keys} as keys of a chain")


def accepts_chain(**changed):
    chain = {"name": "c", "tasks": ["a"], "reaction": 1, "age": 1, "held": 1} | changed
    return chains.is_valid({"format": 1, "chain": [{key: it for key, it in chain.items() if it is not None}]})


for changed, is_in in (
    ({}, True),
    ({"name": None}, False),
    ({"tasks": None}, False),
    ({"reaction": None, "age": None, "held": None}, True),
    ({"deadline": 1}, False),
    ({"name": "left wheel"}, False),
    ({"name": "n" * 65}, False),
    ({"tasks": []}, False),
    ({"tasks": ["a"] * 32}, True),
    ({"tasks": ["a"] * 33}, False),
    ({"tasks": "a"}, False),
    *(({key: value}, value == 1_000_000_000) for key in keys[2:] for value in (0, 1_000_000_000, 1_000_000_001, "1")),
):
    hold(accepts_chain(**changed) == is_in, f"{CHAINS_FILE}: {changed}: should be {'accepted' if is_in else 'refused'}")
for file, is_in in (
    ({"format": 1}, True),
    ({"chain": []}, False),
    ({"format": 2}, False),
    ({"format": 1, "path": []}, False),
    ({"format": 1, "chain": [{"name": "c", "tasks": ["a"]}] * 129}, False),
):
    hold(chains.is_valid(file) == is_in, f"{CHAINS_FILE}: {str(file)[:60]}")

# what `verdict --json` and `diff --json` write


def holders(it):
    """All objects in a JSON value."""
    below = it.values() if isinstance(it, dict) else it if isinstance(it, list) else ()
    return ([it] if isinstance(it, dict) else []) + [found for one in below for found in holders(one)]


class Output:
    """The schema of what a call writes: each of its keys says what it means."""

    def __init__(self, name):
        self.file = os.path.join("docs", name)
        schema = json.loads(read(self.file))
        jsonschema.Draft7Validator.check_schema(schema)
        self.validator = jsonschema.Draft7Validator(schema)
        for where, it in {"": schema, **schema["definitions"]}.items():
            for key, entry in it.get("properties", {}).items():
                is_said = "description" in entry or key == "name" or "$ref" in entry
                hold(is_said, f"{self.file}: {where}.{key}: no description")

    def accepts(self, told, what):
        """Holds that it accepts a text, and none that lacks a key or has another one."""
        for error in self.validator.iter_errors(told):
            hold(False, f"{self.file}: {what}: {error.json_path}: {error.message}")
        is_timed = any(key.endswith("_time") for it in holders(told) for key in it)
        hold(is_timed == (told["tick"] is not None), f"{self.file}: {what}: times and a tick")
        # one object of each kind, which has keys of its own
        for place, it in enumerate({tuple(it): it for it in holders(told)}.values()):
            for key in list(it):
                kept = it.pop(key)
                good = key.endswith("_time") or not self.validator.is_valid(told)
                hold(good, f"{self.file}: {what}: without {key} of object {place}")
                it[key] = kept
            it["another"] = 1
            hold(not self.validator.is_valid(told), f"{self.file}: {what}: another key in object {place}")
            del it["another"]


VERDICT, DIFF = Output("lokwurmi.verdict.schema.json"), Output("lokwurmi.diff.schema.json")
SIDE = {"file": "a report", "chains_file": None, "notices": []}
for tick in (None, Time.of("333ns")):
    before = None
    for report in sorted(glob.glob("examples/*.report.txt", root_dir=TOP)):
        chains_text = report.replace(".report.txt", ".chains.txt")
        judged = chains_report(read(chains_text), tick) if os.path.exists(os.path.join(TOP, chains_text)) else None
        found = Verdicts(reports(read(report), tick)[-1], judged)
        VERDICT.accepts(json.loads(json_of(found, report, judged and chains_text, [])), report)
        if before:
            told = Changes(before.bounds, found.bounds).to_dict(True, "2.5%" if tick else None)
            DIFF.accepts(json.loads(json.dumps({"a": dict(SIDE), "b": dict(SIDE), **told})), report)
        before = found

tell(f"{len(examples) + len(with_unit) + len(with_chains)} examples; ")
