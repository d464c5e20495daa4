"""Damages system files, scripts, traces and schedules at random, for tests/launcher/check_messages.py."""
from __future__ import annotations

import math
import random
import re
from collections.abc import Sequence
from typing import Any

from lokwurmi.files.documents import Document
from lokwurmi.files.toml_spans import Place

KEYS = (
    "name kind limit gap bit period jitter distance on after best worst payload extended"
    " priority slot region sporadic clock offset rate tasks deadline wcet format nane locks start length locks"
).split()
VALUES = [
    *"0 1 2 -1 3 7 10 672 673 1500 1000001 1000000 536870912 2_000 0x10 1.5 10.0 99999999999 1979-05-27".split(),
    *'true false [] {} "" "s" "a" "can" "tdma" "preemptive" "round-robin" "fifo" "fifo" "spp" ["a"] "ceiling"'.split(),
    *('"a b"', '["s", "s"]', "'x'", '"ü"'),
    '[{ name = "x", start = 0, length = 2 }]',
    '[{ name = "x", start = 0, length = 2 }, { name = "y", start = 1, length = 2 }]',
    '[{ name = "x", start = 0 }]',
]


def with_keys(text: str, added: Sequence[tuple[str, int, str, Sequence[str]]]) -> str:
    """A system file in which keys with their values stand behind a key of some entries. Each is told by its part, its
    place, the key that they follow, and what is added. Where those stand is read, not looked for: a number may be
    `5_000`, and a line end within an inline table is none of a section."""
    document = Document(text)
    puts = []
    for part, at, key, pairs in added:
        place = document.place(part, at)
        mark = "\n" if text.startswith("[", place.start) else ", "
        puts.append((place.values[key].end, "".join(mark + it for it in pairs)))
    for end, what in sorted(puts, reverse=True):
        text = text[:end] + what + text[end:]
    return text


def sporadic_told(draw: random.Random, source: dict[str, Any]) -> list[str]:
    """In one of four cases that a source is sporadic, or that it isn't; nothing where the file tells it."""
    told = draw.choice(["", "", "", "sporadic = " + draw.choice(["true", "false"])])
    return [] if "sporadic" in source or not told else [told]


def clocks_told(draw: random.Random, sources: list[dict[str, Any]]) -> list[list[str]]:
    """Of each source its clock, in one of two files and for three of four sources, with or without an offset. A clock
    whose cycle would be too long takes no more sources."""
    told: list[list[str]] = []
    periods: dict[str, list[int]] = {}
    for it in sources:
        if "clock" in it:
            periods.setdefault(it["clock"], []).append(it["period"])
    has_clocks = draw.random() < 0.5
    for it in sources:
        clock = draw.choice(["c1", "c1", "c1", "c2"])
        several = [*periods.get(clock, []), it["period"]]
        cycle = math.lcm(*several)
        is_long = cycle > 1_000_000_000 or sum(cycle // one for one in several) > 4096
        if not has_clocks or is_long or "clock" in it or draw.random() < 0.25:
            told.append([])
            continue
        periods[clock] = several
        offset = draw.choice([None, 0, draw.randrange(it["period"])])
        told.append([f'clock = "{clock}"', *([] if offset is None else [f"offset = {offset}"])])
    return told


def region_told(draw: random.Random, task: dict[str, Any], kinds: dict[str, str]) -> list[str]:
    """The region of a task on a preemptive resource that has none yet."""
    if "priority" not in task or "region" in task or kinds[task["on"]] != "preemptive":
        return []
    return [f"region = {draw.choice([1, 2, 3, draw.randint(1, 50), task['worst'], 1_000_000])}"]


def with_regions(draw: random.Random, text: str) -> str:
    """A system file whose tasks on preemptive resources have regions, most small, and some as long as any job; some of
    its sources are sporadic, and some are on clocks."""
    text = re.sub(r"^format = [12]$", "format = 4", text, count=1, flags=re.M)
    entries = Document(text).entries
    kinds = {it["name"]: it["kind"] for it in entries["resource"]}
    sources, tasks = (list(enumerate(entries[part])) for part in ("source", "task"))
    clocks = clocks_told(draw, entries["source"])
    added = [("source", at, "period", sporadic_told(draw, it) + clocks[at]) for at, it in sources]
    added += [("task", at, "priority", told) for at, it in tasks if (told := region_told(draw, it, kinds))]
    return with_keys(text, added)


def changed_spans(text: str, changes: Sequence[tuple[int, int, str]]) -> str:
    """A text in which stretches that don't overlap give way to others."""
    for start, end, what in sorted(changes, reverse=True):
        text = text[:start] + what + text[end:]
    return text


def dropped(text: str, place: Place, keys: Sequence[str]) -> list[tuple[int, int, str]]:
    """What goes where an entry is to have no such keys, each with the comma behind it: one before may stay."""
    found = [(place.keys[it][0], place.values[it].end) for it in keys if it in place.keys]
    commas = [re.compile(r"[ \t]*,?").match(text, end) for _, end in found]
    return [(start, comma.end() if comma else end, "") for (start, end), comma in zip(found, commas)]


def with_queues(draw: random.Random, text: str) -> str:
    """A system file some of whose resources are queues: their tasks have neither priorities nor slots, and frames on
    them may be longer."""
    text = re.sub(r"^format = [12]$", "format = 4", text, count=1, flags=re.M)
    document = Document(text)
    chosen = {it["name"] for it in document.entries["resource"] if draw.random() < 0.6}
    changes: list[tuple[int, int, str]] = []
    for at, it in enumerate(document.entries["resource"]):
        if it["name"] in chosen:
            place = document.place("resource", at)
            changes += [(*place.values["kind"].span, '"fifo"'), *dropped(text, place, ("gap", "bit"))]
            if "rate" in it:
                changes.append((*place.values["rate"].span, str(draw.choice([1, 100, draw.randint(1, 672), 672]))))
    for at, it in enumerate(document.entries["task"]):
        if it["on"] in chosen:
            place = document.place("task", at)
            changes += dropped(text, place, ("priority", "slot", "region", "extended", "locks"))
            if "payload" in it:
                changes.append((*place.values["payload"].span, str(draw.choice([0, 46, draw.randint(0, 1500), 1500]))))
    text = changed_spans(text, changes)
    at_queues = [at for at, it in enumerate(document.entries["resource"]) if it["name"] in chosen and "rate" not in it]
    rates = [(at, [f"rate = {draw.choice([1, 100, 672])}"]) for at in at_queues if draw.random() < 0.5]
    return with_keys(text, [("resource", at, "kind", told) for at, told in rates])


def locks_told(draw: random.Random, worst: int, on: str) -> str:
    """Sections of a task, each behind the one before it or within that."""
    told, start, end = list[str](), 0, worst + 3
    for _ in range(draw.choice([0, 1, 2, 3])):
        if end - start < 1:
            break
        first = draw.randint(start, end - 1)
        length = draw.randint(1, end - first)
        name = draw.choice([f"{on[:40]}.a", f"{on[:40]}.b"])
        told.append(f'{{ name = "{name}", start = {first}, length = {length} }}')
        start, end = draw.choice([(first, first + length), (first + length, end)])
    return f"locks = [{', '.join(told)}]"


def with_locks(draw: random.Random, text: str) -> str:
    """A system file some of whose preemptive resources have priority ceilings, where tasks without a region have
    sections."""
    text = re.sub(r"^format = [12]$", "format = 4", text, count=1, flags=re.M)
    document = Document(text)
    several = document.entries["resource"]
    chosen = {it["name"] for it in several if it["kind"] == "preemptive" and draw.random() < 0.7}
    changes: list[tuple[int, int, str]] = []
    for at, it in enumerate(several):
        if it["name"] in chosen:
            changes.append((*document.place("resource", at).values["kind"].span, '"ceiling"'))
    added = [
        ("task", at, "worst", [locks_told(draw, it["worst"], it["on"])])
        for at, it in enumerate(document.entries["task"])
        if it["on"] in chosen and it.get("region", 1) == 1 and "locks" not in it and draw.random() < 0.7
    ]
    return with_keys(changed_spans(text, changes), added)


def words_of(text: str) -> list[tuple[int, int]]:
    """Where the words of a text stand: names, numbers, quoted texts and single marks."""
    return [it.span() for it in re.finditer(r'"[^"\n]*"|[\w.-]+|[^\s\w]', text)]


def sort_of(word: str) -> str:
    return "text" if word[:1] == '"' else "number" if word.isdigit() else "word" if word[:1].isalnum() else "mark"


def exchange_words(draw: random.Random, text: str) -> str:
    """One word takes the place of another, most often of its sort."""
    spans = words_of(text)
    if not spans:
        return text
    start, end = draw.choice(spans)
    if draw.random() < 0.9:
        spans = [it for it in spans if sort_of(text[slice(*it)]) == sort_of(text[start:end])]
    other, last = draw.choice(spans)
    return text[:start] + text[other:last] + text[end:]


def exchange_texts(draw: random.Random, text: str) -> str:
    """One of the texts in quotes takes the place of another: names that name others."""
    spans = [it.span() for it in re.finditer(r'"[^"\n]*"', text)]
    if not spans:
        return text
    (start, end), (other, last) = draw.choice(spans), draw.choice(spans)
    return text[:start] + text[other:last] + text[end:]


def exchange(draw: random.Random, text: str, form: str, several: list[str]) -> str:
    """One of several stands where the group of a form was found."""
    found = list(re.finditer(form, text))
    if not found:
        return text
    it = draw.choice(found)
    return text[: it.start(1)] + draw.choice(several) + text[it.end(1) :]


def exchange_value(draw: random.Random, text: str) -> str:
    return exchange(draw, text, r"= *([^\n,}\]]+)", VALUES)


def exchange_key(draw: random.Random, text: str) -> str:
    return exchange(draw, text, r"(\w+) *=", KEYS)


def drop_line(draw: random.Random, text: str) -> str:
    lines = text.splitlines(True)
    if lines:
        del lines[draw.randrange(len(lines))]
    return "".join(lines)


def double_lines(draw: random.Random, text: str) -> str:
    """Some lines stand a second time, somewhere."""
    lines = text.splitlines(True)
    if not lines:
        return text
    start = draw.randrange(len(lines))
    count, at = draw.randint(1, 8), draw.randrange(len(lines) + 1)
    return "".join([*lines[:at], *lines[start : start + count], *lines[at:]])


def change_letter(draw: random.Random, text: str) -> str:
    if not text:
        return "x"
    at = draw.randrange(len(text))
    return text[:at] + draw.choice(["", draw.choice('"[]{}=,#\n .x0-')]) + text[at + draw.randint(0, 1) :]


def add_line(draw: random.Random, text: str) -> str:
    lines = text.splitlines(True)
    at = draw.randrange(len(lines) + 1)
    return "".join([*lines[:at], f"{draw.choice(KEYS)} = {draw.choice(VALUES)}\n", *lines[at:]])


WAYS = [
    exchange_words,
    exchange_words,
    exchange_texts,
    exchange_texts,
    exchange_texts,
    exchange_value,
    exchange_key,
    drop_line,
    double_lines,
    change_letter,
    add_line,
]


def damaged(draw: random.Random, text: str) -> str:
    """The text with one to three damages."""
    for _ in range(draw.choice([1, 1, 1, 2, 3])):
        text = draw.choice(WAYS)(draw, text)
    return text


ROW_VALUES = [
    *"0 1 5 -1 10000001 1000001 20000001 1000000001 12345678901 1.5 x event exec phase é".split(),
    *("", " 1", '"a"', '"', "a,b"),
]


def damaged_rows(draw: random.Random, text: str, names: list[str]) -> str:
    """Rows of which some fields are exchanged, or that are dropped, doubled or moved."""
    rows = [line.split(",") for line in text.splitlines()]
    for _ in range(draw.randint(1, 3)):
        if not rows:
            break
        row, way = draw.randrange(len(rows)), draw.randrange(6)
        if way < 3 and rows[row]:
            rows[row][draw.randrange(len(rows[row]))] = draw.choice([*ROW_VALUES, *names, str(draw.randrange(200))])
        elif way == 3:
            rows.insert(draw.randrange(len(rows) + 1), list(rows[row]))
        elif way == 4:
            del rows[row]
        else:
            rows.insert(row, draw.choice([[], ["", ""], ["event", *names[:1]], ["a", "b", "c", "d"]]))
    return draw.choice(["\n", "\n", "\r\n"]).join(",".join(it) for it in rows) + draw.choice(["", "\n"])


def damaged_script(draw: random.Random, names: list[str]) -> str:
    """A script of edits, most of which are of a form, with names and numbers of a system or near to these."""
    lines = []
    for _ in range(draw.randint(1, 12)):
        one, other, third = (draw.choice([*names, "zz"]) for _ in range(3))
        few = [str(draw.choice([0, 1, 2, 3, 5, 9, 20, 1_000_000, 1_000_001, draw.randrange(50)])) for _ in range(3)]
        lines.append(
            draw.choice(
                [
                    f"exec {one} {few[0]} {few[1]}",
                    f"priority {one} {few[0]}",
                    f"swap {one} {other}",
                    f"slot {one} {few[0]}",
                    f"source {one} {few[0]} {few[1]} {few[2]}",
                    f"offset {one} {few[0]}",
                    f"add {draw.choice(['n1', 'n2', one])} {other} {third} {few[0]} {few[1]} {few[2]}",
                    f"add {draw.choice(['n1', 'n2', one])} {other} {third} 1 {few[1]} 0",
                    f"remove {draw.choice([one, 'n1', 'n2'])}",
                    "report",
                    "# text",
                    "",
                ]
            )
        )
    if draw.random() < 0.3:
        at = draw.randrange(len(lines))
        lines[at] = draw.choice(
            [
                change_letter(draw, lines[at]),
                lines[at] + " x",
                lines[at].upper(),
                "\t" + lines[at] + " \r",
                lines[at] + " # c",
            ]
        )
    return "\n".join(lines) + draw.choice(["", "\n", "\r\n"])
