"""Tells a refusal or a notice in words: the front of this package, for the launcher. Tools come to it by
`lokwurmi_tools.shared.system_file`."""
from __future__ import annotations

import contextlib
import os
import re
import stat
import sys
import tomllib
from collections.abc import Sequence
from dataclasses import replace
from typing import TextIO

from lokwurmi.files.documents import Document
from lokwurmi.files.text_files import File, decoded
from lokwurmi.model.commands import FILES, title_of
from lokwurmi.model.limits import LIMITS, MOST_BYTES, NEWEST
from lokwurmi.model.statuses import Status
from lokwurmi.refusals import chains, edits, notices
from lokwurmi.refusals import program_lines as lines
from lokwurmi.refusals import schedule, script, words
from lokwurmi.refusals.reasons import EDIT_RULES
from lokwurmi.refusals.remark import Look, Remark, is_utf_8, listed, nearest, page, printable
from lokwurmi.refusals.rules import Refusal, first_refusal
from lokwurmi.refusals.toml_faults import fault_in
from lokwurmi.refusals.trace import TraceOfSystem

MOST_NOTICES = 10
AGAIN = "this can't be read a second time: write it into a file to see the line and the word"


def look_for(stream: TextIO) -> Look:
    """Colours where the stream is a terminal that has them, and nobody forbids them."""
    return Look(stream.isatty() and not os.environ.get("NO_COLOR") and os.environ.get("TERM", "dumb") != "dumb")


def is_regular(name: str) -> bool:
    """Whether a file can be read a second time."""
    try:
        return stat.S_ISREG(os.stat(name).st_mode)
    except OSError:
        return False


def read(name: str) -> File:
    with open(name, "rb") as it:
        return File(name, decoded(it.read()))


def read_script(name: str) -> File:
    """A script, of which a byte order mark is part of its first word."""
    with open(name, "rb") as it:
        return File(name, it.read().decode("utf-8", "surrogateescape"))


def read_system(name: str) -> File:
    """A system file as it is looked at here: its line ends are line feeds."""
    it = read(name)
    return File(name, it.text.replace("\r\n", "\n"))


def document_of(name: str) -> Document | None:
    try:
        return Document(read_system(name).text)
    except (OSError, UnicodeError, tomllib.TOMLDecodeError, RecursionError):
        return None


class Call:
    """A call of the program that was refused or has something worth a notice: its status, its line, and its words."""

    def __init__(self, status: int, line: str, command: str, words: Sequence[str], look: Look):
        self.status, self.line, self.command, self.words, self.look = status, line, command, list(words), look

    def file(self, sort: str) -> str | None:
        """The word that names the file of a sort."""
        return dict(zip(FILES[self.command], self.words)).get(sort)

    def document(self) -> Document | None:
        """The system, where it can be read a second time."""
        return document_of(self.words[0]) if is_regular(self.words[0]) else None

    def told(self) -> str | None:
        """What to say; None where a hint by the status is all there is."""
        tellers = {
            Status.OK: self.notices,
            Status.MISSED: self.notices,
            Status.OVERLOAD: self.notices,
            Status.NONE: self.no_answer,
            Status.WORDS_REFUSED: self.no_words,
            Status.FILE_UNREAD: self.unreadable,
            Status.FILE_TOO_LONG: self.too_long,
            Status.NOT_TOML: self.no_toml,
            Status.SYSTEM_REFUSED: self.no_system,
            Status.SCRIPT_REFUSED: self.script,
            Status.TRACE_REFUSED: self.trace,
            Status.TRACE_DISOBEYS: self.disobeys,
            Status.NAME_REFUSED: self.word,
            Status.SCHEDULE_REFUSED: self.schedule,
        }
        return tellers[Status(self.status)]() if self.status in tellers else None

    def by_line(self, name: str) -> str | None:
        """What the program's line says by itself."""
        found = lines.told(self.line)
        if found is None:
            return None
        helps = "" if is_regular(name) else AGAIN
        return self.look.text(File(name, ""), Remark(found[0], None, helps, more=found[1]))

    def on(self, name: str, fault: tuple[str, Remark] | None, wanted: str, file: File) -> str | None:
        """The remark on a fault, where the program found the same; else what its line says."""
        return self.look.text(file, fault[1]) if fault and fault[0] == wanted else self.by_line(name)

    # ---- files

    def no_words(self) -> str | None:
        name = next((it for it in self.words if not is_utf_8(it)), None)
        if name is None:
            return None
        return self.look.text(File(name, ""), Remark("the name isn't UTF-8", None, "rename it", more="The words"))

    def unreadable(self) -> str | None:
        name = self.line.removeprefix("cannot read ")
        return self.look.text(File(name, ""), unreadable(name)) if name != self.line else None

    def too_long(self) -> str | None:
        name = self.line.removeprefix("too long ")
        sort = next((it for it in MOST_BYTES if self.file(it) == name), None)
        if sort is None:
            return None
        size = os.path.getsize(name) if is_regular(name) else 0
        if sort == "system":
            return self.long_system(name, size)
        says = f"it has {size or 'too many'} bytes, and a {title_of(sort)} has {MOST_BYTES[sort]} at most"
        helps = f"cut the {title_of(sort)} into parts" + (
            "" if sort in ("trace", "schedule") else ", or leave comments and empty lines out"
        )
        return self.look.text(File(name, ""), Remark(says, None, helps, more="Statuses"))

    def long_system(self, name: str, size: int) -> str:
        """What to say of a system that is too long, and may have more bytes where it is TOML of the newest format."""
        first, most = MOST_BYTES["system"], LIMITS[NEWEST].file_bytes
        helps = "cut the system into parts, or leave comments and empty lines out"
        if 0 < size <= most:
            file = read_system(name)
            if fault := fault_in(file):
                says = (
                    f"above {first} bytes a system is TOML with `format = {NEWEST}`, and this isn't TOML: {fault.says}"
                )
                return self.look.text(file, replace(fault, says=says))
            helps = f"write `format = {NEWEST}`, of which it may have {most}, or {helps}"
        says = f"it has {size or 'too many'} bytes, and a system has {first} at most, with `format = {NEWEST}` {most}"
        return self.look.text(File(name, ""), Remark(says, None, helps, more="Statuses"))

    def no_toml(self) -> str | None:
        # of `chains` either of its files may be the one
        name = self.line.removeprefix("not TOML ") if self.command == "chains" else self.file("system")
        if not name or not os.path.exists(name):
            return None
        if not is_regular(name):
            return self.look.text(File(name, ""), Remark("it isn't TOML", None, AGAIN, more="Statuses"))
        file = read_system(name)
        remark = fault_in(file)
        return self.look.text(file, remark) if remark else None

    # ---- what is in them

    def no_system(self) -> str | None:
        name = self.file("system")
        found = refusal_of(name) if name and is_regular(name) else None
        if found and found[1].line == self.line:
            return self.look.text(found[0], found[1].remark)
        return self.by_line(name) if name else None

    def script(self) -> str | None:
        name = self.file("script")
        if not name or not is_regular(name):
            return self.by_line(name) if name else None
        file = read_script(name)
        return self.on(name, script.fault_in(file), self.line.removeprefix("script refused "), file)

    def traced(self) -> tuple[File, TraceOfSystem] | None:
        name, document = self.file("trace"), self.document()
        if not name or not is_regular(name) or not document:
            return None
        file = read(name)
        return file, TraceOfSystem(document, file)

    def trace(self) -> str | None:
        name, found = self.file("trace"), self.traced()
        if not found:
            return self.by_line(name) if name else None
        return self.on(found[0].name, found[1].fault, self.line.removeprefix("trace refused "), found[0])

    def disobeys(self) -> str | None:
        name, found = self.file("trace"), self.traced()
        if not found or found[1].fault or not self.line:
            return self.by_line(name) if name else None
        remark = found[1].disobeys(self.line.split()[2:])
        return self.look.text(found[0], remark) if remark else self.by_line(found[0].name)

    def schedule(self) -> str | None:
        name, document = self.file("schedule"), self.document()
        if not name or not is_regular(name) or not document:
            return self.by_line(name) if name else None
        file = read(name)
        return self.on(name, schedule.fault_in(document, file), self.line.removeprefix("schedule refused "), file)

    def word(self) -> str | None:
        """The word of `assign`, `slack` or `chain` that can't be taken, or what is wrong in the file of `chains`."""
        document = self.document()
        if not document:
            return self.by_line(self.words[1 if self.command == "chains" else 0])
        if self.command == "chains":
            return self.chains(document)
        remark = words.remark_on(document, self.line, self.words[1:])
        text = document.text if remark and remark.span else ""
        return self.look.text(File(self.words[0], text), remark) if remark else None

    def chains(self, document: Document) -> str | None:
        name = self.file("chains")
        if not name or not is_regular(name):
            return self.by_line(name) if name else None
        file, tasks = read_system(name), [it["name"] for it in document.entries["task"]]
        return self.on(name, chains.fault_in(file, tasks), self.line.removeprefix("chains refused "), file)

    # ---- notices

    def no_answer(self) -> str | None:
        says = "a deadline is missed already, or a path with one has no bound"
        helps = "look for `missed` and `unknown` in what `lokwurmi analyse` writes"
        if self.command == "assign":
            says = "no order of priorities meets the deadlines that tasks of this resource have of their own"
            helps = f"look where the time goes, by `lokwurmi analyse`: {self.ways_to_an_order()}"
        remark = Remark(says, None, helps, more=notices.ORDERS, is_notice=True)
        return self.look.text(File(self.words[0], ""), remark) + (self.notices() or "")

    def ways_to_an_order(self) -> str:
        """What may help where `assign` finds no order."""
        document = self.document()
        tasks = document.entries["task"] if document else []
        has_region = any(it["on"] == self.words[1] and it.get("region", 1) > 1 for it in tasks)
        shorter = "shorten a region (a task may be held up by the longest below it), " if has_region else ""
        return f"take work off the resource, {shorter}or allow more time"

    def notices(self) -> str | None:
        document = self.document()
        if not document or first_refusal(document):
            return self.edits_by_line()
        remarks = notices.of_system(document)
        if self.command == "assign":
            remarks += notices.of_assign(document, self.words[1], self.status == Status.OK)
        elif self.command == "slack":
            remarks += notices.without_deadlines(document)
        elif self.command in ("chain", "chains"):
            remarks += self.silences(document)
        file = File(self.words[0], document.text)
        told = "".join(self.look.text(file, it) for it in remarks)
        edits_told = self.refused_edits(document) if self.command == "session" and self.line else ""
        return told + (edits_told or "")

    def silences(self, document: Document) -> list[Remark]:
        """The waits for sporadic sources that leave a bound of `chain` or `chains` open."""
        from lokwurmi.refusals import silence

        if self.status != Status.OVERLOAD:
            return []
        if self.command == "chain":
            tasks = [it for it in self.words[1:] if not it.startswith("--")]
            return [*silence.remarks_on(document, [silence.AskedChain("", tasks)], len(tasks) < len(self.words) - 1)]
        chains = silence.asked_in(read_system(self.words[1]).text) if is_regular(self.words[1]) else []
        return [*silence.remarks_on(document, chains)]

    def refused_edits(self, document: Document) -> str | None:
        """The edits that the program refused, by the lines that it wrote."""
        if not is_regular(self.words[1]):
            return self.edits_by_line()
        file = read_script(self.words[1])
        count, found = edits.refused_edits(document, file)
        remarks = {it.words: it.remark for it in found}
        several = [remarks.get(line) or self.plain(file, line) for line in self.line.splitlines()]
        return self.edits_text(file, several, f"{len(several)} of {count} edits")

    def edits_by_line(self) -> str | None:
        """The same where script or system can't be read a second time."""
        if self.command != "session" or not self.line:
            return None
        file = File(self.words[1], "")
        several = [self.plain(file, line) for line in self.line.splitlines()]
        return self.edits_text(file, several, f"{len(several)} edit{'' if len(several) == 1 else 's'}")

    def edits_text(self, file: File, several: Sequence[Remark], what: str) -> str:
        """Refused edits, and how many they are."""
        is_one = len(several) == 1
        more = f", the first {MOST_NOTICES} of which are told here" if len(several) > MOST_NOTICES else ""
        return "".join(self.look.text(file, it) for it in several[:MOST_NOTICES]) + (
            f"{printable(file.name)}: {what} {'was' if is_one else 'were'} refused{more}; the reports are of the system"
            f" without {'it' if is_one else 'them'} ({page('FILES.md')}, \"{edits.MORE}\")\n"
        )

    def plain(self, file: File, line: str) -> Remark:
        """A refused edit of which no more is known than its line."""
        number, rule = map(int, re.findall(r"\d+", line))
        says = f"the edit on line {number} was refused: {EDIT_RULES[rule]} (rule {rule})"
        return Remark(says, file.span_of_line(number) if file.text else None, is_notice=True)


def unreadable(name: str) -> Remark:
    """Why a file can't be read."""
    folder, last = os.path.split(name)
    says, helps = "there is no such file", "standard input is the file /dev/stdin" if name == "-" else ""
    if os.path.isdir(name):
        says, helps = "it is a folder, and a file is wanted", in_folder(name)
    elif os.path.lexists(name) and not os.path.exists(name):
        says, helps = "it is a link to what isn't there", ""
    elif os.path.exists(name):
        says, helps = "it is there, but may not be read", f"look at its permissions: ls -l {name}"
    elif folder and not os.path.isdir(folder):
        says = f"there is no folder {printable(folder)}"
        helps = "look at the path, and at the folder that the call is made in"
    else:
        with contextlib.suppress(OSError):
            near = nearest(last, sorted(os.listdir(folder or ".")))
            says += f"; did you mean {printable(os.path.join(folder, near))}?" if near else ""
    return Remark(says, None, helps, more="Statuses")


def in_folder(name: str) -> str:
    try:
        found = sorted(it for it in os.listdir(name) if it.endswith((".toml", ".csv", ".txt")))
    except OSError:
        return ""
    more = " and more" if len(found) > 6 else ""
    return f"in it are {listed([printable(it) for it in found[:6]])}{more}" if found else ""


def refusal_of(name: str) -> tuple[File, Refusal] | None:
    """A system file and its first refusal, as it is found here."""
    file = read_system(name)
    try:
        found = first_refusal(Document(file.text))
    except (UnicodeError, tomllib.TOMLDecodeError, RecursionError):
        return None
    return (file, found) if found else None


def main(given: Sequence[str]) -> int:
    """STATUS LINE COMMAND WORD..: says on standard error what there is to say; 3 where that is nothing."""
    status, line, command, *rest = given
    try:
        told = Call(int(status), line, command, rest, look_for(sys.stderr)).told()
    except (OSError, RecursionError):
        return 3
    if not told:
        return 3
    sys.stderr.write(told)
    return 0
