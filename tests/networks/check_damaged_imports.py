#!/usr/bin/env python3
"""Tries `lokwurmi import network` and `import log` over damaged files: each is refused, or no bound is below that of
the whole file. Outside the gate; takes about a minute, and no network.

What a whole file says is read here by a plain reader of DBC, or is known since the file was made so. Its bounds are
those of Davis and others for CAN, written down plainly. Those of what is imported are by the rules of check_reports.py.
A file that is damaged into another whole one, as by another digit of a period, is held against what that says: nobody
could tell.

    python3 -m tests.networks.check_damaged_imports [COUNT of places at which each kind of damage is tried, 6 if absent]
"""
import contextlib
import io
import os
import random
import re
import tempfile
from collections.abc import Callable
from typing import NamedTuple

from lokwurmi.errors import LokwurmiError
from lokwurmi_tools.commands.import_log import main as import_log
from lokwurmi_tools.commands.import_network import main as import_network
from tests.rules.bounds import System
from tests.support.calls import add_number, hold, reader_of, tell, tried
from tests.support.databases import dumped, matrix_of, timed_arxml

BIT = 2


class Frame(NamedTuple):
    """A frame as its file says it, with times in ticks of a microsecond."""

    number: int
    extended: bool
    size: int
    period: int
    jitter: int

    @property
    def order(self):
        """The bits in the order in which a bus compares them."""
        if not self.extended:
            return f"{self.number:011b}00"
        return f"{self.number >> 18:011b}11{self.number & 0x3FFFF:018b}0"

    @property
    def shown(self):
        return f"0x{self.number:08X}" if self.extended else f"0x{self.number:03X}"

    @property
    def length(self):
        return ((80 if self.extended else 55) + 10 * self.size) * BIT


def bound_of(frame, frames):
    """The greatest response of a frame, after Davis, Burns, Bril and Lukkien (2007)."""
    higher = [it for it in frames if it.order < frame.order]
    blocking = max((it.length for it in frames if it.order > frame.order), default=0)
    queued = lambda it, window: -(-(window + it.jitter) // it.period)
    busy, before = 1, 0
    while busy != before:
        before = busy
        busy = max(1, blocking + sum(queued(it, busy) * it.length for it in [*higher, frame]))
    greatest = 0
    for place in range(queued(frame, busy)):
        start, before = 0, -1
        while start != before:
            before = start
            start = blocking + place * frame.length + sum(queued(it, start + BIT) * it.length for it in higher)
        greatest = max(greatest, start + frame.length - max(0, place * frame.period - frame.jitter))
    return greatest


def bounds_of(frames):
    return {it.shown: bound_of(it, frames) for it in frames}


# the lines of a DBC file that say something of a frame; all else begins with one of the words behind
_BO = re.compile(r"BO_ (\d+) \w+: (\d+) \w+$")
_SG = re.compile(r' SG_ \w+ (?:M |m\d+ )?: (\d+)\|(\d+)@1[+-] \([\d.]+,[\d.]+\) \[\d+\|\d+\] "[^"]*" [\w,]+$')
_BA = re.compile(r'BA_ "(GenMsgCycleTime|JitterMs)" BO_ (\d+) ([\d.]+);$')
_REST = re.compile(
    r'(?:VERSION "[^"]*"|NS_ :|BS_:|BU_:[ \w]*|CM_ (?:BO_ \d+ )?"[^"]*";|VAL_ \d+ \w+( \d+ "\w*")+ ?;'
    r'|BA_DEF_ BO_ "\w+" (INT|FLOAT) \d+ \d+;|BA_DEF_ (?:SG_ |BU_ )?"\w+" .*;|BA_DEF_DEF_ "\w+" .*;|)$'
)


def read_dbc(text):
    """The frames of a DBC file, or None where a line isn't read: plain, and of no more than the files here have."""
    sizes, values, last = {}, {"GenMsgCycleTime": {}, "JitterMs": {}}, None
    for line in text.split("\n"):
        if found := _BO.match(line):
            if found[1] in sizes:
                return None
            last = found[1]
            sizes[last] = int(found[2])
        elif (found := _SG.match(line)) and last:
            sizes[last] = max(sizes[last], -(-(int(found[1]) + int(found[2])) // 8))
        elif found := _BA.match(line):
            values[found[1]][found[2]] = float(found[3])
        elif not _REST.match(line):
            return None
    if any(set(it) != set(sizes) for it in values.values()) or any(it > 8 for it in sizes.values()):
        return None
    if not all(values["GenMsgCycleTime"].values()):
        return None
    return [
        Frame(
            int(it) & ~(1 << 31),
            int(it) >= 1 << 31,
            size,
            round(1000 * values["GenMsgCycleTime"][it]),
            round(1000 * values["JitterMs"][it]),
        )
        for it, size in sizes.items()
    ]


def quietly(main: Callable[[list[str]], int | None], *words: object) -> tuple[int, str, str]:
    """The status of a call in this process, and what it writes and says."""
    out, told = io.StringIO(), io.StringIO()
    with contextlib.redirect_stdout(out), contextlib.redirect_stderr(told):
        try:
            status = main([str(it) for it in words]) or 0
        except LokwurmiError as fault:
            return 1, out.getvalue(), str(fault)
        except SystemExit as fault:
            status = int(fault.code or 0)
        except Exception as fault:  # an error of the tool, which a user would see as a traceback
            return 70, out.getvalue(), f"{type(fault).__name__}: {fault}"
    return status, out.getvalue(), told.getvalue()


def imported_bounds(text):
    """The bounds of a system by the identifiers that stand behind its frames."""
    shown = dict(re.findall(r'\{ name = "([^"]+)", on = .*\}, # (0x[0-9A-F]+)$', text, re.M))
    return {shown[name]: bound for name, bound in System(text).least_solution().items()}


def below(found, wanted):
    """The frames that aren't there, or have a bound that is lower than the whole file's."""
    return {it: (found.get(it), bound) for it, bound in wanted.items() if found.get(it, -1) < bound}


# kinds of damage to a text: each gives the damaged text, or None where it has nothing to damage
Damage = Callable[[random.Random, str], str | None]


def at_line(pattern: str, change: Callable[[random.Random, str], str | None]) -> Damage:
    """Changes one of the lines that match a pattern; what is None takes the line out."""

    def damage(draw: random.Random, text: str) -> str | None:
        lines = text.split("\n")
        places = [place for place, line in enumerate(lines) if re.search(pattern, line)]
        if not places:
            return None
        place = draw.choice(places)
        line = change(draw, lines[place])
        return "\n".join([*lines[:place], *([] if line is None else [line]), *lines[place + 1 :]])

    return damage


def less(*words: str) -> Callable[[random.Random, str], str]:
    """A line without the first of some texts that it has."""

    def change(draw: random.Random, line: str) -> str:
        word = draw.choice([it for it in words if it in line] or [line[:1]])
        return line.replace(word, "", 1)

    return change


def other(pattern: str, text: str) -> Callable[[random.Random, str], str]:
    """A line with another text in place of what a pattern finds."""
    return lambda draw, line: re.sub(pattern, lambda it: it.expand(text), line, count=1)


def gone(draw: random.Random, line: str) -> None:
    """No line."""


def twice(draw: random.Random, line: str) -> str:
    return f"{line}\n{line}"


def any_letter(draw: random.Random, text: str) -> str:
    """A letter more, or less, or another, anywhere."""
    at = draw.randrange(len(text))
    return (
        text[:at] + draw.choice(("", draw.choice('0 9;:"x_\n') + text[at], draw.choice('07 ;:"|@X'))) + text[at + 1 :]
    )


def any_lines(draw: random.Random, text: str) -> str:
    """Two lines change their places."""
    lines = text.split("\n")
    a, b = draw.randrange(len(lines)), draw.randrange(len(lines))
    lines[a], lines[b] = lines[b], lines[a]
    return "\n".join(lines)


def cut(draw: random.Random, text: str) -> str:
    return text[: draw.randrange(len(text) // 3, len(text) - 2)]


BO, SG, CYCLE, JITTER = r"^BO_ ", r"^ SG_ ", r'^BA_ "GenMsg', r'^BA_ "Jitter'
OF_DBC: dict[str, Damage] = {
    "a frame's line less": at_line(BO, gone),
    "no colon behind a frame": at_line(BO, less(":")),
    "a blank before a frame's name less": at_line(BO, other(r"(\d) (\w)", r"\1\2")),
    "another word for a frame": at_line(BO, other("BO_", "B0_")),
    "a frame's word in other letters": at_line(BO, other("BO_", "bo_")),
    "a frame's length less": at_line(BO, other(r": \d+", ":")),
    "a frame's length in words": at_line(BO, other(r": \d+", ": eight")),
    "a longer length": at_line(BO, other(r": (\d)", r": \g<1>0")),
    "a minus before a length": at_line(BO, other(r": (\d)", r": -\1")),
    "a frame's sender less": at_line(BO, other(r"(: \d+) \w+", r"\1")),
    "a hexadecimal identifier": at_line(BO, other(r"BO_ (\d+)", r"BO_ 0x\1")),
    "a minus before an identifier": at_line(BO, other(r"BO_ ", "BO_ -")),
    "an identifier out of range": at_line(BO, other(r"BO_ (\d+)", r"BO_ 9\g<1>0000")),
    "29 bits without bit 31": at_line(r"^BO_ \d{10} ", lambda draw, it: re.sub(r"\d{10}", unmarked, it, count=1)),
    "a digit of an identifier less": at_line(BO, other(r"BO_ \d", "BO_ ")),
    "a frame twice": at_line(BO, twice),
    "a frame's name twice": at_line(BO, other(r"(BO_ \d+) \w+", r"\1 Same")),
    "a second frame of an identifier": at_line(
        BO, lambda draw, it: f"{it}\n{re.sub(r'(BO_ .d*|BO_ [0-9]+) .w+', '', it)}"
    ),
    "a tab in a frame's line": at_line(BO, other(r"BO_ ", "BO_\t")),
    "a frame as a comment": at_line(BO, other("^", "// ")),
    "a quote that opens": at_line(r"^CM_", other('";$', ";")),
    "a quote more": at_line(BO, other("$", '"')),
    "a signal's line less": at_line(SG, gone),
    "no colon in a signal": at_line(SG, less(" : ")),
    "no bar in a signal": at_line(SG, less("|")),
    "a bracket less in a signal": at_line(SG, less("]", "(", ")", "[")),
    "a signal that is longer than a frame": at_line(SG, other(r"\|\d+@", "|800@")),
    "a missing multiplexer": at_line(r"^ SG_ \w+ M ", gone),
    "a broken multiplexer": at_line(r"^ SG_ \w+ M ", less("@", "|")),
    "a period's line less": at_line(CYCLE, gone),
    "a period without its number": at_line(CYCLE, other(r" [\d.]+;", ";")),
    "a period without its semicolon": at_line(CYCLE, less(";")),
    "a period in words": at_line(CYCLE, other(r" [\d.]+;", " ten;")),
    "a period of another word": at_line(CYCLE, other("GenMsgCycleTime", "GenMsgCycleTme")),
    "a period of another frame": at_line(CYCLE, other(r"BO_ \d", "BO_ 7")),
    "a period out of range": at_line(CYCLE, other(r" ([\d.]+);", r" \g<1>000000;")),
    "a negative period": at_line(CYCLE, other(r" ([\d.]+);", r" -\1;")),
    "a period of none": at_line(CYCLE, other(r" ([\d.]+);", " 0;")),
    "a period twice": at_line(CYCLE, lambda draw, it: f"{it}\n{re.sub(r' [0-9.]+;', ' 900;', it)}"),
    "a period's word BA_ less": at_line(CYCLE, other("BA_ ", "")),
    "a jitter's line less": at_line(JITTER, gone),
    "a jitter in words": at_line(JITTER, other(r" [\d.]+;", " some;")),
    "a negative jitter": at_line(JITTER, other(r" ([\d.]+);", r" -\1;")),
    "a jitter with a comma": at_line(JITTER, other(r" (\d+)[\d.]*;", r" \1,5;")),
    "a definition less": at_line(r"^BA_DEF_ BO_", gone),
    "a definition of another word": at_line(r"^BA_DEF_ BO_", other(r'"(\w)', r'"x\1')),
    "a default less": at_line(r"^BA_DEF_DEF_", gone),
    "a default that is a word": at_line(r'^BA_DEF_DEF_ "G', other(r" [\d.]+;", " none;")),
    "a line of a frame of another number": at_line(r"^(?:CM_|VAL_) ?(?:BO_)? ?\d", other(r"\d+", "1999")),
    "the file's end less": cut,
    "carriage returns for line feeds": lambda draw, text: text.replace("\n", "\r"),
    "line feeds less": lambda draw, text: text.replace("\n", " "),
    "two lines at other places": any_lines,
    "a letter": any_letter,
}

# of a file with offsets, besides: one offset is another whole file, and so is another sender that the file has
START = r'^BA_ "GenMsgStart'
OF_OFFSETS: dict[str, Damage] = {
    "an offset's line less": at_line(START, gone),
    "an offset without its number": at_line(START, other(r" [\d.]+;", ";")),
    "an offset without its semicolon": at_line(START, less(";")),
    "an offset in words": at_line(START, other(r" [\d.]+;", " some;")),
    "an offset with a comma": at_line(START, other(r" (\d+)[\d.]*;", r" \1,5;")),
    "an offset beyond a period": at_line(START, other(r" ([\d.]+);", r" 9\1;")),
    "an offset out of range": at_line(START, other(r" [\d.]+;", " 9000;")),
    "a negative offset": at_line(START, other(r" ([\d.]+);", r" -\1;")),
    "an offset of another word": at_line(START, other("StartDelay", "StartDely")),
    "an offset of another frame": at_line(START, other(r"BO_ \d", "BO_ 7")),
    "an offset twice": at_line(START, twice),
    "a definition of offsets less": at_line('^BA_DEF_ BO_ "GenMsgStart', gone),
    "a default of offsets less": at_line('^BA_DEF_DEF_ "GenMsgStart', gone),
    "no sender": at_line(BO, other(r"(: \d+) \w+", r"\1 Vector__XXX")),
    "a sender of its own": at_line(BO, other(r"(: \d+) \w+", r"\1 Other")),
    "the senders' line less": at_line("^BU_", gone),
    "an event's send type": at_line(r"^BA_DEF_DEF_ .*Cyclic", other('"Cyclic"', '"Spontaneous"')),
} | {
    kind: OF_DBC[kind]
    for kind in (
        "a frame's line less",
        "a frame's sender less",
        "a period's line less",
        "a period twice",
        "a frame twice",
    )
}


def unmarked(found: re.Match[str]) -> str:
    """An identifier of 29 bits without the bit that tells so."""
    return str(int(found[0]) & ~(1 << 31))


OF_ARXML: dict[str, Damage] = {
    "a cluster's frame of another name": at_line("<FRAME-REF", other("FRAME_", "FRAM_")),
    "an identifier less": at_line("<IDENTIFIER>", gone),
    "an identifier that is a word": at_line("<IDENTIFIER>", other(r">\d", ">x")),
    "an identifier out of range": at_line("<IDENTIFIER>", other(r">(\d+)", r">9\g<1>99999999")),
    "a negative identifier": at_line("<IDENTIFIER>", other(">(\\d)", r">-\1")),
    "29 bits that aren't told": at_line("<CAN-ADDRESSING-MODE>EXTENDED", gone),
    "29 bits that are mistold": at_line("<CAN-ADDRESSING-MODE>", other("EXTENDED", "EXTENDET")),
    "a length less": at_line("<FRAME-LENGTH>", gone),
    "a length that is a word": at_line("<FRAME-LENGTH>", other(r">\d+", ">eight")),
    "a longer length": at_line("<FRAME-LENGTH>", other(r">(\d+)", r">\g<1>0")),
    "a data unit of another name": at_line("<PDU-REF", other("PDU_", "PDUU_")),
    "a period less": at_line("<VALUE>0", gone),
    "a period that is a word": at_line("<VALUE>0", other(">0", ">O")),
    "a negative period": at_line("<VALUE>0", other(">0", ">-0")),
    "a period of none": at_line("<VALUE>0", other(r">[\d.]+<", ">0<")),
    "a period with a comma": at_line("<VALUE>0", other(r"\.", ",")),
    "a tag that isn't closed": at_line("</", other("</", "<")),
    "a tag of another word": at_line("<(FRAME-REF|IDENTIFIER|PDU-REF|VALUE)", other(r"<(/?)(\w)", r"<\1X\2")),
    "a frame triggered nowhere": lambda draw, text: re.sub(
        r"(?s)<CAN-FRAME-TRIGGERING\b.*?</CAN-FRAME-TRIGGERING>", "", text, count=1
    ),
    "a frame's entry less": lambda draw, text: re.sub(r"(?s)<CAN-FRAME\b.*?</CAN-FRAME>", "", text, count=1),
    "a data unit's entry less": lambda draw, text: re.sub(
        r"(?s)<(I-SIGNAL-I-PDU|SIGNAL-I-PDU)\b.*?</\1>", "", text, count=1
    ),
    "an identifier twice": lambda draw, text: re.sub(r"<IDENTIFIER>\d+", "<IDENTIFIER>16", text),
    "the file's end less": cut,
}
LINE = r"^\(1"
OF_LOG: dict[str, Damage] = {
    "a bracket less": at_line(LINE, less("(", ")")),
    "a digit of a time less": at_line(LINE, other(r"\.\d", ".")),
    "a digit of a time more": at_line(LINE, other(r"\.(\d)", r".\g<1>0")),
    "a time that goes back": at_line(LINE, other(r"\(1\d", "(10")),
    "a time that is far": at_line(LINE, other(r"\(1\d", "(19")),
    "a time that is a word": at_line(LINE, other(r"\.\d", ".o")),
    "a point of a time less": at_line(LINE, less(".")),
    "a mark less before the data": at_line(LINE, less("#")),
    "a digit of an identifier less": at_line(LINE, other(r" [0-9A-F](\w+)#", r" \1#")),
    "a digit of an identifier more": at_line(LINE, other(r" ([0-9A-F]+)#", r" \g<1>0#")),
    "an identifier that is a word": at_line(LINE, other(r" [0-9A-F](\w+)#", r" G\1#")),
    "half a byte less": at_line(LINE, other(r"[0-9A-F]$", "")),
    "more bytes than a frame": at_line(LINE, other(r"$", "0011223344556677889900")),
    "a channel less": at_line(LINE, other(r"\) \w+ ", ") ")),
    "a blank less": at_line(LINE, less(" ")),
    "two lines in one": lambda draw, text: text.replace("\n(", "(", 1),
    "a line of something else": at_line(LINE, other("^", "# ")),
    "the file's end less": lambda draw, text: text[: text.rindex("#") - draw.randint(1, 20)],
    "carriage returns for line feeds": lambda draw, text: text.replace("\n", "\r"),
}

MIXED = """VERSION ""
NS_ :
BS_:
BU_: Gate Motor
BO_ 128 Left: 8 Gate
 SG_ AngleL : 0|16@1+ (0.01,0) [0|655] "deg" Motor
BO_ 2364539904 Mode: 8 Motor
 SG_ ModeNo : 0|8@1+ (1,0) [0|255] "" Gate
BO_ 928 Status: 6 Motor
 SG_ which M : 0|8@1+ (1,0) [0|3] "" Gate
 SG_ Pos m0 : 8|16@1+ (0.01,0) [0|655] "deg" Gate
 SG_ Speed m1 : 8|16@1+ (0.01,0) [0|655] "deg" Gate
BO_ 2564423921 Flash: 8 Gate
 SG_ Data : 0|64@1+ (1,0) [0|0] "" Motor
BO_ 2015 Diag: 8 Gate
BO_ 7 Stop: 1 Gate
CM_ "A bus";
CM_ BO_ 928 "Where it stands";
BA_DEF_ BO_ "GenMsgCycleTime" FLOAT 0 1000;
BA_DEF_ BO_ "JitterMs" FLOAT 0 1000;
BA_DEF_DEF_ "GenMsgCycleTime" 0;
BA_DEF_DEF_ "JitterMs" 0;
BA_ "GenMsgCycleTime" BO_ 128 2.5;
BA_ "GenMsgCycleTime" BO_ 2364539904 3;
BA_ "GenMsgCycleTime" BO_ 928 4;
BA_ "GenMsgCycleTime" BO_ 2564423921 5;
BA_ "GenMsgCycleTime" BO_ 2015 10;
BA_ "GenMsgCycleTime" BO_ 7 5;
BA_ "JitterMs" BO_ 128 0.1;
BA_ "JitterMs" BO_ 2364539904 0.5;
BA_ "JitterMs" BO_ 928 0.82;
BA_ "JitterMs" BO_ 2564423921 5;
BA_ "JitterMs" BO_ 2015 5;
BA_ "JitterMs" BO_ 7 0.2;
VAL_ 928 which 0 "pos" 1 "speed" ;
"""

OFFSETS = """VERSION ""
BU_: Gate Motor
BO_ 16 A: 8 Gate
BO_ 17 B: 8 Gate
BO_ 18 C: 8 Motor
BO_ 19 D: 8 Motor
BA_DEF_ BO_ "GenMsgCycleTime" FLOAT 0 1000;
BA_DEF_ BO_ "GenMsgStartDelayTime" FLOAT 0 1000;
BA_DEF_ BO_ "GenMsgSendType" ENUM "Cyclic","Spontaneous";
BA_DEF_DEF_ "GenMsgCycleTime" 0;
BA_DEF_DEF_ "GenMsgStartDelayTime" 0;
BA_DEF_DEF_ "GenMsgSendType" "Cyclic";
BA_ "GenMsgCycleTime" BO_ 16 2;
BA_ "GenMsgCycleTime" BO_ 17 2;
BA_ "GenMsgCycleTime" BO_ 18 2;
BA_ "GenMsgCycleTime" BO_ 19 4;
BA_ "GenMsgSendType" BO_ 16 0;
BA_ "GenMsgSendType" BO_ 17 0;
BA_ "GenMsgSendType" BO_ 18 0;
BA_ "GenMsgSendType" BO_ 19 0;
BA_ "GenMsgStartDelayTime" BO_ 16 0;
BA_ "GenMsgStartDelayTime" BO_ 17 1;
BA_ "GenMsgStartDelayTime" BO_ 18 0.5;
BA_ "GenMsgStartDelayTime" BO_ 19 1.5;
"""
# what that file says, written down by hand
ON_CLOCKS = """format = 4
resource = [{ name = "b", kind = "can", bit = 2 }]
source = [
  { name = "a", period = 2000, clock = "gate" },
  { name = "b", period = 2000, clock = "gate", offset = 1000 },
  { name = "c", period = 2000, clock = "motor", offset = 500 },
  { name = "d", period = 4000, clock = "motor", offset = 1500 },
]
task = [
  { name = "0x010", on = "b", after = "a", payload = 8, priority = 16 },
  { name = "0x011", on = "b", after = "b", payload = 8, priority = 17 },
  { name = "0x012", on = "b", after = "c", payload = 8, priority = 18 },
  { name = "0x013", on = "b", after = "d", payload = 8, priority = 19 },
]
"""


def is_as_said(what, status, text, told, wanted):
    """Whether a damaged file is refused, or what is imported has no bound below."""
    if status:
        hold(status in (1, 2) and told.strip() and "Traceback" not in told, f"{what}: {status} {told}", "refused")
        return
    found = below(imported_bounds(text), wanted)
    hold(not found, f"{what}: bounds that are too low: {found}", "taken")


def written_bytes(room, name, text, encoding="latin-1"):
    """A file with this text, as it is, in an encoding."""
    file = os.path.join(room, name)
    with open(file, "wb") as it:
        it.write(text.encode(encoding))
    return file


ENCODINGS = ("utf-16", "utf-16-le", "utf-8-sig", "cp037")


def check_dbc(room, count):
    """Each kind of damage to DBC files."""
    with open("examples/sae_can.dbc", encoding="ascii") as it:
        files = {"sae": it.read(), "mixed": MIXED}
    for name, text in files.items():
        words = (f"b={os.path.join(room, name)}.dbc", "--bitrate", "500k", "--jitter-attribute", "JitterMs")
        frames = read_dbc(text)
        assert frames, f"{name}: the plain reader doesn't read it"
        wanted = bounds_of(frames)
        written_bytes(room, f"{name}.dbc", text)
        status, found, told = quietly(import_network, *words)
        hold(status == 0 and imported_bounds(found) == wanted, f"{name}.dbc whole: {told} {found} {wanted}")
        for place, (kind, damage) in enumerate(OF_DBC.items()):
            draw = random.Random(f"{name} {place}")
            for _ in range(count * (20 if kind == "a letter" else 1)):
                damaged = damage(draw, text)
                if damaged is None or damaged == text:
                    continue
                # another whole file is held against what that says
                says = read_dbc(damaged)
                same = says is not None and {it.shown for it in says} == set(wanted)
                same = same and kind in ("a letter", "two lines at other places")
                written_bytes(room, f"{name}.dbc", damaged)
                lines = set(damaged.split("\n")) - set(text.split("\n"))
                status, found, told = quietly(import_network, *words)
                is_as_said(f"{name}.dbc, {kind}: {lines}", status, found, told, bounds_of(says) if same else wanted)
        for encoding in ENCODINGS:
            written_bytes(room, f"{name}.dbc", text, encoding)
            status, found, told = quietly(import_network, *words)
            is_as_said(f"{name}.dbc in {encoding}", status, found, told, wanted)


def check_offsets(room, count):
    """Each kind of damage to a DBC file with offsets: a source that has lost its clock has no lower bound."""
    wanted = System(ON_CLOCKS).least_solution()
    plain = bounds_of([Frame(16 + at, False, 8, period, 0) for at, period in enumerate((2000, 2000, 2000, 4000))])
    hold(wanted != plain and not below(plain, wanted), f"no bound is lower on clocks: {wanted} {plain}")
    words = (f"b={written_bytes(room, 'offsets.dbc', OFFSETS)}", "--bitrate", "500k", "--offsets")
    status, found, told = quietly(import_network, *words)
    hold(status == 0 and imported_bounds(found) == wanted, f"offsets whole: {told} {found} {wanted}")
    for place, (kind, damage) in enumerate(OF_OFFSETS.items()):
        draw = random.Random(f"offsets {place}")
        for _ in range(count):
            damaged = damage(draw, OFFSETS)
            if damaged is not None and damaged != OFFSETS:
                written_bytes(room, "offsets.dbc", damaged)
                is_as_said(f"offsets, {kind}", *quietly(import_network, *words), wanted)


def check_arxml(room, count):
    """Each kind of damage to an ARXML file."""
    made = [("a", 0x10, False, 8, 0, {}), ("b", 0x12345, True, 3, 0, {}), ("c", 0x12, False, 5, 0, {})]
    periods = {"a": "0.002", "b": "0.0025", "c": "0.0005"}
    file = timed_arxml(room, dumped(room, "plain.arxml", {"body": matrix_of(made)}), periods)
    frames = [Frame(*it[1:4], round(float(periods[it[0]]) * 1_000_000), 0) for it in made]
    wanted, words = bounds_of(frames), (file, "--bitrate", "500k")
    status, found, told = quietly(import_network, *words)
    hold(status == 0 and imported_bounds(found) == wanted, f"the ARXML file whole: {told} {found} {wanted}")
    with open(file, encoding="utf-8") as it:
        text = it.read()
    for place, (kind, damage) in enumerate(OF_ARXML.items()):
        draw = random.Random(place)
        for _ in range(count):
            damaged = damage(draw, text)
            if damaged is not None and damaged != text:
                written_bytes(room, "timed.arxml", damaged, "utf-8")
                is_as_said(f"ARXML, {kind}", *quietly(import_network, *words), wanted)
    for encoding in ENCODINGS[:1]:
        written_bytes(room, "timed.arxml", text, encoding)
        is_as_said(f"ARXML in {encoding}", *quietly(import_network, *words), wanted)


def log_bounds(text):
    """The bounds of frames that are queued as a log has them."""
    found = re.findall(r"period = (\d+)(?:, jitter = (\d+))?.* \}, # 0x(\w+),", text)
    frames = [Frame(int(it[2], 16), False, 8, int(it[0]), int(it[1] or 0)) for it in found]
    return bounds_of(frames)


def counts_in(text):
    """How many frames of each identifier are taken."""
    return {it[0]: int(it[1]) for it in re.findall(r"(0x\w+)[,:] (\d+) frames", text)}


def check_log(room, count):
    """Each kind of damage to a log."""
    with open("examples/sae_can.log", encoding="ascii") as it:
        text = it.read()
    file = os.path.join(room, "sae.log")
    written_bytes(room, "sae.log", text)
    status, found, told = quietly(import_log, file)
    wanted, counts = log_bounds(found), counts_in(found)
    hold(sum(counts.values()) == text.count("#"), f"the frames of the log: {counts}")
    hold(status == 0 and len(wanted) > 10, f"the log whole: {told} {wanted}")
    for place, (kind, damage) in enumerate(OF_LOG.items()):
        draw = random.Random(place)
        for _ in range(count):
            damaged = damage(draw, text)
            if damaged is None or damaged == text:
                continue
            written_bytes(room, "sae.log", damaged)
            status, found, told = quietly(import_log, file)
            if status:
                hold(status in (1, 2) and file in told, f"log, {kind}: {status} {told}", "refused")
            else:
                lines = set(damaged.split("\n")) - set(text.split("\n"))
                low = below(log_bounds(found), wanted)
                hold(not low, f"log, {kind}: {lines}: bounds that are too low: {low}", "taken")
                hold(counts_in(found) == counts, f"log, {kind}: {lines}: other frames: {counts_in(found)}")
    for encoding in ENCODINGS:
        written_bytes(room, "sae.log", text, encoding)
        status, found, told = quietly(import_log, file)
        hold(status == 1 or log_bounds(found) == wanted, f"log in {encoding}: {told}", "refused")


def main():
    reader = reader_of(__doc__, "2", "the packages that databases.py names")
    add_number(reader, "count", 6, "at how many places each kind of damage is tried")
    count = reader.parse_args().count
    kinds = len(OF_DBC) + len(OF_OFFSETS) + len(OF_ARXML) + len(OF_LOG) + len(ENCODINGS)
    with tempfile.TemporaryDirectory() as room:
        check_dbc(room, count)
        check_offsets(room, count)
        check_arxml(room, count)
        check_log(room, count)
    hold(tried.get("refused", 0) > 100 and kinds >= 40, f"{kinds} kinds of damage, of which {tried} were tried")
    tell(f"{kinds} kinds of damage: ")


if __name__ == "__main__":
    main()
