"""Reads the lines of a DBC file on frames, for lokwurmi import network: canmatrix passes over a line that it can't
read, and each that is lost may make bounds too low. So a line that isn't as such lines are is refused here, by its
number."""
import difflib
import re
from collections.abc import Collection, Iterator
from dataclasses import dataclass, field
from fractions import Fraction
from typing import NoReturn

from lokwurmi.model.limits import MOST_PRIORITY, MOST_SHORT
from lokwurmi_tools.shared.faults import Fault

# an identifier of 29 bits has this bit in a DBC file
LONG = 1 << 31
# the number of what is no frame, but has the signals that are in none
NO_FRAME = LONG | 1 << 30
# the words that begin a line
KEYWORDS = frozenset(
    "VERSION NS_ BS_ BU_ VAL_TABLE_ BO_ SG_ BO_TX_BU_ EV_ ENVVAR_DATA_ EV_DATA_ SGTYPE_ SGTYPE_VAL_ SIG_TYPE_REF_"
    " SIG_GROUP_ SIG_VALTYPE_ SIGTYPE_VALTYPE_ BA_DEF_ BA_DEF_DEF_ BA_ BA_DEF_REL_ BA_REL_ BA_DEF_DEF_REL_"
    " BA_DEF_SGTYPE_ BA_SGTYPE_ VAL_ CM_ CAT_DEF_ CAT_ FILTER SG_MUL_VAL_ BU_SG_REL_ BU_EV_REL_ BU_BO_REL_".split()
)
# those of which a line may be the rest of the one before
LONG_ONES = frozenset(("BU_", "VAL_", "VAL_TABLE_", "SIG_GROUP_", "BO_TX_BU_", "BA_DEF_REL_", "BU_SG_REL_"))
# the attributes that say something of lengths and times
READ = frozenset(
    "GenMsgCycleTime GenMsgCycleTimeFast GenMsgCycleTimeActive GenMsgDelayTime GenMsgSendType VFrameFormat CANFD_BRS"
    " GenSigCycleTime".split()
)
_FRAME = re.compile(r"BO_ +(\d+) ([^ ]+?) *: (\d+) ([^ ]+)")
_SIGNAL = re.compile(
    r"SG_ +(\w+)(?: +(M|m\d+M?))? *: *(\d+)\|(\d+)@([01])[+-] *\([^(),]+,[^(),]+\) *\[[^|\[\]]+\|[^|\[\]]+\]"
    r' *"(?:\\.|[^"\\])*"(?: .*|$)'
)
_BEGIN = re.compile(r"SG_ +(\w+) *: *(\d+)\|(\d+)@([01])")
_DEFINE = re.compile(r'BA_DEF_ +(?:(BO_|SG_|BU_|EV_) +)?"([^"]+)" +(INT|HEX|FLOAT|STRING|ENUM)\b *(.*?) *;')
_DEFAULT = re.compile(r'BA_DEF_DEF_ +"([^"]+)" +(.+?) *;')
_VALUE = re.compile(r'BA_ +"([^"]+)" +(?:(?:(BO_) +(\d+)|(SG_) +(\d+) +(\w+)|(?:BU_|EV_) +\S+) +)?(\S.*?) *; *$')
_OTHERS = re.compile(r"(CM_ +BO_|CM_ +SG_|VAL_|SIG_VALTYPE_|SIG_GROUP_|BO_TX_BU_|SG_MUL_VAL_) +(\d+)(?: +(\w+))?")
# a line of a frame that stands in a text: most often the text isn't closed
_SWALLOWED = re.compile(
    r'\s*(?:BO_ +\d+ +\S+ *: *\d+ +\S+|SG_ +\w+[^:]*: *\d+\|\d+@|BA_ +"\w+" +(?:BO_|SG_) +\d+ .*; *$)'
)


def number_of_frame(identifier: int, extended: bool) -> int:
    """The number by which a DBC file has an identifier."""
    return identifier | LONG if extended else identifier


def fault_of_frame(line: str) -> tuple[str, str]:
    """The word for which a line of a DBC file is no frame, and what to write in its place."""
    form = "a frame begins as BO_ 928 Status: 6 Sender"
    if "\t" in line:
        return "its tab", f"write blanks: {form}"
    words = line.split()
    number = words[1] if len(words) > 1 else ""
    if not number.isascii() or not number.isdecimal():
        return number or "its end", f"an identifier is a decimal number: {form}"
    if MOST_SHORT < int(number) <= MOST_PRIORITY:
        return number, f"it has 29 bits: add 0x80000000, so write {int(number) + LONG}"
    if int(number) & ~LONG > MOST_PRIORITY:
        return number, f"an identifier has 29 bits at most, and 0x80000000 is added where it has more than 11: {form}"
    rest = line.split(number, 1)[1]
    if not re.match(r" [^ ]+ *:", rest):
        return rest.strip().split(" ")[0] or "its end", f"a name without blanks, and a colon behind it: {form}"
    return rest.split(":", 1)[1].strip() or "its end", f"the length in bytes, and the sender: {form}"


def reach(start: int, size: int, is_little: bool) -> int:
    """How many bytes a frame has that a signal just fits into."""
    if is_little:
        return -(-(start + size) // 8)
    # the bit that is told is the highest, and the rest is in the bytes behind
    return start // 8 + 1 + -(-max(0, size - start % 8 - 1) // 8)


@dataclass
class FrameLine:
    """A frame, where it begins, and its signals."""

    place: int
    line: str
    size: int
    sender: str
    signals: set[str] = field(default_factory=set)
    broken: list[tuple[int, str]] = field(default_factory=list)
    multiplexer: str = ""
    multiplexed: list[tuple[int, str]] = field(default_factory=list)


@dataclass(frozen=True)
class Define:
    """What values an attribute may have."""

    kind: str
    rest: str

    def says_of(self, word: str) -> str:
        """What is wrong with a value, or nothing."""
        plain = word.strip('"')
        if self.kind == "ENUM":
            names = re.findall(r'"([^"]*)"', self.rest)
            is_one = plain in names or plain.isdecimal() and int(plain) < len(names)
            return "" if is_one else f"it is 0 to {len(names) - 1}, or one of {', '.join(names)}"
        if self.kind == "STRING":
            return "" if word[:1] == word[-1:] == '"' and len(word) > 1 else "it is a text in quotes"
        try:
            number = Fraction(plain)
            least, most = (Fraction(it) for it in (self.rest.split() or ["0", "0"])[:2])
        except (ValueError, ZeroDivisionError):
            return "it is a number" if self.rest else ""
        is_in = least >= most or least <= number <= most
        return "" if is_in else f"its definition has {self.rest}, and so it is {float(least):g} to {float(most):g}"


class DbcLines:
    """The lines of a DBC file. Reading refuses what isn't as such lines are; `attributes` are those that are asked for
    besides the ones on lengths and times."""

    def __init__(self, file: str, text: str, attributes: Collection[str] = ()):
        self.file, self.read = file, READ | set(attributes)
        self.frames: dict[int, list[FrameLine]] = {}
        self.defines: dict[tuple[str, str], Define] = {}
        self.values: dict[tuple[str, int, str], tuple[int, str, str]] = {}
        self.others: list[tuple[int, str, re.Match[str]]] = []
        self.frame: FrameLine | None = None
        self.defaults: list[tuple[int, str, str, str]] = []
        self.take(text)
        self.check()

    def refuse(self, place: int, line: str, says: str) -> NoReturn:
        short = line if len(line) <= 100 else f"{line[:97]}.."
        raise Fault(f"{self.file}: line {place}: `{short}` {says}")

    def logical(self, text: str) -> Iterator[tuple[int, str]]:
        """The lines of a file, where one whose text in quotes goes on in the next ones has these too."""
        rows = text.split("\n")
        at = 0
        while at < len(rows):
            place, line = at + 1, rows[at]
            while line.replace('\\"', "").count('"') % 2:
                at += 1
                if at == len(rows):
                    self.refuse(place, rows[place - 1].strip(), "has a quote that isn't closed: close it")
                if _SWALLOWED.match(rows[at]):
                    says = f"stands in the text that begins in line {place}: close its quote there"
                    self.refuse(at + 1, rows[at].strip(), says)
                line += "\n" + rows[at]
            at += 1
            yield place, line

    def take(self, text: str) -> None:
        """Reads all lines."""
        before, is_open = "", False
        for place, line in self.logical(text):
            line = line.strip()
            word = re.match(r"\w*", line)[0]  # type: ignore[index]
            if not line:
                # signals stand right behind their frame
                self.frame = None
            elif before == "NS_" and re.fullmatch(r"\w+", line):
                continue
            elif word in KEYWORDS:
                before, is_open = word, word in LONG_ONES and not line.endswith(";")
                self.take_line(place, line, word)
            elif is_open and (before != "BU_" or re.fullmatch(r"[\w ]+", line) and not re.search(r"\b\d", line)):
                is_open = not line.endswith(";")
            else:
                near = difflib.get_close_matches(word, sorted(KEYWORDS), 1, 0.5)
                more = f"did you mean {near[0]}? " if near else ""
                self.refuse(place, line, f"begins with no word of a DBC file: {more}Mend the line, or take it out")

    def take_line(self, place: int, line: str, word: str) -> None:
        """Reads a line by its first word."""
        if word == "BO_":
            self.take_frame(place, line)
        elif word == "SG_":
            self.take_signal(place, line)
        else:
            self.frame = None
            if word in ("BA_DEF_", "BA_DEF_DEF_", "BA_"):
                {"BA_DEF_": self.take_define, "BA_DEF_DEF_": self.take_default, "BA_": self.take_value}[word](
                    place, line
                )
            elif found := _OTHERS.match(line):
                self.others.append((place, line, found))

    def take_frame(self, place: int, line: str) -> None:
        found = _FRAME.match(line)
        number = int(found[1]) if found else -1
        if not found or number != NO_FRAME and (MOST_SHORT < number <= MOST_PRIORITY or number & ~LONG > MOST_PRIORITY):
            word, helps = fault_of_frame(line)
            self.refuse(
                place,
                line,
                f"is no frame that can be read, by {word}: {helps}. Without it the bounds of all other frames may be"
                " too low",
            )
        self.frame = FrameLine(place, line, int(found[3]), found[4])
        self.frames.setdefault(number, []).append(self.frame)

    def take_signal(self, place: int, line: str) -> None:
        if self.frame is None:
            self.refuse(
                place,
                line,
                "stands in no frame: its BO_ line is lost, or take out what stands between. Without a frame the bounds"
                " of all others may be too low",
            )
        found = _SIGNAL.match(line)
        if not found:
            self.frame.broken.append((place, line))
            return
        self.frame.signals.add(found[1])
        if found[2] and found[2].endswith("M"):
            self.frame.multiplexer = found[1]
        if found[2] and found[2].startswith("m"):
            self.frame.multiplexed.append((place, line))

    def take_define(self, place: int, line: str) -> None:
        found = _DEFINE.match(line)
        if not found:
            form = 'BA_DEF_ BO_ "GenMsgCycleTime" INT 0 65535;'
            self.refuse(place, line, f"is no definition that can be read: write it as {form}")
        self.defines[found[1] or "", found[2]] = Define(found[3], found[4])

    def take_default(self, place: int, line: str) -> None:
        found = _DEFAULT.match(line)
        if not found:
            form = 'BA_DEF_DEF_ "GenMsgCycleTime" 0;'
            self.refuse(place, line, f"is no default that can be read: write it as {form}")
        self.defaults.append((place, line, found[1], found[2]))

    def take_value(self, place: int, line: str) -> None:
        found = _VALUE.match(line)
        if not found:
            form = 'BA_ "GenMsgCycleTime" BO_ 928 10;'
            self.refuse(place, line, f"is no attribute that can be read: write it as {form}")
        kind, number, name = found[2] or found[4], found[3] or found[5], found[6] or ""
        if kind is None:
            return
        key = (found[1], int(number), name)
        before = self.values.setdefault(key, (place, line, found[7]))
        if before[2] != found[7]:
            self.refuse(place, line, f"says another value than line {before[0]}: take one out")

    def check(self) -> None:
        """Holds the lines against each other."""
        for it in (it for several in self.frames.values() for it in several):
            if it.multiplexed and not it.multiplexer:
                self.refuse(
                    *it.multiplexed[0],
                    f"is multiplexed, and the frame of line {it.place} has no multiplexer: a line with M is lost, as"
                    ' SG_ which M : 0|8@1+ (1,0) [0|255] "" Receiver',
                )
            for place, line in it.broken:
                self.check_broken(it, place, line)
        for (name, number, signal), (place, line, value) in self.values.items():
            self.check_number(place, line, number)
            self.check_value(place, line, name, "SG_" if signal else "BO_", value)
            several = self.frames[number]
            if signal and name in self.read and not any(signal in it.signals for it in several):
                self.refuse(place, line, f"names a signal {signal}, which the frame doesn't have: mend its SG_ line")
        for place, line, name, value in self.defaults:
            for kind in ("BO_", "SG_"):
                if (kind, name) in self.defines:
                    self.check_value(place, line, name, kind, value)
            if name in self.read and not any(it == name for _, it in self.defines):
                self.refuse(place, line, f"is of no attribute that BA_DEF_ defines{self.nearest(name)}")
        for place, line, found in self.others:
            self.check_number(place, line, int(found[2]))
            if found[1] == "SG_MUL_VAL_" and not any(found[3] in it.signals for it in self.frames[int(found[2])]):
                self.refuse(place, line, f"names a signal {found[3]}, which the frame doesn't have: mend its SG_ line")

    def check_number(self, place: int, line: str, number: int) -> None:
        if number not in self.frames:
            self.refuse(
                place,
                line,
                f"names a frame {number}, which no BO_ line has: that is lost or has another number; or take this line"
                " out. Without a frame the bounds of all others may be too low",
            )

    def nearest(self, name: str) -> str:
        near = difflib.get_close_matches(name, sorted({it for _, it in self.defines}), 1)
        return f"; did you mean {near[0]}?" if near else ""

    def check_value(self, place: int, line: str, name: str, kind: str, value: str) -> None:
        """Refuses a value that its attribute can't have, and one of no attribute."""
        define = self.defines.get((kind, name))
        if define is None:
            self.refuse(place, line, f"is of no attribute that BA_DEF_ {kind} defines{self.nearest(name)}")
        says = define.says_of(value) if name in self.read else ""
        if says:
            self.refuse(place, line, f"has a value {value}: {says}")

    def check_broken(self, frame: FrameLine, place: int, line: str) -> None:
        """Refuses a broken signal, unless neither the length of its frame, nor its multiplexer, nor its cycle time may
        depend on it."""
        found = _BEGIN.match(line)
        name = found[1] if found else ""
        timed = any(it[2] == name and it[0] in self.read for it in self.values)
        if found and not timed and reach(int(found[2]), int(found[3]), found[4] == "1") <= frame.size:
            return
        self.refuse(
            place,
            line,
            "is no signal that can be read, and its frame's length, multiplexer or cycle time may depend on it: write"
            ' it as SG_ v : 0|16@1+ (1,0) [0|65535] "unit" Receiver',
        )


def text_in(file: str) -> str:
    """The text of a database of lines; one that isn't of letters of one byte each is refused."""
    with open(file, "rb") as it:
        raw = it.read()
    if raw[:2] in (b"\xff\xfe", b"\xfe\xff") or b"\0" in raw:
        raise Fault(f"{file}: it is UTF-16, or no text: write it anew as UTF-8 or in the encoding of Windows")
    text = raw.decode("latin-1").removeprefix("\xef\xbb\xbf").replace("\r\n", "\n")
    if "\r" in text:
        place = text.count("\n", 0, text.index("\r")) + 1
        raise Fault(
            f"{file}: line {place}: a carriage return stands without a line feed: end each line with a line feed"
        )
    return text
