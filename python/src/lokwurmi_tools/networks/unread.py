"""What a database of a CAN bus says of frames and canmatrix doesn't read, for lokwurmi import network: a frame that is
dropped in silence makes the bounds of all others too low."""
import ast
import json
import os
import re
from collections import Counter
from collections.abc import Collection, Iterable
from typing import Any

from lokwurmi_tools.networks.buses import NO_SENDER
from lokwurmi_tools.networks.dbc_lines import NO_FRAME, DbcLines, number_of_frame, text_in
from lokwurmi_tools.shared.faults import Fault

# what there is to say of a frame that isn't read
TOO_LOW = "Without it the bounds of all other frames may be too low"
# of a SYM file: the keys whose values are read, and what these are
_SYM_VALUES = {
    "id": (re.compile(r"([0-9A-F]{3}|[0-9A-F]{8})h", re.I), "3 or 8 hexadecimal digits and h, as 1A0h"),
    "dlc": (re.compile(r"\d{1,2}"), "a number of bytes, as 8"),
    "len": (re.compile(r"\d{1,2}"), "a number of bytes, as 8"),
    "cycletime": (re.compile(r"\d+"), "a whole number of milliseconds, as 100"),
    "type": (re.compile(r"(?:FD)?(?:Standard|Extended)", re.I), "Standard, Extended, FDStandard or FDExtended"),
}
_SYM_KEYS = frozenset((*_SYM_VALUES, "mux", "var", "sig", "mininterval", "timeout", "color", "linkedid", "j1939"))
_SYM_PARTS = frozenset(("enums", "send", "receive", "sendreceive", "signals", "virtualvariables", "collections"))
# the attributes of a message of a KCD file, and what they are
_KCD_VALUES = {
    "id": (re.compile(r"0x[0-9A-F]+", re.I), "a hexadecimal number, as 0x1A0"),
    "length": (re.compile(r"auto|\d+"), "a number of bytes, or auto"),
    "interval": (re.compile(r"\d+"), "a whole number of milliseconds, as 100"),
    "format": (re.compile(r"standard|extended"), "standard or extended"),
    "triggered": (re.compile(r"true|false|1|0"), "true or false"),
    "count": (re.compile(r"\d+"), "a number"),
    "remote": (re.compile(r"true|false|1|0"), "true or false"),
    "name": (re.compile(r".+"), "a name"),
}
# the formats of lines, whose faults have a line
OF_LINES = (".dbc", ".sym")


def ending_of(file: str) -> str:
    return os.path.splitext(file)[1].lower()


def check_before(file: str, attributes: Collection[str]) -> DbcLines | None:
    """Refuses a DBC or a SYM file that isn't as such files are."""
    if ending_of(file) == ".dbc":
        return DbcLines(file, text_in(file), attributes)
    if ending_of(file) == ".sym":
        check_sym_values(file, text_in(file))
    return None


def check_dbc(lines: DbcLines, frames: Iterable[Any]) -> None:
    """Refuses a frame, an attribute or a signal of a DBC file that isn't among those that canmatrix read."""
    read: dict[int, list[Any]] = {}
    for frame in (it for it in frames if it.name != "VECTOR__INDEPENDENT_SIG_MSG"):
        number = number_of_frame(int(frame.arbitration_id.id or 0), bool(frame.arbitration_id.extended))
        read.setdefault(number, []).append(frame)
    senders: dict[str, str] = {}
    for number, several in lines.frames.items():
        if number != NO_FRAME and len(read.get(number, [])) != len(several):
            lines.refuse(several[0].place, several[0].line, f"isn't read by canmatrix: mend it. {TOO_LOW}")
        for it, frame in zip(several, read.get(number, [])):
            if len(frame.signals) < len(it.signals):
                lines.refuse(it.place, it.line, "has signals that canmatrix doesn't read: mend them, or take them out")
            # a sender may have a longer name there, and each one another
            sender = frame.transmitters[0] if len(frame.transmitters) == 1 and it.sender != NO_SENDER else ""
            if sender and senders.setdefault(sender, it.sender) != it.sender:
                lines.refuse(it.place, it.line, f"has a sender that canmatrix reads as {sender}, another")
    for (name, number, signal), (place, line, _) in lines.values.items():
        if name not in lines.read or number == NO_FRAME:
            continue
        holders = [it for frame in read[number] for it in ((frame,) if not signal else frame.signals)]
        if not any(name in it.attributes for it in holders):
            lines.refuse(place, line, "isn't read by canmatrix: mend it, or take it out where nothing depends on it")
    if more := sorted(set(read) - set(lines.frames)):
        raise Fault(f"{lines.file}: canmatrix reads a frame {more[0]}, which no BO_ line has: a line is broken")


def sym_rows(text: str) -> list[tuple[int, str, str, str]]:
    """The lines of the parts of a SYM file that have frames: place, text, key and value. A text in brackets has the key
    `[`, and the head of a part `{`."""
    rows, part = [], ""
    for place, line in enumerate(text.split("\n"), 1):
        plain = line.split("//")[0].strip()
        if plain.startswith("{"):
            part = plain.strip("{}").lower()
            rows.append((place, plain, "{", part))
        elif part == "enums" or not plain:
            continue
        elif plain.startswith("["):
            rows.append((place, plain, "[", re.sub(r'[\[\]"]', "", plain).strip()))
        elif part:
            key, _, value = plain.partition("=")
            rows.append((place, plain, key.strip().lower(), value.strip()))
    return rows


def check_sym_values(file: str, text: str) -> None:
    """Refuses a line of a SYM file whose key or value isn't one."""
    for place, line, key, value in sym_rows(text):
        if key == "{" and value not in _SYM_PARTS or key == "[" and not re.fullmatch(r"\[[^\[\]]+\]", line):
            raise Fault(f"{file}: line {place}: `{line}` begins no part and no frame of a SYM file. {TOO_LOW}")
        if key in "[{":
            continue
        if key not in _SYM_KEYS:
            raise Fault(
                f"{file}: line {place}: `{line}` has no key of a frame, as ID, Type, DLC, CycleTime and Var are"
            )
        form, what = _SYM_VALUES.get(key, (None, ""))
        if form and not form.fullmatch(value):
            raise Fault(f"{file}: line {place}: `{line}`, which says something of frames: its value is {what}")


def check_sym(file: str, text: str, names: set[str]) -> None:
    """Refuses a frame of a SYM file that isn't among those that were read."""
    for place, line in enumerate(text.splitlines(), 1):
        name = re.sub(r'[\[\]"]', "", line.split("//")[0]).strip()
        if line.lstrip().startswith("[") and name not in names:
            raise Fault(
                f"{file}: line {place}: [{name}] isn't read: a frame stands below {{SEND}}, {{RECEIVE}} or"
                f" {{SENDRECEIVE}}. {TOO_LOW}"
            )


def complete_sym(text: str, frames: Iterable[Any]) -> None:
    """Gives each frame of a SYM file the shortest of its cycle times, the greatest of its lengths, and its type: of a
    multiplexed one canmatrix keeps the last, of `Len` none, and of types `Extended` alone."""
    named = {str(it.name): it for it in frames}
    shortest: dict[str, int] = {}
    frame: Any = None
    for _, _, key, value in sym_rows(text):
        if key == "[":
            frame = named.get(value)
        if frame is not None and key == "type":
            frame.is_fd = value.lower().startswith("fd")
            frame.arbitration_id.extended = value.lower().endswith("extended")
        if frame is None or not value.isdecimal():
            continue
        if key == "cycletime" and int(value):
            shortest[frame.name] = min(int(value), shortest.get(frame.name, int(value)))
            frame.cycle_time = shortest[frame.name]
        elif key in ("dlc", "len"):
            frame.size = max(int(value), int(frame.size))


def check_messages(file: str, bus: Any, frames: Iterable[Any]) -> None:
    """Refuses a message of a bus of a KCD file that isn't among those that were read, or has what no message has."""
    read = Counter(str(it.name) for it in frames)
    for child in bus:
        if isinstance(child.tag, str) and child.tag.rpartition("}")[2] != "Message":
            tag = child.tag.rpartition("}")[2]
            if tag != "Group" and not tag.endswith("NodeRef"):
                raise Fault(f"{file}: line {child.sourceline}: a bus has messages, and no {tag}. {TOO_LOW}")
    for message in bus.iter("{*}Message"):
        name = str(message.get("name"))
        where = f"{file}: line {message.sourceline}: message {name} of bus {bus.get('name')}"
        if read[name] < 1:
            raise Fault(f"{where} isn't read: a message stands in its bus itself. {TOO_LOW}")
        read[name] -= 1
        for key, value in message.attrib.items():
            form, what = _KCD_VALUES.get(key, (None, ""))
            if form is None:
                raise Fault(f"{where}: a message has no attribute {key}; there are {', '.join(sorted(_KCD_VALUES))}")
            if not form.fullmatch(value):
                raise Fault(f"{where}: {key}={value}: it is {what}")


def printed_line(said: str) -> str:
    """The line that canmatrix prints as one that it can't read, or nothing."""
    if said[:2] not in ("b'", 'b"'):
        return ""
    try:
        return str(ast.literal_eval(said).decode("latin-1")).strip()
    except (ValueError, SyntaxError):
        return ""


def check_said(file: str, text: str, said: list[str]) -> list[str]:
    """Refuses what canmatrix can't read of a format of lines where it says something of frames; gives what is left to
    be told. Signals are looked at before."""
    rows = [it.strip() for it in text.split("\n")]
    rest = []
    for it in said:
        line = printed_line(it) if ending_of(file) == ".dbc" else it if it in rows else ""
        if re.match(r"error (?:with line no|decoding line)", it, re.I):
            continue
        if not line:
            rest.append(it)
            continue
        place = rows.index(line) + 1 if line in rows else 0
        if ending_of(file) == ".sym" or re.match(r'BO_ |BA_ +"[^"]*" +BO_|BA_DEF_(?:DEF_)? ', line):
            raise Fault(
                f"{file}: line {place}: canmatrix can't read `{line}`, which says something of frames: mend the line,"
                " or take it out where nothing depends on it"
            )
        rest.append(f"it can't read line {place}, `{line}`")
    return rest


def complete_json(file: str, frames: list[Any]) -> int:
    """Gives each frame of a JSON file what canmatrix leaves out there: whether it is one of CAN FD, and its attributes;
    how many frames the file has. One without a length is refused, as canmatrix takes it for 8 bytes, and so is one of
    which it isn't plain what it is."""
    with open(file, encoding="utf-8") as it:
        messages = json.load(it).get("messages", [])
    for message, frame in zip(messages, frames):
        if "length" not in message:
            says = 'has no length: give it one in bytes, as "length": 8'
            raise Fault(f"{file}: message {frame.name} {says}")
        for key in ("is_fd", "is_extended_frame"):
            if message.get(key) not in (None, True, False):
                raise Fault(f"{file}: message {frame.name}: {key} is {message[key]!r}: it is true or false")
        told = message.get("attributes") or {}
        if not isinstance(told, dict):
            raise Fault(f"{file}: message {frame.name}: its attributes are no table of keys and values")
        frame.is_fd = bool(message.get("is_fd"))
        frame.attributes.update({key: str(value) for key, value in told.items() if value is not None})
    return len(messages)


def check_count(file: str, frames: list[Any]) -> None:
    """Refuses a JSON or a DBF file that has more frames than were read."""
    if ending_of(file) == ".json":
        found = complete_json(file, frames)
    elif ending_of(file) == ".dbf":
        found = text_in(file).count("[START_MSG]")
    else:
        return
    if found != len(frames):
        raise Fault(f"{file}: it has {found} frames, and canmatrix reads {len(frames)} of them. {TOO_LOW}")


def check_text(file: str, frames: list[Any], said: list[str], lines: DbcLines | None) -> list[str]:
    """Refuses a database that says something of frames which isn't read; gives what is left to be told."""
    if lines is not None:
        check_dbc(lines, frames)
    elif ending_of(file) == ".sym":
        text = text_in(file)
        check_sym(file, text, {str(it.name) for it in frames})
        complete_sym(text, frames)
    check_count(file, frames)
    if ending_of(file) in OF_LINES:
        return check_said(file, text_in(file), said)
    if said and ending_of(file) not in (".arxml", ".kcd"):
        raise Fault(f"{file}: canmatrix says: {said[0]}. Mend it there, since what isn't read may be a frame")
    return said
