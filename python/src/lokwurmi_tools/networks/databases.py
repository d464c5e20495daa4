"""Reads databases of CAN networks by canmatrix, for the tools beside it."""
import contextlib
import copy
import io
import logging
import os
from fractions import Fraction
from typing import Any, Collection, Iterable

from lokwurmi.files.text_files import reason_of
from lokwurmi_tools.networks.arxml_lines import SECONDS, TOO_LOW, ArxmlFrames, Triggered
from lokwurmi_tools.networks.buses import (
    BEHIND,
    ERRORS,
    FORMAT,
    LONGEST,
    QUEUED,
    SEND_TYPE,
    START,
    SWITCH,
    Bus,
    Frame,
    named,
    plain,
)
from lokwurmi_tools.networks.unread import check_before, check_messages, check_text, ending_of
from lokwurmi_tools.shared.faults import Fault
from lokwurmi_tools.shared.packages import need
from lokwurmi_tools.shared.progress import Progress
from lokwurmi_tools.shared.times import LEAST_RATE, UNITS

# the attributes of a cycle time besides that of the period
FASTER = ("GenMsgCycleTimeFast", "GenMsgCycleTimeActive")
# the words of an attribute that is true or not
YES, NO = ("1", "on", "true", "yes"), ("0", "off", "false", "no")
# the endings of spreadsheets
SHEETS = (".xls", ".xlsx")
# what canmatrix has to say goes into the report, and not past it
SAID: list[str] = []


class Heard(logging.Handler):
    """Keeps what a library warns of."""

    def emit(self, record: logging.LogRecord) -> None:
        SAID.append(record.getMessage().strip())


logging.getLogger("canmatrix").addHandler(Heard(logging.WARNING))
logging.getLogger("canmatrix").propagate = False

with contextlib.redirect_stdout(io.StringIO()):
    need("canmatrix", "lxml")
    import canmatrix
    import canmatrix.formats
    import lxml.etree
SAID.clear()


def number_of(value: Any) -> Fraction:
    """A number that a database has, maybe as text; 0 where it has none."""
    try:
        return max(Fraction(str(value).strip().strip('"')), Fraction(0))
    except (ValueError, ZeroDivisionError):
        return Fraction(0)


def attribute(frame: Any, matrix: Any, key: str) -> Any:
    """An attribute of a frame; the database's default where the frame has none."""
    value = frame.attribute(key, db=matrix)
    return value.strip('"') if isinstance(value, str) else value


def time_in(value: Any, what: str) -> Fraction:
    """A time in milliseconds that a database has; 0 where it has none. What is no such number would be none too."""
    if value is None or str(value).strip().strip('"') == "":
        return Fraction(0)
    try:
        time = Fraction(str(value).strip().strip('"'))
    except (ValueError, ZeroDivisionError):
        time = Fraction(-1)
    if time < 0:
        raise Fault(f"{what} is {value}, which is no number of milliseconds")
    return time


def cycle_of(frame: Any, matrix: Any) -> tuple[Fraction, str, bool]:
    """The cycle time of a frame in nanoseconds, what tells it, and whether that is a default: the shortest of those
    that the database has."""

    def time(key: str) -> Fraction:
        return time_in(attribute(frame, matrix, key), f"{frame.name}: its {key}")

    told = time_in(frame.cycle_time, f"{frame.name}: its cycle time")
    exact = time_in(frame.attributes.get("GenMsgCycleTime"), f"{frame.name}: its GenMsgCycleTime")
    # canmatrix cuts a fraction of a millisecond off, and leaves the default of the attribute out
    found = [(exact if exact and (not told or int(exact) == told) else told, "")]
    by_default = not found[0][0]
    if by_default:
        found.append((time("GenMsgCycleTime"), "the default of GenMsgCycleTime"))
    for key in FASTER:
        found.append((time(key), key))
        by_default &= key not in frame.attributes
    if any(number_of(it.cycle_time) for it in frame.signals):
        found.append((number_of(frame.effective_cycle_time), "the cycle times of its signals"))
        by_default = False
    cycle, why = min((it for it in found if it[0]), key=lambda it: it[0], default=(Fraction(0), ""))
    return cycle * UNITS["ms"], why, by_default and bool(cycle)


def has_one_period(frame: Any, matrix: Any) -> bool:
    """Whether a frame has no period besides its cycle time."""
    faster = any(number_of(attribute(frame, matrix, key)) for key in FASTER)
    return not faster and not any(number_of(it.cycle_time) for it in frame.signals)


def bytes_of(frame: Any) -> int:
    """How many bytes a frame has: its length, or what its signals reach to where that is more."""
    one = copy.copy(frame)
    one.size = int(frame.size)
    one.calc_dlc()
    return int(one.size)


def complete_kcd(file: str, matrices: dict[str, Any]) -> None:
    """Adds what canmatrix leaves out of a KCD file: bit rates, and the intervals of messages that have no word on
    triggers."""
    for bus in lxml.etree.parse(file).getroot().iter("{*}Bus"):
        matrix = matrices.get(bus.get("name"))
        if matrix is None:
            raise Fault(f"{file}: line {bus.sourceline}: bus {bus.get('name')} isn't read: give it a name of its own")
        check_messages(file, bus, matrix.frames)
        matrix.baudrate = int(number_of(bus.get("baudrate")))
        for message, frame in zip(bus.findall("{*}Message"), matrix.frames):
            if message.get("interval"):
                frame.cycle_time = int(message.get("interval"))
            if message.get("triggered") == "true" and message.get("interval"):
                frame.add_attribute("GenMsgSendType", "cyclic and triggered")


def triggered(read: Any, it: Triggered) -> Any:
    """A frame as canmatrix reads it, with what its triggering tells."""
    frame = copy.copy(read)
    frame.attributes = {key: value for key, value in frame.attributes.items() if key != START}
    frame.arbitration_id = canmatrix.ArbitrationId(it.number, extended=it.is_long)
    frame.size = max(it.size, int(frame.size))
    frame.transmitters = it.senders
    frame.is_fd = it.is_flexible
    if it.switches is not None:
        frame.attributes[SWITCH] = str(int(it.switches))
    if it.period:
        frame.cycle_time = int(it.period * 1000)
        frame.attributes["GenMsgCycleTime"] = str(it.period * 1000)
    if it.offset is not None:
        is_time = SECONDS.fullmatch(it.offset)
        frame.attributes[START] = str(Fraction(it.offset) * 1000) if is_time else f"{it.offset} s by TIME-OFFSET"
        frame.attributes.setdefault(SEND_TYPE, "cyclicX")
    return frame


def complete_arxml(file: str, matrices: dict[str, Any]) -> list[str]:
    """Gives each cluster of an ARXML file its own frames, with their own identifiers and periods, in the order of the
    file; and answers with the frames that no cluster triggers. Of a frame that several clusters have canmatrix takes
    one identifier for all, of AUTOSAR 3 the frames of all clusters for each, and it cuts periods to milliseconds."""
    root = lxml.etree.parse(file).getroot()
    reader = ArxmlFrames(file, root)
    for cluster in root.iter("{*}CAN-CLUSTER"):
        told, frames = cluster.findtext("{*}SHORT-NAME"), []
        matrix = matrices.get(told)
        if matrix is None:
            raise Fault(f"{file}: line {cluster.sourceline}: bus {told} isn't read: give it a SHORT-NAME of its own")
        read = {frame.name: frame for frame in matrix.frames}
        for it in reader.triggerings(cluster):
            if it.name not in read:
                raise Fault(
                    f"{file}: line {cluster.sourceline}: frame {it.name} of bus {told} is triggered, and isn't read:"
                    f" give it a CAN-FRAME of that name, with FRAME-LENGTH and data units. {TOO_LOW}"
                )
            frames.append(triggered(read[it.name], it))
        matrix.frames = frames
    return reader.lost()


def loaded(file: str) -> tuple[dict[str, Any], str]:
    """What canmatrix reads of a file, and what it prints."""
    heard = io.StringIO()
    progress = Progress("canmatrix")
    progress.show(f"{file} is read")
    try:
        with contextlib.redirect_stdout(heard):
            found = canmatrix.formats.loadp(file)
    except OSError as fault:
        raise Fault(f"{file}: can't be read: {reason_of(fault)}")
    except Exception as fault:  # whatever the reader of this format raises
        raise Fault(f"{file}: canmatrix can't read it: {type(fault).__name__}: {fault}")
    finally:
        progress.clear()
    if found is None:
        readers = canmatrix.formats.supportedFormats
        known = sorted(
            f".{ending}" for it, ending in canmatrix.formats.extensionMapping.items() if "load" in readers.get(it, [])
        )
        raise Fault(f"{file}: canmatrix reads no files with this ending; it reads {', '.join(known)}")
    return found, heard.getvalue()


def matrices_in(file: str, attributes: Collection[str]) -> tuple[dict[str, Any], list[str], list[str]]:
    """The buses of a database as canmatrix reads them, by name, what it says of lines that it can't read, and the
    frames that are on no bus."""
    SAID.clear()
    lost: list[str] = []
    try:
        lines = check_before(file, attributes)
    except OSError as fault:
        raise Fault(f"{file}: can't be read: {fault.strerror}")
    if ending_of(file) in SHEETS:
        need("xlrd")
    found, printed = loaded(file)
    try:
        if ending_of(file) == ".kcd":
            complete_kcd(file, found)
        elif ending_of(file) == ".arxml":
            lost = complete_arxml(file, found)
    except (ValueError, canmatrix.canmatrix.ArbitrationIdOutOfRange) as fault:
        raise Fault(f"{file}: it isn't as such files are: {type(fault).__name__}: {fault}")
    said = [it.strip() for it in printed.splitlines() if it.strip()] + list(SAID)
    said += [str(it) for matrix in found.values() for it in matrix.load_errors]
    said = check_text(file, [frame for matrix in found.values() for frame in matrix.frames], said, lines)
    if ending_of(file) in SHEETS:
        said.append("a sheet has no lengths of frames: each has 8 bytes")
    return found, list(dict.fromkeys(said)), lost


def switches_of(frame: Any, matrix: Any) -> bool:
    """Whether a frame of CAN FD switches its bit rate, which it does where none tells."""
    word = str(attribute(frame, matrix, SWITCH) or "1")
    if word.lower() not in (*NO, *YES):
        raise Fault(f"{frame.name}: its {SWITCH} is {word}: it is 1 where the frame switches its bit rate, and else 0")
    return word.lower() in YES


def frame_of(frame: Any, matrix: Any, bus: str, name: str) -> Frame:
    cycle, why, by_default = cycle_of(frame, matrix)
    delay = time_in(attribute(frame, matrix, "GenMsgDelayTime"), f"{frame.name}: its GenMsgDelayTime")
    return Frame(
        bus=bus,
        name=name,
        told=frame.name,
        identifier=int(frame.arbitration_id.id or 0),
        extended=bool(frame.arbitration_id.extended),
        size=bytes_of(frame),
        is_fd=bool(frame.is_fd) or "_FD" in str(attribute(frame, matrix, FORMAT)),
        switches=switches_of(frame, matrix),
        values=max(1, len(frame.get_multiplexer_values)) if frame.is_multiplexed else 0,
        cycle=cycle,
        cycle_by=why,
        delay=delay * UNITS["ms"],
        send_type=str(attribute(frame, matrix, "GenMsgSendType") or ""),
        attributes={key: attribute(frame, matrix, key) for key in [*frame.attributes, *matrix.frame_defines]},
        own=frozenset(frame.attributes),
        is_default=by_default or not cycle and bool(delay) and "GenMsgDelayTime" not in frame.attributes,
        senders=list(frame.transmitters),
        has_one_period=has_one_period(frame, matrix),
    )


def matrices_of(words: Iterable[str], attributes: Collection[str]) -> list[tuple[str, str, Any, list[str], list[str]]]:
    """The CAN buses of some databases, each a file or NAME=FILE: name, file, matrix, what is said of the file, and the
    frames in it that are on no bus."""
    found: list[tuple[str, str, Any, list[str], list[str]]] = []
    for word in words:
        name, _, file = word.rpartition("=") if not os.path.exists(word) else ("", "", word)
        matrices, said, lost = matrices_in(file, attributes)
        for key, matrix in matrices.items():
            if matrix.type != canmatrix.matrix_class.CAN:
                said.append(f"{key}: no CAN bus")
                continue
            parts = [name, key if len(matrices) > 1 or not name else ""]
            told = ".".join(it for it in parts if it) or os.path.basename(file).split(".")[0]
            found.append((told, file, matrix, said, lost))
            lost = []
    return found


def rate_in(matrix: Any, told: Any, *keys: str) -> int:
    """A bit rate of a bus, as canmatrix has it or as an attribute has; 0 where none does."""
    rate = max(number_of(it) for it in (told, *(matrix.attribute(key) for key in keys)))
    return int(rate) if rate >= LEAST_RATE else 0


def frames_of(matrix: Any, bus: str, before: str, taken: set[str], said: list[str]) -> list[Frame]:
    """The frames of a bus, with names that aren't taken yet."""
    frames = []
    taken |= {bus + it + more for it in (ERRORS, BEHIND) for more in ("", QUEUED)}
    for frame in matrix.frames:
        # a broken file may have one without a name
        frame.name = str(frame.name or "frame")
        name = named(before + frame.name, taken, LONGEST - len(QUEUED), QUEUED)
        frames.append(frame_of(frame, matrix, bus, name))
    if "FD" in str(matrix.attribute("BusType") or "") and not any(it.is_fd for it in frames):
        said.append("the bus is one of CAN FD, and doesn't tell which frames are: those of more than 8 bytes alone")
        for frame in frames:
            frame.is_fd = frame.size > 8
    return frames


def read_buses(words: Iterable[str], attributes: Collection[str] = ()) -> list[Bus]:
    """The buses of some databases with their frames. A frame has the same name whatever is asked for later;
    `attributes` are those of frames that are asked for."""
    buses: list[Bus] = []
    taken: set[str] = set()
    found = matrices_of(words, attributes)
    for told, file, matrix, said, lost in found:
        name = plain(told)[:24]
        if name in {it.name for it in buses}:
            raise Fault(f"{file}: two buses have the name {name}: name them, as front={file}")
        frames = frames_of(matrix, name, f"{name}." if len(found) > 1 else "", taken, said)
        rate = rate_in(matrix, matrix.baudrate, "Baudrate", "baudrate")
        data_rate = rate_in(matrix, matrix.fd_baudrate, "BaudrateCANFD", "FDBaudrate")
        buses.append(Bus(name, told, file, rate, data_rate, frames, said, lost))
    if not buses:
        raise Fault(f"{' '.join(words)}: there is no CAN bus in it")
    return buses
