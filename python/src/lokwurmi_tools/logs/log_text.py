"""Reads the lines of a recorded log beside python-can, for lokwurmi import log: it passes over a line of an .asc file
that it can't read, over frames of CAN FD in a .trc file and the first line of a .csv file, and takes much for a line of
candump that is none."""
import gzip
import os
import re
from collections import Counter
from collections.abc import Iterator
from typing import Any

from lokwurmi_tools.shared.faults import Fault

ERRORS, WARNINGS = "error frames", "warnings of the recorder"
# a frame as `candump -l` writes it: a time, a channel, an identifier of 3 digits up to 7FF or of 8, and data
_CANDUMP = re.compile(
    r"\(\d+\.(\d+)\) \S+ ([0-7][0-9A-F]{2}|[01][0-9A-F]{7}|2[0-9A-F]{7})#"
    r"(?:R[0-8]?|(?:[0-9A-F]{2}){0,8}|#[0-9A-F](?:[0-9A-F]{2}){0,64})(?: [RT])?",
    re.I,
)
# lines of an .asc file: those of its head, those of frames, and those of other events
_HEAD = re.compile(
    r"(?:date\b|base\b|(?:no\s+)?internal\s+events\s+logged|//|begin\s+triggerblock|end\s+triggerblock|previous log)",
    re.I,
)
_FRAME = re.compile(
    r"\d+\.\d+\s+(?:\d+\s+(?:[0-9A-F]+x?\s+(?:Rx|Tx|TxRq)\s+(?:d\s+\d+(?:\s|$)|r\b)|ErrorFrame)"
    r"|CANFD\s+\d+\s+(?:Rx|Tx)\s)",
    re.I,
)
_EVENT = re.compile(r"\d+\.\d+\s+(?:\d+\s+(?:Statistic:|OverloadFrame|J1939)|(?!CANFD\b)[A-Za-z]{2,})", re.I)
_LOOKS = re.compile(r"\s(?:Rx|Tx|TxRq)\s+[dr]\b", re.I)
# of a .trc file by its version: the kinds of lines that python-can reads as frames, all where there are none, and those
# of what is no frame
_TRC: dict[str, tuple[tuple[str, ...], tuple[str, ...]]] = {
    "1.0": ((), ("FFFFFFFF",)),
    "1.1": (("Rx", "Tx"), ("Warng", "Error")),
    "2.1": (("DT",), ("ST", "EC", "ER", "EV")),
}
_TRC_COLUMNS = "N,O,T,B,I,d,R,L,D"
# what of the latter is told
_TRC_TOLD = {"Error": ERRORS, "ER": ERRORS, "FFFFFFFF": WARNINGS, "Warng": WARNINGS, "ST": WARNINGS}


def rows_of(file: str) -> Iterator[tuple[int, str]]:
    """The lines of a file that may be packed, with their numbers."""
    packed: Any = gzip.open if file.endswith(".gz") else open
    with packed(file, "rt", encoding="utf-8", errors="replace", newline="") as it:
        for place, line in enumerate(it, 1):
            yield place, line.strip()


def fault(file: str, place: int, line: str, form: str) -> Fault:
    short = line if len(line) <= 80 else f"{line[:77]}.."
    return Fault(
        f"{file}: line {place}: `{short}` is no line of such a log: a line of the log is broken, or it isn't {form}"
    )


def check_candump(file: str) -> int:
    """Refuses a line that isn't as `candump -l` writes it; how many frames there are."""
    count, digits = 0, None
    for place, line in rows_of(file):
        if not line:
            continue
        found = _CANDUMP.fullmatch(line)
        digits = len(found[1]) if found and digits is None else digits
        if not found or len(found[1]) != digits:
            raise fault(file, place, line, "of `candump -l`, as (1700000000.123456) can0 1A0#0011")
        count += 1
    return count


def check_asc(file: str) -> int:
    """Refuses a line that is neither a frame nor another event; how many frames there are."""
    count = 0
    for place, line in rows_of(file):
        if _FRAME.match(line):
            count += 1
        elif line and not _HEAD.match(line) and (not _EVENT.match(line) or _LOOKS.search(line)):
            raise fault(file, place, line, "of Vector, as 0.010000 1 1A0 Rx d 2 00 11")
    return count


def trc_rows(file: str) -> Iterator[tuple[int, str, str, str]]:
    """The lines of a .trc file that aren't of its head: their numbers, their texts, the version, and their kinds. A
    file of a version that python-can doesn't know is refused."""
    version = "1.0"
    for place, line in rows_of(file):
        key, _, value = line.partition("=")
        if key == ";$FILEVERSION":
            version = value
        if key == ";$FILEVERSION" and value not in _TRC or key == ";$COLUMNS" and value != _TRC_COLUMNS:
            raise fault(file, place, line, f"of version 1.0, 1.1, or 2.1 with the columns {_TRC_COLUMNS}")
        if line and not line.startswith(";"):
            yield place, line, version, (line.split() + ["", "", ""])[2]


def check_trc(file: str) -> int:
    """Refuses a frame that python-can passes over; how many frames there are."""
    count = 0
    for place, line, version, kind in trc_rows(file):
        frames, others = _TRC[version]
        if frames and kind not in (*frames, *others):
            form = f"of a frame that python-can reads there ({', '.join(frames)}): write the log anew as .asc or .blf"
            raise fault(file, place, line, form)
        count += kind not in others
    return count


def passed_over(file: str) -> Counter[str]:
    """How many errors and warnings a .trc file has, over which python-can passes."""
    if not file.lower().removesuffix(".gz").endswith(".trc"):
        return Counter()
    kinds = (kind for _, _, version, kind in trc_rows(file) if kind in _TRC[version][1])
    return Counter(_TRC_TOLD[kind] for kind in kinds if kind in _TRC_TOLD)


def check_csv(file: str) -> int:
    """Refuses a file without the head that python-can passes over; how many frames there are."""
    rows = [line for _, line in rows_of(file) if line]
    if rows and not rows[0].startswith("timestamp,"):
        raise fault(file, 1, rows[0], "with the head of python-can, timestamp,arbitration_id,extended,remote,error,..")
    return max(0, len(rows) - 1)


def errors_in(file: str) -> set[int]:
    """Which of the lines of `candump -l` are error frames: python-can knows those of one kind alone."""
    if not file.lower().removesuffix(".gz").endswith(".log"):
        return set()
    lines = (line for _, line in rows_of(file) if line)
    return {number for number, line in enumerate(lines, 1) if re.match(r"\S+ \S+ 2[0-9A-F]{7}#", line, re.I)}


def frames_in(file: str) -> int | None:
    """How many frames a log of lines has, or None of another format; a line that is none is refused."""
    ending = os.path.splitext(file.lower().removesuffix(".gz"))[1]
    check = {".log": check_candump, ".asc": check_asc, ".trc": check_trc, ".csv": check_csv}.get(ending)
    try:
        return check(file) if check else None
    except (EOFError, gzip.BadGzipFile) as it:
        raise Fault(f"{file}: it is cut off, or not packed: {it}")


def check_read(file: str, reader: object, count: int, wanted: int | None) -> None:
    """Refuses a log of which python-can has read less than it has."""
    if wanted is not None and wanted != count:
        raise Fault(
            f"{file}: it has {wanted} frames, and python-can reads {count} of them: most often its head lacks a line,"
            " as `no internal events logged`"
        )
    size = getattr(reader, "file_size", 0)
    rest = getattr(reader, "_tail", b"")
    if size > os.path.getsize(file) or bytes(rest).strip(b"\0"):
        raise Fault(f"{file}: it is cut off behind {count} frames: its head tells more than there is")
