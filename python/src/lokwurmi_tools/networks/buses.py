"""Buses with their frames, and their names and priorities in a system, for the tools beside it."""
import re
import unicodedata
from dataclasses import dataclass, field
from fractions import Fraction
from typing import Any

from lokwurmi.model.limits import MOST_IN_NAME

# how long a name may be in a system file; what stands behind that of a frame in its source's, and in that of the task
# for it in a gateway; and behind that of a bus in those of the tasks for its errors and for the frames that go behind
# those that are asked for
LONGEST, QUEUED, PASSED, ERRORS, BEHIND = MOST_IN_NAME, ".queued", ".passed", ".errors", ".behind"
# the attributes of a DBC file that tell when a frame begins, why it is sent, whether it is one of CAN FD, and whether
# that switches its bit rate
START, SEND_TYPE, FORMAT, SWITCH = "GenMsgStartDelayTime", "GenMsgSendType", "VFrameFormat", "CANFD_BRS"
# what a DBC file has in place of a sender where there is none
NO_SENDER = "Vector__XXX"


@dataclass
class Frame:
    """A frame as the database has it; times are in nanoseconds."""

    bus: str
    name: str  # its task's in a system
    told: str  # the database's
    identifier: int
    extended: bool
    size: int
    is_fd: bool  # whether it is one of CAN FD
    switches: bool  # whether its data phase has a bit rate of its own
    values: int  # how many values a multiplexer has; 0 where there is none
    cycle: Fraction  # 0 where there is none
    cycle_by: str  # what tells it
    delay: Fraction  # the least distance between two of them; 0 where none is told
    send_type: str
    attributes: dict[str, Any] = field(repr=False)
    own: frozenset[str] = field(repr=False)  # the attributes whose values aren't the database's default
    is_default: bool  # whether its cycle time, or its least distance where there is none, is the database's default
    senders: list[str] = field(default_factory=list)
    has_one_period: bool = True  # whether the database has one period for it alone, not another when it is sent fast

    @property
    def order(self) -> tuple[int, bool, int]:
        """By this the bus chooses: the first 11 bits of the identifier; of two that have them alike, the one that has
        no more; then the rest."""
        return (
            (self.identifier >> 18, True, self.identifier & 0x3FFFF) if self.extended else (self.identifier, False, 0)
        )

    @property
    def shown(self) -> str:
        """Its identifier as logs have it."""
        return f"0x{self.identifier:08X}" if self.extended else f"0x{self.identifier:03X}"

    @property
    def is_spontaneous(self) -> bool:
        """Whether its send type says that it is sent on events too."""
        return any(
            it in self.send_type.lower()
            for it in ("spontan", "event", "trigger", "change", "write", "demand", "ifactive", "repetit")
        )

    @property
    def is_on_events(self) -> bool:
        """Whether its send type says that it is sent on events, and no cycle time that it is sent besides: it may fall
        silent."""
        return self.is_spontaneous and not self.cycle


@dataclass
class Bus:
    name: str
    told: str  # the database's name
    file: str
    bitrate: int  # 0 where the database doesn't tell it
    data_bitrate: int  # that of the data phase of CAN FD; the same
    frames: list[Frame]
    said: list[str]  # what canmatrix could not read
    lost: list[str]  # frames of its database that are on no bus


def plain(text: str) -> str:
    """A text with what a name may have: letters without their marks, and _ for all else."""
    text = "".join(it for it in unicodedata.normalize("NFKD", text) if not unicodedata.combining(it))
    text = re.sub(r"[^A-Za-z0-9_.-]+", "_", text)
    return "_" + text if not text or text[0] == "-" else text


def named(text: str, taken: set[str], longest: int, *more: str) -> str:
    """A name for a text that isn't taken yet, nor with more behind it; _2 and so on behind it where it is."""
    name, number = plain(text)[:longest], 1
    while taken & {name + it for it in ("", *more)}:
        number += 1
        name = f"{plain(text)[: longest - len(str(number)) - 1]}_{number}"
    taken |= {name + it for it in ("", *more)}
    return name


def priorities(frames: list[Frame], first: int, is_told: bool) -> tuple[dict[str, int], str]:
    """The priority of each frame of a bus by its name, at least a first number, and by what rule: its identifier where
    all have 11 bits, or all have 29 and the entries tell so; else its place in the order of the bus."""
    has_one_kind = len({it.extended for it in frames}) < 2 and (is_told or not frames[0].extended)
    if has_one_kind and all(it.identifier >= first for it in frames):
        return {it.name: it.identifier for it in frames}, "priorities are identifiers"
    order = sorted(frames, key=lambda it: it.order)
    rule = f"priorities are {first}, {first + 1} and so on in the order in which the bus compares identifiers"
    return {it.name: place for place, it in enumerate(order, first)}, rule
