"""How many bits frames of CAN, CAN FD and Ethernet have, at least and at most.

They are counted from the first bit of a frame to when the next one may begin: with the three bits between frames on a
CAN bus, with preamble and gap on Ethernet. The least has no stuff bit, the greatest as many as there can be.

    >>> from fractions import Fraction
    >>> least, greatest = flexible(64, extended=False)
    >>> greatest.time(Fraction(2000), Fraction(500))
    Fraction(407500, 1)

docs/NETWORKS.md says where the numbers come from.
"""
from collections.abc import Mapping
from dataclasses import dataclass
from fractions import Fraction
from typing import Any

from lokwurmi.model.limits import DEFAULT_BIT, DEFAULT_RATE, Kind

SIZES = (0, 1, 2, 3, 4, 5, 6, 7, 8, 12, 16, 20, 24, 32, 48, 64)
"""The payloads that a CAN FD frame may have, in bytes."""
MOST_CLASSICAL, MOST_ETHERNET = 8, 1500
"""The longest payload of a CAN frame, and that of an Ethernet frame."""
# an error on a CAN bus: two flags, a delimiter, the bits between frames, and the wait of a sender that is error passive
_ERROR, _LEAST_ERROR = 31, 17
# of Ethernet, in bytes: preamble and start, both addresses with type and check sum, a tag, the gap, the shortest frame
_PREAMBLE, _HEADER, _TAG, _GAP, _SHORTEST = 8, 18, 4, 12, 64


@dataclass(frozen=True)
class Bits:
    """How many bits a frame has at the nominal bit rate, and at that of the data phase of CAN FD."""

    nominal: int
    data: int = 0

    def time(self, bit: Fraction, data_bit: Fraction = Fraction(0)) -> Fraction:
        """How long they take, by the time of a bit at either rate."""
        return self.nominal * bit + self.data * data_bit


def frame_bits(size: int, extended: bool) -> tuple[int, int]:
    """How many bits a CAN frame with so many bytes takes, with the three bits after it: without a stuff bit, and with
    as many as there can be.

    >>> frame_bits(8, extended=False)
    (111, 135)
    """
    return (67 + 8 * size, 80 + 10 * size) if extended else (47 + 8 * size, 55 + 10 * size)


def classical(size: int, extended: bool) -> tuple[Bits, Bits]:
    """The same as bits, for a CAN bus of frames of both kinds."""
    least, greatest = frame_bits(size, extended)
    return Bits(least), Bits(greatest)


def padded(size: int) -> int:
    """The payload that a CAN FD frame has for so many bytes."""
    return next(it for it in SIZES if it >= size)


def flexible(size: int, extended: bool) -> tuple[Bits, Bits]:
    """The bits of a CAN FD frame. The bits in which the rate changes are one of each together: what the first has at
    one rate, the second has at the other."""
    size = padded(size)
    # up to the bit that switches 16 bits or 35; that bit and the delimiter of the check sum; 2, 7 and 3 bits at the end
    nominal = (35 if extended else 16) + 1 + 12
    # error state, length, payload, count of stuff bits, check sum with its own stuff bits
    data = 1 + 4 + 8 * size + 4 + (17 + 6 if size <= 16 else 21 + 7) + 1
    # stuff bits up to the check sum; and delimiter and acknowledgement may each be a bit longer
    return Bits(nominal, data), Bits(nominal + (7 if extended else 3) + 2, data + 2 * size + 1)


def error(longest: Bits) -> tuple[Bits, Bits]:
    """What an error on a CAN bus takes, where this is the longest frame of the bus."""
    return Bits(_LEAST_ERROR), Bits(longest.nominal + _ERROR, longest.data)


def ethernet(size: int, tagged: bool) -> tuple[Bits, Bits]:
    """The bits of an Ethernet frame. A bridge may make a short frame with a tag longer by it."""
    tag = _TAG if tagged else 0
    whole, rest = _HEADER + tag + size, _PREAMBLE + _GAP
    return Bits(8 * (rest + max(_SHORTEST, whole))), Bits(8 * (rest + max(_SHORTEST + tag, whole)))


def port_bits(size: int) -> int:
    """How many bits a frame with such a payload takes on the port of a switch, by IEEE 802.3: preamble 8 bytes,
    addresses, type and check sum 18, gap 12, and at least 46 of payload, of which a tag is 4. Frames that are cut by
    others (802.1Qbu) and shapers (802.1Qav, Qbv) are left out; where a bridge makes a short frame longer by its tag, it
    is one of 50 bytes.

    >>> port_bits(0), port_bits(1500)
    (672, 12304)
    """
    return ethernet(size, tagged=False)[1].nominal


def port_ticks(size: int, rate: int) -> tuple[int, int]:
    """The least and the greatest ticks of such a frame, at so many bits in a tick.

    >>> port_ticks(1500, 100)
    (123, 124)
    """
    bits = port_bits(size)
    return bits // rate, -(-bits // rate)


def execution(task: Mapping[str, Any], resource: Mapping[str, Any]) -> tuple[int, int]:
    """The least and the greatest execution of a task of a system file on its resource, in ticks: those of a frame by
    its payload.

    >>> execution({"payload": 8}, {"bit": 2}), execution({"payload": 100}, {"kind": "fifo", "rate": 100})
    ((222, 270), (11, 12))
    """
    if "payload" not in task:
        return task["best"], task["worst"]
    if resource.get("kind") == Kind.FIFO:
        return port_ticks(task["payload"], resource.get("rate", DEFAULT_RATE))
    least, greatest = frame_bits(task["payload"], bool(task.get("extended")))
    bit = resource.get("bit", DEFAULT_BIT)
    return least * bit, greatest * bit
