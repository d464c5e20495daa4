"""How long a frame takes in ticks, on a CAN bus or an Ethernet link: for lokwurmi lengths."""
import math
from dataclasses import dataclass
from fractions import Fraction

from lokwurmi import frames
from lokwurmi.frames import Bits
from lokwurmi.model.limits import MOST_EXECUTION
from lokwurmi.model.units import bit_of
from lokwurmi_tools.shared.faults import Fault
from lokwurmi_tools.shared.times import text_of


@dataclass(frozen=True, slots=True)
class LengthOptions:
    """A frame of a kind with a payload of so many bytes; rates are in bits per second, and `tick` is in nanoseconds."""

    kind: str
    bytes: int
    bitrate: int
    tick: Fraction
    data_bitrate: int | None = None
    extended: bool = False
    tagged: bool = False


def ticks(least: Fraction, greatest: Fraction, tick: Fraction) -> tuple[int, int]:
    """Times in whole ticks, each to its safe side."""
    return math.floor(least / tick), math.ceil(greatest / tick)


def bits_of(options: LengthOptions) -> tuple[Bits, Bits]:
    """The bits of what is asked for."""
    if options.kind == "ethernet":
        return frames.ethernet(options.bytes, options.tagged)
    is_flexible = options.kind == "fd" or options.bytes > frames.MOST_CLASSICAL or options.data_bitrate is not None
    bits = (frames.flexible if is_flexible else frames.classical)(options.bytes, options.extended)
    return frames.error(bits[1]) if options.kind == "error" else bits


def tell_length(options: LengthOptions) -> None:
    """Prints the least and the greatest execution that a frame has as a task."""
    bit = bit_of(options.bitrate)
    data_bit = bit_of(options.data_bitrate or options.bitrate)
    shortest, longest = (it.time(bit, data_bit) for it in bits_of(options))
    least, greatest = ticks(shortest, longest, options.tick)
    if not 1 <= least or greatest > MOST_EXECUTION:
        raise Fault(
            f"it takes {text_of(shortest)} to {text_of(longest)}, and 1 to {MOST_EXECUTION} ticks are possible: "
            "take another --tick"
        )
    print(f"best = {least}, worst = {greatest} # {text_of(shortest)} to {text_of(longest)}")
