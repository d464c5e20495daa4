"""Puts the sources of frames on the clocks of their senders, where a database tells when each begins: for lokwurmi
import network --offsets. What may be sent on events, or by more than one period, is on no clock, which makes no bound
lower; what says of a clock that which can't be right is refused."""
from dataclasses import dataclass
from fractions import Fraction
from typing import TYPE_CHECKING

from lokwurmi.model.limits import MOST_TICKS
from lokwurmi_tools.networks.buses import LONGEST, NO_SENDER, SEND_TYPE, START, Frame, named
from lokwurmi_tools.networks.network_options import NetworkOptions
from lokwurmi_tools.shared.faults import Fault
from lokwurmi_tools.shared.times import common, text_of

if TYPE_CHECKING:
    from lokwurmi_tools.networks.frames_to_tasks import Taker

# the send types of frames that are sent by their period alone
_CYCLIC = frozenset(("", "cyclic", "cyclicx", "periodic", "fixedperiodic"))


@dataclass(frozen=True)
class Start:
    """Where a source is on a clock: its offset in ticks, rounded down, and how many nanoseconds that is too early."""

    clock: str | None = None
    offset: int = 0
    lost: Fraction = Fraction(0)


ON_NO_CLOCK = Start()


def why_none(frame: Frame, options: NetworkOptions) -> str:
    """Why a frame is on no clock; nothing where it is on one."""
    if frame.attributes.get(START) is None:
        return "nothing tells when it begins, by one period alone"
    if not frame.cycle or frame.is_spontaneous or frame.send_type.lower() not in _CYCLIC:
        return f"its send type is {frame.send_type or 'not told, and it has no cycle time'}"
    if not frame.has_one_period:
        return "it has more than one period"
    if len(frame.senders) > 1:
        return "it has several senders"
    if frame.values > 1 and options.multiplexed == "each":
        return "its values are sent at any times (--multiplexed each)"
    by_default = [it for it in (START, SEND_TYPE) if frame.attributes.get(it) is not None and it not in frame.own]
    if by_default and not options.defaults:
        return f"its {' and '.join(by_default)} is the database's default, which --defaults takes"
    return ""


def check_period(frame: Frame, period: Fraction, tick: Fraction) -> None:
    """Refuses a period that would be rounded: by another one a source would drift against the others of its clock."""
    says = f"{frame.name}: a period on a clock isn't rounded, and its period of {text_of(period)}"
    if (period / tick).denominator > 1:
        raise Fault(f"{says} is no whole number of ticks: take --tick {text_of(common(period, tick))}")
    if period / tick > MOST_TICKS:
        raise Fault(f"{says} is more than {MOST_TICKS} ticks: take a longer --tick")


class SenderClocks:
    """The clocks of the senders of some buses, one for each sender on each bus, with how many frames are on each."""

    def __init__(self, taker: "Taker"):
        self.taker = taker
        self.names: dict[tuple[str, str], str] = {}
        self.taken: set[str] = set()
        self.counts: dict[str, int] = {}

    def clock_of(self, frame: Frame) -> str:
        """The name of the clock of a frame's sender."""
        senders = [it for it in frame.senders if it != NO_SENDER]
        if not senders:
            raise Fault(
                f"{frame.name}: it has an offset, and no sender by whose clock that is: name its sender, as in its BO_"
                " line, or take the offset out"
            )
        key = (frame.bus, senders[0])
        if key not in self.names:
            text = ".".join(key) if len(self.taker.buses) > 1 else key[1]
            self.names[key] = named(text, self.taken, LONGEST)
        return self.names[key]

    def start_of(self, frame: Frame, period: Fraction) -> Start:
        """Where the source of a frame of some period is on a clock."""
        taker, tick = self.taker, self.taker.options.tick
        if not taker.options.offsets or frame.name in taker.forwards:
            return ON_NO_CLOCK
        if why := why_none(frame, taker.options):
            taker.report.add(taker.report.changed, f"on no clock, as {why}", frame.name)
            return ON_NO_CLOCK
        taker.used |= (
            {"offsets"} if {START, SEND_TYPE} & set(frame.attributes) <= frame.own else {"offsets", "defaults"}
        )
        told, clock = taker.in_milliseconds(frame, START) or Fraction(0), self.clock_of(frame)
        if told >= period:
            raise Fault(
                f"{frame.name}: its offset of {text_of(told)} isn't below its period of {text_of(period)}: where it is"
                f" sent so from its second period on, write what is over whole periods, {text_of(told % period)}"
            )
        check_period(frame, period, tick)
        self.counts[clock] = self.counts.get(clock, 0) + 1
        start = Start(clock, int(told / tick), told % tick)
        if start.lost:
            what = "its offset is rounded down, and its jitter is greater by what that takes"
            taker.report.add(taker.report.changed, what, f"{frame.name} from {text_of(told)} to {start.offset}")
        return start

    def tell(self) -> None:
        """Reports what is assumed of clocks."""
        what = (
            "frames of one sender are queued by its one clock, each from its offset on (--offsets): no two of them"
            " drift apart, none is left out or sent on events too, and the sender doesn't begin anew"
        )
        for clock, count in self.counts.items():
            self.taker.report.add(self.taker.report.assumed, what, f"{clock} with {count} frame{'s' * (count > 1)}")
