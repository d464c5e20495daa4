"""Reads recorded logs of CAN buses by python-can, and fits event models to them, for the tools beside it.

The period is that of the narrowest band: a mean is as far off as its first and its last frame are. Pauses are left out
of the period, and the jitter holds for all of the log.
"""
import heapq
import math
from array import array
from collections.abc import Callable, Iterable, Iterator, Sequence
from dataclasses import dataclass, field
from fractions import Fraction
from itertools import pairwise, repeat

from can.io.player import LogReader
from can.message import Message

from lokwurmi_tools.logs.log_text import ERRORS, WARNINGS, check_read, errors_in, frames_in, passed_over
from lokwurmi_tools.shared.faults import Fault
from lokwurmi_tools.shared.progress import Progress
from lokwurmi_tools.shared.times import UNITS

Key = tuple[int, bool]
# a pause is a gap half as long again as the middle one, and so many times further from it than nine in ten gaps are
FURTHER = 3
# beyond this times aren't whole numbers in python-can
MOST_TIME = 2**53
UNSORTED = "frames before an earlier one of their channel"
BETWEEN = "frames at times between ticks"
# what is told of messages that aren't plain frames
NOTES = {
    ERRORS: ": after an error a frame is sent again, which only a bound with --errors counts",
    WARNINGS: ", as of its queue that was full, or of a bus that was off: frames may lack there",
    "remote frames": " aren't taken",
    "CAN FD frames": (
        " are taken as such; where these are classical ones, as python-can has all of newer .asc files: --classical"
    ),
    "frames of the recorder itself": " are taken as others are",
    UNSORTED: ": all are sorted by their times",
    BETWEEN: (
        " are taken at the nearest one: any two may be up to a tick closer than is told, so that a source needs a tick"
        " more jitter and a tick less distance; a shorter --tick tells it more exactly"
    ),
}


@dataclass
class SeenFrame:
    """What a log has of one frame: when it was received, in ticks, and its greatest length in bytes."""

    times: "array[int]" = field(default_factory=lambda: array("q"))
    size: int = 0
    is_fd: bool = False


@dataclass
class Log:
    """What a log has of each channel, and what isn't compared in it."""

    channels: dict[str, dict[Key, SeenFrame]] = field(default_factory=dict)
    counts: dict[str, int] = field(default_factory=dict)
    last: int = 0
    has_fd: bool = False  # whether a frame is in a line of CAN FD

    def add(self, what: str, count: int = 1) -> None:
        self.counts[what] = self.counts.get(what, 0) + count

    def every(self, channel: str) -> Iterable[tuple[int, Key]]:
        """All frames of a channel, by their times."""
        return heapq.merge(*(zip(seen.times, repeat(key)) for key, seen in self.channels[channel].items()))


def shown(key: Key) -> str:
    return f"0x{key[0]:08X}" if key[1] else f"0x{key[0]:03X}"


def messages_in(file: str) -> Iterator[Message]:
    """The messages of a log as python-can reads them."""
    progress = Progress("lokwurmi import log")
    number = 0
    try:
        wanted, errors = frames_in(file), errors_in(file)
        reader = LogReader(file)
        for number, message in enumerate(reader, 1):
            if getattr(reader, "timestamps_format", None) == "relative":
                raise Fault(
                    f"{file}: its times are relative to the line before, which python-can takes as absolute: write it"
                    " anew with absolute times"
                )
            if number % 50_000 == 0:
                progress.show(f"{file}: {number} frames are read")
            message.is_error_frame |= number in errors
            yield message
        check_read(file, reader, number, wanted)
    except Fault:
        raise
    except OSError as fault:
        raise Fault(f"{file}: can't be read: {fault.strerror or fault}")
    except Exception as fault:  # whatever the reader of this format raises
        raise Fault(
            f"{file}: python-can can't read it: {type(fault).__name__}: {fault}. It reads .log as `candump -l` or"
            " `candump -L` write it, .asc, .blf, .trc, .csv and .db, and these with .gz behind"
        )
    finally:
        progress.clear()


def left_out(message: Message) -> str | None:
    """What a message is that isn't taken, or None."""
    if message.is_error_frame:
        return ERRORS
    return "remote frames" if message.is_remote_frame else None


class LogBuilder:
    """Adds messages to a log."""

    def __init__(self, file: str, tick: Fraction, drift: float, classical: bool, sort: bool):
        self.file, self.classical, self.sort = file, classical, sort
        self.ticks_per_second = float(UNITS["s"] / tick)
        self.per_second = self.ticks_per_second * (1 + drift / 1_000_000)
        self.begins: float | None = None
        self.latest: dict[str, int] = {}
        self.log = Log()

    def time(self, message: Message) -> int:
        """The time of a message in ticks after the first."""
        self.begins = message.timestamp if self.begins is None else self.begins
        after = (message.timestamp - self.begins) * self.per_second
        if not abs(after) < MOST_TIME:
            raise Fault(
                f"{self.file}: a frame has the time {message.timestamp} s, where the first has {self.begins} s: a line"
                " of the log is broken, or the tick is too short"
            )
        # a time is off by up to half of this, and so is the one that is taken from it; a half tick would be rounded
        if (rough := math.ulp(message.timestamp)) * self.per_second >= 0.5:
            raise Fault(
                f"{self.file}: near {message.timestamp:.6f} s its times are read to {rough * UNITS['s']:.0f} ns, which"
                " is too rough for such a tick: take a longer --tick, as 1us"
            )
        # a drift that is counted out moves all times, and is the user's
        ticks = (message.timestamp - self.begins) * self.ticks_per_second
        if abs(ticks - round(ticks)) > rough * self.ticks_per_second + 1e-6:
            self.log.add(BETWEEN)
        return round(after)

    def add(self, message: Message) -> None:
        left = left_out(message)
        if left:
            self.log.add(left)
            return
        at, channel = self.time(message), str(message.channel)
        if at < self.latest.get(channel, at):
            self.tell_unsorted(message, channel)
        self.latest[channel] = max(at, self.latest.get(channel, at))
        key = (message.arbitration_id, bool(message.is_extended_id))
        seen = self.log.channels.setdefault(channel, {}).setdefault(key, SeenFrame())
        seen.times.append(at)
        seen.size = max(seen.size, message.dlc)
        self.log.has_fd |= message.is_fd
        if message.is_fd and not self.classical:
            seen.is_fd = True
            self.log.add("CAN FD frames")
        if not message.is_rx:
            self.log.add("frames of the recorder itself")

    def tell_unsorted(self, message: Message, channel: str) -> None:
        """Keeps that a frame comes before an earlier one, or refuses it."""
        if not self.sort:
            raise Fault(
                f"{self.file}: the frame {shown((message.arbitration_id, bool(message.is_extended_id)))} at"
                f" {message.timestamp:.6f} s stands behind a later one of channel {channel}: a line of the log is"
                " broken, or it is joined of several: --sort sorts all by their times"
            )
        self.log.add(UNSORTED)

    def whole(self) -> Log:
        """The log, once all messages are added."""
        for seen in (it for frames in self.log.channels.values() for it in frames.values()):
            seen.times = array("q", sorted(seen.times))
        self.log.last = max(self.latest.values(), default=0)
        return self.log


def read_log(file: str, tick: Fraction, drift: float, classical: bool, sort: bool = False) -> Log:
    reader = LogBuilder(file, tick, drift, classical, sort)
    for message in messages_in(file):
        reader.add(message)
    for what, count in passed_over(file).items():
        reader.log.add(what, count)
    return reader.whole()


def rise(values: Iterable[int]) -> int:
    """The most that a value is above an earlier one; 0 where none is."""
    most, low = 0, None
    for it in values:
        if low is None or it < low:
            low = it
        elif it - low > most:
            most = it - low
    return most


def ahead(times: Sequence[int], period: int) -> int:
    """The least jitter with which a period allows these times: by how much frames come earlier, counted from any
    earlier one."""
    return rise(place * period - time for place, time in enumerate(times))


def behind(times: Sequence[int], period: int) -> int:
    """By how much frames come later than a period has them, counted from any earlier one."""
    return rise(time - place * period for place, time in enumerate(times))


def gaps_of(times: Sequence[int]) -> list[int]:
    return [b - a for a, b in pairwise(times)]


def pieces_of(times: Sequence[int]) -> list[list[int]]:
    """The times between pauses, as far as there are two or more."""
    gaps = gaps_of(times)
    middle = sorted(gaps)[len(gaps) // 2]
    usual = sorted(abs(it - middle) for it in gaps)[9 * len(gaps) // 10]
    longest = middle + max(middle // 2, FURTHER * usual)
    pieces = [[times[0]]]
    for before, time in pairwise(times):
        if time - before > longest:
            pieces.append([])
        pieces[-1].append(time)
    return [it for it in pieces if len(it) > 1]


def period_of(times: Sequence[int]) -> int:
    """The period for which frames run ahead and fall behind by the least, pauses aside; of two the shorter. At least
    1."""
    pieces = pieces_of(times)
    runs_ahead: Callable[[int], int] = lambda period: max((ahead(it, period) for it in pieces), default=0)
    falls_behind: Callable[[int], int] = lambda period: max((behind(it, period) for it in pieces), default=0)
    # the longer the period, the more frames run ahead of it and the less they fall behind
    least, most = 1, max(1, max((max(gaps_of(it)) for it in pieces), default=1))
    while least < most:
        half = (least + most) // 2
        if runs_ahead(half) >= falls_behind(half):
            most = half
        else:
            least = half + 1
    return min((it for it in (least - 1, least) if it >= 1), key=lambda it: (max(runs_ahead(it), falls_behind(it)), it))


def first_breach(times: Sequence[int], stream: tuple[int, int, int]) -> tuple[int, int] | None:
    """The first frame that comes too soon after an earlier one, and the first such: their times."""
    period, jitter, distance = stream
    low: int | None = None
    for place, time in enumerate(times):
        late = place * period - time
        low = late if low is None else min(low, late)
        if late - low > jitter or place and time - times[place - 1] < distance:
            return next(
                (first, time)
                for before, first in enumerate(times)
                if time - first < max((place - before) * period - jitter, (place - before) * distance)
            )
    return None
