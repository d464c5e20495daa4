"""Writes a system file for the CAN buses of a database: DBC, ARXML, KCD, SYM, or whatever else canmatrix reads.

    ./lokwurmi import network examples/sae_can.dbc --bitrate 125000 --jitter-attribute JitterMs --to sae.toml
    ./lokwurmi import network car.kcd --jitter 10% --others 100ms --to car.toml
    ./lokwurmi import network car.dbc --bitrate 500000 --data-bitrate 2000000 --share sender --paths 'Brake*'
    ./lokwurmi import network front.dbc back.dbc --bitrate front=500000 --bitrate back=125000 \\
        --forward front.Speed=back.Speed --to car.toml

Each frame with a cycle time becomes a source, named as the frame with .queued behind, and a task on the resource of
its bus, with its length in bytes as payload and its identifier as priority; and each has a path with its deadline. A
time has a unit: ns, us, ms or s.

All frames are taken, or the database is refused: one that were left out would make bounds too low. What is lacking
wants a word: --without-period for frames without a cycle time, --defaults for what a frame has by the database's
default alone, --longer for what is no single frame, --without for what isn't wanted. What is left out so, taken
otherwise than the database has it, or assumed, is told on the standard error, and stands as comments at the head of the
file. The bounds of an analysis hold while what is left out isn't sent.

It needs canmatrix: apt-get install python3-canmatrix python3-lxml
"""
import argparse
import re
from collections.abc import Callable
from fractions import Fraction
from typing import Any

from lokwurmi_tools.commands.argument_parsers import options_of, reader_of, word_of
from lokwurmi_tools.networks.buses import plain
from lokwurmi_tools.networks.network_options import LEAVE, NetworkOptions
from lokwurmi_tools.shared.times import rate_of, time_of


def share_or_time(word: str) -> tuple[str, Fraction]:
    """What --jitter and --deadline take: a part of the period, or a time."""
    if word.endswith("%"):
        if not re.fullmatch(r"\d+(?:\.\d+)?%", word, re.ASCII):
            raise ValueError(f"{word} is no share: write 10%, or a time with its unit")
        return "share", Fraction(word[:-1]) / 100
    return "time", Fraction(0) if word == "0" else time_of(word)


def leave_or_time(word: str) -> Fraction | str:
    """What --without-period takes."""
    if word == LEAVE:
        return word
    try:
        return time_of(word)
    except ValueError as fault:
        raise ValueError(f"{fault}; or leave") from fault


def rate_of_bus(word: str) -> tuple[str, int]:
    """What --bitrate takes: a bit rate for all buses, or BUS= and one for a bus."""
    name, _, rate = word.rpartition("=")
    return plain(name)[:24] if name else "", rate_of(rate)


def queue_of(word: str) -> tuple[str, Fraction]:
    """What --gateway-queue takes: how long a frame takes in a queue, and before it the name of that."""
    name, _, time = word.rpartition("=")
    if name and name != plain(name)[:24]:
        raise ValueError(f"{name!r} is no name of a queue: write up to 24 letters, digits, _, - and .")
    return name or "gateway", time_of(time)


def millionths(word: str) -> Fraction:
    if not word.isascii() or not word.isdecimal() or int(word) > 100_000:
        raise ValueError(f"{word} is no number of millionths: write 0 to 100000")
    return Fraction(word)


def errors_of(word: str) -> tuple[int, Fraction]:
    """What --errors takes: so many in any time of a length."""
    count, is_pair, time = word.partition("/")
    if not is_pair or not count.isascii() or not count.isdecimal() or not 1 <= int(count) <= 1000:
        raise ValueError(f"{word} is no number of errors: write 2/100ms, for at most 2 in any 100 ms")
    return int(count), time_of(time)


def add_times(reader: argparse.ArgumentParser) -> None:
    """The words on rates and times."""
    rate, time, either = word_of(rate_of_bus), word_of(time_of), word_of(share_or_time)
    times: tuple[tuple[str, str, Callable[[str], Any], str], ...] = (
        ("--tick", "TIME", time, "the time of a tick; 1us if absent"),
        (
            "--jitter",
            "JITTER",
            either,
            "by how much a frame is queued late: a time, or 10%% of the period; 0 if absent",
        ),
        ("--jitter-attribute", "NAME", str, "an attribute of frames in the database that tells it in milliseconds"),
        (
            "--fast",
            "PPM",
            word_of(millionths),
            "by how many millionths the clock of a sender may be fast, which makes its periods shorter; 0 if absent",
        ),
        (
            "--deadline",
            "DEADLINE",
            str,
            "a time, a part of the period, or none; 100%% if absent. It counts from when the frame is queued",
        ),
        ("--deadline-attribute", "NAME", str, "an attribute of frames in the database that tells it in milliseconds"),
        (
            "--errors",
            "COUNT/TIME",
            word_of(errors_of),
            "counts errors on the bus: at most so many in any such time, as 2/100ms; none if absent",
        ),
    )
    for option, metavar, kind, help_text in times:
        reader.add_argument(option, metavar=metavar, type=kind, help=help_text)
    rates: Any = {"metavar": "[BUS=]BITS", "type": rate, "action": "append", "default": []}
    reader.add_argument("--bitrate", help="bits per second, of all buses or of one; the database's if absent", **rates)
    reader.add_argument("--data-bitrate", help="those in the data phase of CAN FD; the database's if absent", **rates)
    reader.set_defaults(tick=time_of("1us"), fast=Fraction(0))


def add_choices(reader: argparse.ArgumentParser) -> None:
    """The words on what is taken, and how."""
    several: Any = {"action": "append", "default": []}
    for option, metavar, help_text in (
        ("--without", "FRAME", "leaves a frame out; a pattern with * leaves several"),
        ("--bus", "BUS", "takes this bus alone"),
        ("--only", "FRAME", "takes this frame and what delays it: its bound is the one that it has among all"),
        (
            "--paths",
            "FRAME",
            (
                "writes paths for these frames alone; a pattern with * names several. All have one if"
                " absent, with a deadline"
            ),
        ),
        ("--forward", "FROM=TO", "frame TO of another bus is queued when FROM is received by a gateway"),
    ):
        reader.add_argument(option, metavar=metavar, help=f"{help_text}. May stand several times", **several)
    what = (
        "frames of --forward go through a queue first, in the order in which they come, and each takes up to so long"
        " there; at once if absent"
    )
    reader.add_argument("--gateway-queue", metavar="[NAME=]TIME", type=word_of(queue_of), help=what)
    add_modes(reader)


def add_modes(reader: argparse.ArgumentParser) -> None:
    """The words on frames of a kind."""
    what = (
        "the period of frames without a cycle time and a least distance; or leave, which leaves them out. Where there"
        " are such one of both is wanted, or --others"
    )
    reader.add_argument("--without-period", metavar="TIME", type=word_of(leave_or_time), help=what)
    what = (
        "the least time between two frames that are sent on events too, where the database has none; and the period of"
        " those without one, where --without-period is absent"
    )
    reader.add_argument("--others", metavar="TIME", type=word_of(time_of), help=what)
    what = (
        "takes the database's default of a cycle time, a least distance and a jitter, where a frame has none of its own"
    )
    reader.add_argument("--defaults", action="store_true", help=what)
    what = "leaves out what has more than 8 bytes and isn't told to be of CAN FD; without it such are refused"
    reader.add_argument("--longer", choices=(LEAVE,), help=what)
    reader.add_argument(
        "--multiplexed",
        choices=("once", "each", "out"),
        help="how many multiplexed frames come in a cycle: one, one for each value, or leave them out; once if absent",
    )
    what = (
        "puts the frames of a sender on one clock, each at its offset in the database (GenMsgStartDelayTime, or"
        " TIME-OFFSET of ARXML). Only where one timer of the sender queues them all, so that none drifts against"
        " another, and none is left out; on no clock if absent"
    )
    reader.add_argument("--offsets", action="store_true", help=what)
    reader.add_argument(
        "--share",
        choices=("none", "sender", "all"),
        default="none",
        help=(
            "which frames with equal period and jitter have one source: none, those of one sender, or all; no bound"
            " depends on it. None if absent"
        ),
    )


def main(arguments: list[str] | None = None) -> int:
    reader = reader_of("import network", __doc__)
    what = "a database; NAME=FILE gives its bus a name, which is that of the file if absent"
    reader.add_argument("database", metavar="DATABASE", nargs="+", help=what)
    reader.add_argument("--to", metavar="SYSTEM", help="the system file; the standard output if absent")
    add_times(reader)
    add_choices(reader)
    words = reader.parse_args(arguments)
    try:
        deadline = None if words.deadline == "none" else share_or_time(words.deadline or "100%")
    except ValueError as fault:
        reader.error(f"argument --deadline: {fault}")
    has_deadline = words.deadline not in (None, "none")
    # it needs canmatrix, and --help doesn't
    from lokwurmi_tools.networks.network_system import write_network

    write_network(options_of(NetworkOptions, words, deadline=deadline, has_deadline=has_deadline))
    return 0
