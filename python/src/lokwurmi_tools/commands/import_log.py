"""Makes event models of the frames in a recorded log of CAN buses, or holds a log against a system file.

    ./lokwurmi import log examples/sae_can.log --database can=examples/sae_can.dbc
    ./lokwurmi import log examples/sae_can.log --system examples/sae_can.toml
    ./lokwurmi import log drive.asc --system car.toml --bus front=0 --bus back=1 \\
        --database front.dbc --database back.dbc
    ./lokwurmi import log drive.asc --clocks --database car.dbc > car.toml

LOG is of `candump -l` (.log), of Vector (.asc, .blf), or another file that python-can reads. The first call prints a
source for each frame: its period, the least jitter with which that period holds all of the log, and the least distance.
The period is that for which the frames run ahead and fall behind by the least, pauses aside: gaps where frames are
missing. The second call prints a line for each frame of the system:

  within input       the frames came as apart as the event model says by which they are queued
  within output      they didn't, but as apart as frames are behind the bus, whose response varies
  beyond output      they came closer than a run of the system can have them: the system file isn't that of the log
  no bound, absent, streams K    nothing can be held against it: no bound, no frames, or several streams that come
                     together

and in it the least jitter that the log needs at the period of the system, and the least distance, beside jitter and
distance of the event models before the bus and behind it.

A log has the times at which frames were received, and not those at which they were queued. So a source of a log says
what starts a task that receives the frame; what queues it may have come by up to its response less its least length
otherwise.

With --clocks sources that keep their distance to each other over the whole log get a clock and an offset, as of one
node; a database with senders keeps nodes apart. It is a proposal: a log shows neither that a node never begins anew nor
that clocks never drift. What fits no clock, and why, is told on the standard error, and behind its source.

It needs python-can, and canmatrix with --database: apt-get install python3-can python3-canmatrix python3-lxml
"""
import argparse
from typing import Any

from lokwurmi_tools.commands.argument_parsers import add_program, options_of, reader_of, word_of
from lokwurmi_tools.logs.log_options import LogOptions
from lokwurmi_tools.shared.packages import need
from lokwurmi_tools.shared.times import time_of

# by how many millionths a clock may be wrong
MOST_DRIFT = 100_000


def bus_of(word: str) -> tuple[str, str]:
    bus, is_pair, channel = word.partition("=")
    if not is_pair:
        raise ValueError(f"{word}: write it as BUS=CHANNEL")
    return bus, channel


def add_words(reader: argparse.ArgumentParser) -> None:
    """The words of a call."""
    several: Any = {"action": "append", "default": []}
    reader.add_argument("log", metavar="LOG", help="a recorded log")
    reader.add_argument("--system", metavar="SYSTEM", help="a system file that the log is held against")
    reader.add_argument("--report", metavar="REPORT", help="what lokwurmi analyse wrote of it; it is called if absent")
    what = (
        "a database with the names of the frames, all as for lokwurmi import network; if absent priorities are"
        " identifiers"
    )
    reader.add_argument("--database", metavar="DATABASE", help=what, **several)
    what = "which channel of the log a bus is; needed where there are several"
    reader.add_argument("--bus", metavar="BUS=CHANNEL", type=word_of(bus_of), help=what, **several)
    what = "the time of a tick, that of the system; 1us if absent"
    reader.add_argument("--tick", metavar="TIME", type=word_of(time_of), default=time_of("1us"), help=what)
    what = "whose periods the sources get; the log's if absent"
    reader.add_argument("--period", choices=("log", "database"), default="log", help=what)
    what = "takes the frames in lines of CAN FD as classical ones"
    reader.add_argument("--classical", action="store_true", help=what)
    what = "sorts frames by their times, as of a log that is joined of several; without it such a log is refused"
    reader.add_argument("--sort", action="store_true", help=what)
    what = "by how much the times of the log may be late; 0 if absent"
    reader.add_argument("--rough", metavar="TICKS", type=int, default=0, help=what)
    what = (
        "puts sources that keep their distance over the whole log on clocks, each with its offset and a jitter that"
        " covers the log (format 4). A proposal: only where one timer queues them, and none is left out; on no clock if"
        " absent"
    )
    reader.add_argument("--clocks", action="store_true", help=what)
    what = (
        "by how many millionths the clock of the recorder may be slower than that of a sender, or with --clocks is, and"
        " below 0 is faster; 0 if absent"
    )
    reader.add_argument("--drift", metavar="PPM", type=float, default=0, help=what)
    add_program(reader)


def main(arguments: list[str] | None = None) -> int:
    reader = reader_of("import log", __doc__)
    add_words(reader)
    options = options_of(LogOptions, reader.parse_args(arguments))
    if options.report and not options.system:
        reader.error("--report wants --system, of which it is")
    if options.period == "database" and not options.database:
        reader.error("--period database wants --database")
    if options.rough < 0 or not (-MOST_DRIFT if options.clocks else 0) <= options.drift <= MOST_DRIFT:
        reader.error("--rough is at least 0, and --drift from 0 to 100000, or with --clocks from -100000")
    if options.clocks and options.system:
        reader.error("--clocks concerns nothing beside --system: no sources are written then")
    # these need python-can, and --help doesn't
    need("can")
    from lokwurmi_tools.logs.log_lines import tell_log

    return tell_log(options)
