"""Turns a system file whose times have units into one of whole ticks, each time rounded to its safe side.

    ./lokwurmi ticks examples/units/switch_port.toml --tick 1us --to port.toml
    ./lokwurmi ticks examples/units/switch_port.toml --tick 100ns

A time may be a text, as "16.667 ms" or "250us", with ns, us, ms or s. On a resource with a bit rate, as `bitrate =
500000`, it may be of bits or bytes too: "84 byte" is the time of 672 bits. Greatest executions, regions, jitters and
gaps are rounded up; least executions, periods, distances and deadlines down; a slot has no safe side and must be a
whole number of ticks. A region has a tick more, and so has an execution that it covers; so has the length of a critical
section, which begins a tick later where it would come into the one before. Each rounding is told on the standard error
and at the head of the file. A number without a unit stays a number of ticks. Comments and the order of entries stay.

With --system the file is one of chains over that system. Its deadlines are rounded down, and have a tick less for each
wait that the bound counts: the bounds of `lokwurmi chains` hold at ticks, and between them a wait is up to a tick
longer.

It needs tomlkit: apt-get install python3-tomlkit
"""
from lokwurmi_tools.commands.argument_parsers import options_of, reader_of, word_of
from lokwurmi_tools.shared.system_in_ticks import TickOptions, write_in_ticks
from lokwurmi_tools.shared.times import time_of


def main(arguments: list[str] | None = None) -> int:
    reader = reader_of("ticks", __doc__)
    reader.add_argument("file", metavar="FILE", help="a system file whose times may have units")
    what = "the time of a tick, as 1us"
    reader.add_argument("--tick", metavar="TIME", type=word_of(time_of), required=True, help=what)
    what = "the system of a file of chains, which FILE is then: its deadlines become ticks"
    reader.add_argument("--system", metavar="SYSTEM", help=what)
    reader.add_argument("--to", metavar="SYSTEM", help="the system file of ticks; the standard output if absent")
    write_in_ticks(options_of(TickOptions, reader.parse_args(arguments)))
    return 0
