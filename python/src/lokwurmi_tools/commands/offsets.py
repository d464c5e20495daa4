"""Chooses offsets for sources on clocks, by which deadlines are met and bounds are small.

It begins with the offsets of the file, and with a known heuristic (Grenier, Havet and Navet, 2008): sources by rising
periods, then by priority, each into the middle of the longest stretch of its clock's cycle in which least comes. From
the better of both it moves sources, into places by which least comes in windows and into drawn ones, tries these by
sessions of the proved program, and keeps what is better: first fewer bounds that aren't there, then less that is late,
then a smaller sum of bounds, each as a share of its deadline or, of a task that no path with a deadline has, of its
shortest period. Where no move is better it begins anew from disturbed offsets. Where there are few ways to place the
sources, all are tried.

It writes a script of `offset` edits, for lokwurmi session, and tells all bounds before and after: what it tells is what
the proved program says of these edits. That nothing better is there is known only where it says that all ways were
tried. The same call gives the same answer for the same --seed, unless --seconds or an interrupt ends it; then it is the
best up to there. The status is 0, and 3 where a deadline is missed still, or a bound `overload`.

Bounds by offsets hold as long as sources on one clock keep their distances: a node that restarts, clocks that drift
against each other and frames that are sent on events void them.
"""
import argparse
import os

from lokwurmi.model.limits import MOST_TICKS
from lokwurmi_tools.commands.argument_parsers import add_program, options_of, reader_of
from lokwurmi_tools.pictures.plotting import check_name
from lokwurmi_tools.search.offset_search import OffsetOptions
from lokwurmi_tools.search.offset_texts import tell_offsets
from lokwurmi_tools.shared.faults import Fault

EXAMPLES = """examples:
  ./lokwurmi offsets examples/offsets.toml --grid 50 --output spread.script.txt
  ./lokwurmi session examples/offsets.toml spread.script.txt
  ./lokwurmi offsets examples/offsets.toml --clock engine --keep s_speed --seconds 60 --draw spread.svg

docs/OFFSETS.md tells how to read it, and how much of the bounds is left.
"""


def offsets_reader() -> argparse.ArgumentParser:
    """The reader of the words of a call."""
    reader = reader_of("offsets", __doc__, EXAMPLES)
    reader.add_argument("file", metavar="FILE", help="a system file with sources on clocks")
    says = "only sources of this clock move; all clocks if absent; may be given several times"
    reader.add_argument("--clock", metavar="CLOCK", action="append", default=[], help=says)
    says = "this source keeps its offset; may be given several times"
    reader.add_argument("--keep", metavar="SOURCE", action="append", default=[], help=says)
    says = "offsets are multiples of so many ticks; 1 if absent"
    reader.add_argument("--grid", metavar="N", type=int, default=1, help=says)
    says = "no offset is above so many ticks; below the period if absent"
    reader.add_argument("--most", metavar="N", type=int, default=MOST_TICKS, help=says)
    says = "how many offsets are tried; 1000 if absent"
    reader.add_argument("--tries", metavar="N", type=int, default=1000, help=says)
    reader.add_argument("--seconds", metavar="S", type=float, help="when it ends at the latest, about")
    reader.add_argument("--seed", metavar="N", type=int, default=1, help="what is drawn; 1 if absent")
    says = "how many calls go at a time, with the same answer; as many as there are processors if absent"
    reader.add_argument("--jobs", metavar="N", type=int, default=os.cpu_count() or 1, help=says)
    says = "where the script goes; the standard output if absent, with the table on the standard error"
    reader.add_argument("--output", "--to", metavar="SCRIPT", help=says)
    reader.add_argument("--json", action="store_true", help="write JSON in place of the table, with the edits in it")
    says = "draw the bounds before and after, by matplotlib: a .svg, .png or .pdf"
    reader.add_argument("--draw", metavar="PICTURE", help=says)
    add_program(reader)
    return reader


def main(arguments: list[str] | None = None) -> int:
    words = offsets_reader().parse_args(arguments)
    if words.draw:
        check_name(words.draw)
    for name, least in (("grid", 1), ("most", 0), ("tries", 1), ("jobs", 1)):
        if getattr(words, name) < least:
            raise Fault(f"--{name} {getattr(words, name)}: write a number from {least} up")
    if words.seconds is not None and not words.seconds > 0:
        raise Fault(f"--seconds {words.seconds:g}: write a number above 0")
    clocks = {"clock": tuple(dict.fromkeys(words.clock)), "keep": tuple(dict.fromkeys(words.keep))}
    return tell_offsets(options_of(OffsetOptions, words, **clocks), words.file, words.program)
