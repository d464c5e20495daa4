"""Draws how many events at most start a task in a window of each length: its streams one on the other, so that the top
is their sum. Or, with --clock, a clock over its cycle.

FILE is a system file that `lokwurmi analyse` accepts, REPORT what it wrote of it, TASK the name of a task in it. With
--beside the events of one more stream are drawn as a line. The window goes up to --window, or else to twice the longest
period. The picture's name ends with .svg, .png or .pdf; without --to it is the name of the task, or of the clock, with
.svg. With --tick, as 1us, the window is drawn as a time.

With --clock, FILE alone is named. The picture has a row for each source of the clock: when its events come by their
offsets, and up to when by its jitter. Below it, for each resource whose tasks the sources start, is the work that comes
in each part of the cycle, one source on the other: where it is high, offsets heap work up. A line has how much of it is
left if nothing else comes and no event is late. Work of tasks further along chains isn't in it."""
from lokwurmi_tools.commands.argument_parsers import add_picture, add_tick, options_of, reader_of
from lokwurmi_tools.pictures.event_curve import CurveOptions, draw_curve
from lokwurmi_tools.shared.faults import Fault

EXAMPLES = """examples:
  ./lokwurmi curve examples/gateway.toml examples/gateway.report.txt forward --to gateway.svg
  ./lokwurmi curve examples/offsets.toml --clock engine --to engine.svg
"""


def main(arguments: list[str] | None = None) -> int:
    reader = reader_of("curve", __doc__, EXAMPLES)
    add_picture(reader)
    reader.add_argument("--window", metavar="TICKS", type=int, help="the longest window")
    reader.add_argument("--beside", metavar=("PERIOD", "JITTER", "DISTANCE"), type=int, nargs=3, help="one more stream")
    reader.add_argument("--clock", metavar="NAME", help="draws this clock over its cycle, in place of a task's events")
    add_tick(reader)
    reader.add_argument("file", metavar="FILE", help="a system file")
    reader.add_argument("report", metavar="REPORT", nargs="?", help="what lokwurmi analyse wrote of it")
    reader.add_argument("task", metavar="TASK", nargs="?", help="the name of a task in it")
    options = options_of(CurveOptions, reader.parse_args(arguments))
    if options.clock is None and options.task is None:
        raise Fault("name a REPORT and a TASK, or --clock NAME")
    if options.clock is not None and (options.report or options.window is not None or options.beside):
        raise Fault("--clock goes without REPORT and TASK, --window and --beside: a clock is drawn over its cycle")
    draw_curve(options)
    return 0
