"""Draws a report as a chart: the times of the paths against their deadlines, and the bounds of the tasks.

REPORT is what `lokwurmi analyse` wrote, or `lokwurmi session`, whose last report is drawn. The picture's name ends with
.svg, .png or .pdf; without --to it is that of REPORT with .svg in place of .txt. A bar goes from the least time to the
greatest; a task without a bound, and a path that has one, have a hatched bar over the whole width. With --paths the
tasks are left out. With --tick, as 1us, the numbers are times and not ticks.
"""
from lokwurmi_tools.commands.argument_parsers import add_picture, add_tick, options_of, reader_of
from lokwurmi_tools.pictures.report_chart import ChartOptions, draw_report


def main(arguments: list[str] | None = None) -> int:
    reader = reader_of("chart", __doc__)
    add_picture(reader)
    reader.add_argument("--paths", action="store_true", help="leave out the tasks")
    add_tick(reader)
    reader.add_argument("report", metavar="REPORT", help="what lokwurmi analyse wrote")
    draw_report(options_of(ChartOptions, reader.parse_args(arguments)))
    return 0
