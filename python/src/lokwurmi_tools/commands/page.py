"""Writes a page that shows a system and its analysis: one HTML file, without links to the outside.

    ./lokwurmi page examples/car_network.toml --to car.html
    ./lokwurmi page examples/pedal.toml --trace examples/pedal.trace.csv --to pedal.html
    ./lokwurmi page examples/crossing_chains.toml --session examples/crossing_chains.script.txt --to chains.html
    ./lokwurmi page examples/camera_brake.toml --chains examples/camera_brake.chains.toml --to brake.html
    ./lokwurmi page examples/sae_can.toml --tick 1us --to sae.html

The page has the graph of the system, the utilisation of its resources, its paths and tasks with their bounds, what each
bound is made of, and what lies behind each that is `overload`. With --trace it shows what `lokwurmi simulate` observes,
beside the bounds, and the run as a Gantt chart: that of --schedule, or of what `lokwurmi schedule` writes of the trace.
With --session it shows what each report of that script changed, with --sensitivity how far each number may move
(lokwurmi sensitivity), and with --optimise priorities under which all deadlines are met, where some are found (lokwurmi
optimise). With --chains it has the reaction times and data ages of the effect chains of that file, beside their
deadlines, and with --trace what the run shows of them; these deadlines then count for --sensitivity and --optimise,
too. With --helps it says which change of one number would help the paths that are late. With --tick, as 1us, all times
have units, and are exact; the file, --from and --until stay in ticks. Tables are sorted and filtered in the browser,
which needs no network for it. With --strict the status is 5 where a task has no bound.

It needs Jinja2, Graphviz, and matplotlib for the Gantt chart: apt-get install python3-jinja2 graphviz
python3-matplotlib
"""
import argparse

from lokwurmi_tools.commands.argument_parsers import add_program, add_tick, check_span, options_of, reader_of
from lokwurmi_tools.page.page_options import PageOptions
from lokwurmi_tools.page.page_text import write_page
from lokwurmi_tools.shared.faults import Fault


def page_reader() -> argparse.ArgumentParser:
    """The reader of the words of a call."""
    reader = reader_of("page", __doc__)
    reader.add_argument("file", metavar="FILE", help="a system file")
    reader.add_argument("--to", metavar="PAGE", required=True, help="a name that ends with .html")
    reader.add_argument("--trace", metavar="TRACE", help="a trace: what it shows, beside the bounds")
    says = "a recorded schedule for the Gantt chart; that of the run under the trace if absent"
    reader.add_argument("--schedule", metavar="SCHEDULE", help=says)
    says = "the first tick of the Gantt chart; 0 if absent"
    reader.add_argument("--from", metavar="T", type=int, dest="start", default=0, help=says)
    reader.add_argument("--until", metavar="T", type=int, help="the tick at which the Gantt chart ends")
    says = "a file of effect chains: their bounds and deadlines, and what the trace shows of them"
    reader.add_argument("--chains", metavar="CHAINS", help=says)
    reader.add_argument("--session", metavar="SCRIPT", help="a script: what each of its reports changed")
    says = "how far each number may move while all deadlines are met"
    reader.add_argument("--sensitivity", action="store_true", help=says)
    says = "priorities on all resources under which all deadlines are met, where some are found"
    reader.add_argument("--optimise", action="store_true", help=says)
    says = "what would help the paths that are late, or the tightest one: changes of one number each"
    reader.add_argument("--helps", action="store_true", help=says)
    says = "status 5 where a task has no bound; the page is written all the same"
    reader.add_argument("--strict", action="store_true", help=says)
    add_tick(reader)
    add_program(reader)
    return reader


def main(arguments: list[str] | None = None) -> int:
    options = options_of(PageOptions, page_reader().parse_args(arguments))
    if not options.to.endswith(".html"):
        raise Fault(f"{options.to}: a page's name ends with .html")
    if options.schedule and not options.trace:
        raise Fault("--schedule wants --trace, of which it is")
    check_span(options.start, options.until)
    return write_page(options)
