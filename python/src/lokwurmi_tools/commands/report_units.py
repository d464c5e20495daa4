"""Shows a report of `lokwurmi analyse`, `session`, `simulate`, `chain` or `chains` with times in place of ticks.

    ./lokwurmi analyse examples/sae_can.toml | ./lokwurmi units --tick 1us
    ./lokwurmi units examples/sae_can.report.txt --tick 1us --unit ms
    ./lokwurmi units examples/camera_brake.chains.txt --tick 1us --system examples/camera_brake.toml \\
        --chains examples/camera_brake.chains.toml

Each number of ticks becomes a time in the largest unit in which it is at least 1, or in the one that is asked for, with
all its digits. All else stays as it is.

A bound of a chain gets a tick more for each wait that it counts, since it has to hold for times between ticks too; and
so may its verdict be another. `chain` tells the waits. Of `chains` they follow from the system and the file of chains;
where `lokwurmi ticks` took these ticks off its deadlines, these get them back.
"""
from lokwurmi_tools.commands.argument_parsers import options_of, reader_of, word_of
from lokwurmi_tools.reports.report_in_times import TimeOptions, show_in_times
from lokwurmi_tools.shared.times import UNITS, time_of


def main(arguments: list[str] | None = None) -> int:
    reader = reader_of("units", __doc__)
    reader.add_argument("report", metavar="REPORT", nargs="?", help="a report; the standard input if absent")
    what = "the time of a tick, as 1us"
    reader.add_argument("--tick", metavar="TIME", type=word_of(time_of), required=True, help=what)
    reader.add_argument("--unit", choices=UNITS, help="the unit of all times; of each the one that fits it if absent")
    reader.add_argument("--system", metavar="SYSTEM", help="the system of what chains wrote, with --chains")
    reader.add_argument("--chains", metavar="CHAINS", help="the file of chains of what chains wrote, with --system")
    options = options_of(TimeOptions, reader.parse_args(arguments))
    if (options.system is None) != (options.chains is None):
        reader.error("--system and --chains go together: both are of what chains wrote")
    show_in_times(options)
    return 0
