"""Puts two versions of a system side by side: which bounds got better and worse, what is newly met and missed, and what
appeared and went.

A and B are system files, or reports that `lokwurmi analyse` wrote of them: A is the one before. What is compared has
the same kind and name in both. With --chains the chains of a file are judged for both, with --chains-a and --chains-b
those of two files, which may be what `lokwurmi chains` wrote, too. By default it shows what changed.

Numbers are in ticks, so that both have to count in the same. With --tick times stand beside them, and each bound of a
chain has a tick more for each wait that it counts, with which it holds between ticks too.
"""
from lokwurmi.results.differences import Limit
from lokwurmi_tools.commands.argument_parsers import (
    NO_WORDS,
    add_program,
    add_tick,
    options_of,
    parsed,
    reader_of,
    word_of,
)
from lokwurmi_tools.reports.difference_texts import DifferenceOptions, tell_difference
from lokwurmi_tools.shared.faults import Fault

EXAMPLES = """examples:
  ./lokwurmi diff examples/gateway.toml examples/gateway_one_stream.toml
  ./lokwurmi diff examples/pedal.report.txt examples/pedal.toml --all
  ./lokwurmi diff before.toml after.toml --chains net.chains.toml --worse 5%

status:
  0 nothing got worse than asked; 1 a deadline is newly missed, or by --worse a bound grew by more; 2 a bound is lost,
  or what is new has none; 10 and above: as of the program, and 14 also of a report that isn't whole

docs/CI.md has a job that calls it.
"""


def check(options: DifferenceOptions) -> None:
    """Refuses options that don't go together."""
    both = [options.chains_a is not None, options.chains_b is not None]
    if options.chains is not None and any(both):
        raise Fault("--chains is for both: leave --chains-a and --chains-b out, or it", NO_WORDS)
    if any(both) and not all(both):
        given, lacking = ("--chains-a", "--chains-b") if both[0] else ("--chains-b", "--chains-a")
        raise Fault(f"{given} wants {lacking} beside it, else all of its chains are on one side alone", NO_WORDS)


def main(arguments: list[str] | None = None) -> int:
    reader = reader_of("diff", __doc__, EXAMPLES)
    reader.add_argument("a", metavar="A", help="a system file, or what `lokwurmi analyse` wrote: the one before")
    reader.add_argument("b", metavar="B", help="the same: the one after")
    reader.add_argument("--chains", metavar="CHAINS", help="a file of effect chains, which are judged for both")
    what = "a file of chains of A, or what `lokwurmi chains` wrote of it"
    reader.add_argument("--chains-a", metavar="CHAINS", help=what)
    reader.add_argument("--chains-b", metavar="CHAINS", help="the same of B")
    reader.add_argument("--all", action="store_true", help="show what is the same too")
    what = "status 1 where a bound grew by more: ticks, as 100, or a share of what it was, as 5%%"
    reader.add_argument("--worse", metavar="N", type=word_of(Limit.of), help=what)
    form = reader.add_mutually_exclusive_group()
    form.add_argument("--json", action="store_true", help="write JSON, by docs/lokwurmi.diff.schema.json")
    form.add_argument("--csv", action="store_true", help="write a table, a row for each bound, for a spreadsheet")
    add_tick(reader)
    add_program(reader)
    options = options_of(DifferenceOptions, parsed(reader, arguments))
    check(options)
    return tell_difference(options)
