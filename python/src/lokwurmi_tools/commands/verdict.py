"""Says of a system what is met, missed and without a bound, of tasks, paths and effect chains together, with one
status.

It counts first. Then it says what has no bound, what is missed and by how much, the latest first, and which deadline
has the least room. With --chains the chains of that file are judged too. All bounds are those of `lokwurmi analyse` and
`lokwurmi chains`, which are called, and so are the words and the status of what is refused.

With --tick times stand beside ticks. Then each bound of a chain has a tick more for each wait that it counts, with
which it holds between ticks too, and its verdict, and the status, are by that bound. So leave --tick out for a file of
chains that `lokwurmi ticks --system` wrote: its deadlines have that tick off already.
"""
from lokwurmi_tools.commands.argument_parsers import add_program, add_tick, options_of, parsed, reader_of
from lokwurmi_tools.reports.verdict_texts import VerdictOptions, tell_verdict

EXAMPLES = """examples:
  ./lokwurmi verdict examples/effects.toml --chains examples/effects.chains.toml
  ./lokwurmi verdict examples/pedal.toml --json
  ./lokwurmi verdict examples/sae_can.toml --tick 1us --csv > sae_can.csv

status:
  0 each bound is a number and no deadline is missed; 1 a deadline is missed; 2 a bound is lacking; 10 and above: as of
  the program, docs/FILES.md, "Statuses"

docs/CI.md has a job that calls it.
"""


def main(arguments: list[str] | None = None) -> int:
    reader = reader_of("verdict", __doc__, EXAMPLES)
    reader.add_argument("file", metavar="FILE", help="a system file")
    reader.add_argument("--chains", metavar="CHAINS", help="a file of effect chains, which are judged too")
    form = reader.add_mutually_exclusive_group()
    form.add_argument("--json", action="store_true", help="write JSON, by docs/lokwurmi.verdict.schema.json")
    form.add_argument("--csv", action="store_true", help="write a table, a row for each bound, for a spreadsheet")
    add_tick(reader)
    add_program(reader)
    return tell_verdict(options_of(VerdictOptions, parsed(reader, arguments)))
