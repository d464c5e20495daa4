"""Looks for a trace under which a task answers as late, or a path takes as long, as can be found, and shows how near
that comes to the bound.

What is printed as seen is exact: `lokwurmi simulate` replays the trace, whose events and executions obey the system,
and by what it proves no run is later than the bound. Where the two are equal, the bound can't be lower. Where they
aren't, either the bound isn't reached by any run, or the search hasn't found the run.

The search begins with what is known of worst cases on each kind of resource, and then changes phases, jitter,
executions and the phases of TDMA cycles, and keeps what is later. It makes so many tries (--tries), so that the same
call gives the same answer for the same --seed; --seconds ends it before, and then it says so. A path is looked at after
each of its tasks, and begins with what was found for these: with N tasks it takes N + 1 searches. An interrupt ends the
search as well; what was seen by then is written, and the status is 130.

A line `late` tells which job was late and when, in the trace that --to or --keep writes: the number of the job in the
order in which its task was activated, when that was, and when the job ended; of a path from when to when the passage
lasted, and its jobs. With --all, --keep writes as few and as short traces as do to show all that was seen:
FOLDER/NAME.worst1.csv and so on for NAME.toml. A row that was bettered by the search for another is written once more
at the end.

Where the bound of a task uses clocks, traces begin at the worst phase: so that the clocks stand as the bound has them
when the busy window begins. A line `phase` tells where that is, and how near traces from there came.

With --chain it looks for a late reaction of an effect chain, whose tasks read what the one before wrote last, or with
--what age for old data, beside the bound of `lokwurmi chain`. All its traces have sources that stay near, as that bound
wants it.

With --draw the run that was found is drawn as by lokwurmi gantt: the job, or those of the path or the chain, are
framed; of a chain arrows lead from each job, which writes, to where the next one reads, and a line below has what was
reached beside the bound."""
import argparse
import os

from lokwurmi_tools.commands.argument_parsers import add_program, options_of, reader_of
from lokwurmi_tools.pictures.plotting import check_name
from lokwurmi_tools.runs.effect_chain_in_run import ASKED, READINGS
from lokwurmi_tools.search.worst_search import WorstOptions
from lokwurmi_tools.search.worst_texts import find_worst

EXAMPLES = """examples:
  ./lokwurmi worst examples/long_window.toml b --to worst.trace.csv
      a trace under which a job of b is as late as can be found, and which job that is
  ./lokwurmi worst examples/crossing_chains.toml --path pa
      how long a path may take; its tasks are looked at first
  ./lokwurmi worst examples/sae_can.toml --all
      a table of all tasks and paths
  ./lokwurmi worst examples/gateway.toml --all --keep traces
      the table, and the traces that show it
  ./lokwurmi worst examples/effects.toml --chain sense,filter,act --what age --to old.trace.csv
      a trace under which a chain that reads registers has data as old as can be found
  ./lokwurmi worst examples/effects.toml --chains examples/effects.chains.toml --chain brake --draw brake.svg
      the same of a reaction, as a picture of the run

More: docs/TIGHTNESS.md"""


def worst_reader() -> argparse.ArgumentParser:
    """The reader of the words of a call."""
    reader = reader_of("worst", __doc__, EXAMPLES)
    reader.add_argument("file", metavar="FILE", help="a system file")
    reader.add_argument("task", metavar="TASK", nargs="?", help="the task whose response is to be late")
    says = "a path that is to take long, in place of a task; its N tasks are looked at before: N + 1 searches"
    reader.add_argument("--path", help=says)
    reader.add_argument("--all", action="store_true", help="all tasks and paths that have a bound, in a table")
    says = "an effect chain, whose tasks read what the one before wrote last"
    reader.add_argument("--chain", metavar="TASK,TASK..", help=says)
    reader.add_argument("--chains", metavar="CHAINS", help="a file of effect chains: --chain is the name of one")
    reader.add_argument("--what", choices=ASKED, default="reaction", help="what of the chain is to be late (reaction)")
    says = "when jobs of the chain are taken to read (whenever)"
    reader.add_argument("--reading", choices=READINGS, default="whenever", help=says)
    reader.add_argument("--to", metavar="TRACE", help="writes the trace to this file")
    says = "draws the run of the trace, by matplotlib: a name that ends with .svg, .png or .pdf"
    reader.add_argument("--draw", metavar="PICTURE", help=says)
    reader.add_argument("--keep", metavar="FOLDER", help="writes the traces of --all into this folder")
    reader.add_argument("--tries", type=int, default=2000, help="how many traces are tried in a search (2000)")
    reader.add_argument("--seconds", type=float, default=60, help="it ends within 5 seconds after this time (60)")
    reader.add_argument("--seed", type=int, default=1, help="another number looks in other places (1)")
    reader.add_argument("--jobs", type=int, default=os.cpu_count(), help="how many traces are replayed side by side")
    add_program(reader)
    return reader


def main(arguments: list[str] | None = None) -> int:
    reader = worst_reader()
    options = options_of(WorstOptions, reader.parse_args(arguments))
    targets = (options.task is not None) + (options.path is not None) + (options.chain is not None)
    if targets + options.all != 1:
        reader.error("name a task, or --path NAME, or --all, or --chain TASK,TASK..")
    if options.all and (options.to or options.draw):
        reader.error("--to and --draw want one task, path or chain")
    if options.chain == "":
        reader.error("--chain names nothing: write TASK,TASK.. or the name of a chain of --chains")
    if options.chains and not options.chain:
        reader.error("--chains wants --chain, the name of one of them")
    if options.keep and not options.all:
        reader.error("--keep wants --all")
    if options.jobs < 1 or options.tries < 1 or not options.seconds > 0:
        reader.error("--jobs and --tries are at least 1, and --seconds is above 0")
    if options.draw:
        check_name(options.draw)
    return find_worst(options)
