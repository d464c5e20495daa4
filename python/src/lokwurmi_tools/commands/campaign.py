"""Runs many calls of the proved program on many processors, or many machines, and joins what they write.

    ./lokwurmi campaign hammer FILE --traces N [--seed S] [--call K] [common options]
    ./lokwurmi campaign variants FILE GRID [--front LATENCY,COST] [common options]

hammer splits N generated traces into calls of `lokwurmi hammer`, each with a seed of its own from S on. It writes
what one such call would write of them all. At a job beyond its bound it stops, and writes which seed and which trace
show it. variants takes the system of FILE with each combination of what the TOML file GRID varies, and writes a table
of comma-separated values, a row a variant. docs/CAMPAIGNS.md tells of both, of GRID, and of several machines.

The common options: --scheduler ADDRESS uses the Dask scheduler there, and its workers; without it there is a worker for
each processor of this machine, or --workers N. What is done is kept in the folder of --resume FOLDER, and isn't done
again by a call with the same folder. A call that fails for want of memory, disk or a worker is tried again elsewhere,
--tries T times in all.

The status is 0, or 1 where a job was beyond its bound, 2 where the words, GRID or FOLDER are refused, 3 where a call
failed T times or the scheduler can't be reached, 130 after an interrupt; where the program refuses FILE or a script,
its own.
"""
import argparse
import re
from collections.abc import Callable
from typing import Any

from lokwurmi.model.limits import MOST_SEED, MOST_TRACES
from lokwurmi_tools.campaigns.campaign_options import CampaignOptions, HammerOptions, VariantOptions
from lokwurmi_tools.campaigns.campaigning import run_campaign
from lokwurmi_tools.commands.argument_parsers import HelpForm, WordReader, options_of, reader_of
from lokwurmi_tools.commands.catalogue import named
from lokwurmi_tools.shared.packages import need
from lokwurmi_tools.shared.program import BINARY

HAMMERS = """examples:
  ./lokwurmi campaign hammer examples/car_network.toml --traces 100000
      a million jobs and more, on the processors of this machine
  ./lokwurmi campaign hammer FILE --traces 10000000 --scheduler tcp://host1:8786 --resume runs
      on the workers of a scheduler; the same words once more go on where it was stopped

Each call has a seed of its own: S, S + 1, S + 2 and so on. The text is that of one `lokwurmi hammer`.

More: docs/CAMPAIGNS.md"""
GRIDS = """example, with a file grid.toml of two entries and so of six variants:
  [[vary]]
  task = "b2"
  worst = [10, 15, 20]
  costs = [9, 4, 0]
  [[vary]]
  source = "sa"
  period = [100, 60]

  ./lokwurmi campaign variants examples/crossing_chains.toml grid.toml --front pb,cost > table.csv

An entry varies best, worst, execution, priority or slot of a task, period, jitter or distance of a source, or scripts.

More: docs/CAMPAIGNS.md"""


def within(least: int, most: int) -> Callable[[str], int]:
    def read(word: str) -> int:
        if not re.fullmatch(r"[0-9]{1,10}", word) or not least <= int(word) <= most:
            raise argparse.ArgumentTypeError(f"{word}: wants a number from {least} to {most}")
        return int(word)

    return read


def common_words() -> argparse.ArgumentParser:
    """The words of each campaign."""
    common = WordReader(add_help=False)
    where = common.add_mutually_exclusive_group()
    says = "a Dask scheduler, as tcp://host:8786; without it, this machine's processors"
    where.add_argument("--scheduler", metavar="ADDRESS", help=says)
    says = "without a scheduler: so many calls at a time, one for each processor if absent"
    where.add_argument("--workers", metavar="N", type=within(1, 1024), help=says)
    says = "keep in FOLDER what is done, and don't do again what it has"
    common.add_argument("--resume", metavar="FOLDER", help=says)
    says = "how often a call is tried that fails; 3 if absent"
    common.add_argument("--tries", metavar="T", type=within(1, 100), default=3, help=says)
    says = "the program, that of this repository if absent; it is sent to the workers"
    common.add_argument("--program", metavar="PROGRAM", default=BINARY, help=says)
    return common


def add_hammer(commands: Any, form: dict[str, Any]) -> None:
    """The words of `campaign hammer`."""
    says = "Replays generated traces, and writes the greatest responses seen beside the bounds."
    it = commands.add_parser(
        "hammer", help="generated traces, in one summary", description=says, epilog=HAMMERS, **form
    )
    it.add_argument("file", metavar="FILE", help="a system file")
    it.add_argument("--traces", metavar="N", type=within(1, 10**9), required=True, help="how many traces in all")
    says = "the seed of the first call; 1 if absent"
    it.add_argument("--seed", metavar="S", type=within(0, MOST_SEED), default=1, help=says)
    says = "how many traces a call has; 1000 if absent"
    it.add_argument("--call", metavar="K", type=within(1, MOST_TRACES), default=1000, help=says)
    it.set_defaults(options=HammerOptions)


def add_variants(commands: Any, form: dict[str, Any]) -> None:
    """The words of `campaign variants`."""
    says = "Analyses each variant of a grid, and writes a table of verdicts, bounds and latencies."
    it = commands.add_parser("variants", help="what a grid varies, as a table", description=says, epilog=GRIDS, **form)
    it.add_argument("file", metavar="FILE", help="a system file")
    it.add_argument("grid", metavar="GRID", help="a TOML file that says what is varied")
    says = "mark the Pareto front of two columns, as the name of a path and cost"
    it.add_argument("--front", metavar="LATENCY,COST", help=says)
    it.set_defaults(options=VariantOptions)


def main(arguments: list[str] | None = None) -> int:
    reader = reader_of(
        "campaign",
        "Runs many calls of the proved program on many processors or machines, and joins what they write.",
        f"example:\n  ./lokwurmi {named('campaign').example}\n\n"
        "More: docs/CAMPAIGNS.md, and hammer --help, variants --help",
    )
    commands = reader.add_subparsers(dest="command", required=True, metavar="COMMAND")
    form: dict[str, Any] = {"parents": [common_words()], "formatter_class": HelpForm}
    add_hammer(commands, form)
    add_variants(commands, form)
    words = reader.parse_args(arguments)
    options: CampaignOptions = options_of(words.options, words)
    need("distributed", status=2)
    return run_campaign(options)
