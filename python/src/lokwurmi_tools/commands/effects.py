"""Tells how late effect chains react in a run and how old their data is, beside the bounds that hold in every run.

The run is that of a trace, as `lokwurmi schedule` writes it; the bounds are those of `lokwurmi chain`.
"""
from lokwurmi_tools.commands.argument_parsers import add_program, options_of, reader_of
from lokwurmi_tools.runs.effect_chain_in_run import READINGS
from lokwurmi_tools.runs.effect_chain_texts import EffectOptions, tell_effects

EXAMPLES = """examples:
  ./lokwurmi effects examples/camera_brake.toml examples/camera_brake.trace.csv slip act
  ./lokwurmi effects examples/camera_brake.toml examples/camera_brake.trace.csv --chains \\
      examples/camera_brake.chains.toml
  ./lokwurmi effects FILE TRACE sense act --schedule SCHEDULE --late start

reaction  from a moment that a job of the first task has just missed to the end of the first job of the last task that
          knows of it
age       at the end of a job of the last task, how long ago the job of the first task came whose data it has
held      the same in the last tick before the next job of the last task is done, which overwrites it

When jobs read isn't seen in a run. So each number is worked out for jobs that all read as they come, as they start or
as they are done, and for jobs of which each reads when it makes the chain slowest: in a tick in which it runs, or at
any time from its arrival to its end. The bounds hold for all of these; "while they run" are those of `lokwurmi chain
--while-running`, which hold for jobs that read as they start or while they run.

The bounds hold in runs whose trace obeys and whose sources STAY NEAR: any two events of a source are at most as far
apart as its period and jitter say. Where events stay away, reaction, age and held may be beyond their bounds.

The status is 0, and 1 where something is beyond its bound though all sources stay near: then the schedule isn't that of
the trace, or the trace doesn't obey (`lokwurmi audit` and `lokwurmi simulate` tell which).
"""


def main(arguments: list[str] | None = None) -> int:
    reader = reader_of("effects", __doc__, EXAMPLES)
    reader.add_argument("file", metavar="FILE", help="a system file")
    reader.add_argument("trace", metavar="TRACE", help="a trace that obeys it")
    reader.add_argument(
        "tasks", metavar="TASK", nargs="*", help="the tasks of an effect chain, in the order of the data"
    )
    reader.add_argument("--chains", metavar="CHAINS", help="a file of effect chains, in place of the tasks")
    reader.add_argument("--schedule", metavar="SCHEDULE", help="a recorded schedule, in place of what lokwurmi writes")
    several = ", ".join(f"{it}: {words}" for it, words in READINGS.items())
    says = f"by which rule of reading the jobs are listed that are latest: {several}; none lists none (whenever)"
    reader.add_argument("--late", choices=[*READINGS, "none"], metavar="RULE", default="whenever", help=says)
    add_program(reader)
    options = options_of(EffectOptions, reader.parse_args(arguments))
    if bool(options.tasks) == (options.chains is not None):
        reader.error("name the tasks of a chain, or a file of chains by --chains")
    return tell_effects(options)
