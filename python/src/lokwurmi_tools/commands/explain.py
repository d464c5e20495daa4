"""Tells why a bound is what it is: which job of a busy window is the latest, and what fills the time up to its end.

Of a task it tells the streams that start it and where their jitter comes from, when the latest job came, and the parts
up to its end: its own executions and those of the jobs before it, the jobs of each rival, a frame of lower priority
that is under way or the rest of a region or of a critical section, the turns of others, and what a cycle takes away; on
a queue all that comes in the window in which the bound is reached. The parts, less the time at which the job came, are
the bound. With --path it tells that of each task along a path, by whom the path waits in all, and what would help it
most: of the numbers by which its tasks wait (but for regions and sections) each is changed by a tenth, at least a tick
(a priority by one place), alone, and the proved program reports the system with it. These are changes of the model, and
no advice that they can be made. With --all it tells of each task and each path. Of a task without a bound it tells what
work its resource has, by whom, and with which rival its busy window has no end.

With --chain it tells what the bounds of an effect chain are made of, one of --chains by its name or one by its tasks:
the waits for a job that comes next, by the period and the jitter of what starts it, where the jitter of tasks is their
bound less their least execution; and the responses, with whom each waits for. These bounds hold if sources stay near: a
source that falls silent voids them. The deadlines beside tasks are those of paths.

The parts are worked out here, at the bounds of the report, and held against it: where they don't add up to the bound
that the proved program has written, the tool says so and ends with 1. They are no part of what is proved.
"""
from lokwurmi_tools.bounds.explanation import ExplainOptions, tell_bounds
from lokwurmi_tools.commands.argument_parsers import add_program, add_tick, options_of, reader_of
from lokwurmi_tools.pictures.plotting import check_name
from lokwurmi_tools.shared.faults import Fault

EXAMPLES = """examples:
  ./lokwurmi explain examples/can_bus.toml m3
  ./lokwurmi explain examples/car_network.toml --path chain9 --to chain9.svg
  ./lokwurmi explain examples/effects.toml --chain brake --chains examples/effects.chains.toml
  ./lokwurmi explain examples/effects.toml --chain sense,act
  ./lokwurmi explain examples/overload.toml --all

docs/PARTS.md tells how to read it.
"""


def main(arguments: list[str] | None = None) -> int:
    reader = reader_of("explain", __doc__, EXAMPLES)
    reader.add_argument("file", metavar="FILE", help="a system file")
    reader.add_argument("task", metavar="TASK", nargs="?", help="the name of a task in it")
    reader.add_argument("--path", metavar="PATH", help="a path: whom it waits for, and what would help most")
    says = "an effect chain, by its tasks in the order of the data: what its reaction, age and held are made of"
    reader.add_argument("--chain", metavar="TASK,TASK..", help=says)
    says = "a file of effect chains: --chain is the name of one; with --all each of them"
    reader.add_argument("--chains", metavar="CHAINS", help=says)
    reader.add_argument("--all", action="store_true", help="each task and each path")
    reader.add_argument("--json", action="store_true", help="write JSON")
    says = "draw it, by matplotlib, into a picture whose name ends with .svg, .png or .pdf"
    reader.add_argument("--to", metavar="PICTURE", help=says)
    add_tick(reader)
    add_program(reader)
    options = options_of(ExplainOptions, reader.parse_args(arguments))
    one = (options.task, options.path, options.chain)
    if sum(it is not None for it in one) + options.all != 1:
        raise Fault("name a task, or --path PATH, or --all, or --chain TASK,TASK..")
    if options.chains is not None and options.chain is None and not options.all:
        raise Fault("--chains wants --chain, the name of one of them, or --all")
    if options.to:
        check_name(options.to)
    return tell_bounds(options)
