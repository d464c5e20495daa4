"""Looks for priorities on all preemptive, ceiling and CAN resources of a system under which all deadlines are met, and
no bound is `overload`.

The tasks of each resource get its priorities in another order; all else is as in the file, but that the ceilings of
locks follow the priorities. It begins with the order of the file, that of rising deadlines and that of rising periods.
Then it gives each task a part of the deadlines of its paths, has `lokwurmi assign` find an order of each resource for
these parts, looks at the whole system, and moves parts to where time is missing, round by round, which is known as
HOPA. From the best that was found it goes on by exchanging two priorities, those first with whom a late path waits
longest, as lokwurmi explain tells.

What is told as found is what the proved program says of the edits of --script. Where nothing is found there may still
be an order: the search proves nothing about what it didn't try. The same call gives the same answer for the same
--seed, unless --seconds ends it. The status is 0, and 3 where nothing is found; then the best that was found is told.
Where a resource is asked for more than all of the time, nothing is searched, and it says so at once.

Without --chains the deadlines are those of paths alone: an order that is found may have an effect chain miss its own.
With --chains those of that file count too, and what each chain takes by the priorities of the file and by those that
were found stands below. It holds if sources stay near: a source that falls silent voids it.
"""
from lokwurmi_tools.commands.argument_parsers import add_program, options_of, reader_of
from lokwurmi_tools.search.priorities import PriorityOptions
from lokwurmi_tools.search.priority_texts import tell_priorities
from lokwurmi_tools.shared.faults import Fault

EXAMPLES = """examples:
  ./lokwurmi optimise examples/overload.toml --script better.script.txt
  ./lokwurmi session examples/overload.toml better.script.txt
  ./lokwurmi optimise examples/effects.toml --chains examples/effects.chains.toml

docs/PRIORITIES.md tells how often it finds an order, and on which systems.
"""


def main(arguments: list[str] | None = None) -> int:
    reader = reader_of("optimise", __doc__, EXAMPLES)
    rounds = "how many rounds of each kind; 20 if absent"
    restarts = "how often it begins anew from a disturbed order; 4 if absent"
    reader.add_argument("file", metavar="FILE", help="a system file")
    reader.add_argument("--script", metavar="SCRIPT", help="where the edits go to that make the order")
    says = "a file of effect chains, whose deadlines count too"
    reader.add_argument("--chains", metavar="CHAINS", help=says)
    reader.add_argument("--rounds", metavar="N", type=int, default=20, help=rounds)
    reader.add_argument("--restarts", metavar="N", type=int, default=4, help=restarts)
    reader.add_argument("--seconds", metavar="S", type=float, help="when it ends at the latest, about")
    reader.add_argument("--seed", metavar="N", type=int, default=1, help="what is drawn; 1 if absent")
    reader.add_argument("--json", action="store_true", help="write JSON")
    add_program(reader)
    words = reader.parse_args(arguments)
    if words.rounds < 1 or words.restarts < 0:
        raise Fault("there is at least 1 round, and no negative number of restarts")
    if words.seconds is not None and not words.seconds > 0:
        raise Fault(f"--seconds {words.seconds:g}: write a number above 0")
    return tell_priorities(options_of(PriorityOptions, words), words.file, words.program, words.chains, words.json)
