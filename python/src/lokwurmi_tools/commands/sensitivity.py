"""Tells how far each number of a system may move, one at a time, while all deadlines are met and no bound is
`overload`.

It moves the greatest execution of each task (longer), the period of each source on no clock (shorter), the jitter of
each source (longer), the greatest executions on each resource (all longer by one share, regions and sections as they
are), the region of each task that has one (longer, up to its greatest execution), each critical section (longer, up to
that or the next section), each offset on a clock that bounds use (later, and earlier, round the period of its source)
and each deadline (shorter), and shows the tightest first. With --only region tasks without one have one of a tick. What
is first missed, or without a bound, beyond that stands beside it. Each is moved alone: two that both move as far as is
told may miss a deadline together. With --goal a path is held against another deadline than that of the file, or against
one where the file has none. With --deadlines paths with a deadline count alone, as for `lokwurmi slack`, and a bound
that is `overload` only where such a path goes through its task.

Without --chains the deadlines are those of paths alone: a number that moves as far as is told may have an effect chain
miss its deadline. With --chains the deadlines of that file count too, and what a chain doesn't allow stands beside the
number by its name, as `chain brake reaction`. A period then moves both ways, since a chain waits for jobs: shorter, and
longer for the sources behind the chains. Between two values a chain may be late and in time again: so what is told as
how far it may move is up to the first value that fails. What is told of chains holds if sources stay near: a source
that falls silent voids it.

Both ends of each answer are reports of the proved program: with the number at the value that is told all holds, and one
step beyond it doesn't. In between the tool halves the range. That nothing holds further on is proved of each single
step for executions, regions, critical sections, periods, jitters and speeds, since no bound falls where more is asked
for. That the halving follows from it is argued in docs/SENSITIVITY.md, and not proved. Of offsets no law says so: a
deadline that is missed may be met again further on. What is told is up to the first offset that fails; up to there they
are looked at by stretches, of which one has all its offsets as jitter. Of executions under --deadlines `lokwurmi slack`
is proved to give the very number.

Edits of many numbers go in one script of `lokwurmi session`, so that there are few calls, --jobs of them at a time; for
a region or a section, which no edit changes, a file is analysed each time. The status is 0, and 3 where a deadline is
missed already, or a bound `overload`.
"""
import os

from lokwurmi.model.limits import MOST_TICKS
from lokwurmi_tools.commands.argument_parsers import add_program, options_of, reader_of
from lokwurmi_tools.pictures.plotting import check_name
from lokwurmi_tools.search.margin_question import KINDS, LAWS
from lokwurmi_tools.search.margin_texts import MarginOptions, tell_margins
from lokwurmi_tools.shared.faults import Fault

EXAMPLES = """examples:
  ./lokwurmi sensitivity examples/car_network.toml --to car.svg
  ./lokwurmi sensitivity examples/sae_can.toml --only execution --deadlines
  ./lokwurmi sensitivity examples/pedal.toml --goal pedal_to_motor=4000 --json
  ./lokwurmi sensitivity examples/offsets.toml --only offset
  ./lokwurmi sensitivity examples/camera_brake.toml --chains examples/camera_brake.chains.toml --only longer-period

docs/SENSITIVITY.md tells how to read it, and why it is right.
"""


def goals_in(several: list[str]) -> dict[str, int]:
    """The deadlines in ticks that paths are held against, by the names of these."""
    found = {}
    for it in several:
        name, _, deadline = it.partition("=")
        if not (deadline.isascii() and deadline.isdecimal() and 1 <= int(deadline) <= MOST_TICKS):
            raise Fault(f"{it}: a goal is PATH=DEADLINE, of 1 to {MOST_TICKS}")
        found[name] = int(deadline)
    return found


def laws_text() -> str:
    """By which law nothing gets better as a number of each kind moves on."""
    wide = max(map(len, LAWS))
    lines = [f"  {kind:<{wide}}  {law}" for kind, law in LAWS.items()]
    return "\n".join(["", "by which law nothing gets better as a number moves on:", *lines, ""])


def main(arguments: list[str] | None = None) -> int:
    reader = reader_of("sensitivity", __doc__, EXAMPLES + laws_text())
    jobs = "how many calls go at a time; as many as there are processors if absent"
    goal = "hold a path against this deadline; may be given several times"
    reader.add_argument("file", metavar="FILE", help="a system file")
    reader.add_argument("--goal", metavar="PATH=DEADLINE", action="append", default=[], help=goal)
    says = "a file of effect chains, whose deadlines count too"
    reader.add_argument("--chains", metavar="CHAINS", help=says)
    reader.add_argument("--deadlines", action="store_true", help="count deadlines alone, as `lokwurmi slack` does")
    only = f"move only these: {', '.join(KINDS)}; may be given several times"
    reader.add_argument("--only", metavar="KIND", action="append", choices=KINDS, help=only)
    reader.add_argument("--jobs", metavar="N", type=int, default=os.cpu_count() or 1, help=jobs)
    reader.add_argument("--json", action="store_true", help="write JSON, with the law for each kind of number")
    reader.add_argument("--to", metavar="PICTURE", help="draw the tightest, by matplotlib: a .svg, .png or .pdf")
    add_program(reader)
    words = reader.parse_args(arguments)
    if words.to:
        check_name(words.to)
    if words.jobs < 1:
        raise Fault("there is at least 1 job")
    if "longer-period" in (words.only or ()) and words.chains is None:
        raise Fault("--only longer-period wants --chains: only a chain is later with a longer period")
    return tell_margins(options_of(MarginOptions, words, goals=goals_in(words.goal), only=tuple(words.only or KINDS)))
