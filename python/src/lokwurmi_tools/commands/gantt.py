"""Draws a schedule as a Gantt chart: a lane a resource, a colour a task, and who ran there when.

FILE is a system file, SCHEDULE has rows TASK,START,END as `lokwurmi audit` reads them and `lokwurmi schedule` writes
them; - stands for what comes in. Where it is absent, `lokwurmi schedule` is called with --trace. The picture's name
ends with .svg, .png or .pdf. The tasks of a path have its colour, as lokwurmi graph draws it, lighter from task to
task.

With a trace, the one that the schedule is of, triangles show when jobs came (above the lane) and when they were done
(below it), a line leads from where a job of a queue comes to where it begins, a white line stands between two regions
of a job, a dark strip in its bar where it holds a lock, and TDMA slots stand where the trace's phases put them; without
one the phases are 0. With a report of `lokwurmi analyse` as well, a job that took longer than its bound, or that isn't
done though its bound is past, is framed in red, with a red line from its bound on. --from and --until cut a part out.
With --tick, as 1us, the times that are shown have units; --from and --until stay ticks.

--longest marks the job of a task that took longest, or the passage of a path that did: its jobs are framed, with a line
for each from where it came to its end, and one for the whole below. Of a path only that stretch is drawn, and of a task
where the run is more than 20 times as long, unless --from or --until say otherwise. Of several that took as long it is
the first. Where a task and a path have one name, it is the task's, and path:NAME that of the path.

--chain marks an effect chain, whose tasks read what the one before wrote last, or one of a file of chains by its name:
its latest reaction in the run, in crimson, and its oldest data, dashed in green; or with --what one of these, or how
long data was held, dotted in violet. Their jobs are framed, an arrow leads from the end of each, which writes, to where
the next one reads, and a line below shows the whole, beside the bound that `lokwurmi chain` tells. When jobs read isn't
in a schedule: --reading says by which rule they are taken to.

--clock draws a clock below the lanes: when the events of its sources came, the work that they brought in each part of
the time, and where its cycles begin, as far as the events of the trace tell."""
import argparse

from lokwurmi_tools.commands.argument_parsers import (
    add_picture,
    add_program,
    add_tick,
    check_span,
    options_of,
    reader_of,
)
from lokwurmi_tools.pictures.gantt_chart import GanttOptions, draw_gantt
from lokwurmi_tools.pictures.plotting import check_name
from lokwurmi_tools.runs.effect_chain_in_run import ASKED, READINGS
from lokwurmi_tools.shared.faults import Fault

EXAMPLES = """examples:
  ./lokwurmi gantt examples/pedal.toml examples/pedal.schedule.csv --to pedal.svg
  ./lokwurmi gantt examples/pedal.toml examples/pedal.schedule.csv --trace examples/pedal.trace.csv \\
      --report examples/pedal.report.txt --from 0 --until 6000 --longest torque --to pedal.svg
  ./lokwurmi schedule FILE TRACE | ./lokwurmi gantt FILE - --trace TRACE --to run.png
  ./lokwurmi worst FILE --path NAME --to worst.csv
  ./lokwurmi gantt FILE --trace worst.csv --longest NAME --to worst.png
      the passage of a path that takes longest in the trace that was found
  ./lokwurmi gantt FILE --trace TRACE --chain capture,detect,send --reading start --to chain.png
  ./lokwurmi gantt FILE --trace TRACE --chains CHAINS --chain brake --to chain.png
  ./lokwurmi gantt examples/offsets.toml --trace examples/offsets.trace.csv --clock engine --to offsets.png"""


def gantt_reader() -> argparse.ArgumentParser:
    """The reader of the words of a call."""
    reader = reader_of("gantt", __doc__, EXAMPLES)
    reader.add_argument("file", metavar="FILE", help="a system file")
    says = "rows TASK,START,END, or - for the standard input; what lokwurmi schedule writes of the trace if absent"
    reader.add_argument("schedule", metavar="SCHEDULE", nargs="?", help=says)
    says = "the trace that the schedule is of: marks when jobs came and were done"
    reader.add_argument("--trace", metavar="TRACE", help=says)
    says = "what lokwurmi analyse wrote: marks jobs later than their bounds; wants --trace"
    reader.add_argument("--report", metavar="REPORT", help=says)
    says = "marks the job of this task that took longest, or the passage of this path; wants --trace"
    reader.add_argument("--longest", metavar="NAME", help=says)
    says = "marks the latest reaction of this effect chain and its oldest data; wants --trace"
    reader.add_argument("--chain", metavar="TASK,TASK..", help=says)
    reader.add_argument("--chains", metavar="CHAINS", help="a file of effect chains: --chain is the name of one")
    says = "which time of the chain is marked; its latest reaction and its oldest data if absent"
    reader.add_argument("--what", choices=ASKED, help=says)
    says = "when jobs of the chain are taken to read (whenever)"
    reader.add_argument("--reading", choices=READINGS, default="whenever", help=says)
    says = "draws this clock below: the events of its sources, and the work that they brought; wants --trace"
    reader.add_argument("--clock", metavar="NAME", help=says)
    reader.add_argument("--from", metavar="T", type=int, dest="start", help="the first tick that is drawn; 0 if absent")
    says = "the tick at which the picture ends; that of the schedule if absent"
    reader.add_argument("--until", metavar="T", type=int, help=says)
    add_tick(reader)
    add_picture(reader, is_required=True)
    add_program(reader)
    return reader


def check(options: GanttOptions) -> None:
    """Refuses options that don't go together."""
    check_name(options.to)
    for name in ("report", "longest", "chain", "clock"):
        if getattr(options, name) and not options.trace:
            raise Fault(f"--{name} wants --trace, which tells when jobs came")
    for name in ("chain", "chains", "trace", "longest", "clock", "report"):
        if getattr(options, name) == "":
            raise Fault(f"--{name} names nothing: write a word, or leave it out")
    if options.chains and not options.chain:
        raise Fault("--chains wants --chain, the name of one of them")
    if options.what and not options.chain:
        raise Fault("--what wants --chain, of which it is")
    if not (options.schedule or options.trace):
        raise Fault("name a SCHEDULE, or a trace by --trace, whose schedule `lokwurmi schedule` writes")
    check_span(options.start or 0, options.until)


def main(arguments: list[str] | None = None) -> int:
    options = options_of(GanttOptions, gantt_reader().parse_args(arguments))
    check(options)
    draw_gantt(options)
    return 0
