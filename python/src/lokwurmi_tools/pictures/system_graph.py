"""The graph of a system: a text for Graphviz, with what a report says of it, and its picture."""
import os
import shutil
import subprocess
import sys
from collections.abc import Mapping, Sequence
from dataclasses import dataclass
from fractions import Fraction

from lokwurmi.files.whole_files import write_whole
from lokwurmi.model.entries import Chain
from lokwurmi.model.limits import Kind
from lokwurmi.model.view import PathRow, ResourceRow, SourceRow, SystemView, TaskRow
from lokwurmi.results.reports import PathReport, Report, TaskReport, Verdict
from lokwurmi_tools.pictures.colours import HUES, hues
from lokwurmi_tools.pictures.plotting import check_name
from lokwurmi_tools.shared.chain_files import read_chains
from lokwurmi_tools.shared.faults import Fault
from lokwurmi_tools.shared.report import report_of
from lokwurmi_tools.shared.system_file import read_system
from lokwurmi_tools.shared.times import Scale

OVERLOADED, MISSED = "#f5b7b1", "#fbe3b5"
# how many locks are named at a resource and at a task
FEW = 6
HEAD = (
    "digraph system {",
    '  rankdir = "LR"; newrank = true; ranksep = 1.6; nodesep = 0.12; outputorder = "edgesfirst"; labeljust = "l";',
    '  node [fontname = "Helvetica", fontsize = 10, shape = box, style = "rounded,filled", fillcolor = "white"];',
    '  edge [arrowsize = 0.6, tailport = "e", headport = "w", color = "#5b6770"];'
    ' graph [fontname = "Helvetica", fontsize = 11];',
)
# the line from who writes a register to who reads it
READ = 'style = "dotted", penwidth = 1.8, color = "#1c2733", arrowhead = "open"'


@dataclass(frozen=True, slots=True)
class GraphOptions:
    """What is drawn of which file: with `chains` tasks that stand alone are left out, `registers` is a file of effect
    chains whose reads are drawn, `to` the picture, None for the text of the graph, and `tick` nanoseconds."""

    file: str
    report: str | None = None
    chains: bool = False
    registers: str | None = None
    to: str | None = None
    tick: Fraction | None = None


def quoted(text: str) -> str:
    return '"' + text.replace("\\", "\\\\").replace('"', '\\"') + '"'


def registers_in(view: SystemView, chains: Sequence[Chain]) -> list[tuple[str, str]]:
    """Who reads what whom wrote, where the one before doesn't start it: a writer and a reader each, once."""
    steps = [step for chain in chains for step in zip(chain.tasks, chain.tasks[1:])]
    return list(dict.fromkeys((before, name) for before, name in steps if before not in view.tasks[name].after))


class Drawing:
    """A system as a graph in Graphviz's language, with what a report says of it, if there is one."""

    def __init__(self, view: SystemView, report: Report | None, chains: bool, registers: Sequence[Chain], scale: Scale):
        self.view, self.scale, self.tasks = view, scale, view.tasks
        self.found_tasks: Mapping[str, TaskReport] = report.tasks if report else {}
        self.found_paths: Mapping[str, PathReport] = report.paths if report else {}
        self.reads = registers_in(view, registers)
        self.drawn = self.linked() if chains else set(self.tasks)
        self.drawn |= {name for step in self.reads for name in step}
        self.hues = hues(view)
        self.links: dict[tuple[str, str], str] = {}
        self.missed: set[str] = set()
        for place, path in enumerate(view.paths.values()):
            for link in zip(path.tasks, path.tasks[1:]):
                self.links.setdefault(link, HUES[place % len(HUES)])
            found = self.found_paths.get(path.name)
            if found and found.verdict is Verdict.MISSED:
                self.missed |= set(path.tasks)

    def linked(self) -> set[str]:
        """The tasks that activate another or are activated by one."""
        return {
            name
            for name, it in self.tasks.items()
            if self.view.successors(name) or any(before in self.tasks for before in it.after)
        }

    def text(self) -> str:
        lines = list(HEAD)
        for place, resource in enumerate(self.view.resources.values()):
            lines += self.resource(place, resource)
        begins = {before for name in self.drawn for before in self.tasks[name].after}
        lines += [node(f"task {name}", self.source(it)) for name, it in self.view.sources.items() if name in begins]
        lines += self.arrows()
        for place, path in enumerate(self.view.paths.values()):
            if path.tasks[-1] in self.drawn:
                lines.append(node(f"path {place}", self.path(path)))
                look = "style = dashed, arrowhead = none"
                lines.append(f"  {quoted('task ' + path.tasks[-1])} -> {quoted(f'path {place}')} [{look}];")
        return "\n".join([*lines, "}"]) + "\n"

    def resource(self, place: int, resource: ResourceRow) -> list[str]:
        """A box with the tasks of a resource."""
        own = self.view.on(resource.name)
        label = f"{resource.name}: {resource.kind}"
        label += ", first come, first served" if resource.kind == Kind.FIFO else ""
        if ceilings := [f"{it} {self.view.ceiling(resource.name, it)}" for it in self.view.locks_on(resource.name)]:
            label += f": {', '.join(ceilings[:FEW])}{' and more' if len(ceilings) > FEW else ''}"
        if left_out := sum(it not in self.drawn for it in own):
            label += f", and {left_out} task{'s' if left_out > 1 else ''} of its own"
        paper = "#f6f1e7" if resource.is_bus else "#eef3f8"
        look = f'style = "rounded,filled"; color = "#9aa5b1"; fillcolor = "{paper}";'
        tasks = [self.task(self.tasks[it]) for it in own if it in self.drawn]
        return [f"  subgraph cluster_{place} {{", f"    label = {quoted(label)}; {look}", *tasks, "  }"]

    def task(self, task: TaskRow) -> str:
        name, show, streams = task.name, self.scale.text, self.view.streams_from(task.name)
        turn = f", priority {task.priority}" if task.priority is not None else ""
        turn += f", slot {show(task.slot)}" if task.slot is not None else ""
        region = f", region {show(task.region)}" if task.region > 1 else ""
        text, look = f"{name}\n{show(task.best)} to {show(task.worst)}{turn}{region}", ""
        if locks := list(dict.fromkeys(it.name for it in task.locks)):
            text += f"\nlocks {', '.join(locks[:FEW])}{' and more' if len(locks) > FEW else ''}"
        if streams > 1:
            text += f"\nstreams {streams}"
        if len(task.after) > 1:
            look = ", peripheries = 2"
        if found := self.found_tasks.get(name):
            text += f"\nbound {'overload' if found.worst is None else show(found.worst)}"
            if found.worst is None:
                look += f', fillcolor = "{OVERLOADED}"'
            elif name in self.missed:
                look += f', fillcolor = "{MISSED}"'
        if name in self.hues:
            look += f', color = "{self.hues[name]}", penwidth = 1.6'
        return f"    {quoted('task ' + name)} [label = {quoted(text)}{look}];".replace("\n", "\\n")

    def source(self, source: SourceRow) -> str:
        """What stands at a source."""
        keys = {"period": source.period, "jitter": source.jitter, "distance": source.distance}
        lines = [f"{key} {self.scale.text(ticks)}" for key, ticks in keys.items() if ticks]
        lines += [f"clock {source.clock} + {self.scale.text(source.offset)}"] if source.clock is not None else []
        return "\n".join([source.name, *lines, *(["sporadic"] if source.sporadic else [])])

    def arrows(self) -> list[str]:
        """Who activates whom, and who reads what whom wrote."""
        lines = []
        for name in self.tasks:
            for before in self.tasks[name].after if name in self.drawn else ():
                hue = self.links.get((before, name))
                look = f' [color = "{hue}", penwidth = 1.6]' if hue else ""
                lines.append(f"  {quoted('task ' + before)} -> {quoted('task ' + name)}{look};")
        return lines + [
            f"  {quoted('task ' + one)} -> {quoted('task ' + other)} [{READ}];" for one, other in self.reads
        ]

    def path(self, path: PathRow) -> str:
        """What stands at the end of a path."""
        found, show = self.found_paths.get(path.name), self.scale.text
        if not found:
            return path.name + ("" if path.deadline is None else f"\ndeadline {show(path.deadline)}")
        text = path.name + ("\nno bound" if found.worst is None else f"\nat most {show(found.worst)}")
        if found.deadline is None:
            return text
        return f"{text}\ndeadline {show(found.deadline)}: {found.verdict.value}"


def node(name: str, label: str) -> str:
    """A text without a box."""
    return f'  {quoted(name)} [label = {quoted(label)}, shape = plaintext, style = ""];'.replace("\n", "\\n")


def graph(
    view: SystemView, report: Report | None, chains: bool, registers: Sequence[Chain] = (), scale: Scale = Scale()
) -> str:
    """The graph of a system as a text for Graphviz."""
    return Drawing(view, report, chains, registers, scale).text()


def drawn_by_dot(text: str, form: str) -> bytes:
    """The picture of a graph."""
    if not shutil.which("dot"):
        raise Fault("Graphviz isn't here, whose program is dot: apt-get install graphviz")
    done = subprocess.run(["dot", f"-T{form}"], input=text.encode(), capture_output=True, check=False)
    if done.returncode:
        raise Fault(f"dot: {done.stderr.decode('utf-8', 'replace').strip()}")
    return done.stdout


def draw_graph(options: GraphOptions) -> None:
    """Writes the picture of a system, or the text of its graph."""
    view = read_system(options.file)
    registers = read_chains(options.registers, view) if options.registers else []
    report = report_of(view, options.file, options.report) if options.report else None
    text = graph(view, report, options.chains, registers, Scale(options.tick))
    if not options.to:
        sys.stdout.write(text)
        return
    check_name(options.to)
    picture = drawn_by_dot(text, os.path.splitext(options.to)[1][1:])
    try:
        write_whole(options.to, picture)
    except OSError as fault:
        raise Fault(f"{options.to}: can't be written: {fault.strerror}") from fault
