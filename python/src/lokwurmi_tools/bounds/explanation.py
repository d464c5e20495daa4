"""Tells what bounds are made of, as lines, as JSON or as a picture: for lokwurmi explain."""
import json
import sys
from dataclasses import dataclass
from fractions import Fraction

from lokwurmi.model.view import SystemView
from lokwurmi_tools.bounds.bound_texts import lines_of_path, lines_of_task, shown
from lokwurmi_tools.bounds.explained import Explained
from lokwurmi_tools.bounds.explained_chain import ExplainedChains, lines_of_chain
from lokwurmi_tools.search.helpful_changes import Help, helps_for, lines_of_helps, lines_of_regions
from lokwurmi_tools.shared.analysed import analysed
from lokwurmi_tools.shared.chain_files import AskedChain, asked_chain, asked_chains
from lokwurmi_tools.shared.faults import Fault
from lokwurmi_tools.shared.packages import need
from lokwurmi_tools.shared.system_file import noticed_in
from lokwurmi_tools.shared.times import Scale
from lokwurmi_tools.shared.types import Values


@dataclass(frozen=True, slots=True)
class ExplainOptions:
    """Which bounds are told of: that of a task, those along a path, those of an effect chain, by its tasks or by its
    name in the file `chains`, or all; as JSON or as lines, and drawn into the picture `to`. `tick` is in
    nanoseconds."""

    file: str
    program: str
    task: str | None = None
    path: str | None = None
    chain: str | None = None
    chains: str | None = None
    all: bool = False
    json: bool = False
    to: str | None = None
    tick: Fraction | None = None


def check_names(options: ExplainOptions, view: SystemView) -> None:
    """Ends the tool where a name isn't in the file, or there is no task to tell of in lines."""
    asked = (("task", options.task, view.tasks), ("path", options.path, view.paths))
    for kind, name, known in asked:
        if name is not None and name not in known:
            if kind == "task" and name in view.paths:
                raise Fault(f"{options.file}: {name} is a path: write --path {name}")
            if kind == "path" and name in view.tasks:
                raise Fault(f"{options.file}: {name} is a task: write it without --path")
            raise Fault(f"{options.file}: there is no {kind} {name}; it has {', '.join(known) or 'none'}")
    if not view.tasks and not options.json:
        raise Fault(f"{options.file} has no task")


@dataclass(frozen=True, slots=True)
class ToldBounds:
    """What is told of tasks, of paths with what would help them, and of chains."""

    explained: Explained
    tasks: list[Values]
    paths: list[Values]
    helps: list[list[Help]]
    chains: list[Values]
    faults: list[str]


def draw(options: ExplainOptions, told: ToldBounds) -> None:
    """Draws what is told into the picture that is named."""
    from lokwurmi_tools.pictures.bound_bars import Bars, NothingToDraw

    bars = Bars(told.explained, options.to or "")
    try:
        if options.chain:
            bars.chain(told.chains[0])
        elif options.path:
            bars.path(told.paths[0])
        elif options.task:
            bars.task(told.tasks[0])
        else:
            bars.all(told.tasks, options.file)
    except NothingToDraw:
        raise Fault("none of these has a bound: there is nothing to draw")


def json_text(options: ExplainOptions, told: ToldBounds) -> str:
    """All that is told, as JSON."""
    for path, several in zip(told.paths, told.helps):
        path["helps"] = [it.told() for it in several]
    found = {
        "file": options.file,
        "notices": noticed_in(options.file),
        "tasks": told.tasks,
        "paths": told.paths,
        "chains": told.chains,
        "faults": told.faults,
    }
    return json.dumps(found, indent=1)


def text_of(options: ExplainOptions, told: ToldBounds) -> str:
    """All that is told, in lines."""
    scale = Scale(options.tick)
    blocks = [[f"notice: {it}"] for it in noticed_in(options.file)]
    blocks += [lines_of_task(it, scale) for it in told.tasks] + [lines_of_path(it, scale) for it in told.paths]
    for path, several in zip(told.paths, told.helps):
        blocks[-1] += lines_of_helps(several, scale) + lines_of_regions(path, options.file)
    blocks += [lines_of_chain(it, told.explained, scale) for it in told.chains]
    return shown("\n\n".join("\n".join(it) for it in blocks))


def chains_of(options: ExplainOptions, view: SystemView) -> list[AskedChain]:
    """The chains that are asked for: one, or with all those of the file of chains."""
    if options.chain is not None:
        return [asked_chain(options.chain, options.chains, options.file, view)]
    return asked_chains(options.chains, view) if options.all and options.chains else []


def told_of(options: ExplainOptions) -> ToldBounds:
    """All that is asked for."""
    known = analysed(options.program, options.file)
    explained = Explained(known.view, known.report, tool="lokwurmi explain")
    check_names(options, known.view)
    tasks = list(known.view.tasks) if options.all else [options.task] if options.task else []
    paths = list(known.view.paths) if options.all else [options.path] if options.path else []
    told_tasks, told_paths = explained.tasks(tasks), [explained.path(it) for it in paths]
    # what would help is tried for a path that is asked for, and not for each
    helps = [helps_for(known, it) for it in paths] if options.path else []
    of_chains = ExplainedChains(explained, options.program, options.file, options.tick is not None)
    chains = [of_chains.chain(it) for it in chains_of(options, known.view)]
    return ToldBounds(explained, told_tasks, told_paths, helps, chains, explained.faults + of_chains.faults)


def tell_bounds(options: ExplainOptions) -> int:
    """Tells all that is asked for; 1 where the parts of a bound don't come to it."""
    if options.to:
        need("matplotlib")
    told = told_of(options)
    print(json_text(options, told) if options.json else text_of(options, told))
    if options.to:
        draw(options, told)
    for it in told.faults:
        print(f"lokwurmi explain: an error of this tool: {it}", file=sys.stderr)
    return 1 if told.faults else 0
