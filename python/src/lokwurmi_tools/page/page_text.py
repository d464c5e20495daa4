"""The text of a page, by the templates beside this: for lokwurmi page."""
import os
import re
import sys
from dataclasses import replace
from pathlib import Path
from typing import TYPE_CHECKING

from lokwurmi.model.statuses import Status
from lokwurmi_tools.page.chains_on_page import chains_of
from lokwurmi_tools.page.clocks_on_page import clocks_of
from lokwurmi_tools.page.page_on_request import changes_of, helps_of, margins_of, priorities_of
from lokwurmi_tools.page.page_options import PageOptions
from lokwurmi_tools.page.run_pictures import picture_of_graph, seen_run, told_of_run
from lokwurmi_tools.page.system_tables import PageSystem
from lokwurmi_tools.reports.judging import Given, room
from lokwurmi_tools.search.chain_goals import ChainGoals
from lokwurmi_tools.shared.analysed import analysed
from lokwurmi_tools.shared.faults import Fault
from lokwurmi_tools.shared.packages import need
from lokwurmi_tools.shared.system_file import noticed_in
from lokwurmi_tools.shared.tables import percent_above, percent_below
from lokwurmi_tools.shared.times import Scale, text_of
from lokwurmi_tools.shared.types import Values
from lokwurmi_tools.shared.written_entries import put

if TYPE_CHECKING:
    import jinja2

# how many letters of a name stay together on a narrow page
LINE = 12


def breaking(name: str) -> list[str]:
    """The parts of a long name after which it may go on in another line: each ends with `_`, but for the last."""
    lines = [""]
    for part in re.findall("[^_]*_*", name):
        if lines[-1] and len(lines[-1] + part) > LINE:
            lines.append("")
        lines[-1] += part
    return lines


def room_of(scale: Scale) -> "jinja2.Environment":
    """Where the templates are, with how they show numbers of ticks: as a time, as a moment, and as a length."""
    # not before `need` was asked for it, after words that ask for help
    import jinja2

    room = jinja2.Environment(
        loader=jinja2.FileSystemLoader(Path(__file__).resolve().parent / "templates"),
        autoescape=True,
        trim_blocks=True,
        lstrip_blocks=True,
        undefined=jinja2.StrictUndefined,
    )
    room.filters["percent"], room.filters["percent_below"] = percent_above, percent_below
    room.filters["breaking"] = breaking
    room.filters["time"] = scale.text
    room.filters["moment"] = scale.text if scale.tick else "tick {}".format
    room.filters["length_of"] = scale.length
    return room


def tightest(paths: list[Values], chains: list[Values]) -> Values | None:
    """What has the least room up to its deadline: a path, or a bound of a chain."""
    found = [it | {"of": "path"} for it in paths]
    for row in chains:
        found += [{"name": row["name"], "of": f"chain, by its {it['what']}", "room": it["room"]} for it in row["bars"]]
    with_room = [it for it in found if it["room"] is not None]
    return min(with_room, key=lambda it: int(it["room"])) if with_room else None


def told_on_request(options: PageOptions, system: PageSystem) -> Values:
    """What the page has only where it is asked for."""
    known, chains = system.known, None
    if options.chains and (options.sensitivity or options.optimise):
        chains = ChainGoals(known, options.chains, options.tick is not None)
    return {
        "changes": changes_of(known, options.session) if options.session else None,
        "margins": margins_of(known, system.scale, chains) if options.sensitivity else None,
        "priorities": priorities_of(known, chains) if options.optimise else None,
        "helped": helps_of(system) if options.helps else None,
    }


def page_of(options: PageOptions, system: PageSystem) -> str:
    """The text of the page."""
    seen = seen_run(options, system.view) if options.trace else None
    run = told_of_run(options, system, seen) if seen else None
    effects = chains_of(options, system, options.chains, seen) if options.chains else None
    picture, chains = picture_of_graph(system, effects["read"] if effects else [])
    causes, over = system.explained.causes, system.explained.over
    paths = system.path_rows(seen.observed if seen else None)
    verdicts = [it["verdict"] for it in paths]
    return str(
        room_of(system.scale)
        .get_template("page.html")
        .render(
            file=os.path.basename(options.file),
            tick=options.tick and text_of(options.tick),
            system=system,
            graph=picture,
            chains=chains,
            resources=system.resource_rows(),
            tasks=system.task_rows(seen.observed if seen else None),
            paths=paths,
            of_paths=" of paths" if effects else "",
            endless=sum(it["worst"] is None for it in paths),
            overload=len(over),
            missed=verdicts.count("missed"),
            unknown=verdicts.count("unknown"),
            with_deadline=sum(it["deadline"] is not None for it in paths),
            notices=noticed_in(options.file) + (effects["silences"] if effects else []),
            tight=tightest(paths, effects["rows"] if effects else []),
            causes=causes,
            over=over,
            run=run,
            clocks=clocks_of(system),
            chains_told=effects,
            made=system.made_of(),
            **told_on_request(options, system),
        )
    )


def write_page(options: PageOptions) -> int:
    """Writes the page; 1 where what it tells of a bound isn't what the report says, and by `strict` another status
    where a task has no bound."""
    need("jinja2", *(["matplotlib"] if options.trace else []))
    system = PageSystem(analysed(options.program, options.file), Scale(options.tick))
    with room() as folder:
        # a pipe of chains is read several times
        given = Given(options.chains, folder) if options.chains else None
        try:
            put(page_of(replace(options, chains=given and given.path), system), options.to)
        except Fault as fault:
            fault.args = (str(fault).replace(given.path, given.name) if given else str(fault),)
            raise
    for it in system.explained.faults:
        print(f"lokwurmi page: an error of this command: {it}", file=sys.stderr)
    if system.explained.faults:
        return 1
    boundless = system.behind.over
    if boundless and options.strict:
        several = f"{len(boundless)} tasks have" if len(boundless) > 1 else "a task has"
        told = f"{several} no bound: {', '.join(boundless[:8])}{' ..' if len(boundless) > 8 else ''}"
        print(f"lokwurmi page: --strict: {told}: the status is {Status.LACKING}", file=sys.stderr)
        return Status.LACKING
    return 0
