"""The chains of a file on a page, for lokwurmi page: bounds, deadlines and verdicts, and what a run shows of them."""
from fractions import Fraction

from lokwurmi.files.chain_files import has_ticks_off
from lokwurmi.files.traces import text_of
from lokwurmi.model.entries import Chain
from lokwurmi.refusals.silence import asked_of
from lokwurmi.results.effect_chains import JudgedChain, between_ticks, judged_between_ticks
from lokwurmi.results.verdicts import OF_CHAINS
from lokwurmi_tools.bounds.chain_parts import parts_of
from lokwurmi_tools.page.page_options import PageOptions
from lokwurmi_tools.page.run_pictures import SeenRun
from lokwurmi_tools.page.system_tables import PageSystem, place_text
from lokwurmi_tools.pictures.colours import letters_on
from lokwurmi_tools.runs.effect_chain_in_run import Late, RunOfJobs, gaps_in, seen_of
from lokwurmi_tools.shared.chain_files import bounds_by, read_chains, verdicts_by
from lokwurmi_tools.shared.system_file import silences_in
from lokwurmi_tools.shared.types import Values


def limits_of(chain: JudgedChain) -> dict[str, int | None]:
    """The deadlines of a chain, with what is shown of it: how long data is held only where that has one."""
    limits = {what: getattr(chain, f"{what}_deadline") for what in OF_CHAINS}
    return {what: it for what, it in limits.items() if what != "held" or it is not None}


class ChainTable:
    """The chains of a file, over a system and what a run of it shows."""

    def __init__(self, options: PageOptions, system: PageSystem, file: str):
        self.system, program = system, options.program
        self.chains = read_chains(file, system.view)
        verdicts = verdicts_by(program, options.file, file)
        self.found = verdicts.chains
        # `chains` doesn't say of which waits a bound is the sum
        self.bounds = {it.name: bounds_by(program, options.file, it.tasks) for it in self.chains}
        if system.scale.tick is not None:
            # what is shown as times has to hold between ticks too
            starts = {name: list(it.after) for name, it in system.view.tasks.items()}
            tasks = {it.name: it.tasks for it in self.chains}
            is_off = has_ticks_off(text_of(file))
            self.found = judged_between_ticks(verdicts, tasks, starts, is_off).chains
            self.bounds = {name: between_ticks(it) for name, it in self.bounds.items()}
        sums = [it for found in self.found.values() for it in (found.reaction, found.age) if it]
        limits = [it for found in self.found.values() for it in limits_of(found).values() if it]
        self.scale = max([1, *sums, *limits]) * Fraction(102, 100)

    def share(self, ticks: int) -> str:
        return place_text(Fraction(ticks) / self.scale)

    def bar(self, chain: Chain, what: str, deadline: int | None, late: Late | None) -> Values:
        found = self.found[chain.name]
        bound: int | None = getattr(found, what)
        return {
            "what": what,
            "bound": bound,
            "deadline": deadline,
            "verdict": getattr(found, f"{what}_verdict").value,
            "parts": [self.part(*of, ticks) for of, ticks in parts_of(self.bounds[chain.name].steps, what)],
            "at": None if deadline is None else self.share(deadline),
            "seen": late and late.ticks(),
            "seen_at": late and place_text(min(Fraction(late.ticks()) / self.scale, Fraction(1))),
            "room": None if bound is None or deadline is None else deadline - bound,
        }

    def part(self, name: str, kind: str, ticks: int | None) -> Values:
        """A part of a bar, with as much of its name as there is room for."""
        hue, width = self.system.shades[name], self.share(ticks or 0)
        texts = (f"{name} {self.system.scale.text(ticks or 0)}", name) if kind == "response" else ()
        label = next((it for it in texts if float(width) * 0.6 > len(it)), "")
        look = {"width": width, "hue": hue, "ink": letters_on(hue), "label": label}
        return {"name": name, "kind": kind, "ticks": ticks, **look}

    def rows(self, run: RunOfJobs | None) -> list[Values]:
        rows = []
        for chain in self.chains:
            latest = seen_of(run, chain.tasks, "whenever").latest if run else dict.fromkeys(OF_CHAINS)
            limits, bounds = limits_of(self.found[chain.name]), self.bounds[chain.name]
            bars = [self.bar(chain, what, limit, latest[what]) for what, limit in limits.items()]
            told = {"name": chain.name, "tasks": chain.tasks, "bars": bars}
            rows.append(told | {"steps": bounds.steps, "held": bounds.held})
        return rows


def chains_of(options: PageOptions, system: PageSystem, file: str, seen: SeenRun | None) -> Values:
    """The section of chains: its rows, and where a source of the run stays away."""
    table = ChainTable(options, system, file)
    rows = table.rows(RunOfJobs(system.view, seen.schedule, seen.trace) if seen else None)
    several = [bar for row in rows for bar in row["bars"]]
    counts = {it: sum(bar["verdict"] == it for bar in several) for it in ("met", "missed", "unknown")}
    return {
        "rows": rows,
        "read": table.chains,
        "is_seen": seen is not None,
        "counts": counts,
        "gaps": gaps_in(system.view, seen.trace[0]) if seen else [],
        "silences": silences_in(options.file, asked_of(table.chains)),
        "sporadic": [name for name, it in system.view.sources.items() if it.sporadic],
    }
