"""Reads files of effect chains, and has their bounds worked out by `lokwurmi chain` and `lokwurmi chains`."""
from collections.abc import Sequence
from dataclasses import dataclass

from lokwurmi.errors import LokwurmiError
from lokwurmi.files.chain_files import chains_in, has_ticks_off
from lokwurmi.files.traces import text_of
from lokwurmi.model.entries import Chain
from lokwurmi.model.view import SystemView
from lokwurmi.results.effect_chains import ChainReport, ChainsReport, chain_report, chains_report
from lokwurmi.results.verdicts import OF_CHAINS
from lokwurmi_tools.shared.faults import Fault
from lokwurmi_tools.shared.program import written_by


def read_chains(file: str, view: SystemView) -> list[Chain]:
    """The chains of a file, in order."""
    return text_and_chains(file, view)[1]


def text_and_chains(file: str, view: SystemView) -> tuple[str, list[Chain]]:
    """What stands in a file of chains, which may be a pipe, and its chains."""
    try:
        text = text_of(file)
        return text, chains_in(text, list(view.tasks))
    except LokwurmiError as fault:
        raise Fault(str(fault) if str(fault).startswith(f"{file}: ") else f"{file}: {fault}") from fault


def bounds_by(program: str, file: str, tasks: list[str], *options: str) -> ChainReport:
    """The bounds of a chain by `lokwurmi chain`."""
    return chain_report(written_by(program, "chain", file, *tasks, *options))


def totals_of(bounds: ChainReport) -> dict[str, int | None]:
    """The bounds of a chain in ticks, by what they bound, None for `overload`."""
    return {"reaction": bounds.reaction, "age": bounds.age, "held": bounds.held}


def verdicts_by(program: str, file: str, chains: str) -> ChainsReport:
    """What `lokwurmi chains` says of a file of chains."""
    return chains_report(written_by(program, "chains", file, chains))


@dataclass(frozen=True, slots=True)
class AskedChain:
    """A chain that is told of; `name` is that of a file of chains, else there is none. Deadlines with `off` have a tick
    less for each wait already, as `lokwurmi ticks` writes them."""

    name: str
    tasks: Sequence[str]
    deadlines: dict[str, int]
    off: bool = False


def asked_chains(file: str, view: SystemView) -> list[AskedChain]:
    """The chains of a file."""
    text, found = text_and_chains(file, view)
    return [AskedChain(it.name, it.tasks, deadlines_of(it), has_ticks_off(text)) for it in found]


def deadlines_of(chain: Chain) -> dict[str, int]:
    """The deadlines of a chain in ticks."""
    return {what: ticks for what in OF_CHAINS if (ticks := getattr(chain, what)) is not None}


def asked_chain(chain: str, chains: str | None, file: str, view: SystemView) -> AskedChain:
    """The chain that is asked for: by its name in a file of chains, or by its tasks."""
    if chains is not None:
        several = {it.name: it for it in asked_chains(chains, view)}
        if chain not in several:
            raise Fault(f"{chains}: there is no chain {chain}; it has {', '.join(several) or 'none'}")
        return several[chain]
    tasks = chain.split(",")
    if unknown := [it for it in tasks if it not in view.tasks]:
        raise Fault(f"{file}: the system has no task {unknown[0]}; it has {', '.join(view.tasks) or 'none'}")
    return AskedChain("", tasks, {})
