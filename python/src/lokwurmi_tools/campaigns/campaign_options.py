"""What is asked for of a campaign."""
from dataclasses import dataclass

# how many calls a campaign may have
MOST_CALLS = 1_000_000


@dataclass(frozen=True, slots=True)
class CampaignOptions:
    """The system of a campaign, and the workers: those of the Dask scheduler at an address, or so many of this machine,
    None for one for each processor. What is done is kept in the folder `resume`; a call that fails is tried so many
    times."""

    command: str
    file: str
    program: str
    scheduler: str | None
    workers: int | None
    resume: str | None
    tries: int


@dataclass(frozen=True, slots=True)
class HammerOptions(CampaignOptions):
    """So many generated traces, `call` in each call of the program, the first of which has the seed."""

    traces: int
    seed: int
    call: int


@dataclass(frozen=True, slots=True)
class VariantOptions(CampaignOptions):
    """The file of a grid, and the two columns whose Pareto front is marked."""

    grid: str
    front: str | None
