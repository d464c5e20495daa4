"""The commands of the proved program, and which files each takes, in their order; other words come behind them."""

FILES: dict[str, tuple[str, ...]] = {
    "analyse": ("system",),
    "session": ("system", "script"),
    "simulate": ("system", "trace"),
    "generate": (),
    "load": (),
    "hammer": ("system",),
    "assign": ("system",),
    "slack": ("system",),
    "buffers": ("system", "trace"),
    "audit": ("system", "trace", "schedule"),
    "schedule": ("system", "trace"),
    "chain": ("system",),
    "chains": ("system", "chains"),
}
"""The sorts of a command's files."""
TITLES = {"chains": "file of chains"}
"""What a sort of file is called in a sentence, where that isn't its name."""


def title_of(sort: str) -> str:
    """What a sort of file is called in a sentence."""
    return TITLES.get(sort, sort)
