"""What is asked for of databases of networks."""
from dataclasses import dataclass
from fractions import Fraction

# the word that leaves frames out
LEAVE = "leave"
# `share` and a part of the period, or `time` and nanoseconds
ShareOrTime = tuple[str, Fraction]


@dataclass(frozen=True)
class NetworkOptions:
    """Databases whose buses become a system in the file `to`, None for the standard output. All times are in
    nanoseconds, and rates in bits per second, each for the bus of a name or, without a name, for all. `fast` is in
    millionths, and `gateway_queue` a name and how long a frame takes there; docs/NETWORKS.md says what each does."""

    database: list[str]
    to: str | None
    tick: Fraction
    jitter: ShareOrTime | None
    jitter_attribute: str | None
    fast: Fraction
    deadline: ShareOrTime | None
    has_deadline: bool
    deadline_attribute: str | None
    errors: tuple[int, Fraction] | None
    bitrate: list[tuple[str, int]]
    data_bitrate: list[tuple[str, int]]
    without: list[str]
    bus: list[str]
    only: list[str]
    paths: list[str]
    forward: list[str]
    gateway_queue: tuple[str, Fraction] | None
    without_period: Fraction | str | None
    others: Fraction | None
    defaults: bool
    longer: str | None
    multiplexed: str | None
    share: str
    offsets: bool
