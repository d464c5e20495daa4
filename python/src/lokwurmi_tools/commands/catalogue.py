"""The commands of this package: what each is called, its module, what it does, and an example."""
import importlib
from collections.abc import Callable
from typing import NamedTuple


class ToolCommand(NamedTuple):
    """A command: its name has two words where it is one of several of a kind."""

    name: str
    module: str
    does: str
    example: str

    def main(self) -> Callable[[list[str] | None], int | None]:
        """What the command runs, with the words behind its name."""
        run: Callable[[list[str] | None], int | None] = importlib.import_module(f"lokwurmi_tools.{self.module}").main
        return run


COMMANDS = (
    ToolCommand(
        "verdict",
        "commands.verdict",
        "says what is met, missed or unbounded; for CI",
        "verdict examples/effects.toml --chains examples/effects.chains.toml",
    ),
    ToolCommand(
        "diff",
        "commands.diff",
        "compares two versions of a system; for CI",
        "diff examples/gateway.toml examples/gateway_one_stream.toml",
    ),
    ToolCommand(
        "graph",
        "commands.graph",
        "draws a system: resources, tasks, and who starts whom",
        "graph --to pedal.svg examples/pedal.toml examples/pedal.report.txt",
    ),
    ToolCommand(
        "chart",
        "commands.chart",
        "draws a report: bounds, and paths against deadlines",
        "chart --paths --to pedal.svg examples/pedal.report.txt",
    ),
    ToolCommand(
        "curve",
        "commands.curve",
        "draws how many events start a task, or a clock",
        "curve --to sample.svg examples/pedal.toml examples/pedal.report.txt sample",
    ),
    ToolCommand(
        "gantt",
        "commands.gantt",
        "draws a schedule: what ran when",
        "gantt examples/pedal.toml --trace examples/pedal.trace.csv --to pedal.svg",
    ),
    ToolCommand(
        "page",
        "commands.page",
        "writes one page with a system, its bounds and a run",
        "page examples/pedal.toml --trace examples/pedal.trace.csv --to pedal.html",
    ),
    ToolCommand(
        "explain",
        "commands.explain",
        "says what a bound results from, and for whom a path waits",
        "explain examples/car_network.toml --path chain9",
    ),
    ToolCommand(
        "sensitivity",
        "commands.sensitivity",
        "says how far each number may move, one at a time",
        "sensitivity examples/pedal.toml --to pedal.svg",
    ),
    ToolCommand(
        "optimise",
        "commands.optimise",
        "looks for priorities on all resources together",
        "optimise examples/overload.toml --script better.script.txt",
    ),
    ToolCommand(
        "offsets",
        "commands.offsets",
        "chooses offsets of sources on clocks",
        "offsets examples/offsets.toml --grid 50 --output spread.script.txt",
    ),
    ToolCommand(
        "worst",
        "commands.worst",
        "looks for runs that come near the bounds",
        "worst examples/crossing_chains.toml --path pa",
    ),
    ToolCommand(
        "effects",
        "commands.effects",
        "says how late effect chains react, and how old data is",
        "effects examples/camera_brake.toml examples/camera_brake.trace.csv slip act",
    ),
    ToolCommand(
        "campaign",
        "commands.campaign",
        "tries generated traces, and variants, on many processors",
        "campaign hammer examples/car_network.toml --traces 100000",
    ),
    ToolCommand(
        "import network",
        "commands.import_network",
        "writes a system from a database of CAN buses",
        "import network examples/sae_can.dbc --bitrate 125000 --jitter-attribute JitterMs --to sae.toml",
    ),
    ToolCommand(
        "import log",
        "commands.import_log",
        "writes event models from a recorded log, or judges it",
        "import log examples/sae_can.log --system examples/sae_can.toml",
    ),
    ToolCommand(
        "ticks",
        "commands.ticks",
        "turns a system whose times have units into one of ticks",
        "ticks examples/units/switch_port.toml --tick 1us --to port.toml",
    ),
    ToolCommand(
        "units",
        "commands.report_units",
        "shows a report with times in place of ticks",
        "units examples/sae_can.report.txt --tick 1us",
    ),
    ToolCommand(
        "lengths",
        "commands.lengths",
        "says how long frames of CAN, CAN FD and Ethernet take",
        "lengths fd 64 --bitrate 500000 --data-bitrate 2000000",
    ),
)


def named(name: str) -> ToolCommand:
    """The command of a name."""
    return next(it for it in COMMANDS if it.name == name)


def command_of(words: list[str]) -> tuple[ToolCommand, list[str]] | None:
    """The command that words begin with, and the words behind its name."""
    for it in COMMANDS:
        name = it.name.split()
        if words[: len(name)] == name:
            return it, words[len(name) :]
    return None
