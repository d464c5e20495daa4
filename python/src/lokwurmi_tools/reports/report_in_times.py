"""A report with times in place of ticks: for lokwurmi units."""
import re
import sys
from collections.abc import Iterable
from dataclasses import dataclass
from fractions import Fraction

from lokwurmi.files import report_lines as lines
from lokwurmi.files.chain_files import has_ticks_off
from lokwurmi.files.traces import text_of as text_of_file
from lokwurmi.results.effect_chains import JudgedChain, chains_report, judged_between_ticks, ticks_between
from lokwurmi_tools.shared.chain_files import read_chains
from lokwurmi_tools.shared.faults import Fault
from lokwurmi_tools.shared.system_file import read_system
from lokwurmi_tools.shared.times import text_of

# the steps of a chain, and its bounds, in what `chain` writes
STEP, TOTAL = re.compile(r"step \S+ (\S+) wait "), re.compile(r"chain(?: while-running)? tasks \d+ reaction ")
# the numbers of a report that are times, by the word before each
TIMES = re.compile(
    r"\b(period|jitter|distance|best|worst|deadline|bound|seen|end|reaction|age|held|wait|response) (\d+)\b"
)
# only these lines have such numbers; a name in them may be any such word, and so it is passed over
LINES = re.compile(
    r"(task \S+(?: \S+)??|path \S+|summary|step \S+ \S+|chain(?: \S+(?= tasks ))?) (?=[a-z]+ (?:\d|overload\b))"
)
# what has numbers, and no times
PLAIN = re.compile(r"line \d+ refused \d+")


@dataclass(frozen=True, slots=True)
class TimeOptions:
    """The report, None for the standard input, and the time of a tick in nanoseconds; all times in `unit`, None for the
    one that fits each; `system` and `chains` are the files of what `chains` wrote."""

    report: str | None
    tick: Fraction
    unit: str | None = None
    system: str | None = None
    chains: str | None = None


def shown(time: Fraction, unit: str | None) -> str:
    """A time in a unit, or in the one that fits it."""
    return text_of(time, unit) if time else "0"


def line_with_units(line: str, tick: Fraction, unit: str | None) -> str:
    """A line of a report with times in place of ticks."""
    found = LINES.match(line)
    if not found:
        return line
    rest = TIMES.sub(lambda it: f"{it[1]} {shown(int(it[2]) * tick, unit)}", line[found.end() :])
    return line[: found.end()] + rest


class Waits:
    """Gives each wait in what `chain` writes a tick more, and each bound one for each of its waits: what is shown as a
    time has to hold between ticks too."""

    def __init__(self) -> None:
        self.kinds: list[str] = []

    def line(self, line: str) -> str:
        if step := STEP.match(line):
            self.kinds.append(step[1])
            return re.sub(r"\bwait (\d+)", lambda it: f"wait {int(it[1]) + 1}", line)
        if not TOTAL.match(line):
            return line
        counts = ticks_between(self.kinds)
        self.kinds = []
        return re.sub(r"\b(reaction|age|held) (\d+)", lambda it: f"{it[1]} {int(it[2]) + counts[it[1]]}", line)


class Judged:
    """Gives the bounds of `chains` a tick more for each wait, by the system and the file of chains, and judges anew."""

    def __init__(self, system: str, chains: str):
        view = read_system(system)
        self.file, self.is_off = chains, has_ticks_off(text_of_file(chains))
        self.tasks = {it.name: it.tasks for it in read_chains(chains, view)}
        self.starts = {name: list(it.after) for name, it in view.tasks.items()}
        self.found: dict[str, JudgedChain] = {}

    def line(self, line: str) -> str:
        """A line of a chain, or the summary of them."""
        if summary := lines.CHAINS.fullmatch(line):
            missed = sum("missed" in verdicts_of(it) for it in self.found.values())
            return lines.summary_of_chains(int(summary[1]), int(summary[2]), missed) if self.found else line
        one = chains_report(f"{line}\n{lines.summary_of_chains(1, 0, 0)}\n")
        (name, chain), *_ = one.chains.items()
        if name not in self.tasks or len(self.tasks[name]) != chain.tasks:
            raise Fault(f"{self.file}: chain {name} of {chain.tasks} tasks isn't in it: it is of another report")
        found = judged_between_ticks(one, self.tasks, self.starts, self.is_off).chains[name]
        self.found[name] = found
        parts = [f"chain {name} tasks {found.tasks}"]
        for what in ("reaction", "age", "held") if " held " in line else ("reaction", "age"):
            bound, deadline, verdict = (getattr(found, f"{what}{it}") for it in ("", "_deadline", "_verdict"))
            told = f"{what} {'overload' if bound is None else bound} deadline {'-' if deadline is None else deadline}"
            parts.append(f"{told} {verdict.value}")
        return " ".join(parts)


def verdicts_of(chain: JudgedChain) -> list[str]:
    return [it.value for it in (chain.reaction_verdict, chain.age_verdict, chain.held_verdict)]


def tell_left(left: list[tuple[int, str]], file: str) -> None:
    """Tells which lines are no report's, so that their numbers stay in ticks."""
    if left:
        place, line = left[0]
        count = "1 line stays" if len(left) == 1 else f"{len(left)} lines stay"
        print(
            f"{file}: {count} as in the file, in ticks, the first of them line {place}, `{line:.80}`: times are shown"
            " of what analyse, session, simulate, chain and chains write",
            file=sys.stderr,
        )


def show(options: TimeOptions, rows: Iterable[str]) -> None:
    """Prints the lines of a report with times."""
    left: list[tuple[int, str]] = []
    waits, judged = Waits(), Judged(options.system, options.chains) if options.system and options.chains else None
    is_of_chains = False
    for place, row in enumerate(rows, 1):
        line = row.rstrip("\n")
        is_chain = lines.CHAIN.fullmatch(line) is not None
        is_of_chains |= is_chain
        if is_chain and judged is None:
            raise Fault(
                f"{options.report or 'the standard input'}: line {place}: this is of `chains`, whose bounds hold at"
                " ticks alone, and how many waits each counts isn't told here: --system SYSTEM --chains CHAINS"
            )
        if judged is not None and (is_chain or lines.CHAINS.fullmatch(line)):
            line = judged.line(line)
        print(line_with_units(waits.line(line), options.tick, options.unit))
        if re.search(r"\d", line) and not LINES.match(line) and not PLAIN.fullmatch(line):
            left.append((place, line))
    tell_left(left, options.report or "the standard input")
    if judged is not None and not is_of_chains:
        raise Fault(f"--chains {options.chains}: no line of the report is of `chains`; leave --system and --chains out")


def show_in_times(options: TimeOptions) -> None:
    """Prints a report with times in place of ticks."""
    if options.report is None and sys.stdin is None:
        raise Fault("the standard input is closed: name a REPORT")
    try:
        with open(options.report, encoding="ascii") if options.report else sys.stdin as it:
            show(options, it)
    except BrokenPipeError:
        # who reads has enough of it: no fault of the file
        raise
    except OSError as fault:
        raise Fault(f"{options.report or 'the standard input'}: can't be read: {fault.strerror}")
    except UnicodeDecodeError:
        raise Fault(f"{options.report or 'the standard input'}: it isn't ASCII, and so no report")
