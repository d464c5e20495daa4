"""A campaign of generated traces, whose texts are joined to that of one call."""
import subprocess
import sys
from collections.abc import Iterable

from lokwurmi.errors import Unreadable
from lokwurmi.model.limits import MOST_SEED
from lokwurmi.results.reports import Hammered, hammered
from lokwurmi_tools.campaigns.campaign_faults import Failed, Wrong, say
from lokwurmi_tools.campaigns.campaign_options import MOST_CALLS, HammerOptions
from lokwurmi_tools.campaigns.engine import Unit, run
from lokwurmi_tools.campaigns.kept import KeptAnswers
from lokwurmi_tools.campaigns.worker import Answer


def sums(text: str) -> Hammered:
    """What `hammer` wrote."""
    try:
        return hammered(text)
    except Unreadable as fault:
        raise Failed(f"hammer wrote no summary: {text[:200]}") from fault


def joined(texts: Iterable[str]) -> str:
    """The text of one hammer over all traces of several."""
    tasks: dict[str, tuple[int, int | None, int | None]] = {}
    traces = jobs = beyond = 0
    for it in map(sums, texts):
        traces, jobs, beyond = traces + it.traces, jobs + it.jobs, beyond + it.beyond
        for name, (count, worst, bound) in it.tasks.items():
            counted, latest, _ = tasks.get(name, (0, None, bound))
            latest = max((at for at in (latest, worst) if at is not None), default=None)
            tasks[name] = counted + count, latest, bound
    lines = [
        f"task {name} jobs {count} worst {'none' if worst is None else worst}"
        f" bound {'overload' if bound is None else bound}\n"
        for name, (count, worst, bound) in tasks.items()
    ]
    return "".join(lines) + f"summary traces {traces} jobs {jobs} beyond {beyond}\n"


def first_beyond(options: HammerOptions, seed: int, traces: int) -> int:
    """The first trace of a seed that has a job beyond its bound: the traces of a call are the first ones of each
    longer call."""
    low, high = 1, traces
    while low < high:
        middle = (low + high) // 2
        text = subprocess.run(
            [options.program, "hammer", options.file, str(seed), str(middle)],
            capture_output=True,
            text=True,
            check=False,
        ).stdout
        low, high = (low, middle) if sums(text).beyond else (middle + 1, high)
    return low - 1


def tell_beyond(options: HammerOptions, seed: int, traces: int) -> int:
    """Writes the seed and the trace that show a job beyond its bound."""
    file = options.file
    say(
        f"`lokwurmi hammer {file} {seed} {traces}` has a job beyond its bound, which is proved not to be:"
        " looking for the first trace that shows it"
    )
    try:
        trace = first_beyond(options, seed, traces)
    except Failed as fault:
        trace = traces - 1
        say(f"it wasn't found on this machine, so that the last trace is told: {fault}")
    print(f"beyond seed {seed} trace {trace}")
    say(f"keep {file}, the program {options.program}, and what `lokwurmi hammer {file} {seed} {trace + 1}` writes")
    return 1


def hammer(options: HammerOptions, kept: KeptAnswers) -> int:
    count = -(-options.traces // options.call)
    if count > MOST_CALLS:
        raise Wrong(f"there would be {count} calls, and there may be {MOST_CALLS}: take a higher --call")
    if options.seed + count - 1 > MOST_SEED:
        raise Wrong(f"the seeds of the calls would go beyond {MOST_SEED}: take a lower --seed, or a higher --call")
    units: list[Unit] = []
    for place, begin in enumerate(range(0, options.traces, options.call)):
        seed, traces = options.seed + place, min(options.call, options.traces - begin)
        units.append((f"hammer {seed} {traces}", traces, ("hammer", [str(seed), str(traces)], None)))
    found: list[str] = []

    def look(key: str, answer: Answer) -> bool:
        if sums(answer[1]).beyond:
            found.append(key)
        return bool(found)

    run(options, "traces", units, kept, look)
    if found:
        _, *numbers = found[0].split()
        return tell_beyond(options, *map(int, numbers))
    sys.stdout.write(joined(kept[it[0]][1] for it in units))
    return 0
