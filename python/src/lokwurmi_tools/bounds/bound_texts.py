"""Says what bounds are made of, in lines, for lokwurmi explain and lokwurmi page: what `Explained` of
explained.py tells."""
import sys

from lokwurmi_tools.shared.tables import percent_above
from lokwurmi_tools.shared.times import TICKS, Scale
from lokwurmi_tools.shared.types import Values

# how wide a bar is in letters, and how many loads are listed
BAR, FEW = 48, 12
# what a part is, where it isn't jobs; of what blocks by what is under way
NOTES = {
    "frame": "a frame of lower priority, under way",
    "region": "the rest of a region of lower priority",
    "section": "the rest of a section of lower priority, with lock {lock}",
    "turns": "its turns, with more to do",
    "slot": "its slot in each cycle",
    "gap": "the gap of each cycle",
}
WAITS = {
    "own": "earlier jobs of ",
    "frame": "lower frame ",
    "region": "region of ",
    "section": "lock {lock} of ",
    "gap": "gap of ",
    "turns": "turns of ",
    "slot": "slot of ",
}
# the lines below the parts of a job that came later than its busy window began
CAME, BOUND = "until it came", "bound"


def percent(share: float) -> str:
    return f"{percent_above(share)} %"


def shown(text: str) -> str:
    """A text, with letters that the terminal can show."""
    try:
        text.encode(sys.stdout.encoding or "ascii")
    except (UnicodeEncodeError, LookupError):
        return text.replace("█", "#").replace("·", "x").replace("→", "->").replace("×", "x")
    return text


def bar(start: int, ticks: int, whole: int) -> str:
    """A bar of so many ticks after so many others, in a line for the whole."""
    left, right = round(BAR * start / whole), round(BAR * (start + ticks) / whole)
    return " " * min(left, BAR - 1) + "█" * max(1, right - left)


def turn_of(told: Values, scale: Scale = TICKS) -> str:
    """What tells who goes first, behind the kind; on a queue nothing but when jobs come."""
    if "slot" in told:
        return f"{told['kind']}, slot {scale.text(told['slot'])}"
    return f"{told['kind']}, priority {told['priority']}" if "priority" in told else str(told["kind"])


def jitter_text(stream: Values, scale: Scale) -> str:
    several = [f"{name} {scale.text(ticks)}" for name, ticks in stream["of"] if ticks]
    is_made = len(several) > 1 or several and stream["way"]
    return f"jitter {scale.text(stream['jitter'])}" + (f" ({' + '.join(several)})" if is_made else "")


def stream_text(stream: Values, scale: Scale = TICKS) -> str:
    words = [f"period {scale.text(stream['period'])}"]
    if stream["jitter"]:
        words.append(jitter_text(stream, scale))
    if stream["distance"]:
        words.append(f"distance {scale.text(stream['distance'])}")
    if "clock" in stream:
        words.append(f"clock {stream['clock']} + {scale.text(stream['offset'])}")
    return " → ".join([stream["source"], *stream["way"]]) + ": " + ", ".join(words)


def lines_of_clocks(told: Values, scale: Scale = TICKS) -> list[str]:
    """Which clocks the streams of a task share with those that may go before it; of each where it stands as the busy
    window of its latest job begins, and who comes then."""
    lines = []
    for it in told.get("clocks", []):
        others = [name for name in it["tasks"] if name != told["task"]]
        shared = "shared with" if told["task"] in it["tasks"] and others else "of"
        names = few(others or [told["task"]], "and")
        lines.append(f"clock {it['clock']}, {shared} {names}: cycle {scale.text(it['cycle'])}")
        if it["at"] is not None:
            lines.append(f"  {at_text(it, scale)}")
            lines.append(f"  from there come {few([comer_text(one, scale) for one in it['come']], 'and')}")
    return lines


def few(several: list[str], word: str) -> str:
    """Some texts, the first of them where they are many."""
    more = f" {word} {len(several) - FEW} more" if len(several) > FEW else ""
    return f"{', '.join(several[:FEW])}{more}"


def at_text(clock: Values, scale: Scale) -> str:
    """Where a clock stands as the busy window begins: by the task's own one the worst phase, beside the others from
    which the window was looked at."""
    if "phases" not in clock:
        return f"it is {scale.text(clock['at'])} into one as the busy window begins, from where most comes"
    worst = max(response or 0 for _, response in clock["phases"])
    as_bad = [scale.text(at) for at, it in clock["phases"] if it == worst and at != clock["at"]]
    others = [it or 0 for _, it in clock["phases"] if it != worst]
    or_at = f", or as bad {few(as_bad, 'or')}" if as_bad else ""
    told = f"the worst phase is {scale.text(clock['at'])}{or_at}: so far into one the busy window begins"
    least = f"it takes {scale.text(max(others))} at most" if any(others) else "none of its jobs is in it"
    return told + (f"; from {len(others)} other{'' if len(others) == 1 else 's'} {least}" if others else "")


def comer_text(comer: Values, scale: Scale) -> str:
    """How many events of a stream on a clock come in the busy window, and when the first can."""
    when = "at once" if comer["first"] == 0 else f"after {scale.text(comer['first'])}"
    return f"{comer['task']} {comer['events']} ({when})" if comer["events"] else f"no {comer['task']} (only {when})"


def text_for(part: Values, texts: dict[str, str]) -> str:
    """The text for the kind of a part, or for what is under way."""
    return texts.get(part["under"] or part["kind"], "").format(lock=part.get("lock", ""))


def note_of(part: Values) -> str:
    """What is said beside a part."""
    if part["kind"] == "rival":
        return f"{part['burst']} of them by its jitter" if part["burst"] else ""
    return text_for(part, NOTES)


def which_of(job: Values, scale: Scale = TICKS) -> str:
    """Which job is the latest. The bars behind it look like a course of time, and aren't one."""
    return f"{place_of(job, scale)}; its parts, in no order of time:"


def place_of(job: Values, scale: Scale) -> str:
    if "window" in job:
        return queue_text(job, scale)
    if job["of"] == 1:
        return "one job in the busy window"
    which = f"the latest is job {job['number']} of {job['of']} in the busy window"
    comes = f"{scale.text(job['came'])} after the window began" if job["came"] else "as the window begins"
    return f"{which}: it comes {comes}, and is done {scale.text(job['done'])} after"


def queue_text(job: Values, scale: Scale) -> str:
    """Who is in front on a queue: all that come up to then, those that come in the same tick with them."""
    comes = (
        f"in the last tick of a window of {scale.text(job['window'])}" if job["window"] > 1 else "as the window begins"
    )
    done = f"is done {scale.text(job['done'])} after it began"
    return f"the latest job comes {comes}, behind all that come up to then (ties against it), and {done}"


def lines_of_task(told: Values, scale: Scale = TICKS) -> list[str]:
    """The lines of a task."""
    deadline = (
        f", of {scale.text(told['deadline']['ticks'])} that {told['deadline']['path']} allows"
        if told["deadline"]
        else ""
    )
    head = f"{told['task']} on {told['on']}, {turn_of(told, scale)}: "
    if told["bound"] is None:
        return [head + "no bound" + deadline, *lines_of_overload(told, scale)]
    lines = [head + scale.length(told["bound"]) + deadline]
    lines += [f"  started by {stream_text(stream, scale)}" for stream in told["streams"]]
    lines += [f"  {it}" for it in lines_of_clocks(told, scale)]
    if not told["job"]:
        return lines
    return [*lines, f"  {which_of(told['job'], scale)}", *lines_of_parts(told, scale)]


def lines_of_parts(told: Values, scale: Scale) -> list[str]:
    """A line a part, and how they come to the bound."""
    parts, came, done = told["parts"], told["job"]["came"], told["job"]["done"]
    show = scale.text
    times = [f"{part['count']} · {show(part['each'])}" for part in parts]
    wide = max(len(it) for it in [*(part["of"] for part in parts), *([CAME] if came else [])])
    far = max(len(show(done)) + 1, *(len(show(it)) for it in [-came, *(part["ticks"] for part in parts)]))
    long, at, lines = max(map(len, times)), 0, []
    for part, text in zip(parts, times):
        cells = f"{part['of']:<{wide}}  {text:>{long}}  {show(part['ticks']):>{far}}"
        lines.append(f"    {cells}  {bar(at, part['ticks'], done):<{BAR}}  {note_of(part)}".rstrip())
        at += part["ticks"]
    if came:
        lines.append(f"    {CAME:<{wide}}  {'':>{long}}  {show(-came):>{far}}")
        lines.append(f"    {BOUND:<{wide}}  {'':>{long}}  {show(told['bound']):>{far}}")
    return lines


def loads_text(told: Values, on: str) -> str:
    """By whom a resource is asked for what."""
    loads = [f"{name} {percent(share)}" for name, share in told["loads"].items()]
    more = f" and {len(loads) - FEW} more" if len(loads) > FEW else ""
    return f"{on} has work for {percent(told['load'])} of the time: {', '.join(loads[:FEW])}{more}"


def lines_of_overload(it: Values, scale: Scale = TICKS) -> list[str]:
    """Why a task has no bound."""
    told = it["overload"]
    of, is_one, lines = ", ".join(told["because_of"]), len(told["because_of"]) == 1, []
    if told["why"] == "input":
        lines.append(f"  its input has no bound, as {of} {'has' if is_one else 'have'} none")
    elif told["why"] == "rivals":
        lines.append(f"  {of} may go before it, without a bound of {'its' if is_one else 'their'} own input")
    lines.append(f"  {loads_text(told, it['on'])}")
    if told["why"] == "own":
        lines += lines_of_crowd(it["task"], told, scale)
    return lines + [line for cause in told["causes"] for line in lines_of_cause(it["task"], cause)]


def lines_of_cause(name: str, cause: Values) -> list[str]:
    if cause["kind"] == "circle":
        way = " → ".join(cause["way"])
        return [f"  a circle: {way}; what one of them varies makes the next vary more"]
    if name in cause["tasks"]:
        return []
    return [f"  behind it: {', '.join(cause['tasks'])} on {', '.join(cause['on'])}"]


def lines_of_crowd(name: str, told: Values, scale: Scale) -> list[str]:
    """Of a task whose own busy window has no end: with which rivals it has one, and since which one it hasn't."""
    slot = f", and its slot is {percent(told['room'])}" if told["room"] < 1 else ""
    head, limit = f"  its own jobs ask for {percent(told['own'])}{slot}", scale.text(told["limit"])
    if told["since"] == name and not told["settled"]:
        alone = f", but one job alone takes longer than the limit of {limit}"
        return [head + (": this has no end" if told["own"] > told["room"] else alone)]
    settled = {step["with"]: scale.text(step["bound"]) for step in told["settled"] or []}
    lines, asked = [head + (f": alone it would have the bound {settled[None]}" if None in settled else "")], told["own"]
    for rival, share in told["shares"].items():
        asked += share
        line = f"  with {rival}, {percent(share)}, that is {percent(asked)}"
        if rival == told["since"]:
            return [*lines, f"{line}: {endless_text(told, asked, scale)}"]
        lines.append(line + (f": it would have the bound {settled[rival]}" if rival in settled else ""))
    unknown = "since which one isn't worked out, as that takes too many looks"
    return [*lines, f"  the busy window is longer than the limit of {limit}; {unknown}"]


def endless_text(told: Values, asked: float, scale: Scale) -> str:
    """Why a busy window has no end with the rival that is told."""
    if told["unbounded"]:
        return "its input has no bound"
    if asked > told["room"]:
        return "more than there is; the busy window has no end"
    return f"the busy window is longer than the limit of {scale.text(told['limit'])}"


def lines_of_path(told: Values, scale: Scale = TICKS) -> list[str]:
    """The lines of a path."""
    deadline = f", of {scale.text(told['deadline'])}: {told['verdict']}" if told["deadline"] is not None else ""
    ticks = "no bound" if told["worst"] is None else scale.length(told["worst"])
    lines = [f"path {told['path']}: {ticks}{deadline}"]
    whole = max(1, sum(task["bound"] or 0 for task in told["tasks"]))
    wide, at = max(len(task["task"]) for task in told["tasks"]), 0
    far = max(len(scale.text(it)) for it in [whole, *(task["bound"] or 0 for task in told["tasks"])])
    for task in told["tasks"]:
        cells = f"    {task['task']:<{wide}}  "
        if task["bound"] is None:
            lines.append(f"{cells}overload")
            continue
        cells += f"{scale.text(task['bound']):>{far}}  {bar(at, task['bound'], whole):<{BAR}}"
        lines.append(f"{cells}  {waits_text(task, scale)}")
        at += task["bound"]
    return lines if told["worst"] is None else [*lines, *lines_of_waits(told, scale)]


def waits_text(task: Values, scale: Scale = TICKS) -> str:
    """What a task of a path does itself, and whom it waits for."""
    worst, job, show = task["execution"][1], task["job"], scale.text
    if not job:
        return f"own {show(worst)}"
    own, *others = task["parts"]
    earlier = (own["count"] - 1) * worst
    several = [f"earlier jobs {show(earlier)}"] if earlier else []
    several += [f"{text_for(part, WAITS)}{part['of']} {show(part['ticks'])}" for part in others]
    came = f", less {show(job['came'])}" if job["came"] else ""
    return f"own {show(worst)}" + (f", waits for {', '.join(several)}{came}" if several else "")


def lines_of_waits(told: Values, scale: Scale = TICKS) -> list[str]:
    """By whom a path waits in all."""
    waits = sum(part["ticks"] for part in told["waits"]) - told["before"]
    lines = [f"  in all: own work {scale.text(told['own'])}, waiting {scale.text(waits)}"]
    several = [f"{text_for(part, WAITS)}{part['of']} {scale.text(part['ticks'])}" for part in told["waits"]]
    if several:
        before = f", less {scale.text(told['before'])} before the jobs came" if told["before"] else ""
        lines.append(f"  waits for {', '.join(several)}{before}")
    return lines
