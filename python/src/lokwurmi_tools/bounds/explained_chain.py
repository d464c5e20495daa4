"""What the bounds of an effect chain are made of: the sums of their steps, which are held against what `lokwurmi chain`
has written."""
from lokwurmi.results.effect_chains import ChainReport, ticks_between
from lokwurmi.results.verdicts import OF_CHAINS, PREMISE, PREMISE_WORDS
from lokwurmi_tools.bounds.bound_texts import BAR, bar, waits_text
from lokwurmi_tools.bounds.chain_parts import ChainSums, StepParts, parts_of, sum_of
from lokwurmi_tools.bounds.explained import Explained
from lokwurmi_tools.shared.chain_files import AskedChain, bounds_by, totals_of
from lokwurmi_tools.shared.report import bounds_in
from lokwurmi_tools.shared.times import TICKS, Scale
from lokwurmi_tools.shared.types import Values

# from when to when each bound counts
MEANS = {
    "reaction": "from a moment that {first} has just missed to the end of the first job of {last} that knows of it",
    "age": "at the end of a job of {last}, since the job of {first} came whose data it has",
    "held": "in the register of {last}, until it is overwritten: its parts are those of the reaction",
}


class ExplainedChains:
    """A system and its report, for what its chains are made of; with `between` for times between ticks too, where each
    wait is a tick longer. `faults` says where a sum isn't what the program says."""

    def __init__(self, explained: Explained, program: str, file: str, between: bool = False):
        self.explained, self.program, self.file, self.between = explained, program, file, between
        self.sums = ChainSums(explained.view, bounds_in(explained.report))
        self.faults: list[str] = []

    def chain(self, it: AskedChain) -> Values:
        """What there is to tell of a chain."""
        steps, told = self.sums.steps(it.tasks), bounds_by(self.program, self.file, list(it.tasks))
        self.compare(it, steps, told)
        more = ticks_between([step.kind for step in steps])
        found: Values = {"chain": it.name or None, "tasks": list(it.tasks), "premise": PREMISE}
        for what, bound in totals_of(told).items():
            count = more[what] if self.between else 0
            deadline = it.deadlines.get(what)
            limit = None if deadline is None else deadline + (count if it.off else 0)
            whole = None if bound is None else bound + count
            found[what] = {"bound": whole, "deadline": limit, "verdict": verdict_of(whole, limit)}
            found[what]["parts"] = [self.part(steps, *part) for part in parts_of(steps, what)]
        return found

    def part(self, steps: list[StepParts], part: tuple[str, str], ticks: int | None) -> Values:
        """A part of a sum: of a wait the stream that it is for, of a response what the task does and waits for."""
        name, kind = part
        if kind == "response":
            return {"task": name, "kind": kind, "ticks": ticks}
        streams = self.explained.parts.streams(name)
        step = next(it for it in steps if it.name == name)
        by = next((it for it in streams or [] if (it["source"], *it["way"]) == step.way), None)
        more = 1 if self.between and ticks is not None else 0
        told = {"task": name, "kind": kind, "ticks": None if ticks is None else ticks + more}
        return told | {"stream": by, "streams": len(streams or [])}

    def compare(self, it: AskedChain, steps: list[StepParts], told: ChainReport) -> None:
        """Holds the steps of a chain, and their sums, against what the program has written."""
        mine = [(step.name, step.kind, step.wait, step.response) for step in steps]
        its = [(step.name, step.kind, step.wait, step.response) for step in told.steps]
        name = it.name or ",".join(it.tasks)
        if mine != its:
            self.faults.append(f"chain {name}: the steps are {mine}, and the program says {its}")
        for what, bound in totals_of(told).items():
            found = sum_of(parts_of(steps, what))
            if found != bound:
                self.faults.append(f"chain {name}: the parts of the {what} come to {found}, and its bound is {bound}")


def verdict_of(bound: int | None, deadline: int | None) -> str:
    if deadline is None:
        return "none"
    return "unknown" if bound is None else "met" if bound <= deadline else "missed"


def stream_text(part: Values, explained: Explained, scale: Scale, between: bool) -> str:
    """For what a chain waits: the period, and the jitter by whom it is, of tasks their bounds less their least
    executions."""
    it = part["stream"]
    text = f"until its next job: period {scale.text(it['period'])} of {it['source']}"
    several = []
    for name, ticks in it["of"]:
        if name in explained.view.tasks and ticks:
            bound, best = explained.report.tasks[name].worst or 0, explained.view.tasks[name].best
            several.append(f"{name} {scale.text(bound)} - {scale.text(best)}")
        elif ticks:
            several.append(f"{name} {scale.text(ticks)}")
    made = f" ({' + '.join(several)})" if it["way"] else ""
    text += f" + jitter {scale.text(it['jitter'])}{made}" if several else ""
    text += "" if between else f" - {scale.length(1)}"
    return text + (f"; of its {part['streams']} streams the nearest" if part["streams"] > 1 else "")


def lines_of_bound(told: Values, what: str, explained: Explained, scale: Scale) -> list[str]:
    """The parts of a bound, and how they come to it."""
    it, first, last = told[what], told["tasks"][0], told["tasks"][-1]
    bound = "no bound" if it["bound"] is None else f"{scale.length(it['bound'])} {PREMISE}"
    limit = "" if it["deadline"] is None else f", of {scale.text(it['deadline'])}: {it['verdict']}"
    lines = [f"  {what}: {bound}{limit}", f"    {MEANS[what].format(first=first, last=last)}"]
    if what == "held":
        return lines
    parts, whole = it["parts"], max(1, sum(part["ticks"] or 0 for part in it["parts"]))
    wide, far, at = max(map(len, told["tasks"])), max(len(scale.text(whole)), len("overload")), 0
    for part in parts:
        cells = f"    {part['task']:<{wide}}  {part['kind']:<8}  "
        if part["ticks"] is None:
            silent = explained.view.sporadic_sources_of(part["task"]) if part["kind"] == "wait" else []
            why = f"  {', '.join(silent)} may fall silent: sporadic" if silent else ""
            lines.append(f"{cells}overload{why}")
            continue
        if part["kind"] == "wait":
            note = stream_text(part, explained, scale, is_between(scale))
        else:
            note = waits_text(explained.task(part["task"]), scale)
        lines.append(f"{cells}{scale.text(part['ticks']):>{far}}  {bar(at, part['ticks'], whole):<{BAR}}  {note}")
        at += part["ticks"]
    sums = " + ".join(scale.text(part["ticks"]) for part in parts if part["ticks"] is not None)
    return lines if it["bound"] is None else [*lines, f"    {sums} = {scale.text(it['bound'])}"]


def is_between(scale: Scale) -> bool:
    """Whether bounds are shown as times, which hold between ticks too."""
    return scale.tick is not None


def lines_of_chain(told: Values, explained: Explained, scale: Scale = TICKS) -> list[str]:
    """The lines of a chain."""
    name = f"chain {told['chain']}: " if told["chain"] else "chain "
    lines = [name + " → ".join(told["tasks"])]
    for what in OF_CHAINS:
        lines += lines_of_bound(told, what, explained, scale)
    more = "; each wait has a tick more than `lokwurmi chain` says, and so holds between ticks"
    return [*lines, f"  {PREMISE_WORDS}{more if is_between(scale) else ''}"]
