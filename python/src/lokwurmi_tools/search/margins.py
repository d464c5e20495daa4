"""How far each number of a system may move, one at a time, while all that has to hold does."""
import concurrent.futures
import threading
from collections.abc import Callable

from lokwurmi.model.limits import MOST_SCRIPT_LINES
from lokwurmi_tools.search.chain_goals import name_of as name_of_chain
from lokwurmi_tools.search.margin_question import Answer, MarginQuestion, Number, Probe, TrialReport
from lokwurmi_tools.search.offset_margins import MOST_TRIES, OffsetMargin
from lokwurmi_tools.shared.progress import Progress
from lokwurmi_tools.shared.report import latencies_in
from lokwurmi_tools.shared.types import Values

# how long a script gets at most, and how many reports are asked for at a time
MOST_LINES, MOST_PROBES = MOST_SCRIPT_LINES * 9 // 10, 400


class MarginSearch:
    """The last value of a number up to which all holds: up to `good` steps it does, the last of them by the report
    `at_good`. Ahead lie values further on that were tried, the nearest last: one that doesn't hold, or one that does,
    before which something may not."""

    def __init__(self, question: MarginQuestion, number: Number):
        self.question, self.number, self.good, self.at_good = question, number, 0, question.now()
        self.ahead: list[tuple[int, TrialReport]] = []
        self.tries, self.is_told = 0, False

    def probe(self) -> Probe | None:
        """What to try, or None where the answer is known but for what comes first."""
        steps = self.next()
        return None if steps is None else Probe(self.number, steps)

    def next(self) -> int | None:
        """The steps to try."""
        number = self.number
        if self.tries >= MOST_TRIES:
            return None
        if not self.ahead:
            if self.good == number.most:
                return None
            # beyond the guess, and then ever further
            return min(number.most, number.guess + 1 if self.good == 0 else 4 * self.good)
        nearest = self.ahead[-1][0]
        return (self.good + nearest) // 2 if nearest - self.good > 1 else None

    def tell(self, steps: int, found: TrialReport) -> None:
        self.tries += 1
        if not found.holds():
            self.ahead.clear()
        self.ahead.append((steps, found))
        while self.ahead and self.is_reached(*self.ahead[-1]):
            self.good, self.at_good = self.ahead.pop()

    def is_reached(self, steps: int, found: TrialReport) -> bool:
        """Whether all holds up to so many steps."""
        if steps == self.good + 1:
            return found.holds()
        return self.question.holds_between(self.number, (self.good, self.at_good), (steps, found))

    def confirm(self) -> None:
        """Once the answer is known has the program judge the chains at both of its ends."""
        if self.is_told or self.next() is not None:
            return
        self.is_told = True
        for steps, found in [(self.good, self.at_good), *self.ahead[-1:]]:
            if self.question.chains and steps:
                self.question.confirm(self.number, steps, found)

    def answer(self) -> Answer:
        steps, found = self.ahead[-1] if self.ahead else (0, self.at_good)
        first = found.first() if steps == self.good + 1 else []
        return Answer(self.good, self.good < self.number.most, first)


def search_of(question: MarginQuestion, number: Number) -> MarginSearch | OffsetMargin:
    """The search for how far a number may move."""
    return OffsetMargin(question, number) if number.kind == "offset" else MarginSearch(question, number)


def searched(question: MarginQuestion, numbers: list[Number], tell: Callable[[int], None]) -> list[Answer]:
    """The answers of some numbers, by a round of probes for all of them at a time."""
    searches = [search_of(question, it) for it in numbers]
    for search in searches:
        search.confirm()
    while True:
        probes = [(search, probe) for search in searches if (probe := search.probe()) is not None]
        if not probes:
            break
        for (search, probe), found in zip(probes, question.asked([it for _, it in probes])):
            search.tell(probe.steps, found)
            search.confirm()
        tell(sum(search.is_told for search in searches))
    return [it.answer() for it in searches]


def parts_of(question: MarginQuestion, numbers: list[Number], jobs: int) -> list[list[Number]]:
    """The numbers in parts for one call each: as many as there are jobs, if scripts are short and reports few
    enough."""
    wanted, lines = max(1, -(-len(numbers) // (2 * jobs))), 0
    parts: list[list[Number]] = [[]]
    for number in numbers:
        if parts[-1] and (len(parts[-1]) >= min(wanted, MOST_PROBES) or lines + question.lines_of(number) > MOST_LINES):
            parts.append([])
            lines = 0
        parts[-1].append(number)
        lines += question.lines_of(number)
    return [it for it in parts if it]


class SearchEnded(Exception):
    """Another part of the search was ended."""


class Teller:
    """Tells how many numbers are done, of all parts of a search together."""

    def __init__(self, question: MarginQuestion, parts: list[list[Number]]):
        self.question, self.whole, self.done = question, sum(map(len, parts)), [0] * len(parts)
        self.progress, self.lock, self.is_stopped = Progress("lokwurmi sensitivity"), threading.Lock(), False

    def tell(self, place: int, count: int) -> None:
        if self.is_stopped:
            raise SearchEnded
        with self.lock:
            self.done[place] = count
            done = sum(self.done)
            left = self.progress.left(done / self.whole)
            self.progress.show(f"{done} of {self.whole} numbers, {self.question.probes} reports{left}")


def answers_of(question: MarginQuestion, kinds: tuple[str, ...], jobs: int) -> list[tuple[Number, Answer]]:
    """Each number with its answer."""
    parts = parts_of(question, question.numbers(kinds), jobs)
    teller = Teller(question, parts)

    def answers(place: int) -> list[Answer]:
        return searched(question, parts[place], lambda count: teller.tell(place, count))

    with concurrent.futures.ThreadPoolExecutor(jobs) as pool:
        try:
            several = list(pool.map(answers, range(len(parts))))
        except BaseException:
            teller.is_stopped = True
            pool.shutdown(wait=False, cancel_futures=True)
            raise
        finally:
            teller.progress.clear()
    return [it for part, found in zip(parts, several) for it in zip(part, found)]


def row_of(question: MarginQuestion, number: Number, answer: Answer) -> Values:
    """A number as it is told: its value, the last one that holds, and by what share it moves, a jitter and an offset
    held against the period of its source, and a region or a section against the greatest execution of its task."""
    whole, last = number.value, number.value + (-answer.steps if number.kind == "period" else answer.steps)
    way = {}
    if number.kind in ("jitter", "offset"):
        whole = question.view.sources[number.name].period
    elif number.kind == "region":
        whole = question.view.tasks[number.name].worst
    elif number.kind == "section":
        whole = question.view.tasks[question.sections[number.name][0]].worst
    if number.kind == "offset":
        last, way = question.offset(number, answer.steps), {"way": "earlier" if number.is_earlier else "later"}
    return {
        "kind": number.kind,
        "name": number.name,
        **way,
        "value": number.value,
        "last": last,
        "by": answer.steps,
        "share": answer.steps / whole,
        "first": answer.first,
        "limit": not answer.ends,
    }


def row_of_deadline(name: str, limit: int, worst: int, of: str) -> Values:
    """A deadline may be as short as its path or its chain takes, and no shorter than a tick."""
    last = max(1, worst)
    numbers = {"value": limit, "last": last, "by": limit - last, "share": (limit - last) / limit}
    return {"kind": "deadline", "name": name, **numbers, "first": [of], "limit": False}


def rows_of_deadlines(question: MarginQuestion) -> list[Values]:
    """The deadlines of paths, and those of chains."""
    times = latencies_in(question.known.report)
    rows = [row_of_deadline(name, limit, times[name] or 0, f"path {name}") for name, limit in question.limits().items()]
    for it in question.chains.now if question.chains else ():
        rows.append(row_of_deadline(f"{it.name} {it.what}", it.deadline or 0, it.bound or 0, name_of_chain(it)))
    return rows


def rows_of(question: MarginQuestion, kinds: tuple[str, ...], jobs: int) -> list[Values]:
    """All numbers, the tightest first."""
    rows = [row_of(question, *it) for it in answers_of(question, kinds, jobs)]
    if "deadline" in kinds:
        rows += rows_of_deadlines(question)
    return sorted(rows, key=lambda it: float(it["share"]))
