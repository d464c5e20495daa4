"""How far an offset may move on its clock, to one side and round the period of its source, for lokwurmi sensitivity.

No law says that bounds only rise as an offset moves on: a deadline may be missed, and be met again further on. So it
goes by stretches of offsets. A source whose offset is the first of a stretch, with as much more jitter as that is long,
may have its events whenever one with any offset of the stretch and no more jitter may. So where all holds with it, all
holds in the whole stretch; else the stretch is cut in two, down to a single offset."""
from typing import NamedTuple

from lokwurmi.model.limits import MOST_TICKS
from lokwurmi_tools.search.margin_question import Answer, MarginQuestion, Number, Probe, TrialReport
from lokwurmi_tools.shared.faults import OwnFault

# how many values of a number are tried at most, where no law leads to the last one
MOST_TRIES = 400


class Stretch(NamedTuple):
    """From how many steps up to how many."""

    first: int
    last: int


class OffsetMargin:
    """The search for the last offset up to which all holds: up to `good` steps it does. Ahead lie stretches that were
    found to fail as a whole, or weren't looked at, the nearest last."""

    def __init__(self, question: MarginQuestion, number: Number):
        self.question, self.number, self.good = question, number, 0
        self.ahead = [Stretch(1, number.most)] if number.most else []
        self.at_good: TrialReport | None = None
        self.at_bad: TrialReport | None = None
        self.tries, self.is_told = 0, False

    def probe(self) -> Probe | None:
        """What to try, or None where the answer is known: at its end the last offset that holds, by itself."""
        if self.is_over():
            return Probe(self.number, self.good) if self.good and self.at_good is None else None
        room = MOST_TICKS - self.question.view.sources[self.number.name].jitter
        while self.ahead[-1].last - self.ahead[-1].first > room:
            self.cut(self.ahead.pop())
        first, last = self.ahead[-1]
        return Probe(self.number, first, last - first)

    def cut(self, stretch: Stretch) -> None:
        """Puts the halves of a stretch in its place."""
        first, last = stretch
        middle = (first + last) // 2
        self.ahead += [Stretch(middle + 1, last), Stretch(first, middle)]

    def is_over(self) -> bool:
        """Whether no stretch is left to look at, or too many were."""
        return not self.ahead or self.at_bad is not None or self.tries >= MOST_TRIES

    def tell(self, _: int, found: TrialReport) -> None:
        if self.is_over():
            if not found.holds():
                raise OwnFault(
                    f"offset of {self.number.name}: by {self.good} steps not all holds, by a stretch it does"
                )
            self.at_good = found
            return
        self.tries += 1
        first, last = self.ahead.pop()
        if found.holds():
            self.good = last
        elif first == last:
            self.at_bad = found
        else:
            self.cut(Stretch(first, last))

    def confirm(self) -> None:
        """Once the answer is known has the program judge the chains at both of its ends."""
        if self.is_told or self.probe() is not None:
            return
        self.is_told = True
        for steps, found in ((self.good, self.at_good), (self.good + 1, self.at_bad)):
            if self.question.chains and found is not None:
                self.question.confirm(self.number, steps, found)

    def answer(self) -> Answer:
        return Answer(self.good, self.good < self.number.most, self.at_bad.first() if self.at_bad else [])
