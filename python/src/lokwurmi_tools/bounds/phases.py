"""At which phase of its clock a bound is reached, and who comes by each clock then: for lokwurmi explain."""
from typing import NamedTuple

from lokwurmi.model.view import SystemView
from lokwurmi_tools.bounds.bound_parts import BoundParts, LatestJob, Scene
from lokwurmi_tools.bounds.starts import arrivals, earliest, phase_on
from lokwurmi_tools.shared.types import Values


class Comer(NamedTuple):
    """A stream on a clock, by its task and its source: how many events of it count in the busy window, and how long
    after that begins the first one can come."""

    task: str
    source: str
    events: int
    first: int


class Phases:
    """The clocks of a task at its latest job."""

    def __init__(self, parts: BoundParts, name: str, job: LatestJob):
        self.view: SystemView = parts.view
        self.parts, self.name, self.job = parts, name, job

    def told(self) -> list[Values]:
        """What there is to tell of each clock that streams of the task and of those that may go before it share."""
        return [self.of_clock(it) for it in self.view.clocks_at(self.name)]

    def of_clock(self, clock: str) -> Values:
        """A clock: its cycle, whose streams are on it, where it stands as the busy window begins, and who comes then.
        Of the task's own one `start` says the same as `at`, and `phases` what the response is from each moment."""
        cycle, job = self.view.clock_cycle(clock), self.job
        on = [it for it in (self.name, *self.view.rivals(self.name)) if self.is_on(it, clock)]
        is_own = job.start is not None and job.start.clock == clock
        at = job.moments[clock] % cycle if clock in job.moments else None
        told: Values = {"clock": clock, "cycle": cycle, "tasks": on, "start": at if is_own else None, "at": at}
        if is_own:
            told["phases"] = [[it.moment % cycle, it.response] for it in job.phases]
        return told | {"come": [it._asdict() for it in self.comers(clock)]}

    def is_on(self, name: str, clock: str) -> bool:
        """Whether a stream of a task is on a clock."""
        return any(it and it.clock == clock for it in self.view.anchors_of(name))

    def comers(self, clock: str) -> list[Comer]:
        """The streams on a clock that come from where it stands, the task's own first; of a task with several streams
        the own ones aren't placed by it."""
        found, job = [], self.job
        if job.start is not None and job.start.clock == clock:
            first = self.parts.comes(self.name, Scene([], job.start), 1)
            found.append(Comer(self.name, self.view.sources_of(self.name)[0], job.number, first))
        for rival in self.parts.before(self.name):
            for source, (stream, anchor) in zip(self.view.sources_of(rival.name), rival.placed()):
                if anchor is not None and anchor.clock == clock and clock in job.moments:
                    phase = phase_on(stream, anchor, job.moments)
                    events = arrivals(stream, phase, job.counted)
                    found.append(Comer(rival.name, source, events, earliest(stream, phase, 1)))
        return found
