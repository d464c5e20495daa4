"""Tells what the bound of a task is made of, for the tools beside it.

A bound is the response of one job of a busy window: the latest one. It comes so long after the window began, and is
done when the window has room for all that is asked for up to its end: its own executions and those of its task's jobs
before it, and what goes before them. This is worked out here once more by the rules of docs/DEFINITIONS.md, at the
bounds of a report, which are those of the least solution; so it must come to the very bound that the report has. It is
no part of what is proved."""
from collections.abc import Iterator, Sequence
from typing import NamedTuple, NotRequired, TypedDict

from lokwurmi.model.event_models import Bounds, Stream, inputs_of, least_time, most_events
from lokwurmi.model.limits import Kind
from lokwurmi.model.view import Anchor, SystemView
from lokwurmi_tools.bounds.starts import (
    Moments,
    PlacedStream,
    Start,
    arrivals,
    earliest,
    latest_moments,
    phase_on,
    work_from,
)


class Tired(Exception):
    """A busy window takes more looks than are allowed."""


class Endless(Exception):
    """A busy window is longer than the limit of its resource."""


class Part(NamedTuple):
    """What fills a part of the window: `count` times `each` ticks. The kind is `own`, `rival` (jobs of a task that goes
    before), `turns` (the turns of another, which has more to do), `blocking` (a job of lower priority that isn't
    interrupted: by `under` a `frame` that is under way, a `region` that has begun, or a critical `section`, in which it
    holds a `lock`), `slot` (another's slot in a cycle) or `gap`. Of the jobs of a rival `burst` come only because of
    its jitter."""

    kind: str
    of: str
    count: int  # type: ignore[assignment]
    each: int
    burst: int = 0
    under: str = ""
    lock: str = ""

    @property
    def ticks(self) -> int:
        return self.count * self.each


class Rival(NamedTuple):
    """Who may go before a task: its greatest execution, its streams, None where they have no bound, by how much its
    window is longer, its slot where it takes turns, and where its streams are on clocks."""

    name: str
    worst: int
    streams: list[Stream] | None
    ahead: int = 0
    slot: int | None = None
    anchors: tuple[Anchor | None, ...] = ()

    def events(self, window: int, moments: Moments) -> int:
        """How many jobs it has in a window of the task at most, with which clocks stand so."""
        return sum(
            arrivals(stream, phase_on(stream, anchor, moments), window + self.ahead) for stream, anchor in self.placed()
        )

    def steady(self, window: int, moments: Moments) -> int:
        """How many these would be if its streams had no jitter."""
        steady = [((period, 0, distance), anchor) for (period, _, distance), anchor in self.placed()]
        return sum(
            arrivals(stream, phase_on(stream, anchor, moments), window + self.ahead) for stream, anchor in steady
        )

    def placed(self) -> list[tuple[Stream, Anchor | None]]:
        """Its streams, each with where it is on a clock."""
        streams = self.streams or []
        return list(zip(streams, self.anchors or (None,) * len(streams)))


class JobInWindow(NamedTuple):
    """A job of a busy window: the how many-th, when it comes, the window that has room for it, and when it is done."""

    number: int
    came: int
    window: int
    done: int

    @property
    def response(self) -> int:
        return self.done - self.came


class Phase(NamedTuple):
    """A moment of a task's clock at which its busy window may begin, and the greatest response from there; None where
    no job of it waits."""

    moment: int
    response: int | None


class LatestJob(NamedTuple):
    """The job of a busy window whose response is greatest: the how many-th of how many, when it came and when it is
    done, and what fills the time up to there. On a queue it comes in the last tick of a window."""

    number: int
    of: int
    came: int
    done: int
    parts: list[Part]
    start: Start | None = None
    """Where its clock stands as the window begins, where its one stream is on one."""
    window: int | None = None
    """On a queue the window up to whose end all that comes is served before the job is done."""
    counted: int = 0
    """Elsewhere the window in which all that comes and goes before counts."""
    moments: Moments = {}
    """Where all clocks stand as it begins that count."""
    phases: Sequence[Phase] = ()
    """Each moment of its clock from which the busy window was looked at."""

    @property
    def response(self) -> int:
        return self.done - self.came


class Scene(NamedTuple):
    """The rivals of a busy window, and where the task's own clock stands as that begins, if its one stream is on
    one."""

    rivals: list[Rival]
    start: Start | None = None


class SettledStep(NamedTuple):
    """The bound of a task with its first rivals alone: the last of these, None without any, and the bound, None if
    there is none."""

    rival: str | None
    bound: int | None


class StreamTold(TypedDict):
    """A stream that starts a task: its source, the tasks that it comes by, its numbers in ticks, and whose jitter is
    how much of its own."""

    source: str
    way: list[str]
    period: int
    jitter: int
    distance: int
    of: list[tuple[str, int]]
    clock: NotRequired[str]
    offset: NotRequired[int]


def first_with(stream: Stream, window: int) -> int:
    """The least window that has as many events of a stream as one has."""
    period, jitter, distance = stream
    gaps = most_events(stream, window) - 1
    return max(0, gaps * distance, gaps * period - jitter) + 1


class BoundParts:
    """A system at the bounds of its report, None where one is `overload`."""

    def __init__(self, view: SystemView, bounds: Bounds):
        self.view, self.bounds, self.inputs = view, bounds, inputs_of(view, bounds)
        # where other clocks stand, by who goes before and the window
        self.worst_moments: dict[tuple[str, tuple[str, ...], int], int] = {}
        # the busy window of some tasks of a queue, and the window in it after whose last tick most is left
        self.fullest: dict[frozenset[str], tuple[int, int]] = {}
        # how many looks at the work of a task were taken, and with how many it ends
        self.looks = 0
        self.until: int | None = None

    def before(self, name: str) -> list[Rival]:
        """Who may go before a task, the most urgent first, or in the order of the file."""
        resource, found = self.view.resource(name), self.view.rivals(name)
        if resource.kind == Kind.ROUND_ROBIN:
            return [self.in_turn(it) for it in found]
        if resource.kind == Kind.FIFO:
            return [self.queued(it) for it in found]
        # what comes within a bit time after the start of a frame goes first
        ahead = resource.bit if resource.is_bus else 0
        found.sort(key=lambda it: self.view.tasks[it].rank)
        view = self.view
        return [
            Rival(it, view.tasks[it].worst, self.inputs[it], ahead, anchors=view.anchors_of(it) if view.clocks else ())
            for it in found
        ]

    def in_turn(self, name: str) -> Rival:
        """A rival that takes turns; of one without a bound these alone count."""
        bound = self.bounds[name]
        streams = None if bound is None else self.inputs[name]
        task = self.view.tasks[name]
        return Rival(name, task.worst, streams, bound or 0, task.slot)

    def queued(self, name: str) -> Rival:
        """A task of a queue, by its streams; that these may be on clocks isn't used."""
        return Rival(name, self.view.tasks[name].worst, self.inputs[name])

    def blocking(self, name: str) -> Part | None:
        """The task of lower priority that may hold one up for longest: on a bus the longest frame, that may be under
        way, on a processor the longest region, or section with a ceiling that is no less urgent, of which a tick has
        gone by."""
        longest = next(iter(self.view.blocks(name)), None)
        ticks = longest.ticks - (0 if longest.under == "frame" else 1) if longest else 0
        if longest is None or ticks == 0:
            return None
        return Part("blocking", longest.task, 1, ticks, under=longest.under, lock=longest.lock)

    def cycle(self, name: str) -> list[tuple[str, str, int]]:
        """On TDMA the slots of the others and the gap: what a cycle takes away."""
        resource = self.view.resource(name)
        if resource.kind != Kind.TDMA:
            return []
        slots = [("slot", it, self.view.tasks[it].turn) for it in self.view.beside(name)]
        return slots + ([("gap", resource.name, resource.gap)] if resource.gap else [])

    def rounds(self, name: str, jobs: int) -> int:
        """The turns or slots of its own that so many jobs of a task need."""
        task = self.view.tasks[name]
        return -(-jobs * task.worst // task.slot) if task.slot else 0

    def fixed(self, name: str, jobs: int) -> list[Part]:
        """What goes before so many jobs of a task in a window of any length, but for these."""
        blocked, rounds = self.blocking(name), self.rounds(name, jobs)
        found = [blocked] if blocked else []
        return found + [Part(kind, it, rounds, ticks) for kind, it, ticks in self.cycle(name)]

    def moments(self, scene: Scene, window: int) -> Moments:
        """Where clocks stand as a window begins: the task's own where it does, and each other as its streams ask for
        most."""
        if not self.view.clocks or not scene.rivals or scene.rivals[0].slot is not None:
            return {}
        placed: dict[str, list[PlacedStream]] = {}
        for rival in scene.rivals:
            for stream, anchor in rival.placed():
                if anchor is not None:
                    placed.setdefault(anchor.clock, []).append(PlacedStream(stream, anchor, rival.worst))
        found = {scene.start.clock: scene.start.moment} if scene.start else {}
        names, whole = tuple(it.name for it in scene.rivals), window + scene.rivals[0].ahead
        for clock, several in placed.items():
            if clock not in found:
                found[clock] = self.worst_moment(clock, several, names, whole)
        return found

    def worst_moment(self, clock: str, several: list[PlacedStream], names: tuple[str, ...], window: int) -> int:
        """Where a clock stands as a window begins, so that its streams ask for most in it."""
        key = (clock, names, window)
        if key not in self.worst_moments:
            moments = latest_moments(several, self.view.clock_cycle(clock))
            self.looks += len(moments) * len(several)
            self.worst_moments[key] = max(moments, key=lambda it: work_from(several, it, window))
        return self.worst_moments[key]

    def shared(self, rival: Rival, rounds: int, window: int, moments: Moments) -> Part:
        """What a rival takes in a window."""
        turns = None if rival.slot is None else Part("turns", rival.name, rounds, rival.slot)
        if rival.streams is None and turns:
            return turns
        count = rival.events(window, moments)
        if turns and turns.ticks < count * rival.worst:
            return turns
        return Part("rival", rival.name, count, rival.worst, count - rival.steady(window, moments))

    def taken(self, scene: Scene, rounds: int, window: int) -> int:
        """The ticks that rivals take in a window."""
        self.looks += 1 + len(scene.rivals)
        if self.until is not None and self.looks > self.until:
            raise Tired
        ticks, moments = 0, self.moments(scene, window)
        for it in scene.rivals:
            work = None if it.streams is None else it.worst * it.events(window, moments)
            turns = None if it.slot is None else rounds * it.slot
            ticks += min(amount for amount in (work, turns) if amount is not None)
        return ticks

    def window(self, name: str, scene: Scene, jobs: int, first: int) -> int:
        """The least window, from `first` on, that has room for so many jobs and what goes before them."""
        if any(it.streams is None and it.slot is None for it in scene.rivals):
            raise Endless
        rounds, limit, window = self.rounds(name, jobs), self.view.limit(name), first
        fixed = jobs * self.view.tasks[name].worst + sum(it.ticks for it in self.fixed(name, jobs))
        while window <= limit:
            asked = fixed + self.taken(scene, rounds, window)
            if asked <= window:
                return window
            window = asked
        raise Endless

    def frames(self, name: str, scene: Scene) -> int:
        """On a bus how many frames of a task come up to the end of the busy period, which begins with one of lower
        priority."""
        own = Rival(name, self.view.tasks[name].worst, self.inputs[name])
        if scene.start:
            own = own._replace(anchors=self.view.anchors_of(name))
        several = [*(it._replace(ahead=0) for it in scene.rivals), own]
        busy = self.window(name, scene._replace(rivals=several), 0, 1)
        return own.events(busy, {scene.start.clock: scene.start.moment} if scene.start else {})

    def comes(self, name: str, scene: Scene, number: int) -> int:
        """How long after the busy window began a job of a task can have come at the earliest."""
        streams = self.inputs[name] or []
        if scene.start is None:
            return least_time(streams, number)
        moments = {scene.start.clock: scene.start.moment}
        return earliest(streams[0], phase_on(streams[0], self.view.anchors_of(name)[0], moments), number)

    def starts(self, name: str, rivals: list[Rival]) -> list[Start | None]:
        """From where the busy window of a task is looked at."""
        if not self.view.clocks or not self.view.resource(name).has_priorities:
            return [None]
        anchors, streams = self.view.anchors_of(name), self.inputs[name] or []
        own = anchors[0]
        if len(anchors) > 1 or own is None:
            return [None]
        several = [PlacedStream(streams[0], own, 0)]
        for it in rivals:
            several += [PlacedStream(stream, at, 0) for stream, at in it.placed() if at and at.clock == own.clock]
        moments = latest_moments(several, self.view.clock_cycle(own.clock))
        return [Start(own.clock, it) for it in moments]

    def is_done_before(self, name: str, scene: Scene) -> bool:
        """Whether all that goes before is done before the first job of a task comes."""
        if scene.start is None or self.view.resource(name).is_bus:
            return False
        first = self.comes(name, scene, 1)
        try:
            return first > 0 and self.window(name, scene, 0, 1) <= first
        except Endless:
            return False

    def places(self, name: str, scene: Scene) -> Iterator[JobInWindow]:
        """The jobs of the busy window, one after the other."""
        worst, limit = self.view.tasks[name].worst, self.view.limit(name)
        frames = self.frames(name, scene) if self.view.resource(name).is_bus else None
        if frames == 0 or self.is_done_before(name, scene):
            return
        # a frame isn't interrupted: its own length comes after its start
        rest = 0 if frames is None else worst
        number, window = 0, -worst
        while True:
            number += 1
            window = self.window(name, scene, number if frames is None else number - 1, window + worst)
            if window + rest > limit:
                raise Endless
            yield JobInWindow(number, self.comes(name, scene, number), window, window + rest)
            if number == frames if frames is not None else window <= self.comes(name, scene, number + 1):
                return

    def latest(self, name: str, rivals: list[Rival] | None = None, most: int | None = None) -> LatestJob | None:
        """The job that answers latest; None where there is no bound. With rivals it is that of the task among these
        alone. Tired is raised after so many looks at a task's work, if there is a most."""
        if self.inputs[name] is None:
            return None
        self.until = None if most is None else self.looks + most
        rivals = self.before(name) if rivals is None else rivals
        latest: LatestJob | None = None
        phases = list[Phase]()
        try:
            if self.view.kind(name) == Kind.FIFO:
                return self.last_in_queue(name, rivals)
            for start in self.starts(name, rivals):
                found = self.latest_from(name, Scene(rivals, start))
                phases += [Phase(start.moment, found and found.response)] if start else []
                latest = found if found and (latest is None or found.response > latest.response) else latest
        except Endless:
            return None
        return latest and latest._replace(phases=phases)

    def latest_from(self, name: str, scene: Scene) -> LatestJob | None:
        """The same of the busy windows that begin so; None where none of the task's jobs waits in one."""
        late: JobInWindow | None = None
        of = 0
        for it in self.places(name, scene):
            late, of = it if late is None or it.response > late.response else late, it.number
        if late is None:
            return None
        # the window of a frame is up to its start, in which there are those before it
        jobs = late.number - 1 if self.view.resource(name).is_bus else late.number
        own = Part("own", name, late.number, self.view.tasks[name].worst)
        moments = self.moments(scene, late.window)
        waits = [self.shared(it, self.rounds(name, jobs), late.window, moments) for it in scene.rivals]
        if self.view.clocks:
            # by its clock a rival may not come at all
            waits = [it for it in waits if it.count]
        parts, counted = [own, *self.fixed(name, jobs), *waits], late.window + max(
            [0, *(it.ahead for it in scene.rivals)]
        )
        numbers = late.number, of, late.came, late.done
        return LatestJob(*numbers, parts, scene.start, counted=counted, moments=moments)

    def last_in_queue(self, name: str, rivals: list[Rival]) -> LatestJob:
        """A job that comes in the last tick of a window, behind all that came in it, where that takes longest."""
        own = self.queued(name)
        busy, window = self.fullest_window([own, *rivals])
        number = own.events(window, {})
        parts = [Part("own", name, number, own.worst), *(self.shared(it, 0, window, {}) for it in rivals)]
        return LatestJob(number, own.events(busy, {}), window - 1, sum(it.ticks for it in parts), parts, window=window)

    def fullest_window(self, several: list[Rival]) -> tuple[int, int]:
        """The busy window of some tasks of a queue, and the first window in it after whose last tick most is left. It
        goes back from the end of the busy window: no shorter window has more work, and so none that ends so late that
        it would leave less than the most so far is looked at."""
        key = frozenset(it.name for it in several)
        if key not in self.fullest:
            scene = Scene(several)
            busy = window = self.window(several[0].name, scene, 0, 1)
            most, at = 0, busy
            while window > 0:
                work = self.taken(scene, 0, window)
                if work - (window - 1) >= most:
                    at = max(first_with(stream, window) for it in several for stream in it.streams or [])
                    most, window = work - (at - 1), at - 1
                else:
                    window = work - most + 1
            self.fullest[key] = busy, at
        return self.fullest[key]

    def streams(self, name: str) -> list[StreamTold] | None:
        """The streams that start a task: of each its source, its numbers, and from where its jitter comes."""
        streams = self.inputs[name]
        if streams is None:
            return None
        found: list[StreamTold] = []
        anchors = self.view.anchors_of(name)
        for (source, *way), (period, jitter, distance), anchor in zip(self.view.ways_to(name), streams, anchors):
            varies = [(it, (self.bounds[it] or 0) - self.view.tasks[it].best) for it in way]
            found.append(
                {
                    "source": source,
                    "way": way,
                    "period": period,
                    "jitter": jitter,
                    "distance": distance,
                    "of": [(source, self.view.sources[source].jitter), *varies],
                }
            )
            if anchor is not None:
                found[-1]["clock"], found[-1]["offset"] = anchor.clock, anchor.offset
        return found

    def settles(self, name: str, most: int | None = None) -> list[SettledStep]:
        """Of a task whose own busy window has no end up to the limit: with how many of its rivals, one after the other,
        it has still one. The answer is the bound with each of the first ones, beginning with none, up to the first that
        is None."""
        rivals, found = self.before(name), []
        for count in range(len(rivals) + 1):
            job = self.latest(name, rivals[:count], most)
            found.append(SettledStep(rivals[count - 1].name if count else None, job and job.response))
            if job is None:
                break
        return found
