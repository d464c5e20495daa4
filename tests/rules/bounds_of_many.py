"""The rules of the analysis once more, for systems of thousands of tasks: the streams of a resource's tasks stand in
arrays, and a resource is analysed again only where what it receives has changed. Times are ticks.

By `bounds.System` such a system takes hours. Both have to agree wherever both can be asked.
"""
import math
from collections.abc import Iterable
from itertools import accumulate

import numpy as np

from tests.rules.bounds import OVERLOAD, System, ceiling, least_time, most_events, stretch_of
from tests.rules.locks import ceilings_of, sections_of


class Streams:
    """The streams of tasks in their order, with the greatest execution of the task that each starts."""

    def __init__(self, models, worst):
        rows = [(*stream, cost) for model, cost in zip(models, worst) for stream in model or []]
        self.period, self.jitter, self.distance, self.worst = np.array(rows, dtype=np.int64).reshape(-1, 4).T
        # where the streams of each task begin, and how many tasks before each have an unbounded input
        self.begin = np.cumsum([0] + [len(model or []) for model in models])
        self.unbounded = np.cumsum([0] + [model is None for model in models])

    def events(self, first, last, window):
        """The most events of streams in a window whose end doesn't count: one window for each, or one for all."""
        period, jitter, distance = (it[first:last] for it in (self.period, self.jitter, self.distance))
        window = np.broadcast_to(window, period.shape)
        by_period = -(-(window + jitter) // period)
        by_distance = np.where(distance > 0, -(-window // np.maximum(distance, 1)), by_period)
        return np.where(window > 0, np.minimum(by_period, by_distance), 0)

    def work(self, tasks, window):
        """The work that so many of the first tasks bring in a window."""
        if window == 0:
            return 0
        if self.unbounded[tasks]:
            return OVERLOAD
        end = self.begin[tasks]
        return int(self.events(0, end, window) @ self.worst[:end])


def lock_blocking(tasks, behind):
    """By how long tasks, the most urgent first, are kept waiting under ceilings: by the regions of those behind each,
    and by their sections, each of which counts from the most urgent of its lock's users on."""
    found, ceilings = np.array(behind, dtype=np.int64), ceilings_of(tasks)
    first = {task["priority"]: place for place, task in enumerate(tasks)}
    for place, task in enumerate(tasks):
        for lock, begin, end in sections_of(task):
            held = found[first[ceilings[lock]] : place]
            np.maximum(held, min(end - begin, task["worst"]) - 1, out=held)
    return found.tolist()


class Shared:
    """What the analyses of a resource's tasks share; on resources with priorities the most urgent comes first."""

    def __init__(self, resource, tasks, bounds, models):
        self.resource, self.tasks = resource, tasks
        self.limit = resource.get("limit", 1_000_000)
        self.streams = Streams(models, [it["worst"] for it in tasks])
        if resource["kind"] in ("preemptive", "can", "ceiling"):
            one = (lambda it: it["worst"]) if resource["kind"] == "can" else (lambda it: stretch_of(it) - 1)
            # by the tasks behind each
            behind = [0, *accumulate((one(it) for it in reversed(tasks)), max)]
            self.blocking = behind[-2::-1]
            if resource["kind"] == "ceiling":
                self.blocking = lock_blocking(tasks, self.blocking)
            return
        if resource["kind"] == "fifo":
            # of all tasks the same, once it is known
            self.longest = None
            return
        self.slots = np.array([it["slot"] for it in tasks], dtype=np.int64)
        self.cycle = int(self.slots.sum()) + resource.get("gap", 0)
        limits = np.array([math.nan if it == OVERLOAD else it for it in bounds], dtype=float)
        # whether a task's input and its bound are known, and how far back its jobs reach into a window
        self.known = ~np.isnan(limits) & ~np.diff(self.streams.unbounded).astype(bool)
        reach = np.where(self.known, np.nan_to_num(limits), 0).astype(np.int64)
        self.reach = np.repeat(reach, np.diff(self.streams.begin))


def first_fitting(demand, window, limit):
    """The least window from one on that has room for its demand; overload past the limit."""
    while window <= limit:
        asked = demand(window)
        if asked <= window:
            return window
        window = asked
    return OVERLOAD


class LargeSystem(System):
    """A system whose least solution is found resource by resource."""

    def least_solution(self):
        self.names = {name: [] for name in self.resources}
        for name, task in self.tasks.items():
            self.names[task["on"]].append(name)
        followers = {}
        for name in self.tasks:
            for after in self.activators_of(name):
                followers.setdefault(after, []).append(name)
        bounds = {name: task["best"] for name, task in self.tasks.items()}
        dirty = {task["on"] for task in self.tasks.values()}
        while dirty:
            raised = {name: bound for on in sorted(dirty) for name, bound in self.bounds_on(on, bounds)}
            risen = [name for name, bound in raised.items() if bound > bounds[name]]
            bounds.update((name, raised[name]) for name in risen)
            dirty = self.reached(risen, followers)
        return bounds

    def reached(self, risen: Iterable[str], followers):
        """The resources whose bounds may change: those of tasks behind, and under round robin of the tasks beside."""
        found = {self.tasks[it]["on"] for it in risen if self.resources[self.tasks[it]["on"]]["kind"] == "round-robin"}
        left, known = list(risen), set()
        while left:
            for it in followers.get(left.pop(), []):
                if it not in known:
                    known.add(it)
                    left.append(it)
                    found.add(self.tasks[it]["on"])
        return found

    def bounds_on(self, on, bounds):
        """The bounds of a resource's tasks."""
        resource, names = self.resources[on], self.names[on]
        asked = {"preemptive": self.under_priority, "can": self.on_bus, "tdma": self.in_slots, "fifo": self.in_queue}
        asked["ceiling"] = self.under_priority
        analyse = asked.get(resource["kind"], self.by_turns)
        if resource["kind"] in ("preemptive", "can", "ceiling"):
            names = sorted(names, key=lambda it: self.tasks[it]["priority"])
        models = [self.input_of(it, bounds) for it in names]
        shared = Shared(resource, [self.tasks[it] for it in names], [bounds[it] for it in names], models)
        for place, name in enumerate(names):
            yield name, OVERLOAD if models[place] is None else analyse(shared, place, models[place])

    def longest_busy_window(self, model, limit, demand):
        """The greatest response of a job in a busy window: by `bounds.System.busy_window`, from window to window."""
        greatest, jobs, window = 0, 1, 0
        while True:
            window = first_fitting(lambda w, q=jobs: demand(q, w), window, limit)
            if window == OVERLOAD:
                return OVERLOAD
            greatest = max(greatest, window - least_time(model, jobs))
            if window <= least_time(model, jobs + 1):
                return greatest
            jobs += 1

    def under_priority(self, shared, place, model):
        own, blocking = shared.tasks[place]["worst"], shared.blocking[place]
        work = shared.streams.work
        return self.longest_busy_window(model, shared.limit, lambda q, w: blocking + q * own + work(place, w))

    def on_bus(self, shared, place, model):
        limit, own, blocking = shared.limit, shared.tasks[place]["worst"], shared.blocking[place]
        work, bit = shared.streams.work, shared.resource.get("bit", 1)
        busy = first_fitting(lambda w: blocking + work(place + 1, w), 1, limit)
        if busy == OVERLOAD:
            return OVERLOAD
        greatest = start = 0
        for frame in range(1, most_events(model, busy) + 1):
            before = blocking + (frame - 1) * own
            start = first_fitting(lambda w, b=before: b + work(place, w + bit), start, limit)
            if start + own > limit:
                return OVERLOAD
            greatest = max(greatest, start + own - least_time(model, frame))
        return greatest

    def in_slots(self, shared, place, model):
        own, slot = shared.tasks[place]["worst"], shared.tasks[place]["slot"]
        others = shared.cycle - slot
        return self.longest_busy_window(model, shared.limit, lambda q, w: q * own + ceiling(q * own, slot) * others)

    def in_queue(self, shared, place, model):
        if shared.longest is None:
            shared.longest = self.longest_in_queue(shared)
        return shared.longest

    def longest_in_queue(self, shared):
        """The greatest response in a busy window, from each window in which more is asked for to the next."""
        count, streams = len(shared.tasks), shared.streams
        busy = first_fitting(lambda w: streams.work(count, w), 1, shared.limit)
        if busy == OVERLOAD:
            return OVERLOAD
        greatest, window = 0, 1
        while window <= busy:
            greatest = max(greatest, streams.work(count, window) - (window - 1))
            # the event of each stream that isn't in the window yet comes with the tick after its least time
            seen = streams.events(0, len(streams.period), window)
            window = 1 + int(np.maximum(seen * streams.period - streams.jitter, seen * streams.distance).min())
        return greatest

    def by_turns(self, shared, place, model):
        own, slot, streams = shared.tasks[place]["worst"], shared.tasks[place]["slot"], shared.streams

        def demand(jobs, window):
            turns = ceiling(jobs * own, slot) * shared.slots
            each = streams.events(0, len(streams.period), window + shared.reach) * streams.worst
            sums = np.add.reduceat(np.append(each, 0), streams.begin[:-1])
            share = np.where(shared.known, np.minimum(turns, sums), turns)
            share[place] = 0
            return jobs * own + int(share.sum())

        return self.longest_busy_window(model, shared.limit, demand)
