"""The rules of the analysis written down plainly: bounds of tasks and paths, and the text of a report.

They stand in docs/DEFINITIONS.md; here they are followed word for word, one analysis of every task in each round, with
no thought of speed. Times are ticks.
"""
import tomllib

from tests.rules.clocks import OnClocks, clocks_of
from tests.rules.curves import OVERLOAD, ceiling, least_time, least_window, longest_in_queue, most_events
from tests.rules.locks import blocking as lock_blocking
from tests.rules.locks import ceilings_of


def activators_of(task):
    """The activators of a task, as its entry names them."""
    return [task["after"]] if isinstance(task["after"], str) else task["after"]


def stretch_of(task):
    """For how many ticks a job isn't preempted at most, on a preemptive resource."""
    return min(task.get("region", 1), task["worst"])


def execution_of(task, resource):
    """The least and the greatest execution of a task: those of a frame follow from its payload."""
    if "payload" not in task:
        return task["best"], task["worst"]
    if resource["kind"] == "fifo":
        # preamble 8 bytes, addresses, type and check sum 18, gap 12
        bits, rate = 8 * (8 + 18 + max(46, task["payload"]) + 12), resource.get("rate", 1)
        return bits // rate, ceiling(bits, rate)
    least, greatest = (67, 80) if task.get("extended") else (47, 55)
    return tuple(
        bits * resource.get("bit", 1) for bits in (least + 8 * task["payload"], greatest + 10 * task["payload"])
    )


class System:
    def __init__(self, text):
        read = tomllib.loads(text)
        self.resources = {r["name"]: r for r in read.get("resource", [])}
        self.sources = {
            s["name"]: (s["period"], s.get("jitter", 0), s.get("distance", 0)) for s in read.get("source", [])
        }
        self.clocks = {s["name"]: (s["clock"], s.get("offset", 0)) for s in read.get("source", []) if "clock" in s}
        self.cycles = clocks_of(read.get("source", []))
        self.tasks = {t["name"]: t for t in read.get("task", [])}
        self.paths = read.get("path", [])
        for task in self.tasks.values():
            task["best"], task["worst"] = execution_of(task, self.resources[task["on"]])

    def sources_of(self, name):
        """The sources of the task's streams."""
        return [
            source
            for after in self.activators_of(name)
            for source in ([after] if after in self.sources else self.sources_of(after))
        ]

    def activators_of(self, name):
        return activators_of(self.tasks[name])

    def anchors_of(self, name):
        """Of each of the task's streams the clock and the offset on it; none of a stream on no clock. What a task sends
        on is later by its least execution."""
        found = []
        for after in self.activators_of(name):
            if after in self.sources:
                found.append(self.clocks.get(after))
            else:
                best = self.tasks[after]["best"]
                found += [it and (it[0], it[1] + best) for it in self.anchors_of(after)]
        return found

    def limit_of(self, name):
        return self.resources[self.tasks[name]["on"]].get("limit", 1000000)

    def sent_by(self, after, bounds):
        """The streams that a source or a task sends; none where one is unbounded."""
        if after in self.sources:
            return [self.sources[after]]
        model = self.input_of(after, bounds)
        if model is None or bounds[after] == OVERLOAD:
            return None
        least = self.tasks[after]["best"]
        varies = bounds[after] - least
        return [(period, jitter + varies, max(distance - varies, least)) for period, jitter, distance in model]

    def input_of(self, name, bounds):
        models = [self.sent_by(after, bounds) for after in self.activators_of(name)]
        return None if None in models else [stream for model in models for stream in model]

    def work(self, names, bounds, window):
        """The work that tasks bring in a window."""
        return sum(most_events(self.input_of(n, bounds), window) * self.tasks[n]["worst"] for n in names)

    def bound_of(self, name, bounds):
        task = self.tasks[name]
        resource = self.resources[task["on"]]
        model = self.input_of(name, bounds)
        if model is None:
            return OVERLOAD
        mates = [n for n, t in self.tasks.items() if t["on"] == task["on"]]
        kinds = ("preemptive", "round-robin", "tdma", "can", "fifo", "ceiling")
        rules = (self.preemptive, self.round_robin, self.tdma, self.can, self.fifo, self.with_locks)
        analyse = dict(zip(kinds, rules))
        return analyse[resource["kind"]](name, task, resource, model, mates, bounds)

    def busy_window(self, model, limit, demand):
        greatest, jobs = 0, 1
        while True:
            window = least_window(lambda w: demand(jobs, w), 0, limit)
            if window == OVERLOAD:
                return OVERLOAD
            greatest = max(greatest, window - least_time(model, jobs))
            if window <= least_time(model, jobs + 1):
                return greatest
            jobs += 1

    def preemptive(self, name, task, resource, model, mates, bounds):
        higher = [n for n in mates if self.tasks[n]["priority"] < task["priority"]]
        lower = [n for n in mates if self.tasks[n]["priority"] > task["priority"]]
        # of a region that has begun before a tick has gone by
        blocking = max((stretch_of(self.tasks[n]) - 1 for n in lower), default=0)
        return self.by_priority(name, task, resource, model, higher, blocking, bounds)

    def with_locks(self, name, task, resource, model, mates, bounds):
        higher = [n for n in mates if self.tasks[n]["priority"] < task["priority"]]
        lower = [self.tasks[n] for n in mates if self.tasks[n]["priority"] > task["priority"]]
        blocking = lock_blocking(task, lower, ceilings_of([self.tasks[n] for n in mates]))
        return self.by_priority(name, task, resource, model, higher, blocking, bounds)

    def by_priority(self, name, task, resource, model, higher, blocking, bounds):
        if self.clocks:
            return OnClocks(self, name, higher, bounds).preemptive(blocking)
        return self.busy_window(
            model,
            resource.get("limit", 1000000),
            lambda q, w: blocking + q * task["worst"] + self.work(higher, bounds, w),
        )

    def round_robin(self, name, task, resource, model, mates, bounds):
        def share(other, rounds, window):
            slots = rounds * self.tasks[other]["slot"]
            received = self.input_of(other, bounds)
            if received is None or bounds[other] == OVERLOAD:
                return slots
            return min(slots, most_events(received, window + bounds[other]) * self.tasks[other]["worst"])

        def demand(jobs, window):
            own = jobs * task["worst"]
            return own + sum(share(n, ceiling(own, task["slot"]), window) for n in mates if n != name)

        return self.busy_window(model, resource.get("limit", 1000000), demand)

    def tdma(self, name, task, resource, model, mates, bounds):
        cycle = sum(self.tasks[n]["slot"] for n in mates) + resource.get("gap", 0)

        def demand(jobs, window):
            own = jobs * task["worst"]
            return own + ceiling(own, task["slot"]) * (cycle - task["slot"])

        return self.busy_window(model, resource.get("limit", 1000000), demand)

    def can(self, name, task, resource, model, mates, bounds):
        limit, bit, own = resource.get("limit", 1000000), resource.get("bit", 1), task["worst"]
        higher = [n for n in mates if self.tasks[n]["priority"] < task["priority"]]
        blocking = max(
            (self.tasks[n]["worst"] for n in mates if self.tasks[n]["priority"] > task["priority"]), default=0
        )
        if self.clocks:
            return OnClocks(self, name, higher, bounds).can(blocking, bit)
        busy = least_window(lambda w: blocking + self.work(higher + [name], bounds, w), 1, limit)
        if busy == OVERLOAD:
            return OVERLOAD
        greatest = 0
        for frame in range(1, most_events(model, busy) + 1):
            start = least_window(lambda w: blocking + (frame - 1) * own + self.work(higher, bounds, w + bit), 0, limit)
            if start + own > limit:
                return OVERLOAD
            greatest = max(greatest, start + own - least_time(model, frame))
        return greatest

    def fifo(self, name, task, resource, model, mates, bounds):
        models = [self.input_of(n, bounds) for n in mates]
        asked = [(None if it is None else tuple(it), self.tasks[n]["worst"]) for n, it in zip(mates, models)]
        return longest_in_queue(tuple(asked), resource.get("limit", 1000000))

    def least_solution(self):
        bounds = {name: task["best"] for name, task in self.tasks.items()}
        while True:
            raised = {name: max(bounds[name], self.bound_of(name, bounds)) for name in self.tasks}
            if raised == bounds:
                return bounds
            bounds = raised

    def report(self):
        """The report's text, and the status."""
        bounds = self.least_solution()
        lines, missed = [], 0
        for name, task in self.tasks.items():
            model = self.input_of(name, bounds)
            first, *more = self.sources_of(name)
            jitter, distance = ("overload", "overload") if model is None else model[0][1:]
            received = (
                f"streams {1 + len(more)}"
                if more
                else f"period {self.sources[first][0]} jitter {jitter} distance {distance}"
            )
            lines.append(f"task {name} {task['on']} {received} best {task['best']} worst {said(bounds[name])}")
        for path in self.paths:
            best = sum(self.tasks[n]["best"] for n in path["tasks"])
            worst = sum(bounds[n] for n in path["tasks"])
            deadline = path.get("deadline")
            word = (
                "none"
                if deadline is None
                else "unknown"
                if worst == OVERLOAD
                else "met"
                if worst <= deadline
                else "missed"
            )
            missed += word == "missed"
            lines.append(
                f"path {path['name']} best {best} worst {said(worst)}"
                f" deadline {'-' if deadline is None else deadline} {word}"
            )
        overloaded = sum(bound == OVERLOAD for bound in bounds.values())
        lines.append(f"summary tasks {len(self.tasks)} overload {overloaded} missed {missed}")
        return "\n".join(lines) + "\n", 2 if overloaded else 1 if missed else 0


def bounds_in(report):
    """The bounds of a report."""
    rows = (line.split() for line in report.splitlines() if line.startswith("task "))
    return {row[1]: OVERLOAD if row[-1] == "overload" else int(row[-1]) for row in rows}


def said(bound):
    return "overload" if bound == OVERLOAD else str(bound)
