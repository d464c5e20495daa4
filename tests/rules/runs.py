"""The step rules of docs/FILES.md and docs/DEFINITIONS.md, followed plainly, tick by tick: the run of a system under a
trace, and what `simulate`, `buffers`, `audit` and `schedule` write of it.

Regions go by the ticks that a job has had. Times are ticks.
"""
import csv
import tomllib

from tests.rules import bounds, locks


def least_apart(source, count):
    return max(0, (count - 1) * source["distance"], (count - 1) * source["period"] - source["jitter"])


class Run:
    """The run of a system under a trace, tick by tick."""

    def __init__(self, system, trace):
        self.system, (self.events, self.executions, self.phases) = system, trace
        self.tasks = {it["name"]: it for it in system["task"]}
        self.jobs = {name: [] for name in self.tasks}
        self.on = {
            it["name"]: [task["name"] for task in system["task"] if task["on"] == it["name"]]
            for it in system["resource"]
        }
        self.ceilings = locks.ceilings_of(system["task"])
        self.holder = {name: several[-1] if several else None for name, several in self.on.items()}
        self.left = dict.fromkeys(self.on, 0)
        self.frame = dict.fromkeys(self.on)
        self.peaks = dict.fromkeys(self.tasks, 0)
        self.peaks_on = dict.fromkeys(self.on, 0)
        self.most_work = dict.fromkeys(self.on, 0)
        self.segments = []
        self.time = 0
        self.go()

    def arrive(self, task, cause):
        several = self.jobs[task]
        given = self.executions[task]
        needs = given[len(several)] if len(several) < len(given) else self.tasks[task]["worst"]
        several.append({"arrival": self.time, "needs": needs, "had": 0, "end": None, "cause": cause})

    def activate(self, name, number):
        for task in self.tasks.values():
            if name in task["after"]:
                self.arrive(task["name"], (name, number))

    def come(self):
        for name, times in self.events.items():
            for number, time in enumerate(times):
                if time == self.time:
                    self.activate(name, number)

    def pending(self, task):
        return [place for place, job in enumerate(self.jobs[task]) if job["end"] is None]

    def pick(self, resource):
        """Who runs on a resource in this tick."""
        name, ring = resource["name"], self.on[resource["name"]]
        waiting = [task for task in ring if self.pending(task)]
        if resource["kind"] == "tdma":
            if not ring:
                return None
            place = (self.time + self.phases[name]) % (sum(self.tasks[task]["slot"] for task in ring) + resource["gap"])
            for task in ring:
                if place < self.tasks[task]["slot"]:
                    return task if task in waiting else None
                place -= self.tasks[task]["slot"]
            return None
        if not waiting:
            return None
        if resource["kind"] == "round-robin":
            if not (self.holder[name] in waiting and self.left[name]):
                after = ring.index(self.holder[name]) + 1
                self.holder[name] = next(task for task in ring[after:] + ring[:after] if task in waiting)
                self.left[name] = self.tasks[self.holder[name]]["slot"]
            self.left[name] -= 1
            return self.holder[name]
        if resource["kind"] == "fifo":
            return min(waiting, key=self.since)
        if resource["kind"] == "ceiling":
            return min(waiting, key=self.rank)
        if resource["kind"] == "can" and self.frame[name]:
            return self.frame[name]
        if resource["kind"] == "preemptive" and (within := [task for task in waiting if self.is_within(task)]):
            return within[0]
        first = min(waiting, key=lambda task: self.tasks[task]["priority"])
        self.frame[name] = first
        return first

    def since(self, task):
        """When the earliest job of a task that is pending came."""
        return self.jobs[task][self.pending(task)[0]]["arrival"]

    def had(self, task):
        """The ticks that the job of a task that is next has had."""
        return self.jobs[task][self.pending(task)[0]]["had"]

    def is_within(self, task):
        """Whether the job of a task that is next is within a region: it has had a part of one."""
        return self.had(task) % self.tasks[task].get("region", 1) > 0

    def rank(self, task):
        """By what the next job of a task goes first under ceilings: its active priority, and of equal ones that of a
        job within a section or a region. Of two such it would be the first in the file, but there never are."""
        it, had = self.tasks[task], self.had(task)
        is_within = bool(locks.held_by(it, had)) or locks.is_in_region(it, had)
        return locks.active_priority(it, had, self.ceilings), not is_within

    def hold_locks(self):
        """Each lock is held by one task at most."""
        held = [
            (it["on"], lock)
            for name, it in self.tasks.items()
            if self.pending(name)
            for lock in set(locks.held_by(it, self.had(name)))
        ]
        assert len(held) == len(set(held)), f"at {self.time}: {held}"

    def hold_alone(self, task):
        """While another task holds a lock, one that uses it doesn't run."""
        used = {lock for lock, _, _ in locks.sections_of(self.tasks[task])}
        for other in self.on[self.tasks[task]["on"]] if used else ():
            held = locks.held_by(self.tasks[other], self.had(other)) if other != task and self.pending(other) else []
            assert not used.intersection(held), f"at {self.time}: {task} runs, and {other} has {held}"

    def see(self):
        for task in self.tasks:
            self.peaks[task] = max(self.peaks[task], len(self.pending(task)))
        for name, several in self.on.items():
            pending = [self.jobs[task][job] for task in several for job in self.pending(task)]
            self.peaks_on[name] = max(self.peaks_on[name], len(pending))
            self.most_work[name] = max(self.most_work[name], sum(job["needs"] for job in pending))

    def goes_on(self):
        return any(self.pending(task) for task in self.tasks) or any(
            time >= self.time for times in self.events.values() for time in times
        )

    def tick(self, going):
        ended = []
        for resource in self.system["resource"]:
            name, task = resource["name"], self.pick(resource)
            job = (task, self.pending(task)[0]) if task else None
            if job and going.get(name, (None,))[0] == job:
                going[name][1][2] = self.time + 1
            elif job:
                going[name] = (job, [task, self.time, self.time + 1])
                self.segments.append(going[name][1])
            else:
                going.pop(name, None)
            if job:
                self.hold_alone(task)
                it = self.jobs[task][job[1]]
                it["needs"], it["had"] = it["needs"] - 1, it["had"] + 1
                if it["needs"] == 0:
                    ended.append((name, it, task))
        self.time += 1
        for name, it, _ in ended:
            it["end"], self.frame[name] = self.time, None
        order = list(self.tasks)
        for _, it, task in sorted(ended, key=lambda one: order.index(one[2])):
            self.activate(task, self.jobs[task].index(it))
        self.come()
        self.see()
        if self.ceilings:
            self.hold_locks()

    def go(self):
        going = {}
        self.come()
        self.see()
        while self.goes_on():
            self.tick(going)


def plain(system):
    """A system, as a file has it, in the form that `made` gives."""
    resources = {it["name"]: it | {"gap": it.get("gap", 0)} for it in system.get("resource", [])}
    tasks = []
    for it in system.get("task", []):
        best, worst = bounds.execution_of(it, resources[it["on"]])
        region = it.get("region", 1)
        tasks.append(it | {"after": bounds.activators_of(it), "best": best, "worst": worst, "region": region})
    return {
        "resource": list(resources.values()),
        "source": system.get("source", []),
        "task": tasks,
        "path": system.get("path", []),
    }


def system_in(file):
    """The values of a system file, read without the package."""
    with open(file, "rb") as it:
        return tomllib.load(it)


def trace_in(file):
    """What a trace has, read without the package: events, executions and phases."""
    found = {"event": {}, "exec": {}, "phase": {}}
    with open(file, encoding="utf-8") as it:
        for kind, name, number in csv.reader(it):
            found[kind].setdefault(name, []).append(int(number))
    return found["event"], found["exec"], {name: ticks for name, (ticks,) in found["phase"].items()}


def replayed(file, trace):
    """The run of a system file under a trace."""
    it, parts = plain(system_in(file)), zip(("source", "task", "resource"), trace_in(trace), ([], [], 0))
    return Run(it, [{one["name"]: given.get(one["name"], none) for one in it[part]} for part, given, none in parts])


def passages(run, way):
    """The times of the passages of the jobs of a path's first task."""
    times = []
    for first, job in enumerate(run.jobs[way[0]]):
        number = first
        for before, task in zip(way, way[1:]):
            number = next(place for place, it in enumerate(run.jobs[task]) if it["cause"] == (before, number))
        times.append(run.jobs[way[-1]][number]["end"] - job["arrival"])
    return times


def simulated_text(system, run):
    """What `simulate` writes of the tasks."""
    text = ""
    for it in system["task"]:
        jobs = run.jobs[it["name"]]
        worst = max((job["end"] - job["arrival"] for job in jobs), default="none")
        text += f"task {it['name']} jobs {len(jobs)} done {len(jobs)} worst {worst}\n"
    for it in system["path"]:
        times = passages(run, it["tasks"])
        text += f"path {it['name']} passages {len(times)} worst {max(times, default='none')}\n"
    every = sum(len(jobs) for jobs in run.jobs.values())
    return text + f"summary jobs {every} done {every} end {run.time}\n"


def buffers_text(rules, run, report):
    """What `buffers` writes, by the rules of a system and the bounds of a report."""
    least, jobs = bounds.bounds_in(report), {}
    for name, bound in least.items():
        assert all(job["end"] - job["arrival"] <= bound for job in run.jobs[name]), name
        most = bound == bounds.OVERLOAD
        jobs[name] = bound if most else bounds.most_events(rules.input_of(name, least), bound)
        assert run.peaks[name] <= jobs[name], name
    told = {name: bounds.said(most) for name, most in jobs.items()}
    text = "".join(f"buffer {name} bound {it} peak {run.peaks[name]}\n" for name, it in told.items())
    for name, several in run.on.items():
        most = bounds.said(sum(jobs[it] for it in several))
        text += f"resource {name} bound {most} peak {run.peaks_on[name]}\n"
    for name in (name for name, it in rules.resources.items() if it["kind"] == "fifo"):
        most = max((least[it] for it in run.on[name]), default=0)
        assert run.most_work[name] <= most, name
        text += f"queue {name} work {bounds.said(most)}\n"
    return text + f"summary tasks {len(jobs)} overload {list(jobs.values()).count(bounds.OVERLOAD)}\n"


def audit_text(rows, segments):
    for place in range(max(len(rows), len(segments))):
        if place >= len(segments):
            return f"audit wrong segment {place + 1} expected none\n", 4
        if place >= len(rows) or rows[place] != segments[place]:
            task, start, end = segments[place]
            return f"audit wrong segment {place + 1} expected {task} {start} {end}\n", 4
    return f"audit same segments {len(segments)}\n", 0


def schedule_text(segments):
    return "".join(f"{task},{start},{end}\n" for task, start, end in segments)
