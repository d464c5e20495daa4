"""The rules of cause-effect chains written down plainly: bounds, what a run shows, and the text of `chain` and
`chains`.

Nothing here is taken from the program or from the commands in Python: bounds of tasks are the least solution of
bounds.py, runs are followed tick by tick by runs.py, and what a run shows is looked for among all jobs.
Times are ticks.
"""
import tomllib
from functools import lru_cache

from tests.rules.bounds import OVERLOAD, System, said

ASKED = ("reaction", "age", "held")
# what the bounds presume, at the end of a text
PREMISE = " if sources stay near\n"
# when a job reads: as it comes, as it starts, as it is done, at any time in between, or in any tick in which it runs
READINGS = ("arrival", "start", "end", "whenever", "running")


def stays_near(source, times):
    """Whether any two events of a source are no farther apart than its period and jitter say; of a sporadic source that
    isn't asked."""
    period, jitter = source["period"], source.get("jitter", 0)
    if source.get("sporadic", False):
        return True
    return all(times[n] - times[m] <= (n - m) * period + jitter for n in range(len(times)) for m in range(n))


class Bounds:
    """The bounds of the chains of a system file: where jobs read at any time, or `while_running` alone. Then less is
    told by two rules: "above" where a writer goes before its reader on one processor, which is preempted at each
    tick, and with "same-source" still less where one source starts both besides. The program has the first of them.
    With `bound` the bounds of tasks are those, which are known already."""

    def __init__(self, text, bound=None):
        self.rules = System(text)
        self.bound = self.rules.least_solution() if bound is None else bound
        self.sporadic = {it["name"] for it in tomllib.loads(text).get("source", []) if it.get("sporadic")}

    def after(self, name):
        return self.rules.activators_of(name)

    def may_fall_silent(self, name):
        """Whether some stream of a task is that of a sporadic source."""
        return any(source in self.sporadic for source in self.rules.sources_of(name))

    def gap(self, name):
        """The greatest time from one job of a task to the next: the least over its streams, and none where one of them
        may fall silent."""
        if self.may_fall_silent(name):
            return OVERLOAD
        streams = self.rules.input_of(name, self.bound)
        return OVERLOAD if streams is None else min(period + jitter for period, jitter, _ in streams)

    def wait(self, name):
        return self.gap(name) - 1

    def is_above(self, before, name):
        """Whether a writer goes before its reader on one processor, at each tick."""
        writer, reader = self.rules.tasks[before], self.rules.tasks[name]
        gives_way = self.rules.resources[writer["on"]]["kind"] == "preemptive" and reader.get("region", 1) == 1
        return gives_way and writer["on"] == reader["on"] and writer["priority"] < reader["priority"]

    def is_of_one_source(self, before, name):
        after = self.after(name)
        return self.after(before) == after and len(after) == 1 and after[0] in self.rules.sources

    def kind(self, before, name, while_running=""):
        if before is None:
            return "first"
        after = self.after(name)
        if before in after:
            return "activation" if after == [before] else "merge"
        if while_running and self.is_above(before, name):
            return "same-source" if while_running == "same-source" and self.is_of_one_source(before, name) else "above"
        return "register"

    def forward(self, before, name, while_running):
        kind = self.kind(before, name, while_running)
        response = 0 if kind in ("above", "same-source") else self.bound[before]
        return response + (self.wait(name) if kind in ("register", "above") else 0)

    def latency(self, chain, while_running=""):
        return sum(self.forward(*it, while_running) for it in zip(chain, chain[1:])) + self.bound[chain[-1]]

    def reaction(self, chain, while_running=""):
        return self.wait(chain[0]) + self.latency(chain, while_running)

    def age(self, chain, while_running=""):
        # how long after the first job one of the task comes that has its data, and what overwrites that
        old, renewed = 0, self.wait(chain[0])
        for before, name in zip(chain, chain[1:]):
            kind = self.kind(before, name, while_running)
            response = 0 if kind in ("above", "same-source") else self.bound[before]
            old = (old if kind in ("activation", "same-source") else renewed) + response
            renewed += self.forward(before, name, while_running)
        return old + self.bound[chain[-1]]

    def held(self, chain, while_running=""):
        return self.reaction(chain, while_running)

    def limits(self, chain, while_running=""):
        return {what: getattr(self, what)(chain, while_running) for what in ("latency", *ASKED)}

    def text_of(self, chain, while_running=""):
        """What `chain` writes, and its status."""
        rows = []
        for before, name in zip([None, *chain], chain):
            kind = self.kind(before, name, while_running)
            rows.append(f"step {name} {kind} wait {said(self.wait(name))} response {said(self.bound[name])}\n")
        limits = self.limits(chain, while_running)
        word = "chain while-running" if while_running else "chain"
        rows.append(
            f"{word} tasks {len(chain)} " + " ".join(f"{what} {said(limits[what])}" for what in ASKED) + PREMISE
        )
        return "".join(rows), 2 if OVERLOAD in limits.values() else 0


def verdict(bound, deadline):
    return "none" if deadline is None else "unknown" if bound == OVERLOAD else "met" if bound <= deadline else "missed"


def told_chains(bounds, chains):
    """What `chains` writes of chains, each a name, its tasks and its deadlines of reaction, age and held, and its
    status."""
    lines, missed, overload = [], 0, 0
    for name, tasks, reaction, age, held in chains:
        found = [(bounds.reaction(tasks), reaction), (bounds.age(tasks), age), (bounds.held(tasks), held)]
        words = [f"{said(it[0])} deadline {'-' if it[1] is None else it[1]} {verdict(*it)}" for it in found]
        lines.append(f"chain {name} tasks {len(tasks)} reaction {words[0]} age {words[1]}")
        lines[-1] += "\n" if held is None else f" held {words[2]}\n"
        missed += any(verdict(*it) == "missed" for it in found)
        overload += any(bound == OVERLOAD for bound, _ in found)
    lines.append(f"summary chains {len(chains)} overload {overload} missed {missed}{PREMISE}")
    return "".join(lines), 2 if overload else 1 if missed else 0


def streams_of_jobs(tasks, run):
    """The stream of each job, by its causes: the place among its task's streams; and how many streams each task has."""

    def count(name):
        return sum(count(after) for after in tasks[name]["after"]) if name in tasks else 1

    @lru_cache(maxsize=None)
    def stream(name, number):
        by, place = run.jobs[name][number]["cause"]
        before = 0
        for after in tasks[name]["after"]:
            if after == by:
                break
            before += count(after)
        return before + (stream(by, place) if by in tasks else 0)

    streams = {name: [stream(name, k) for k in range(len(run.jobs[name]))] for name in tasks}
    return streams, {name: count(name) for name in tasks}


def ticks_of(system, run):
    """The ticks in which each job ran."""
    needs = {it["name"]: it["worst"] for it in system["task"]}
    ran = {}
    for name, jobs in run.jobs.items():
        ticks = sorted(t for task, start, end in run.segments if task == name for t in range(start, end))
        ran[name], at = [], 0
        for number, job in enumerate(jobs):
            given = run.executions[name]
            takes = given[number] if number < len(given) else needs[name]
            ran[name].append(ticks[at : at + takes])
            at += takes
            assert ran[name][-1][-1] + 1 == job["end"]
    return ran


class Observed:
    """What a run shows of chains, by a rule of reading: each job reads in one of the ticks that the rule allows it."""

    def __init__(self, system, run, reading):
        self.tasks = {it["name"]: it for it in system["task"]}
        self.jobs = run.jobs
        self.streams, self.counts = streams_of_jobs(self.tasks, run)
        ran = ticks_of(system, run)
        self.reads = {}
        for name, jobs in run.jobs.items():
            self.reads[name] = [self.times(reading, job, ran[name][k]) for k, job in enumerate(jobs)]

    @staticmethod
    def times(reading, job, ran):
        every = range(job["arrival"], job["end"] + 1)
        return {"arrival": every[:1], "start": ran[:1], "end": every[-1:], "whenever": every, "running": ran}[reading]

    def amidst(self, name, k):
        """Each stream of the task has a job up to and with k, and one from k + 1 on."""
        several = self.streams[name]
        return k >= 0 and set(several[: k + 1]) == set(range(self.counts[name])) == set(several[k + 1 :])

    def can_be_first(self, name, time):
        """The jobs that can be the first to read no sooner than a time: they can read then, and all before them can
        before it."""
        for n, reads in enumerate(self.reads[name]):
            if reads[-1] >= time:
                yield n
            if reads[0] >= time:
                return

    def heard(self, before, k, name):
        """The jobs of the next task that can be the first to know what job k wrote."""
        for n, job in enumerate(self.jobs[name]):
            if job["cause"] == (before, k):
                yield n
        for n in self.can_be_first(name, self.jobs[before][k]["end"]):
            if before in self.tasks[name]["after"] or self.amidst(name, n - 1):
                yield n

    def forward(self, chain):
        """From each job of the first task the latest end of the last task's first job that knows of it."""

        @lru_cache(maxsize=None)
        def ends(place, k):
            if place == len(chain) - 1:
                return self.jobs[chain[place]][k]["end"]
            known = (ends(place + 1, n) for n in set(self.heard(chain[place], k, chain[place + 1])))
            return max((it for it in known if it is not None), default=None)

        return [ends(0, k) for k in range(len(self.jobs[chain[0]]))]

    def reactions(self, chain):
        jobs, reads = self.jobs[chain[0]], self.reads[chain[0]]
        for k, end in enumerate(self.forward(chain)):
            if end is None:
                continue
            yield "latency", end - jobs[k]["arrival"]
            # the earliest time that all jobs before can have missed
            if self.amidst(chain[0], k - 1) and reads[k][-1] > reads[k - 1][0]:
                yield "reaction", end - (reads[k - 1][0] + 1)

    def taken(self, before, name, n):
        """The jobs of the task before whose data job n can have."""
        jobs, job = self.jobs[before], self.jobs[name][n]
        if job["cause"][0] == before:
            yield job["cause"][1]
        sole = self.tasks[name]["after"] == [before]
        for k, it in enumerate(jobs):
            until = jobs[k + 1]["end"] if k + 1 < len(jobs) else OVERLOAD
            if any(it["end"] <= time < until for time in self.reads[name][n]) and (sole or self.amidst(before, k)):
                yield k

    def ages(self, chain):
        @lru_cache(maxsize=None)
        def first(place, n):
            if place == 0:
                return self.jobs[chain[0]][n]["arrival"]
            known = (first(place - 1, k) for k in set(self.taken(chain[place - 1], chain[place], n)))
            return min((it for it in known if it is not None), default=None)

        last = self.jobs[chain[-1]]
        for n, job in enumerate(last):
            since = first(len(chain) - 1, n)
            if since is None:
                continue
            yield "age", job["end"] - since
            if self.amidst(chain[-1], n):
                yield "held", last[n + 1]["end"] - 1 - since

    def greatest(self, chain):
        """The greatest of each, and how many there are."""
        most, counts = {}, {}
        for what, ticks in (*self.reactions(chain), *self.ages(chain)):
            most[what] = max(most.get(what, 0), ticks)
            counts[what] = counts.get(what, 0) + 1
        return most, counts
