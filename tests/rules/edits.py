"""Edits by the rules of docs/FILES.md, followed plainly: which rule one breaks first, and what it makes of a system."""
import copy
import math

MOST_EXECUTION, MOST_PRIORITY, MOST_TICKS, MOST_STARTS = 10_000_000, 536_870_911, 1_000_000_000, 4096
BY_PRIORITY, BY_SLOT = ("preemptive", "can", "ceiling"), ("round-robin", "tdma")


def is_too_long(sources, clock):
    """Whether a clock's cycle is too long, or has too many events."""
    periods = [it["period"] for it in sources if it.get("clock") == clock]
    cycle = math.lcm(*periods)
    return cycle > MOST_TICKS or sum(cycle // it for it in periods) > MOST_STARTS


class Edited:
    """A system under edits."""

    def __init__(self, system):
        self.system = copy.deepcopy(system)
        self.kinds = {it["name"]: it["kind"] for it in system["resource"]}

    def task(self, name):
        return next((it for it in self.system["task"] if it["name"] == name), None)

    def source(self, name):
        return next((it for it in self.system["source"] if it["name"] == name), None)

    def taken(self, on, number, but):
        others = [it for it in self.system["task"] if it["on"] == on and it["name"] != but]
        return self.kinds[on] in BY_PRIORITY and any(it["priority"] == number for it in others)

    def wrong_number(self, on, number):
        """Whether a number isn't in the range of what tasks of a resource have; those of queues have none, told by
        0."""
        if self.kinds[on] == "fifo":
            return number != 0
        return number > MOST_PRIORITY if self.kinds[on] in BY_PRIORITY else not 1 <= number <= MOST_EXECUTION

    def broken(self, verb, *words):
        """The rules that an edit breaks."""
        numbers = [int(it) for it in words if it.isdigit()]
        if verb == "add":
            yield from self.broken_by_add(words[0], words[1], words[2], numbers)
        elif verb in ("source", "offset"):
            source = self.source(words[0])
            yield from [1] * (source is None) or self.broken_at_source(verb, source, numbers)
        else:
            tasks = [self.task(it) for it in words if not it.isdigit()]
            yield from [1] * (None in tasks) or self.broken_at(verb, tasks, numbers)

    def broken_at_source(self, verb, source, numbers):
        """The same of an edit of a source that is there."""
        if verb == "offset":
            yield from [2] * ("clock" not in source) + [3] * (numbers[0] >= MOST_TICKS)
            changed = source | {"offset": numbers[0]}
        else:
            period, jitter, distance = numbers
            yield from [3] * (not 1 <= period <= MOST_TICKS or jitter > MOST_TICKS or distance > period)
            changed = source | {"period": max(period, 1)}
        if "clock" in source:
            all_changed = [changed if it is source else it for it in self.system["source"]]
            is_off = changed["offset"] >= changed["period"] or is_too_long(all_changed, source["clock"])
            yield from [10] * is_off

    def broken_at(self, verb, tasks, numbers):
        """The same of an edit of tasks that are there."""
        task, kind = tasks[0], self.kinds[tasks[0]["on"]]
        if verb == "exec":
            yield from [3] * any(not 1 <= it <= MOST_EXECUTION for it in numbers) + [5] * (numbers[0] > numbers[1])
        elif verb in ("priority", "slot"):
            yield from [2] * (kind not in (BY_PRIORITY if verb == "priority" else BY_SLOT))
            yield from [3] * self.wrong_number(task["on"], numbers[0])
            yield from [4] * (verb == "priority" and self.taken(task["on"], numbers[0], task["name"]))
        elif verb == "swap":
            yield from [2] * (kind not in BY_PRIORITY or task["on"] != tasks[1]["on"])
        else:
            followers = [it for it in self.system["task"] if task["name"] in it["after"]]
            paths = [it for it in self.system["path"] if task["name"] in it["tasks"]]
            yield from [6] * bool(followers or paths)

    def broken_by_add(self, name, on, after, numbers):
        is_there = on in self.kinds
        yield from [1] * (not is_there or not (self.task(after) or self.source(after)))
        yield from [3] * (any(not 1 <= it <= MOST_EXECUTION for it in numbers[:2]))
        yield from [3] * (is_there and self.wrong_number(on, numbers[2]))
        yield from [4] * (is_there and self.taken(on, numbers[2], None))
        yield from [5] * (numbers[0] > numbers[1]) + [7] * bool(self.task(name) or self.source(name))

    def take(self, verb, *words):
        """Makes an edit, or tells the first rule that it breaks."""
        if rule := min(self.broken(verb, *words), default=0):
            return rule
        task, numbers = self.task(words[0]), [int(it) for it in words if it.isdigit()]
        if verb == "exec":
            task["best"], task["worst"] = numbers
        elif verb in ("priority", "slot"):
            task[verb] = numbers[0]
        elif verb == "swap":
            other = self.task(words[1])
            task["priority"], other["priority"] = other["priority"], task["priority"]
        elif verb == "offset":
            self.source(words[0])["offset"] = numbers[0]
        elif verb == "source":
            self.source(words[0]).update(zip(("period", "jitter", "distance"), numbers))
        elif verb == "remove":
            self.system["task"].remove(task)
        else:
            best, worst, number = numbers
            made = {"name": words[0], "on": words[1], "after": [words[2]], "best": best, "worst": worst, "region": 1}
            self.system["task"].append(made | {"priority": number, "slot": number})
        return 0
