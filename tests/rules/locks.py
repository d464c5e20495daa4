"""Locks under immediate priority ceilings, by the rules of docs/DEFINITIONS.md, followed plainly.

A critical section is told by its lock, and by the ticks of its job after which it begins and is over. Times are ticks.
"""


def sections_of(task):
    """The critical sections of a task: the lock, the ticks after which it begins, and those after which it's over."""
    return [(it["name"], it["start"], it["start"] + it["length"]) for it in task.get("locks", [])]


def ceilings_of(tasks):
    """The ceiling of each lock: the smallest priority number among its users."""
    users = {}
    for task in tasks:
        for lock, _, _ in sections_of(task):
            users.setdefault(lock, []).append(task["priority"])
    return {lock: min(several) for lock, several in users.items()}


def held_by(task, had):
    """The locks that a job of a task holds once it has had so many ticks: at least one of a section, and not all."""
    return [lock for lock, begin, end in sections_of(task) if begin < had < end]


def is_in_region(task, had):
    """Whether a job that has had so many ticks is within a region."""
    return had % task.get("region", 1) > 0


def active_priority(task, had, ceilings):
    """The priority of a job that has had so many ticks: its task's, or a ceiling of a lock that it holds, or the most
    urgent of all within a region, if that is smaller."""
    several = [task["priority"], *(ceilings[lock] for lock in held_by(task, had))]
    return min(several + [0] * is_in_region(task, had))


def blocking(task, lower, ceilings):
    """By how long one of the lower tasks may keep a task waiting: by what is left of its region, or of its section with
    a ceiling that is at least as urgent, once the first tick of it has gone by."""
    longest = 0
    for other in lower:
        parts = [other.get("region", 1)]
        parts += [end - begin for lock, begin, end in sections_of(other) if ceilings[lock] <= task["priority"]]
        longest = max([longest, *(min(part, other["worst"]) - 1 for part in parts)])
    return longest
