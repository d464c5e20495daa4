"""Generated systems and traces, by the generator that docs/FILES.md describes, written down plainly."""
from tests.rules.bounds import execution_of

LAST = 2**64 - 1


class Generator:
    """PCG32 (XSH RR 64/32) of a seed and a stream."""

    def __init__(self, seed, stream):
        self.step = (stream << 1 | 1) & LAST
        self.state = (seed + self.step) & LAST
        self.move()

    def move(self):
        self.state = (self.state * 6364136223846793005 + self.step) & LAST

    def draw(self, below):
        state = self.state
        self.move()
        word, turn = ((state >> 18 ^ state) >> 27) & 0xFFFFFFFF, state >> 59
        return ((word >> turn | word << (-turn & 31)) & 0xFFFFFFFF) % below


def generated_tasks(numbers, k, processors, buses):
    """The source, the three tasks and the path of a generated chain."""
    period = (10000, 20000, 50000, 100000)[numbers.draw(4)]
    jitter, first, payload, last = (
        numbers.draw(1000),
        numbers.draw(400) + 100,
        numbers.draw(9),
        numbers.draw(400) + 100,
    )
    processor = numbers.draw(processors)
    names = [f"t{k}a", f"t{k}f", f"t{k}b"]
    resources = (f"p{k % processors}", f"b{k % buses}", f"p{processor}")
    lengths = ((first // 2, first), ((47 + 8 * payload) * 2, (55 + 10 * payload) * 2), (last // 2, last))
    tasks = [
        {"name": name, "on": on, "after": after, "best": best, "worst": worst, "priority": priority}
        for name, on, after, (best, worst), priority in zip(
            names, resources, [f"s{k}", *names], lengths, (2 * k, k, 2 * k + 1)
        )
    ]
    source = {"name": f"s{k}", "period": period, "jitter": jitter, "distance": 0}
    return source, tasks, {"name": f"c{k}", "tasks": names, "deadline": period}


def generated_system(number, size):
    numbers = Generator(number, 54)
    processors, buses = -(-size // 4), -(-size // 8)
    resources = [{"name": f"p{k}", "kind": "preemptive", "limit": 1000000} for k in range(processors)]
    resources += [{"name": f"b{k}", "kind": "can", "limit": 1000000, "bit": 2} for k in range(buses)]
    sources, tasks, paths = [], [], []
    for k in range(size):
        source, chain, path = generated_tasks(numbers, k, processors, buses)
        sources.append(source)
        tasks += chain
        paths.append(path)
    return {"format": 1, "resource": resources, "source": sources, "task": tasks, "path": paths}


def drawn_moment(sources, numbers, place):
    """Up to when events are as late as may be, where this place has such a moment."""
    if place % 4 != 2 or not any("clock" in it for it in sources):
        return None
    source, event = sources[numbers.draw(len(sources))], numbers.draw(10)
    return source.get("offset", 0) + event * source["period"] + source.get("jitter", 0)


def generated_trace(system, number, place):
    """The rows of the generated trace at this place."""
    numbers, is_drawn = Generator(number, place), place % 2 == 1
    rows, events = [], {}
    moment = drawn_moment(system["source"], numbers, place)
    for source in system["source"]:
        period, jitter, distance = source["period"], source.get("jitter", 0), source.get("distance", 0)
        times = []
        for m in range(100):
            begin = source.get("offset", 0) + m * period
            if begin + jitter > 10000000:
                break
            if is_drawn:
                late = numbers.draw(jitter + 1)
            elif moment is None:
                late = jitter if m == 0 else 0
            else:
                late = min(jitter, max(0, moment - begin))
            times.append(max(begin + late, times[-1] + distance if times else 0))
        events[source["name"]] = times
        rows += [f"event,{source['name']},{time}" for time in times]
    tasks = {it["name"]: it for it in system["task"]}
    resources = {it["name"]: it for it in system["resource"]}

    def first_events(task):
        several = [task["after"]] if isinstance(task["after"], str) else task["after"]
        return [
            time for after in several for time in (events[after] if after in events else first_events(tasks[after]))
        ]

    for task in tasks.values() if is_drawn else ():
        best, worst = execution_of(task, resources[task["on"]])
        rows += [f"exec,{task['name']},{best + numbers.draw(worst - best + 1)}" for _ in first_events(task)]
    for resource in resources.values() if is_drawn else ():
        slots = [it["slot"] for it in tasks.values() if it["on"] == resource["name"] and resource["kind"] == "tdma"]
        if slots:
            rows.append(f"phase,{resource['name']},{numbers.draw(sum(slots) + resource.get('gap', 0))}")
    return "".join(row + "\n" for row in rows)
