"""Random systems and traces, and the files that have them."""
import random
import tomllib

from tests.rules.runs import least_apart

IN_EACH_FORMAT = ("preemptive", "round-robin", "tdma", "can")
KINDS = (*IN_EACH_FORMAT, "fifo")


def some_region(pick, worst):
    """A region for a task: a tick, some ticks, or as long as any of its jobs, or longer."""
    return pick.choice([1, 2, 3, pick.randint(1, worst), worst, worst + 3, 1_000_000])


def resource_lines(pick, count, kinds):
    """Resources of some kinds in lines of a file, and the kind of each."""
    lines, drawn = [], []
    for r in range(count):
        kind = pick.choice(kinds)
        drawn.append(kind)
        extra = {"tdma": f", gap = {pick.randint(0, 20)}", "can": f", bit = {pick.randint(1, 4)}"}.get(kind, "")
        extra = f", rate = {pick.choice([336, 500, 671, 672])}" if kind == "fifo" else extra
        lines.append(
            f'[[resource]]\nname = "r{r}"\nkind = "{kind}"\n'
            f'limit = {pick.choice([60, 300, 2000, 20000])}{extra.replace(", ", chr(10))}'
        )
    return lines, drawn


def with_ceilings(pick, lines, kinds):
    """Gives every other preemptive resource priority ceilings."""
    chosen = [kind == "preemptive" and pick.random() < 0.5 for kind in kinds]
    lines = [it.replace('"preemptive"', '"ceiling"') if here else it for it, here in zip(lines, chosen)]
    return lines, ["ceiling" if here else kind for kind, here in zip(kinds, chosen)]


def crosses(one, other):
    """Whether the second of two sections begins within the first, and ends behind it."""
    start, end = one["start"], one["start"] + one["length"]
    return start < other["start"] < end < other["start"] + other["length"]


def some_locks(draw, on, worst, names=("a", "b", "c")):
    """Sections of a task that nest or are apart; some begin where its jobs are done, or go on from there."""
    found = []
    for _ in range(draw.choice((0, 1, 1, 2, 2, 3, 5))):
        start = draw.choice((0, draw.randint(0, worst), draw.randint(0, worst + 1)))
        length = draw.choice((1, 2, draw.randint(1, worst), worst, worst + 2))
        one = {"name": f"{on}_{draw.choice(names)}", "start": start, "length": length}
        if not any(crosses(it, one) or crosses(one, it) for it in found):
            found.append(one)
    return found


def lock_lines(pick, on, worst):
    """The sections of a task, or its region, in lines of a file."""
    if pick.random() < 0.2:
        return f"\nregion = {some_region(pick, worst)}"
    locks = some_locks(pick, on, worst)
    return f"\nlocks = {quoted_locks(locks)}" if locks else ""


def source_lines(pick, tasks, silent):
    """Three sources in lines of a file, the slower the more tasks there are; `silent` draws which are sporadic."""
    for s in range(3):
        period = pick.randint(10, 400) * (1 + tasks // 6)
        line = (
            f'[[source]]\nname = "s{s}"\nperiod = {period}\n'
            f"jitter = {pick.choice([0, 0, period // 3, 3 * period])}\ndistance = {pick.choice([0, 0, period // 4])}"
        )
        if silent and silent.random() < 0.4:
            line += f"\nsporadic = {silent.choice(('true', 'true', 'false'))}"
        yield line


def path_lines(pick, tasks):
    """Paths of two tasks in lines of a file, of which some have a deadline."""
    for task in tasks:
        after = [task["after"]] if isinstance(task["after"], str) else task["after"]
        earlier = [it for it in after if it.startswith("t")]
        if earlier and pick.random() < 0.4:
            first, second = pick.choice(earlier)[1:], task["name"][1:]
            deadline = pick.choice(["", f"\ndeadline = {pick.randint(1, 300)}"])
            yield f'[[path]]\nname = "p{second}"\ntasks = ["t{first}", "t{second}"]{deadline}'


def execution_lines(pick, kind, task):
    """The execution of a task on a resource of a kind in lines of a file, and its turn, where it has one; half of those
    on queues are frames."""
    worst, turn = pick.randint(1, 30), ""
    if kind == "fifo" and pick.random() < 0.5:
        return f"payload = {pick.choice([0, 46, 47, pick.randint(0, 1500), 1500])}"
    if kind in ("round-robin", "tdma"):
        turn = f"\nslot = {pick.randint(1, 20)}"
    elif kind != "fifo":
        turn = f"\npriority = {pick.randint(0, 9) * 100 + task}"
    return f"best = {pick.randint(1, worst)}\nworst = {worst}{turn}"


def random_file(number):
    """A random system: its size grows with the number. In two of four tasks on preemptive resources have regions,
    sources are sporadic, and resources may be queues, or have priority ceilings."""
    pick, regions = random.Random(number), random.Random(f"regions of {number}")
    has_regions, locks = number // 2 % 2 == 1, random.Random(f"locks of {number}")
    silent = random.Random(f"sporadic sources of {number}") if has_regions else None
    resources, tasks = pick.randint(1, 2 + number % 7), pick.randint(1, 3 + number % 25)
    lines, chains, streams = [f"format = {4 if has_regions else 1 + number % 2}"], [], []
    of_resources, on_kind = resource_lines(pick, resources, KINDS if has_regions else IN_EACH_FORMAT)
    if has_regions:
        of_resources, on_kind = with_ceilings(locks, of_resources, on_kind)
    lines += [*of_resources, *source_lines(pick, tasks, silent)]
    for t in range(tasks):
        r = pick.randrange(resources)
        after = [
            pick.randrange(t) if t and pick.random() < 0.6 else -1 - pick.randrange(3)
            for _ in range(pick.choice((1, 1, 2, 3)) if number % 2 else 1)
        ]
        after = list(dict.fromkeys(after))
        depth = 1 + max(chains[k] if k >= 0 else 0 for k in after)
        several = sum(streams[k] if k >= 0 else 1 for k in after)
        if depth > 32 or several > 32:
            after, depth, several = [-1], 1, 1
        chains.append(depth)
        streams.append(several)
        names = [f'"s{-1 - k}"' if k < 0 else f'"t{k}"' for k in after]
        name = names[0] if len(names) == 1 else "[" + ", ".join(names) + "]"
        told = execution_lines(pick, on_kind[r], t)
        lines.append(f'[[task]]\nname = "t{t}"\non = "r{r}"\nafter = {name}\n{told}')
        if has_regions and on_kind[r] == "preemptive" and regions.random() < 0.8:
            worst = tomllib.loads(told)["worst"]
            lines[-1] += f"\nregion = {some_region(regions, worst)}"
        if on_kind[r] == "ceiling":
            lines[-1] += lock_lines(locks, f"r{r}", tomllib.loads(told)["worst"])
    lines += path_lines(pick, tomllib.loads("\n".join(lines))["task"])
    return "\n".join(lines) + "\n"


def some_resources(draw, most, kinds, gap):
    """Resources of some kinds; one of TDMA has a gap up to this."""
    resources = [{"name": f"r{k}", "kind": draw.choice(kinds)} for k in range(draw.randint(1, most))]
    for it in resources:
        it["gap"] = draw.randint(0, gap) if it["kind"] == "tdma" else 0
    return resources


def draw_priorities(draw, tasks):
    """Gives each task a priority of its own."""
    order = list(range(len(tasks)))
    draw.shuffle(order)
    for task, priority in zip(tasks, order):
        task["priority"] = priority


def draw_regions(draw, tasks):
    """Gives tasks regions in every other system, which count on preemptive resources alone."""
    has_regions = draw.random() < 0.5
    for task in tasks:
        task["region"] = some_region(draw, task["worst"]) if has_regions else 1


def draw_ceilings(resources, tasks):
    """Gives every other preemptive resource priority ceilings, and its tasks sections, or the regions that they have,
    by numbers that are drawn apart."""
    apart = random.Random(repr((resources, tasks)))
    chosen = [it for it in resources if it["kind"] == "preemptive" and apart.random() < 0.5]
    for it in chosen:
        it["kind"] = "ceiling"
    for task in tasks:
        if task["on"] in [it["name"] for it in chosen] and apart.random() < 0.8:
            task["locks"] = some_locks(apart, task["on"], task["worst"])
            task["region"] = 1 if task["locks"] else task["region"]


def draw_sporadic(draw, sources):
    """Lets sources be sporadic in one of three systems."""
    has_some = draw.random() < 1 / 3
    for it in sources:
        if has_some and draw.random() < 0.5:
            it["sporadic"] = True


def some_phases(draw, system):
    """Where each TDMA resource is in its cycle as a run begins."""
    phases = {}
    for it in system["resource"]:
        slots = [task["slot"] for task in system["task"] if task["on"] == it["name"]]
        if it["kind"] == "tdma":
            phases[it["name"]] = draw.randrange(sum(slots) + it["gap"]) if slots else 0
    return phases


def some_sources(draw):
    """One to three sources, half of which have no jitter or no distance."""
    sources = []
    for k in range(draw.randint(1, 3)):
        period = draw.randint(4, 40)
        jitter, distance = draw.choice((0, 0, draw.randint(0, 60))), draw.choice((0, draw.randint(0, period)))
        sources.append({"name": f"s{k}", "period": period, "jitter": jitter, "distance": distance})
    return sources


def some_tasks(draw, resources, sources, count, activators, executions):
    """So many tasks, each after so many of the sources and of the three tasks before it, with at most 32 streams."""
    tasks, streams = [], {it["name"]: 1 for it in sources}
    for k in range(count):
        on, several = draw.choice(resources), sources + tasks[-3:]
        after = [it["name"] for it in draw.sample(several, min(len(several), draw.choice(activators)))]
        after = list(dict.fromkeys(after))
        while sum(streams[name] for name in after) > 32:
            after.pop()
        after = after or [sources[0]["name"]]
        streams[f"t{k}"], worst = sum(streams[name] for name in after), draw.choice(executions)
        tasks.append({"name": f"t{k}", "on": on["name"], "after": after, "best": draw.randint(1, worst)})
        tasks[-1] |= {"worst": worst, "priority": k, "slot": draw.randint(1, 4)}
    return tasks


def with_paths(draw, resources, sources, tasks):
    """A system of these, with up to two paths."""
    paths = [path_of(draw, tasks, k) for k in range(draw.randint(0, 2))]
    return {"resource": resources, "source": sources, "task": tasks, "path": paths}


def with_limits(draw, resources, sources, tasks):
    """A system of these, with small limits of busy windows and up to two paths."""
    for it in resources:
        it["limit"] = draw.choice((40, 200, 2000))
    return with_paths(draw, resources, sources, tasks)


def random_system(draw):
    """A system: its resources, sources, tasks and paths; a task comes after sources and earlier tasks, mostly after
    one."""
    resources = some_resources(draw, 4, KINDS, 5)
    sources = some_sources(draw)
    tasks = some_tasks(draw, resources, sources, draw.randint(1, 8), (1, 1, 1, 2, 3), range(1, 10))
    draw_priorities(draw, tasks)
    draw_regions(draw, tasks)
    draw_sporadic(draw, sources)
    draw_ceilings(resources, tasks)
    return with_paths(draw, resources, sources, tasks)


def path_of(draw, tasks, place):
    """A path that ends at any task, each of which has the one before it among its activators."""
    names = {it["name"]: it for it in tasks}
    way = [draw.choice(tasks)["name"]]
    while draw.random() < 0.8:
        earlier = [name for name in names[way[0]]["after"] if name in names]
        if not earlier:
            break
        way.insert(0, draw.choice(earlier))
    return {"name": f"w{place}", "tasks": way}


def quoted(names):
    return "[" + ", ".join(f'"{name}"' for name in names) + "]"


def quoted_locks(locks):
    rows = (f'{{ name = "{it["name"]}", start = {it["start"]}, length = {it["length"]} }}' for it in locks)
    return "[" + ", ".join(rows) + "]"


def file_of(system):
    kinds = {it["name"]: it["kind"] for it in system["resource"]}
    has_region = {
        it["name"] for it in system["task"] if kinds[it["on"]] in ("preemptive", "ceiling") and it["region"] > 1
    }
    is_newest = any(it.get("sporadic") or it.get("clock") for it in system["source"])
    is_newest = is_newest or has_region or {"fifo", "ceiling"}.intersection(kinds.values())
    rows = [f"format = {4 if is_newest else 1 if all(len(it['after']) == 1 for it in system['task']) else 2}"]
    for it in system["resource"]:
        rows += ["[[resource]]", f"name = \"{it['name']}\"", f"kind = \"{it['kind']}\""]
        rows += [f"limit = {it.get('limit', 2000)}", *([f"gap = {it['gap']}"] if it["kind"] == "tdma" else [])]
    for it in system["source"]:
        rows += [
            "[[source]]",
            f"name = \"{it['name']}\"",
            *(f"{key} = {it[key]}" for key in ("period", "jitter", "distance")),
            *(["sporadic = true"] if it.get("sporadic") else []),
            *([f"clock = \"{it['clock']}\"", f"offset = {it['offset']}"] if it.get("clock") else []),
        ]
    for it in system["task"]:
        by_priority = ("preemptive", "can", "ceiling")
        turn = ["priority"] * (kinds[it["on"]] in by_priority) or ["slot"] * (kinds[it["on"]] != "fifo")
        rows += [
            "[[task]]",
            *(f'{key} = "{it[key]}"' for key in ("name", "on")),
            *(f"{key} = {it[key]}" for key in ("best", "worst", *turn, *(["region"] * (it["name"] in has_region)))),
        ]
        rows.append(f"after = {quoted(it['after'])}" if len(it["after"]) > 1 else f"after = \"{it['after'][0]}\"")
        rows += [f"locks = {quoted_locks(it['locks'])}"] if it.get("locks") else []
    for it in system["path"]:
        rows += ["[[path]]", f"name = \"{it['name']}\"", f"tasks = {quoted(it['tasks'])}"]
        rows += [f"deadline = {it['deadline']}"] if it.get("deadline") else []
    return "\n".join(rows) + "\n"


def random_trace(draw, system):
    """A trace that obeys: the times of each source, the executions of each task, the phase of each TDMA resource."""
    events = {}
    for it in system["source"]:
        times = []
        for _ in range(draw.randint(0, 9)):
            least = max((times[-count] + least_apart(it, count + 1) for count in range(1, len(times) + 1)), default=0)
            least = max(least, times[-1] if times else 0)
            times.append(least + draw.choice((0, 0, draw.randint(0, 30))))
        events[it["name"]] = times
    executions = {
        it["name"]: [draw.randint(it["best"], it["worst"]) for _ in range(draw.randint(0, 9))] for it in system["task"]
    }
    return events, executions, some_phases(draw, system)


def rows_of(trace):
    events, executions, phases = trace
    rows = [f"event,{name},{time}" for name, times in events.items() for time in times]
    rows += [f"exec,{name},{ticks}" for name, several in executions.items() for ticks in several]
    rows += [f"phase,{name},{ticks}" for name, ticks in phases.items()]
    return "".join(row + "\n" for row in rows)


def small_system(draw, kinds=KINDS):
    """A small system: few tasks, with little load, so that most bounds are numbers."""
    resources = some_resources(draw, 3, kinds, 2)
    sources = []
    for k in range(draw.randint(1, 4)):
        period = draw.randint(4, 24)
        jitter, distance = draw.choice((0, 0, draw.randint(0, 2 * period))), draw.choice((0, draw.randint(0, period)))
        sources.append({"name": f"s{k}", "period": period, "jitter": jitter, "distance": distance})
    tasks = some_tasks(draw, resources, sources * 2, draw.randint(1, 6), (1, 1, 1, 1, 2, 3), (1, 1, 2, 3, 5))
    draw_priorities(draw, tasks)
    draw_regions(draw, tasks)
    draw_sporadic(draw, sources)
    draw_ceilings(resources, tasks)
    return {"resource": resources, "source": sources, "task": tasks, "path": []}


def near_events(draw, source, span, mood):
    """The events of a source, of which any two are no farther apart than its period and jitter say, but where it is
    sporadic."""
    times = [draw.randint(0, source["period"])]
    while times[-1] < span:
        n = len(times)
        low = max(times[-1], *(times[m] + least_apart(source, n - m + 1) for m in range(n)))
        high = min(times[m] + (n - m) * source["period"] + source["jitter"] for m in range(n))
        assert low <= high
        times.append((low, high, draw.randint(low, high), draw.choice((low, high, draw.randint(low, high))))[mood])
    if source.get("sporadic"):
        # what is left of events that obey does too, however far apart
        share = draw.choice((0, 0.2, 0.6, 1))
        times = [it for it in times if draw.random() < share]
    return times[: draw.randint(0, 3)] if draw.random() < 0.1 else times


def near_trace(draw, system):
    """A trace that obeys, and whose sources stay near but for the sporadic ones."""
    span, mood = draw.randint(40, 160), draw.randrange(4)
    events = {it["name"]: near_events(draw, it, span, mood) for it in system["source"]}
    executions = {}
    for it in system["task"]:
        kind = draw.randrange(3)
        several = [(it["best"], it["worst"], draw.randint(it["best"], it["worst"]))[kind] for _ in range(60)]
        executions[it["name"]] = several
    return events, executions, some_phases(draw, system)


def chains_in(draw, tasks):
    """Some chains of a system: of any tasks, and along activators, some of these with a step aside."""
    names = list(tasks)
    chains = {tuple(draw.choice(names) for _ in range(draw.randint(1, 4))) for _ in range(4)}
    for name in names:
        way = [name]
        while len(way) < 4:
            earlier = [it for it in tasks[way[0]]["after"] if it in tasks]
            way.insert(0, draw.choice(names if draw.random() < 0.3 or not earlier else earlier))
            chains.add(tuple(way))
    return sorted(chains)
