"""Systems of format 4 that are larger than those of formats 1 and 2 may be, and the files that have them.

Frames have 8 bytes on buses of 500 kbit/s, a tick is 1 us, periods spread evenly by their logarithm over three powers
of ten, and shorter ones have the higher priority. Windows end at the greatest limit.
"""
import random

LIMIT = 100_000_000
# bits of a frame of 8 bytes at most, at two ticks a bit
FRAME = 2 * (55 + 10 * 8)


def periods(seed, costs, load):
    """Periods, spread over three powers of ten, under which tasks with these costs have so much load in all."""
    draw = random.Random(seed)
    found = [10 ** draw.uniform(0, 3) for _ in costs]
    scale = sum(cost / period for cost, period in zip(costs, found)) / load
    return [max(1, round(scale * period)) for period in found]


def ranked(times):
    """The place of each by its period, from the shortest."""
    places = sorted(range(len(times)), key=lambda k: times[k])
    return {k: place for place, k in enumerate(places)}


def document(resources, sources, tasks, paths=()):
    """A system file of these lines."""
    parts = [("resource", resources), ("source", sources), ("task", tasks), ("path", paths)]
    return "format = 4\n" + "".join(
        f"{name} = [\n" + "".join(f"  {it},\n" for it in rows) + "]\n" for name, rows in parts
    )


def bus(name):
    return f'{{ name = "{name}", kind = "can", bit = 2, limit = {LIMIT} }}'


def processor(name):
    return f'{{ name = "{name}", kind = "preemptive", limit = {LIMIT} }}'


def source(k, period):
    return f'{{ name = "s{k}", period = {period}, jitter = {period // 10} }}'


def frame(k, on, after, priority):
    return f'{{ name = "f{k}", on = "{on}", after = "{after}", payload = 8, priority = {priority} }}'


def runs(name, on, after, worst, priority):
    times = f"best = {worst // 2}, worst = {worst}"
    return f'{{ name = "{name}", on = "{on}", after = "{after}", {times}, priority = {priority} }}'


def one_bus(count, load=0.55):
    """Frames on one bus."""
    times = periods(count, [FRAME] * count, load)
    ranks = ranked(times)
    return document(
        [bus("b")],
        [source(k, times[k]) for k in range(count)],
        [frame(k, "b", f"s{k}", ranks[k]) for k in range(count)],
    )


def one_processor(count):
    """Tasks on one processor."""
    draw = random.Random(count)
    costs = [draw.randrange(10, 500) for _ in range(count)]
    times = periods(count, costs, 0.55)
    ranks = ranked(times)
    tasks = [runs(f"t{k}", "p", f"s{k}", costs[k], ranks[k]) for k in range(count)]
    return document([processor("p")], [source(k, times[k]) for k in range(count)], tasks)


def with_locks(count):
    """Tasks on 16 processors under priority ceilings; each takes up to three of the 40 locks of its processor."""
    draw = random.Random(f"locks {count}")
    costs = [draw.randrange(10, 500) for _ in range(count)]
    times = periods(count, costs, 0.55 * 16)
    ranks = ranked(times)
    tasks = []
    for k, cost in enumerate(costs):
        # one section after the other, from a part of the job each
        parts = sorted(draw.sample(range(cost), 2 * min(draw.randrange(4), cost // 2)))
        spans = zip(parts[::2], parts[1::2])
        locks = [f'{{ name = "p{k % 16}.{draw.randrange(40)}", start = {a}, length = {b - a} }}' for a, b in spans]
        told = runs(f"t{k}", f"p{k % 16}", f"s{k}", cost, ranks[k])
        tasks.append(told.replace(" }", f", locks = [{', '.join(locks)}] }}"))
    resources = [f'{{ name = "p{k}", kind = "ceiling", limit = {LIMIT} }}' for k in range(16)]
    return document(resources, [source(k, times[k]) for k in range(count)], tasks)


def buses(count):
    """Frames on 10 buses, with a task before each: on a processor, or on a gateway that has it from another bus."""
    sent = count - count // 3
    own = periods(count, [FRAME] * sent, 5.5 * sent / count)
    # a frame of the gateway has the period of that which it passes on
    times = own + [own[k] for k in range(count - sent)]
    ranks = ranked(times)
    placed = [k % 10 for k in range(sent)] + [(k + 3) % 10 for k in range(count - sent)]
    tasks = []
    for k in range(count):
        first = k < sent
        on, after = (f"p{k % 40}", f"s{k}") if first else ("gateway", f"f{k - sent}")
        tasks.append(runs(f"t{k}", on, after, 100 if first else 20, ranks[k]))
        tasks.append(frame(k, f"b{placed[k]}", f"t{k}", ranks[k]))
    resources = [bus(f"b{b}") for b in range(10)] + [processor(f"p{p}") for p in range(40)] + [processor("gateway")]
    paths = [
        f'{{ name = "w{k}", tasks = ["t{k - sent}", "f{k - sent}", "t{k}", "f{k}"], deadline = 1000000000 }}'
        for k in range(sent, count)
    ]
    return document(resources, [source(k, own[k]) for k in range(sent)], tasks, paths)


def queueing(load=0.7):
    """1,000 frames on 16 ports of 100 Mbit/s, where a tick is 1 us; every second one goes on to the next port."""
    count, draw = 1000, random.Random("queues 1000")
    sizes = [draw.randrange(46, 1501) for _ in range(count)]
    ticks = [-(-8 * (38 + size) // 100) for size in sizes]
    # a frame that goes on has the period of the one before it
    times = periods(count, [sum(ticks[k : k + 2]) for k in range(0, count, 2)], load * 16)
    tasks = [
        f'{{ name = "t{k}", on = "r{k % 16}", after = "{f"t{k - 1}" if k % 2 else f"s{k}"}", payload = {size} }}'
        for k, size in enumerate(sizes)
    ]
    sources = [source(k, times[k // 2]) for k in range(0, count, 2)]
    resources = [f'{{ name = "r{k}", kind = "fifo", rate = 100, limit = {LIMIT} }}' for k in range(16)]
    return document(resources, sources, tasks)


def taking_turns(count: int, kind: str) -> str:
    """Tasks that take turns on 16 resources of a kind; every second one starts the next, which is on another resource.
    A job comes less often than its task has all the turns that it wants."""
    draw = random.Random(f"{kind} {count}")
    costs = [draw.randrange(10, 500) for _ in range(count)]
    slots = [draw.randrange(10, 500) for _ in range(count)]
    cycles = [sum(slots[k::16]) for k in range(16)]
    times = [-(-cost // slots[k]) * cycles[k % 16] for k, cost in enumerate(costs)]
    tasks, sources = [], []
    for k, cost in enumerate(costs):
        after = f"t{k - 1}" if k % 2 else f"s{k}"
        turn = f"best = {cost // 2}, worst = {cost}, slot = {slots[k]}"
        tasks.append(f'{{ name = "t{k}", on = "r{k % 16}", after = "{after}", {turn} }}')
    for k in range(0, count, 2):
        sources.append(source(k, round(max(times[k : k + 2]) * draw.uniform(1.1, 3))))
    resources = [f'{{ name = "r{k}", kind = "{kind}", limit = {LIMIT} }}' for k in range(16)]
    return document(resources, sources, tasks)
