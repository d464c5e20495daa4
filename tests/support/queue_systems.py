"""Random systems with queues, and what is written of them."""
from tests.support.systems import draw_priorities, draw_regions, draw_sporadic, some_resources, some_tasks, with_limits

# queues alone, or beside other kinds
ALONE, BESIDE = ("fifo",), ("fifo", "fifo", "fifo", "preemptive", "can", "round-robin", "tdma")


def some_sources(draw, count):
    """Sources of which some have jitters of several periods, so that jobs come in bursts."""
    sources = []
    for k in range(count):
        period = draw.randint(5, 30)
        jitter = draw.choice((0, 0, draw.randint(0, 5), draw.randint(0, 3 * period)))
        sources.append({"name": f"s{k}", "period": period, "jitter": jitter})
        sources[-1]["distance"] = draw.choice((0, 0, 1, draw.randint(0, period)))
    return sources


def system_with_queues(draw):
    """A small system with a queue at least: chains that come back to a resource, and several activators."""
    resources = some_resources(draw, 3, draw.choice((ALONE, BESIDE)), 2)
    resources[0] |= {"kind": "fifo", "gap": 0}
    sources = some_sources(draw, draw.randint(1, 4))
    tasks = some_tasks(draw, resources, sources * 2, draw.randint(1, 7), (1, 1, 1, 1, 2, 3), (1, 1, 2, 3, 5))
    draw_priorities(draw, tasks)
    draw_regions(draw, tasks)
    draw_sporadic(draw, sources)
    return with_limits(draw, resources, sources, tasks)


def some_edit(draw, system):
    """An edit, most often of a task that is there."""
    names = [it["name"] for it in system["task"]] + draw.choice(([], [], ["zz", "s0"]))
    sources = [it["name"] for it in system["source"]]
    name, other, new = draw.choice(names or ["zz"]), draw.choice(names or ["zz"]), draw.choice(("n1", "n2", "t0"))
    best, worst, number = draw.choice((0, 1, 1, 2, 3)), draw.choice((1, 2, 3)), draw.choice((0, 0, 1, 2, 5))
    after, on = draw.choice(names + sources), draw.choice(system["resource"])["name"]
    return draw.choice(
        (
            ["exec", name, best, worst],
            ["priority", name, number],
            ["slot", name, number],
            ["swap", name, other],
            ["source", draw.choice(sources), draw.randint(8, 40), draw.randint(0, 20), draw.choice((0, 0, 5, 50))],
            ["add", new, on, after, best, worst, number],
            ["add", new, on, after, 1, worst, number],
            ["add", new, on, after, 1, worst, 0],
            ["remove", draw.choice((name, "n1", "n2"))],
        )
    )
