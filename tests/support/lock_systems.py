"""Random systems with locks under priority ceilings, and what is written of them."""
from tests.support.queue_systems import some_sources
from tests.support.systems import (
    draw_priorities,
    draw_sporadic,
    some_locks,
    some_region,
    some_resources,
    some_tasks,
    with_limits,
)

# ceilings alone, or beside other kinds
ALONE, BESIDE = ("ceiling",), ("ceiling", "ceiling", "ceiling", "preemptive", "fifo", "can", "round-robin", "tdma")


def draw_locks(draw, resources, tasks):
    """Gives tasks under ceilings sections, and a part of those that have none regions."""
    kinds, names = {it["name"]: it["kind"] for it in resources}, ("a", "b", "c")[: draw.randint(1, 3)]
    has_regions = draw.random() < 0.5
    for task in tasks:
        task["region"], task["locks"] = 1, []
        if kinds[task["on"]] == "ceiling":
            task["locks"] = some_locks(draw, task["on"], task["worst"], names)
        if has_regions and not task["locks"]:
            task["region"] = some_region(draw, task["worst"])


def system_with_locks(draw):
    """A small system with a resource under ceilings at least: chains that come back to it, and several activators."""
    resources = some_resources(draw, 3, draw.choice((ALONE, BESIDE)), 2)
    resources[0] |= {"kind": "ceiling", "gap": 0}
    sources = some_sources(draw, draw.randint(1, 4))
    scale = draw.choice((1, 2, 4))
    for it in sources:
        it |= {key: it[key] * scale for key in ("period", "jitter", "distance")}
    # some longer than those of other systems, so that several sections are in one
    tasks = some_tasks(draw, resources, sources * 2, draw.randint(1, 6), (1, 1, 1, 1, 2), (1, 2, 3, 4, 6, 9))
    draw_priorities(draw, tasks)
    draw_locks(draw, resources, tasks)
    draw_sporadic(draw, sources)
    return with_limits(draw, resources, sources, tasks)
