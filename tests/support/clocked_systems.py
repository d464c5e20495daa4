"""Random systems whose sources are on clocks, and traces that come by them."""
from tests.rules.clocks import clocks_of
from tests.support.systems import (
    draw_ceilings,
    draw_priorities,
    draw_regions,
    some_phases,
    some_resources,
    some_tasks,
    with_limits,
)

# of what the periods of a clock are multiples
MULTIPLES = ((1,), (1, 2), (1, 2, 4), (1, 3), (2, 3), (1, 2, 3))
KINDS = ("preemptive", "can", "preemptive", "can", "preemptive", "can", "round-robin", "tdma", "fifo")


def sources_on_clocks(draw):
    """Two to five sources, most of them on one to three clocks, of which each has periods of its own."""
    clocks = {f"c{k}": (draw.choice((6, 8, 10, 12)), draw.choice(MULTIPLES)) for k in range(draw.choice((1, 1, 2, 3)))}
    sources = []
    for k in range(draw.randint(2, 5)):
        clock = draw.choice(list(clocks)) if draw.random() < 0.85 else None
        base, several = clocks[clock] if clock else (draw.randint(4, 24), (1,))
        period = base * draw.choice(several)
        jitter = draw.choice((0, 0, 0, draw.randint(0, 3), draw.randint(0, period)))
        distance = draw.choice((0, 0, draw.randint(0, period)))
        sources.append({"name": f"s{k}", "period": period, "jitter": jitter, "distance": distance})
        if clock:
            sources[-1] |= {"clock": clock, "offset": draw.choice((0, draw.randrange(period), draw.randrange(period)))}
    return sources


def system_on_clocks(draw, kinds=KINDS):
    """A small system, with chains and several activators, of which some come back to a resource."""
    resources, sources = some_resources(draw, 3, kinds, 2), sources_on_clocks(draw)
    tasks = some_tasks(draw, resources, sources * 2, draw.randint(2, 7), (1, 1, 1, 1, 1, 2), (1, 1, 2, 2, 3))
    draw_priorities(draw, tasks)
    draw_regions(draw, tasks)
    draw_ceilings(resources, tasks)
    return with_limits(draw, resources, sources, tasks)


def without_clocks(system):
    """The same system, of which nothing is known of its clocks."""
    sources = [{key: value for key, value in it.items() if key not in ("clock", "offset")} for it in system["source"]]
    return system | {"source": sources}


def how_late(draw, moment):
    """How late each event comes, by where the interval begins in which it may: on time, as late as can be, at any time,
    or, for the worst of all, as late as can be up to a moment and on time from it on."""
    way = draw.randrange(5)

    def late(begin, jitter):
        if way < 3:
            return (0, jitter, draw.randint(0, jitter))[way]
        return min(max(moment - begin, 0), jitter)

    return late


def times_on_clock(draw, source, lead, late):
    """The times of some events of a source whose clock has run for so long at time 0; how many came before is drawn."""
    period, jitter, offset = source["period"], source["jitter"], source.get("offset", 0)
    first = max(0, -((offset + jitter - lead) // period)) + draw.choice((0, 0, 0, draw.randint(0, 3)))
    times = []
    for n in range(first, first + draw.choice((0, 1, 4, 8, 12))):
        begin = offset + n * period - lead
        least = max(0, begin, times[-1] + source["distance"] if times else 0)
        times.append(max(least, begin + late(begin, jitter)))
    return times


def trace_on_clocks(draw, system):
    """A trace that obeys: its clocks have run for any time when it begins."""
    cycles = clocks_of(system["source"])
    moment, leads = draw.randint(0, 40), {clock: draw.randrange(2 * cycle) for clock, cycle in cycles.items()}
    late = how_late(draw, moment)
    events = {}
    for it in system["source"]:
        lead = leads[it["clock"]] if "clock" in it else draw.randrange(2 * it["period"])
        events[it["name"]] = times_on_clock(draw, it, lead, late)
    executions = {}
    for it in system["task"]:
        way = draw.randrange(3)
        executions[it["name"]] = [
            (it["worst"], it["best"], draw.randint(it["best"], it["worst"]))[way] for _ in range(60)
        ]
    return events, executions, some_phases(draw, system)
