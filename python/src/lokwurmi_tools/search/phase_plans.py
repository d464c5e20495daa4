"""Plans of traces in which a busy window begins at the worst phase of the clocks of a task, for lokwurmi worst.

Where clocks stand, as the bound of a task has it, says of each of their streams when its next event comes as late as it
can. The event that then comes first is late enough to come as the window begins, where its jitter allows that."""
from dataclasses import dataclass, field

from lokwurmi.model.event_models import Bounds
from lokwurmi.model.view import SystemView
from lokwurmi_tools.bounds.bound_parts import BoundParts, LatestJob, Tired
from lokwurmi_tools.bounds.starts import Moments, phase_on
from lokwurmi_tools.search.trace_plans import FIRST, MOST_LOOKS, TracePlan, blocked, travel_of


@dataclass(frozen=True)
class PhasePlans:
    """Where clocks stand as the busy window begins in which the bound of a task is reached, and plans by that."""

    moments: Moments = field(default_factory=dict)
    plans: list[TracePlan] = field(default_factory=list)


def phase_plans(view: SystemView, target: str, bounds: Bounds) -> PhasePlans:
    """The plans for a task; none where its bound uses no clock, or is looked for too long."""
    if not view.clocks_at(target):
        return PhasePlans()
    parts = BoundParts(view, bounds)
    try:
        job = parts.latest(target, most=MOST_LOOKS)
    except Tired:
        return PhasePlans()
    if job is None or not job.moments:
        return PhasePlans()
    plans = [placed(parts, target, job, shift) for shift in (0, 1, -1)]
    lower = view.blockers(target)
    if lower:
        plans += [more for plan in plans for more in blocked(view, plan, bounds, target, lower)]
    moments = {clock: at % view.clock_cycle(clock) for clock, at in job.moments.items()}
    return PhasePlans(moments, plans)


def placed(parts: BoundParts, target: str, job: LatestJob, shift: int) -> TracePlan:
    """The plan in which the window begins at time 0: streams on clocks come by these, others so much before it."""
    view, plan = parts.view, TracePlan({})
    for name in (target, *view.rivals(target)):
        several = zip(view.ways_to(name), parts.inputs[name] or [], view.anchors_of(name))
        for (source, *way), stream, anchor in several:
            jitter, late = view.sources[source].jitter, view.sources[source].jitter
            if anchor is not None and anchor.clock in job.moments:
                # how late an event may come that comes on time by its least executions
                phase = phase_on(stream, anchor, job.moments)
                late = max(0, min(jitter, stream[1] - phase))
                start = phase - stream[1] - sum(view.tasks[it].best for it in way) + late
            else:
                start = -travel_of(view, parts.bounds, way, "worst") - (shift if name != target else 0)
            if start < plan.start.get(source, start + 1):
                plan.start[source], plan.late[source] = start, (FIRST, late)
    return plan
