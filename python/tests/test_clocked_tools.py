"""What tools work out of systems with clocks, beside the plain rules: what bounds are made of, and traces that obey."""
import random
import unittest
from collections.abc import Iterator
from typing import Any

from lokwurmi.files.documents import values_in
from lokwurmi.model.view import SystemView
from lokwurmi_tools.bounds.bound_parts import BoundParts
from lokwurmi_tools.search.trace_plans import change, events_of, known_plans
from tests.rules.bounds import OVERLOAD, System
from tests.rules.clocks import first_off
from tests.rules.runs import least_apart
from tests.support.clocked_systems import system_on_clocks
from tests.support.systems import file_of

SYSTEMS = 25


def systems() -> Iterator[tuple[dict[str, Any], SystemView, dict[str, int | None]]]:
    """Random systems with their bounds by the rules."""
    for number in range(SYSTEMS):
        system = system_on_clocks(random.Random(f"tools {number}"))
        text = file_of(system)
        bounds = {name: None if it == OVERLOAD else it for name, it in System(text).least_solution().items()}
        yield system, SystemView.of(values_in(text)), bounds


class Tools(unittest.TestCase):
    def test_parts(self) -> None:
        """The parts of a bound come to it."""
        for _, view, bounds in systems():
            parts = BoundParts(view, bounds)
            for name, bound in bounds.items():
                job = parts.latest(name)
                self.assertEqual(job and job.response, bound, name)
                if job:
                    self.assertEqual(sum(it.ticks for it in job.parts), job.done)
                    self.assertGreaterEqual(min(it.burst for it in job.parts), 0)

    def test_plans(self) -> None:
        """Traces that may make a task late come by the clocks, also once they are changed."""
        for system, view, bounds in systems():
            draw, target = random.Random(0), next(iter(view.tasks))
            plans = known_plans(view, target, bounds)[:6]
            plans += [change(view, draw.choice(plans), draw, [*view.sources], [*view.tasks]) for _ in range(10)]
            for events in (events_of(view, it, 150) for it in plans):
                self.assertIsNone(first_off(system["source"], events))
                for it in system["source"]:
                    times = events.get(it["name"], [])
                    pairs = ((i, n) for n in range(len(times)) for i in range(n))
                    self.assertTrue(all(times[n] >= times[i] + least_apart(it, n - i + 1) for i, n in pairs))


if __name__ == "__main__":
    unittest.main()
