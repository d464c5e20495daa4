"""What tools work out of queues, beside the plain rules: what bounds are made of, and traces that come near them."""
import random
import unittest
from collections.abc import Iterator
from typing import Any

from made import Bounded, with_bounds

from lokwurmi_tools.bounds.bound_parts import BoundParts
from lokwurmi_tools.bounds.bound_texts import place_of, turn_of
from lokwurmi_tools.search.trace_plans import events_of, known_plans
from lokwurmi_tools.shared.times import Scale
from tests.rules.bounds import OVERLOAD, most_events
from tests.rules.runs import Run

SYSTEMS = 60


def system_of_queues(draw: random.Random) -> dict[str, Any]:
    """Tasks on one or two queues, some after others, some after two."""
    queues = [f"q{k}" for k in range(draw.randint(1, 2))]
    sources = []
    for k in range(draw.randint(1, 4)):
        period, jitter = draw.choice([10, 15, 20, 30, 50]), draw.choice([0, 0, 3, 25])
        sources.append({"name": f"s{k}", "period": period, "jitter": jitter, "distance": draw.choice([0, 0, 2, 3])})
    tasks: list[dict[str, Any]] = []
    for k in range(draw.randint(1, 6)):
        after = [draw.choice([it["name"] for it in [*sources, *tasks]])]
        if draw.random() < 0.2:
            after = list(dict.fromkeys([*after, draw.choice(sources)["name"]]))
        worst = draw.randint(1, 6)
        best = draw.randint(1, worst)
        tasks.append({"name": f"t{k}", "on": draw.choice(queues), "after": after, "best": best, "worst": worst})
    resources = [{"name": it, "kind": "fifo", "limit": 500} for it in queues]
    return {"format": 4, "resource": resources, "source": sources, "task": tasks, "path": []}


def systems() -> Iterator[Bounded]:
    """Random systems with their bounds by the rules."""
    return map(with_bounds, (system_of_queues(random.Random(f"queues {number}")) for number in range(SYSTEMS)))


class Tools(unittest.TestCase):
    def test_parts(self) -> None:
        """The parts of a bound come to it, and are the jobs of the first window that leaves so much."""
        for _, rules, view, bounds in systems():
            parts, given = BoundParts(view, bounds), {name: it or OVERLOAD for name, it in bounds.items()}
            for name, bound in bounds.items():
                job = parts.latest(name)
                self.assertEqual(job and job.response, bound, name)
                if not job or job.window is None:
                    self.assertIsNone(bound)
                    continue
                self.assertEqual((sum(it.ticks for it in job.parts), job.came), (job.done, job.window - 1))
                counts = {it.of: it.count for it in job.parts}
                several = view.on(view.tasks[name].on)
                wanted = {it: most_events(rules.input_of(it, given), job.window) for it in several}
                self.assertEqual(counts, wanted)
                left = [rules.work(several, given, window) - (window - 1) for window in range(1, job.window)]
                self.assertTrue(all(it < job.response for it in left), name)

    def test_plans(self) -> None:
        """Where sources start all tasks of a queue, a known plan brings the bound, or all but a job that comes at the
        same time."""
        tried = 0
        for system, _, view, bounds in systems():
            sources = [view.tasks[it].after for it in view.tasks]
            free = len({it for several in sources for it in several}) == sum(map(len, sources))
            if not free or any(it in view.tasks for several in sources for it in several) or None in bounds.values():
                continue
            tried += 1
            if tried > 6:
                break
            for target, bound in bounds.items():
                seen = 0
                for plan in known_plans(view, target, bounds):
                    events = events_of(view, plan, 200)
                    run = Run(
                        system, ({it: events.get(it, []) for it in view.sources}, {it: [] for it in view.tasks}, {})
                    )
                    seen = max([seen, *(job["end"] - job["arrival"] for job in run.jobs[target])])
                self.assertLessEqual(seen, bound or 0)
                self.assertGreaterEqual(seen, (bound or 0) - 1, (target, system))
        self.assertEqual(tried, 7)

    def test_words(self) -> None:
        """What is said of who goes first."""
        for told, wanted in (
            ({"kind": "fifo"}, "fifo"),
            ({"kind": "can", "priority": 0}, "can, priority 0"),
            ({"kind": "tdma", "slot": 5}, "tdma, slot 5"),
        ):
            self.assertEqual(turn_of(told), wanted)
        job = {"number": 2, "of": 4, "came": 20, "done": 33, "window": 21}
        text = place_of(job, Scale())
        self.assertIn("in the last tick of a window of 21, behind all that come up to then (ties against it)", text)
        self.assertIn("as the window begins", place_of(job | {"came": 0, "window": 1}, Scale()))


if __name__ == "__main__":
    unittest.main()
