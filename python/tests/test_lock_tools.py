"""What tools work out of locks, beside the plain rules: what bounds are made of, when locks are held, and traces that
come near bounds."""
import random
import unittest
from collections.abc import Iterator

from made import Bounded, with_bounds

from lokwurmi.files.documents import values_in
from lokwurmi.model.view import SystemView
from lokwurmi_tools.bounds.bound_parts import BoundParts
from lokwurmi_tools.bounds.bound_texts import note_of, waits_text
from lokwurmi_tools.runs.jobs_in_run import Held, held_in
from lokwurmi_tools.search.margin_question import longer_sections
from lokwurmi_tools.search.trace_plans import events_of, known_plans
from tests.rules import locks
from tests.rules.runs import Run
from tests.support.lock_systems import system_with_locks
from tests.support.systems import random_trace

SYSTEMS = 80
LOCKS = """format = 4
resource = [{ name = "cpu", kind = "ceiling" }]
source = [{ name = "s", period = 100 }]
task = [
  { name = "a", on = "cpu", after = "s", best = 1, worst = 3, priority = 1, locks = [
    { name = "x", start = 0, length = 1 },
  ] },
  { name = "b", on = "cpu", after = "s", best = 1, worst = 30, priority = 2, locks = [
    { name = "x", start = 2, length = 6 },
    { name = "y", start = 3, length = 2 },
    { name = "x", start = 10, length = 4 },
  ] },
]
"""


def systems() -> Iterator[Bounded]:
    """Random systems with their bounds by the rules."""
    return map(with_bounds, (system_with_locks(random.Random(f"lock tools {number}")) for number in range(SYSTEMS)))


class Tools(unittest.TestCase):
    def test_parts(self) -> None:
        """The parts of a bound come to it, and what blocks is the longest section, or region, that does."""
        for _, rules, view, bounds in systems():
            parts = BoundParts(view, bounds)
            for name, bound in bounds.items():
                job = parts.latest(name)
                self.assertEqual(job and job.response, bound, name)
                if not job or view.kind(name) != "ceiling":
                    continue
                task, mates = rules.tasks[name], [rules.tasks[it] for it in view.on(view.tasks[name].on)]
                lower = [it for it in mates if it["priority"] > task["priority"]]
                wanted = locks.blocking(task, lower, locks.ceilings_of(mates))
                found = [it for it in job.parts if it.kind == "blocking"]
                self.assertEqual([it.ticks for it in found], [wanted] if wanted else [])
                self.assertTrue(all(bool(it.lock) == (it.under == "section") for it in found))

    def test_held(self) -> None:
        """When jobs run within sections, beside the ticks of a run."""
        for system, _, view, _ in systems():
            trace = random_trace(random.Random(1), system)
            run = Run(system, trace)
            found = held_in(view, [tuple(it) for it in run.segments], trace)  # type: ignore[misc]
            for name, task in view.tasks.items():
                ticks = [time for who, start, end in run.segments if who == name for time in range(start, end)]
                needs, wanted = [job["had"] for job in run.jobs[name]], dict[str, set[int]]()
                for need in needs:
                    own, ticks = ticks[:need], ticks[need:]
                    for it in task.locks:
                        wanted.setdefault(it.name, set()).update(own[it.start : it.end])
                told: dict[str, set[int]] = {it.name: set() for it in task.locks}
                for it in found.get(name, []):
                    told[it.lock].update(range(it.start, it.end))
                self.assertEqual(told, {lock: wanted.get(lock, set()) for lock in told})
        view = SystemView.of(values_in(LOCKS))
        found = held_in(view, [("a", 0, 3), ("b", 3, 12)], ({"s": [0]}, {"b": [9]}, {}))
        self.assertEqual(found["a"], [Held(0, 1, "x", 0)])
        self.assertEqual(found["b"], [Held(5, 11, "x", 0), Held(6, 8, "y", 1)])

    def test_plans(self) -> None:
        """Where each task has a source of its own, a known plan brings the bound."""
        tried = reached = 0
        for system, _, view, bounds in systems():
            starts = [it.after for it in view.tasks.values()]
            free = len(set(starts)) == len(starts) and all(len(it) == 1 and it[0] in view.sources for it in starts)
            if not free or None in bounds.values():
                continue
            for target, bound in bounds.items():
                seen = 0
                for plan in known_plans(view, target, bounds) if view.kind(target) == "ceiling" else ():
                    events = events_of(view, plan, 200)
                    given = {it: events.get(it, []) for it in view.sources}
                    run = Run(system, (given, {it: [] for it in view.tasks}, dict.fromkeys(view.rings(), 0)))
                    seen = max([seen, *(job["end"] - job["arrival"] for job in run.jobs[target])])
                self.assertLessEqual(seen, bound or 0)
                tried += bool(seen)
                reached += seen == bound
        self.assertGreater(tried, 15)
        self.assertGreater(reached, tried * 3 // 4)

    def test_margins(self) -> None:
        """How much longer each section may be: up to what is around it, to the next, or to the end of its job."""
        found = longer_sections(SystemView.of(values_in(LOCKS)))
        self.assertEqual(found, {"b with x from 2": ("b", 0, 2), "b with x from 10": ("b", 2, 26)})
        one = LOCKS.replace('    { name = "x", start = 10, length = 4 },\n', "")
        self.assertEqual(longer_sections(SystemView.of(values_in(one))), {"b with x": ("b", 0, 24)})

    def test_words(self) -> None:
        """What is said of a section that blocks."""
        part = {"kind": "blocking", "of": "b", "under": "section", "lock": "x", "ticks": 5, "count": 1, "burst": 0}
        self.assertEqual(note_of(part), "the rest of a section of lower priority, with lock x")
        own = {"kind": "own", "of": "a", "under": "", "ticks": 3, "count": 1, "each": 3}
        told = {"execution": [1, 3], "job": {"came": 0}, "parts": [own, part]}
        self.assertEqual(waits_text(told), "own 3, waits for lock x of b 5")


if __name__ == "__main__":
    unittest.main()
