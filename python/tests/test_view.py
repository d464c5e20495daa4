"""Views of systems, and event models. Expected numbers are worked out by hand."""
import unittest
from fractions import Fraction
from typing import Any

from lokwurmi import Kind, RoundingWarning, System
from lokwurmi.model.event_models import first_windows, input_of, inputs_of, label_of, least_time, most_events
from lokwurmi.model.formats import least_format
from lokwurmi.model.view import PathRow, ResourceRow, SourceRow, SystemView, TaskRow


def task(name: str, on: str, after: Any, best: int, worst: int, **more: Any) -> dict[str, Any]:
    return {"name": name, "on": on, "after": after, "best": best, "worst": worst, **more}


# a processor with priorities and a region, a bus, a ring and a TDMA resource; what comes over the bus starts tasks
VALUES = {
    "format": 4,
    "resource": [
        {"name": "cpu", "kind": "preemptive", "limit": 5000},
        {"name": "bus", "kind": "can", "bit": 2},
        {"name": "ring", "kind": "round-robin"},
        {"name": "wheel", "kind": "tdma", "gap": 3},
        {"name": "idle", "kind": "tdma"},
    ],
    "source": [{"name": "fast", "period": 1000, "jitter": 100}, {"name": "slow", "period": 4000, "distance": 50}],
    "task": [
        task("high", "cpu", "fast", 10, 20, priority=1),
        task("low", "cpu", "slow", 30, 60, priority=3, region=25),
        task("middle", "cpu", ["fast", "slow"], 5, 40, priority=2),
        {"name": "frame", "on": "bus", "after": "high", "payload": 8, "priority": 7},
        task("other", "bus", "low", 100, 300, priority=9),
        task("one", "ring", ["frame", "middle"], 4, 4, slot=2),
        task("two", "ring", "slow", 6, 9, slot=3),
        task("first", "wheel", "one", 1, 2, slot=4),
        task("second", "wheel", "slow", 1, 2, slot=5),
    ],
    "path": [
        {"name": "long", "tasks": ["high", "frame", "one"], "deadline": 900},
        {"name": "short", "tasks": ["frame"], "deadline": 700},
        {"name": "open", "tasks": ["frame"]},
    ],
}


class Rows(unittest.TestCase):
    def setUp(self) -> None:
        self.view = SystemView.of(VALUES)

    def test_defaults(self) -> None:
        view = self.view
        self.assertEqual(view.resources["cpu"], ResourceRow("cpu", Kind.PREEMPTIVE, 5000, 0, 1))
        self.assertEqual(view.resources["bus"], ResourceRow("bus", Kind.CAN, 1_000_000, 0, 2))
        self.assertEqual(view.sources["fast"], SourceRow("fast", 1000, 100, 0))
        self.assertEqual(view.sources["slow"], SourceRow("slow", 4000, 0, 50))
        self.assertEqual(view.tasks["high"], TaskRow("high", "cpu", ("fast",), 10, 20, priority=1))
        self.assertEqual(view.paths["open"], PathRow("open", ("frame",), None))

    def test_frame(self) -> None:
        # 47 + 64 bits at least and 55 + 80 at most, each of two ticks
        self.assertEqual(self.view.executions("frame"), (222, 270))
        self.assertEqual((self.view.tasks["frame"].payload, self.view.tasks["frame"].extended), (8, False))

    def test_rank_and_turn(self) -> None:
        self.assertEqual((self.view.tasks["low"].rank, self.view.tasks["two"].turn), (3, 3))
        with self.assertRaises(AssertionError):
            self.view.tasks["two"].rank
        with self.assertRaises(AssertionError):
            self.view.tasks["low"].turn

    def test_with_keys(self) -> None:
        plain = SystemView.of({**VALUES, "format": 1, "task": VALUES["task"][:1], "path": []})
        moved = plain.with_keys("task", {"high": {"region": 7, "priority": 4}})
        self.assertEqual((moved.tasks["high"].region, moved.tasks["high"].rank, moved.values["format"]), (7, 4, 4))
        self.assertEqual((plain.tasks["high"].region, plain.tasks["high"].rank), (1, 1))
        self.assertEqual(plain.with_keys("source", {"fast": {"period": 9}}).values["format"], 1)

    def test_system(self) -> None:
        system = System(tick="1us")
        bus = system.can("bus", bitrate=400_000)
        source = system.source("s", "10 ms")
        with self.assertWarns(RoundingWarning):
            system.task("frame", on=bus, after=source, payload=0, priority=1)
        # a bit of 2.5 us, so that 47 and 55 bits are 117.5 and 137.5 ticks
        self.assertEqual(system.view().executions("frame"), (117, 138))
        self.assertEqual(system.view().sources["s"].period, 10_000)


class Sharing(unittest.TestCase):
    def setUp(self) -> None:
        self.view = SystemView.of(VALUES)

    def test_tasks_of_resources(self) -> None:
        view = self.view
        self.assertEqual(view.on("cpu"), ("high", "low", "middle"))
        self.assertEqual(view.ranked("cpu"), ["high", "middle", "low"])
        self.assertEqual(view.on("idle"), ())
        self.assertEqual((view.kind("one"), view.limit("one"), view.limit("low")), (Kind.ROUND_ROBIN, 1_000_000, 5000))

    def test_rivals(self) -> None:
        rivals = {name: self.view.rivals(name) for name in self.view.tasks}
        none = {"high": [], "frame": [], "first": [], "second": []}
        some = {"low": ["high", "middle"], "middle": ["high"], "other": ["frame"], "one": ["two"], "two": ["one"]}
        self.assertEqual(rivals, none | some)

    def test_lower_and_blockers(self) -> None:
        view = self.view
        self.assertEqual(view.lower("high"), ["low", "middle"])
        # a region of a tick holds nobody up, a frame always does
        self.assertEqual((view.blockers("high"), view.blockers("frame")), (["low"], ["other"]))
        self.assertEqual((view.lower("one"), view.blockers("first")), ([], []))
        longest = [view.uninterrupted(it) for it in ("low", "middle", "frame", "one")]
        self.assertEqual(longest, [25, 1, 270, 1])

    def test_cycle(self) -> None:
        view = self.view
        self.assertEqual(view.rings(), ["wheel"])
        self.assertEqual((view.cycle("wheel"), view.cycle("idle")), (4 + 5 + 3, 0))
        self.assertEqual([view.slot_begin(it) for it in ("first", "second")], [0, 4])
        self.assertEqual((view.slot_share("second"), view.slot_share("high")), (Fraction(5, 12), 1))

    def test_utilisation(self) -> None:
        view = self.view
        self.assertEqual(view.demands("middle"), {"fast": Fraction(40, 1000), "slow": Fraction(40, 4000)})
        self.assertEqual(view.demand("middle"), Fraction(1, 20))
        # 20/1000 + 60/4000 + 50/1000
        self.assertEqual(view.utilisation("cpu"), Fraction(85, 1000))
        self.assertEqual(view.utilisation("idle"), 0)
        # two streams of `fast` and one of `slow`
        self.assertEqual(view.demands("one"), {"fast": Fraction(8, 1000), "slow": Fraction(4, 4000)})

    def test_paths(self) -> None:
        self.assertEqual(self.view.paths_over("frame"), ["long", "short", "open"])
        self.assertEqual(self.view.deadlines_over("frame"), {"long": 900, "short": 700})
        self.assertEqual(self.view.deadlines_over("two"), {})


class Streams(unittest.TestCase):
    def setUp(self) -> None:
        self.view = SystemView.of(VALUES)

    def test_ways(self) -> None:
        ways = (("fast", "high", "frame"), ("fast", "middle"), ("slow", "middle"))
        self.assertEqual(self.view.ways_to("one"), ways)
        self.assertEqual(self.view.sources_of("one"), ["fast", "fast", "slow"])
        self.assertEqual(self.view.ways_to("high"), (("fast",),))
        self.assertEqual(label_of(ways[0]), "fast → high → frame")
        self.assertEqual((self.view.streams_from("one"), self.view.streams_from("slow")), (3, 1))
        self.assertEqual((self.view.shortest_period("one"), self.view.shortest_period("two")), (1000, 4000))

    def test_successors(self) -> None:
        self.assertEqual(self.view.successors("slow"), ("low", "middle", "two", "second"))
        self.assertEqual((self.view.successors("frame"), self.view.successors("first")), (("one",), ()))

    def test_inputs(self) -> None:
        bounds = {name: 100 for name in self.view.tasks} | {"frame": 400, "middle": 300}
        inputs = inputs_of(self.view, bounds)
        self.assertEqual(inputs["high"], [(1000, 100, 0)])
        # the response of `high` varies by 90, and its jobs end 10 ticks apart at least
        self.assertEqual(inputs["frame"], [(1000, 190, 10)])
        # that of `frame` by 178, that of `middle` by 295
        self.assertEqual(inputs["one"], [(1000, 368, 222), (1000, 395, 5), (4000, 295, 5)])
        self.assertEqual(input_of(self.view, bounds, "two"), [(4000, 0, 50)])
        # 50 ticks apart, less what the response of `low` varies by
        self.assertEqual(input_of(self.view, bounds | {"low": 45}, "other"), [(4000, 15, 35)])

    def test_unbounded(self) -> None:
        bounds: dict[str, int | None] = {name: 100 for name in self.view.tasks}
        inputs = inputs_of(self.view, bounds | {"high": None})
        self.assertEqual([name for name, it in inputs.items() if it is None], ["frame", "one", "first"])

    def test_events(self) -> None:
        self.assertEqual([most_events((100, 30, 0), it) for it in (0, 1, 70, 71, 171)], [0, 1, 1, 2, 3])
        self.assertEqual([most_events((100, 250, 40), it) for it in (1, 41, 81, 121)], [1, 2, 3, 4])
        self.assertEqual(first_windows((100, 250, 40), 130), [1, 41, 81, 121])
        self.assertEqual([least_time([(100, 250, 40)], it) for it in (1, 2, 4, 5)], [0, 40, 120, 160])
        # two events of each in a window of 101
        self.assertEqual(least_time([(100, 0, 0), (100, 0, 0)], 4), 100)

    def test_formats(self) -> None:
        formats = [least_format({"task": it}) for it in ([], VALUES["task"][2:3], VALUES["task"])]
        self.assertEqual(formats, [1, 2, 4])


if __name__ == "__main__":
    unittest.main()
