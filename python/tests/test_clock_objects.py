"""Clocks as objects, and where tasks of a report are on them. Expected numbers are worked out by hand."""
import importlib.util
import pickle
import unittest
import warnings

from engine_for_tests import need_engine

from lokwurmi import Anchor, LokwurmiError, NoTick, Report, System, UnitsRefused, ms, us


def station() -> System:
    """Three sources on a clock, one on none, and a chain behind the second."""
    system = System()
    cpu, engine = system.preemptive("cpu"), system.clock("engine")
    speed = engine.source("speed", period=10, jitter=2)
    torque = engine.source("torque", period=20, offset=5)
    heat = system.source("heat", period=20, clock=engine, offset=15)
    free = system.source("free", period=40)
    system.task("a", on=cpu, after=speed, best=1, worst=1, priority=1)
    b = system.task("b", on=cpu, after=torque, best=2, worst=3, priority=2)
    system.task("c", on=cpu, after=b, best=1, worst=1, priority=3)
    system.task("d", on=cpu, after=[heat, free], best=1, worst=1, priority=4)
    return system


class Clocks(unittest.TestCase):
    def test_sources(self) -> None:
        system = station()
        engine = system.clock("engine")
        self.assertEqual(list(system.clocks), ["engine"])
        self.assertEqual(system.clocks["engine"], engine)
        self.assertEqual(list(engine.sources), ["speed", "torque", "heat"])
        self.assertEqual(engine.offsets, {"speed": 0, "torque": 5, "heat": 15})
        self.assertEqual(engine.cycle, 20)
        self.assertIn('{ name = "heat", period = 20, clock = "engine", offset = 15 }', system.to_toml())
        system.sources["heat"].clock = None
        self.assertEqual(list(engine.sources), ["speed", "torque"])
        self.assertEqual(list(system.copy().clocks), ["engine"])
        self.assertNotEqual(system.copy().clocks["engine"], engine)

    def test_none(self) -> None:
        system = station()
        self.assertEqual(system.clock("brakes").sources, {})
        self.assertEqual(System().clocks, {})
        with self.assertRaisesRegex(LokwurmiError, "no source names the clock 'brakes'; clocks with sources: 'engine'"):
            _ = system.clock("brakes").cycle
        self.assertIn("no source names it", system.clock("brakes")._repr_html_())

    def test_releases(self) -> None:
        """Of a cycle of 20 ticks: speed twice, the others once."""
        engine = station().clock("engine")
        wanted = [("speed", 0, 0, 2), ("torque", 0, 5, 5), ("speed", 1, 10, 12), ("heat", 0, 15, 15)]
        self.assertEqual([tuple(it) for it in engine.releases()], wanted)
        self.assertEqual([it.earliest for it in engine.releases(2)], [0, 5, 10, 15, 20, 25, 30, 35])

    def test_too_many(self) -> None:
        system = System()
        clock = system.clock("c")
        clock.source("s", period=99_991)
        clock.source("q", period=99_989)
        self.assertEqual(clock.cycle, 99_991 * 99_989)
        self.assertRaisesRegex(LokwurmiError, "at most 4096 in 1000000000 ticks", clock.releases)

    def test_units(self) -> None:
        system = System(tick="10us")
        with warnings.catch_warnings():
            warnings.simplefilter("ignore")
            clock = system.clock("c")
            clock.source("s", period=ms(1), offset=us(255), jitter=us(20))
            clock.source("q", period="2 ms")
        # 255 us are 25 ticks; the jitter has what is over, and is rounded up: 25 us are 3 ticks
        self.assertEqual(clock.offsets, {"s": 25, "q": 0})
        self.assertEqual([tuple(it) for it in clock.releases()], [("q", 0, 0, 0), ("s", 0, 25, 28), ("s", 1, 125, 128)])
        self.assertEqual((clock.cycle, clock.time(), clock.time(25)), (200, ms(2), us(250)))
        self.assertIn("a cycle of 2ms", clock._repr_html_())
        with self.assertRaises(UnitsRefused):
            clock.source("uneven", period=us(1_005))
        self.assertRaises(NoTick, station().clock("engine").time)

    def test_shown(self) -> None:
        text = station().clock("engine")._repr_html_()
        self.assertIn("Clock engine: a cycle of 20", text)
        self.assertIn("Holds while the node doesn&#x27;t begin anew", text)
        self.assertEqual(repr(station().clock("engine")), "Clock('engine', 3 sources)")

    def test_drawn(self) -> None:
        if importlib.util.find_spec("matplotlib") is None:
            raise unittest.SkipTest("there is no matplotlib")
        figure = station().clock("engine").plot(2)
        axes = figure.axes[0]
        rows = [it.get_text() for it in axes.get_yticklabels()]
        self.assertEqual(rows, ["speed + 0", "torque + 5", "heat + 15"])
        # a mark where each of eight events comes at the earliest
        marks = [x for it in axes.collections if hasattr(it, "get_segments") for (x, _), _ in it.get_segments()]
        self.assertEqual(sorted(marks), [0, 5, 10, 15, 20, 25, 30, 35])

    def test_table(self) -> None:
        if importlib.util.find_spec("pandas") is None:
            raise unittest.SkipTest("there is no pandas")
        table = station().clock("engine").to_dataframe()
        self.assertEqual(list(table["source"]), ["speed", "torque", "speed", "heat"])
        self.assertEqual([str(it) for it in table.dtypes], ["object", "Int64", "Int64", "Int64"])


class Phases(unittest.TestCase):
    """What the library or the program says, where one is there."""

    def test_report(self) -> None:
        """Task c comes when b is done, at least 2 ticks after its event."""
        need_engine()
        report = station().analyse()
        wanted = {"a": ("engine", 0), "b": ("engine", 5), "c": ("engine", 7)}
        found = {name: tuple(it.phases[0]) for name, it in report.tasks.items() if name != "d"}
        self.assertEqual(found, wanted)
        self.assertEqual(report.tasks["d"].phases, (Anchor("engine", 15), None))
        self.assertEqual(pickle.loads(pickle.dumps(report)).tasks["c"].phases, report.tasks["c"].phases)
        self.assertIn("engine + 7", report._repr_html_())
        self.assertIn("engine + 15, on none", report._repr_html_())

    def test_table(self) -> None:
        need_engine()
        if importlib.util.find_spec("pandas") is None:
            raise unittest.SkipTest("there is no pandas")
        table = station().analyse().to_dataframe()
        self.assertEqual(list(table["clock"]), ["engine", "engine", "engine", None])
        self.assertEqual([None if it is None else str(it) for it in table["offset"]], ["0", "5", "7", "<NA>"])

    def test_unknown(self) -> None:
        """A report of its text alone, or of a script, says nothing of clocks; nor does one of a system without any."""
        need_engine()
        system = station()
        report = system.analyse()
        self.assertEqual(Report(report.text.splitlines()).tasks["c"].phases, ())
        self.assertEqual(system.session("offset heat 3\n")[-1].tasks["d"].phases, ())
        for it in system.sources.values():
            it.clock = it.offset = None
        plain = system.analyse()
        self.assertEqual((plain.phases, plain.tasks["c"].phases), ({}, ()))
        self.assertNotIn("from the start of a clock on", plain._repr_html_())

    def test_premise(self) -> None:
        """Whether bounds presume the clock: on a processor they do, and in a queue they know nothing of it. A script
        may change that, so that its reports name each clock."""
        need_engine()
        premise, system = "Holds while the node doesn&#x27;t begin anew", station()
        report = system.analyse()
        self.assertEqual((report.clocks, pickle.loads(pickle.dumps(report)).clocks), (("engine",), ("engine",)))
        self.assertIn(premise, report._repr_html_())
        queued = System()
        gate, engine = queued.fifo("gate"), queued.clock("engine")
        for name, offset in (("speed", 0), ("torque", 5)):
            queued.task(f"{name}_passed", on=gate, after=engine.source(name, 10, offset=offset), best=1, worst=2)
        report = queued.analyse()
        self.assertEqual((report.clocks, report.tasks["torque_passed"].worst), ((), 4))
        self.assertEqual(report.tasks["torque_passed"].phases, (Anchor("engine", 5),))
        self.assertNotIn(premise, report._repr_html_())
        self.assertIn(premise, queued.session("offset torque 3\n")[-1]._repr_html_())
        with queued.session() as session:
            self.assertEqual(session.report().clocks, ())

    def test_premise_of_charts(self) -> None:
        need_engine()
        if importlib.util.find_spec("matplotlib") is None:
            raise unittest.SkipTest("there is no matplotlib")
        labels = [
            getattr(it.plot(), "_supxlabel")
            for it in (station().analyse(), Report(["summary tasks 0 overload 0 missed 0"]))
        ]
        self.assertIn("Holds while the node doesn't begin anew", labels[0].get_text())
        self.assertIsNone(labels[1])

    def test_session(self) -> None:
        need_engine()
        with station().session() as session:
            session.offset("torque", 9)
            self.assertEqual(session.report().tasks["c"].phases, (Anchor("engine", 11),))


if __name__ == "__main__":
    unittest.main()
