"""Times with units. Expected numbers are worked out by hand."""
import pickle
import unittest
import warnings
from decimal import Decimal
from fractions import Fraction
from pathlib import Path

from engine_for_tests import need_engine

from lokwurmi import NoTick, NoUnitWarning, RoundingWarning, System, Time, UnitsRefused, ms, ns, s, us
from lokwurmi.frames import classical, error, ethernet, execution, flexible, frame_bits, padded
from lokwurmi.model.conversion import Converter
from lokwurmi.model.entries import keys_of
from lokwurmi.model.limits import UP
from lokwurmi.model.units import bit_of, tick_of

TOP = Path(__file__).resolve().parents[2]


class Times(unittest.TestCase):
    def test_amounts(self) -> None:
        for time, nanoseconds in (
            (ns(5), 5),
            (us(250), 250_000),
            (ms("16.667"), 16_667_000),
            (ms(16.667), 16_667_000),
            (s(1), 10**9),
            (ms(Decimal("0.5")), 500_000),
            (us(Fraction(1, 3)), Fraction(1000, 3)),
            (ms(0.1), 100_000),
            (us(10**30), 10**33),
            (ms(1e-3), 1000),
        ):
            self.assertEqual(time.nanoseconds, nanoseconds, time)

    def test_no_amounts(self) -> None:
        for amount in (True, None, [1], ms(1)):
            with self.assertRaises(TypeError, msg=repr(amount)):
                us(amount)
        for amount in ("five", float("inf"), float("nan"), "5 ms", Decimal("inf")):
            with self.assertRaises(UnitsRefused, msg=repr(amount)):
                us(amount)

    def test_texts(self) -> None:
        self.assertEqual(Time.of("0.5 ms"), us(500))
        for word in ("5", "5 minutes", "-5ms", "5 MS", "", "ms", "1e3us", "٥ms"):
            with self.assertRaises(UnitsRefused, msg=word):
                Time.of(word)
        self.assertEqual(
            [str(it) for it in (us(1500), ns(999), s(2), ms(0), us(Fraction(1, 3)))],
            ["1.5ms", "999ns", "2s", "0", "1000/3ns"],
        )
        self.assertEqual(f"{us(16_667):ms} {us(16_667):us} {us(1):s}", "16.667ms 16667us 0.000001s")
        self.assertEqual(str(-us(1500)), "-1.5ms")
        with self.assertRaises(UnitsRefused):
            format(us(1), "min")
        for it in (us("0.1"), ms(Fraction(1, 3)), -ms(5), ns(0), s(10**20)):
            self.assertEqual(eval(repr(it)), it)
            self.assertEqual(pickle.loads(pickle.dumps(it)), it)

    def test_sums(self) -> None:
        self.assertEqual(ms(1) + us(5) - ns(1), ns(1_004_999))
        self.assertEqual(sum([us(1), us(2)]), us(3))
        self.assertEqual((3 * us(2), us(2) * 0.5, us(3) / 2, us(3) / us(2)), (us(6), us(1), us(1.5), Fraction(3, 2)))
        self.assertTrue(us(1) < ms(1) <= us(1000))
        self.assertEqual((us(1500).to("ms"), us(1500).decimal("ms")), (Fraction(3, 2), Decimal("1.5")))
        self.assertEqual(str(ns(10**40 + 1).decimal("s")), "1" + "0" * 31 + ".000000001")
        with self.assertRaises(UnitsRefused):
            us(Fraction(1, 3)).decimal("us")
        for fault in (lambda: us(1) + 1, lambda: 1 + us(1), lambda: us(1) * us(1), lambda: us(1) < 1):
            self.assertRaises(TypeError, fault)

    def test_ticks(self) -> None:
        self.assertEqual(tick_of("1us"), us(1))
        for word in ("0us", "0 ns"):
            with self.assertRaises(UnitsRefused):
                tick_of(word)

    def test_frame_bits(self) -> None:
        # the formulas of docs/FILES.md
        self.assertEqual(
            [frame_bits(0, False), frame_bits(8, False), frame_bits(8, True)], [(47, 55), (111, 135), (131, 160)]
        )

    def test_frames(self) -> None:
        """The examples of docs/NETWORKS.md, and that a system has the execution of its file's entries."""
        slow, fast = bit_of(500_000), bit_of(2_000_000)
        self.assertEqual([it.time(slow, fast) for it in flexible(64, False)], [333_000, 407_500])
        self.assertEqual([it.time(bit_of(100_000_000)) for it in ethernet(1500, True)], [123_360, 123_360])
        self.assertEqual([it.nominal for it in ethernet(0, True)], [672, 704])
        self.assertEqual([it.nominal for it in classical(8, True)], [131, 160])
        self.assertEqual([it.nominal for it in error(classical(8, False)[1])], [17, 166])
        self.assertEqual([padded(it) for it in (0, 8, 9, 33, 64)], [0, 8, 12, 48, 64])
        system = System()
        bus, source = system.can("bus", bit=2), system.source("s", 1000)
        for size, extended in ((8, None), (3, True)):
            frame = system.task(f"f{size}", on=bus, after=source, payload=size, extended=extended, priority=size)
            self.assertEqual(system.execution(frame), execution(keys_of(frame), keys_of(bus)))
            self.assertEqual(system.execution(frame), tuple(2 * it for it in frame_bits(size, bool(extended))))


class Rounded(unittest.TestCase):
    def rounded(self, tick, build):
        """What is warned of as a system is built, and the system."""
        system = System(tick=tick)
        with warnings.catch_warnings(record=True) as told:
            warnings.simplefilter("always")
            build(system)
        told = [it for it in told if it.category is not NoUnitWarning]
        self.assertTrue(all(it.category is RoundingWarning for it in told))
        # each warning is at the line of the caller
        self.assertTrue(all(it.filename == __file__ for it in told), [it.filename for it in told])
        return system, [str(it.message) for it in told]

    def test_sides(self) -> None:
        """Each key is rounded to the side of docs/NETWORKS.md."""

        def build(system):
            system.tdma("t", gap=us(21), limit=us(100_005))
            system.source("s", ms("0.999"), jitter=us(11), distance=us(19))
            system.preemptive("p")
            system.task("a", on="p", after="s", best=us(39), worst=us(41), priority=1)
            system.path("w", ["a"], deadline=us(1009))

        system, told = self.rounded("10us", build)
        self.assertEqual(
            told,
            [
                "resource t: limit of 100.005ms is rounded up to 10001",
                "resource t: gap of 21us is rounded up to 3",
                "source s: period of 999us is rounded down to 99",
                "source s: jitter of 11us is rounded up to 2",
                "source s: distance of 19us is rounded down to 1",
                "task a: best of 39us is rounded down to 3",
                "task a: worst of 41us is rounded up to 5",
                "path w: deadline of 1.009ms is rounded down to 100",
            ],
        )
        self.assertEqual([str(it) for it in system.roundings], told)
        text = system.to_toml()
        for part in (
            "gap = 3",
            "limit = 10001",
            "period = 99",
            "jitter = 2",
            "distance = 1",
            "best = 3",
            "worst = 5",
            "deadline = 100",
            "# A tick is 10us.",
            "# 8 times are rounded, each to its safe side:",
        ):
            self.assertIn(part, text)
        self.assertEqual(System.from_toml(text), system)

    def test_whole_times_are_not_told(self) -> None:
        def build(system):
            system.source("s", ms(10), jitter="250 us", distance=7)

        system, told = self.rounded("1us", build)
        self.assertEqual((told, system.roundings), ([], []))
        self.assertIn("period = 10000, jitter = 250, distance = 7", system.to_toml())

    def test_slots_have_no_safe_side(self) -> None:
        system = System(tick="10us")
        system.tdma("t")
        system.source("s", ms(1))
        with self.assertRaisesRegex(UnitsRefused, "slot of 15us is 1.5 ticks, and has no safe side"):
            system.task("a", on="t", after="s", best=1, worst=1, slot=us(15))
        self.assertEqual(list(system.tasks), [])
        system.task("a", on="t", after="s", best=1, worst=1, slot=us(20))
        self.assertIn("slot = 2", system.to_toml())

    def test_buses(self) -> None:
        """A bit of 500 kbit/s is 2 us; one of 300 kbit/s is 10/3 us, and frames take the exact number of bits."""

        def build(system):
            system.can("one", bitrate=500_000)
            system.can("two", bitrate=300_000)
            system.source("s", ms(10))
            system.task("f", on="one", after="s", payload=8, priority=1)
            system.task("g", on="two", after="s", payload=8, priority=1)
            system.task("h", on="one", after="s", best="111 bit", worst="17 byte", priority=2)

        system, told = self.rounded("1us", build)
        # 135 bits of 10/3 us are 450 us, and 111 are 370: both whole
        self.assertEqual(told, [])
        text = system.to_toml()
        self.assertIn('name = "one", kind = "can", bit = 2', text)
        self.assertIn('name = "f", on = "one", after = "s", payload = 8', text)
        self.assertIn('name = "g", on = "two", after = "s", priority = 1, best = 370, worst = 450', text)
        self.assertIn("best = 222, worst = 272", text)
        coarse, told = self.rounded("100us", build)
        self.assertIn("task g: the greatest length of 450us is rounded up to 5", told)
        self.assertIn("task g: the least length of 370us is rounded down to 3", told)

    def test_changes_are_told_once(self) -> None:
        system = System(tick="1us")
        system.preemptive("p")
        system.source("s", ms(1))
        task = system.task("a", on="p", after="s", best=1, worst=us(5), priority=1)
        task.worst = us("5.5")
        with warnings.catch_warnings(record=True) as told:
            warnings.simplefilter("always")
            system.to_toml()
            system.to_toml()
        self.assertEqual([str(it.message) for it in told], ["task a: worst of 5.5us is rounded up to 6"])
        task.worst = us(5)
        self.assertEqual(system.roundings, [])
        system.tick = us(10)
        with self.assertWarns(RoundingWarning):
            self.assertIn("worst = 1", system.to_toml())

    def test_no_tick(self) -> None:
        system = System()
        with self.assertRaisesRegex(NoTick, r"period of source 's' is 5ms: .* System\(tick='1us'\)"):
            system.source("s", ms(5))
        with self.assertRaisesRegex(NoTick, "bitrate of resource 'c' is 500000"):
            system.can("c", bitrate=500_000)
        source = system.source("s", 5)
        source.jitter = "1 us"
        self.assertRaises(NoTick, system.to_toml)

    def test_too_many(self) -> None:
        system = System(tick="1ns")
        with self.assertRaisesRegex(UnitsRefused, "2000000000 ticks, and 1 to 1000000000 are possible"):
            system.source("s", s(2))
        with self.assertRaisesRegex(UnitsRefused, "is 0 ticks"):
            System(tick="1ms").source("s", us(5))

    def test_trace(self) -> None:
        need_engine()
        system = System.from_file(TOP / "examples/two_tasks.toml")
        rows = [("event", "sa", ms(1)), ("event", "sb", 0)]
        self.assertRaises(NoTick, system.simulate, rows)
        system.tick = "1us"
        self.assertEqual(system.simulate(rows).end, 1003)
        with self.assertRaisesRegex(UnitsRefused, "no whole number of ticks"):
            system.simulate([("event", "sa", ns(1500))])

    def test_file(self) -> None:
        """A file with units becomes that of docs/NETWORKS.md: examples/switch_port.toml."""
        with warnings.catch_warnings(record=True) as told:
            warnings.simplefilter("always")
            system = System.from_file(TOP / "examples/units/switch_port.toml", tick="1us")
        # those of the comments at the head of the other file
        self.assertEqual(len(told), 8)
        self.assertEqual(system, System.from_file(TOP / "examples/switch_port.toml"))
        self.assertTrue(system.roundings)

    def test_numbers_without_a_unit(self) -> None:
        """Those of a file are told where other times of it have a unit, and stand at the head of the one of ticks."""
        text = 'format = 1\nsource = [{ name = "s", period = "2 ms", jitter = 3, distance = 4 }]\n'
        bare = "taken as ticks, since they have no unit: jitter of source s, distance of source s"
        with self.assertWarns(NoUnitWarning) as told:
            system = System.from_toml(text, tick="1us")
        self.assertEqual((str(told.warning), told.filename), (bare, __file__))
        self.assertEqual(system.to_toml().splitlines()[:2], ["# A tick is 1us.", f"# {bare}"])
        with warnings.catch_warnings():
            warnings.simplefilter("error")
            system = System.from_toml(text.replace('"2 ms"', "2000"), tick="1us")
            system.source("t", 5)
        self.assertEqual(system.to_toml().splitlines()[:2], ["# A tick is 1us.", "format = 1"])

    def test_reports(self) -> None:
        need_engine()
        system = System.from_file(TOP / "examples/switch_port.toml")
        self.assertRaises(NoTick, system.analyse().tasks["control"].time)
        system.tick = us(1)
        report = system.analyse()
        # docs/NETWORKS.md shows these times
        task, path = report.tasks["camera"], report.paths["camera"]
        self.assertEqual(
            [task.time(it) for it in ("period", "jitter", "distance", "best", "worst")],
            [us(33_333), ms(4), us(123), us(123), us(256)],
        )
        self.assertEqual((path.time(), path.time("deadline"), path.time("slack")), (us(256), ms(2), us(1744)))
        self.assertEqual(task.time().to("ms"), Fraction(256, 1000))
        self.assertEqual(f"{task.time():ms}", "0.256ms")
        self.assertEqual(pickle.loads(pickle.dumps(report)).tasks["camera"].time(), us(256))

    def test_roundings_of_a_report(self) -> None:
        need_engine()
        system = System(tick="10us")
        system.preemptive("p")
        with warnings.catch_warnings():
            warnings.simplefilter("ignore", RoundingWarning)
            task = system.task("a", on="p", after=system.source("s", ms(1)), best=us(11), worst=us(29), priority=1)
            report = system.analyse()
        self.assertEqual(report.tasks["a"].worst, 3)
        self.assertEqual(
            [(it.key, it.ticks, it.side) for it in report.roundings], [("best", 1, "down"), ("worst", 3, UP)]
        )
        self.assertEqual(task.worst, us(29))

    def test_converter_of_lines(self) -> None:
        """What tools say of a file: the line, the longest tick that is whole, and what has no unit."""
        text = 'format = 1\nsource = [{ name = "s", period = "1.5 ms", jitter = 3 }]\n'
        converter = Converter(Fraction(1_000_000), text)
        converter.convert({"source": [{"name": "s", "period": "1.5 ms", "jitter": 3}]})
        self.assertEqual(
            converter.lines(),
            [
                "A tick is 1ms.",
                "1 time is rounded, to its safe side:",
                "  source s: period of 1.5ms is rounded down to 1",
                "  with --tick 1.5ms none is",
                "  a period that is rounded is too short for `chain`, which takes it as the longest, too",
                "taken as ticks, since it has no unit: jitter of source s",
            ],
        )
        with self.assertRaisesRegex(UnitsRefused, 'line 2: source s: period = "1.5 ms"|is 0 ticks'):
            Converter(Fraction(10**10), text).convert({"source": [{"name": "s", "period": "1.5 ms"}]})


if __name__ == "__main__":
    unittest.main()
