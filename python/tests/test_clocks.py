"""Sources on clocks. Expected numbers are worked out by hand."""
import unittest
import warnings

from engine_for_tests import need_engine
from made import view_of

from lokwurmi import LokwurmiError, NoTick, System, TraceDisobeys, UnitsRefused
from lokwurmi.files.documents import Document
from lokwurmi.files.text_files import File
from lokwurmi.model.view import Anchor
from lokwurmi.refusals.clock_starts import first_off
from lokwurmi.refusals.edits import refused_edits
from lokwurmi.refusals.rules import first_refusal
from lokwurmi.refusals.sentences import notices_of


def two_tasks(offset: int | str | None = 5, clock: str | None = "timer", tick: str | None = None) -> System:
    """A task of 3 ticks below one of 4, whose source is so much later on the same clock."""
    system = System(tick=tick)
    cpu = system.preemptive("cpu")
    first = system.source("first", period=10 if tick is None else "10us", clock="timer")
    second = system.source("second", period=10 if tick is None else "10us", clock=clock, offset=offset)
    high = system.task("high", on=cpu, after=first, best=4, worst=4, priority=1)
    low = system.task("low", on=cpu, after=second, best=2, worst=3, priority=2)
    system.task("behind", on=cpu, after=low, best=1, worst=1, priority=3)
    system.path("through", [low], deadline=5)
    assert high.name == "high"
    return system


def with_periods(text: str, first: int, second: int) -> str:
    """The file with other periods of both sources."""
    return text.replace("period = 10,", f"period = {first},", 1).replace("period = 10,", f"period = {second},", 1)


class Files(unittest.TestCase):
    def test_format(self) -> None:
        text = two_tasks().to_toml()
        self.assertTrue(text.startswith("format = 4\n"), text)
        self.assertIn('clock = "timer", offset = 5 }', text)
        self.assertEqual(System.from_toml(text), two_tasks())
        self.assertNotIn("offset", two_tasks(None).to_toml())
        self.assertTrue(System.from_toml(two_tasks(None, None).to_toml()).sources["second"].clock is None)

    def test_view(self) -> None:
        view = view_of(two_tasks())
        self.assertEqual(view.clocks, {"timer": ("first", "second")})
        self.assertEqual(view.clock_cycle("timer"), 10)
        # what a task sends on is later by its least execution
        self.assertEqual(view.anchors_of("low"), (Anchor("timer", 5),))
        self.assertEqual(view.anchors_of("behind"), (Anchor("timer", 7),))
        self.assertEqual([view.clocks_at(it) for it in ("high", "low", "behind")], [[], ["timer"], ["timer"]])
        self.assertEqual(view_of(two_tasks(None, None)).anchors_of("low"), (None,))
        self.assertIn("timer", two_tasks()._repr_html_())

    def test_refusals(self) -> None:
        text = two_tasks().to_toml()
        cases = {
            text.replace("offset = 5", "offset = 10"): (2, "the offset 10 isn't below the period"),
            text.replace('clock = "timer", offset', "offset"): (1, "`offset` stands without `clock`"),
            text.replace('"timer"', '"the timer"'): (3, "the name of its clock has a blank"),
            with_periods(text, 99_991, 99_989): (15, "ticks"),
            with_periods(text, 1, 4_096): (15, "4097 events"),
            text.replace("format = 4", "format = 2"): (1, "it has the key `clock`, which format 2 hasn't"),
        }
        for changed, (reason, says) in cases.items():
            found = first_refusal(Document(changed))
            self.assertIsNotNone(found, changed)
            if found:
                self.assertEqual((found.reason, found.part), (reason, "source"))
                self.assertIn(says, found.remark.says)
        with self.assertRaisesRegex(LokwurmiError, "the key `phase` isn't known; did you mean `offset`"):
            System.from_toml(text.replace("offset", "phase"))

    def test_notices(self) -> None:
        self.assertEqual(notices_of(two_tasks().to_toml()), [])
        alone = notices_of(two_tasks(clock="timr").to_toml().replace('{ name = "behind"', '{ name = "b"'))
        self.assertTrue(any("is alone on clock" in it and 'did you mean "timr"' in it for it in alone), alone)
        text = two_tasks().to_toml().replace("offset = 5", "offset = 5, sporadic = true")
        self.assertTrue(any("no event is left out" in it for it in notices_of(text)))

    def test_edits(self) -> None:
        """The rules that edits of sources on a clock break."""
        system = two_tasks()
        system.source("free", period=10)
        edits = "offset second 9\noffset second 10\noffset free 0\noffset low 1\noffset none 1\nsource second 4 0 0\n"
        edits += "source second 999999937 0 0\nsource second 20 3 0\noffset second 19\noffset second 20\n"
        _, found = refused_edits(Document(system.to_toml()), File("edits", edits))
        wanted = [(2, 10), (3, 2), (4, 1), (5, 1), (6, 10), (7, 10), (10, 10)]
        self.assertEqual([(it.line, it.rule) for it in found], wanted)


class Traces(unittest.TestCase):
    def test_starts(self) -> None:
        """Which event leaves a clock no start."""
        sources = [
            {"name": "a", "period": 10, "jitter": 2, "clock": "c"},
            {"name": "b", "period": 20, "offset": 5, "clock": "c"},
        ]
        good = {"a": [3, 14, 25], "b": [8, 28]}
        self.assertIsNone(first_off(sources, good))
        # more than the jitter apart from where the others are
        self.assertEqual(first_off(sources, good | {"a": [3, 16]}), (0, 1))
        # a period left out
        self.assertEqual(first_off(sources, good | {"b": [8, 48]}), (1, 1))
        # not 5 after what a can have been
        self.assertEqual(first_off(sources, good | {"b": [16]}), (1, 0))
        self.assertIsNone(first_off(sources, {"a": [3], "b": []}))


class Units(unittest.TestCase):
    def rounded(self, **given: str | int) -> tuple[list[str], str]:
        """What is told of a source with such times in a system with a tick of 10 us, and its line in the file."""
        system = System(tick="10us")
        with warnings.catch_warnings():
            warnings.simplefilter("ignore")
            system.source("s", clock="c", **given)  # type: ignore[arg-type]
            return [str(it) for it in system.roundings], system.to_toml().split("  { ")[1].split(" }")[0]

    def test_offsets(self) -> None:
        """An offset is rounded down, and the jitter covers what that takes."""
        whole = 'name = "s", period = 100, clock = "c", offset = 25'
        self.assertEqual(self.rounded(period="1ms", offset="250us"), ([], whole))
        told, line = self.rounded(period="1ms", offset="255us")
        self.assertIn("offset = 25", line)
        self.assertIn("jitter = 1", line)
        self.assertTrue(any("jitter of 0ns is rounded up to 1, with what the offset" in it for it in told), told)
        # 2 ticks of jitter end within the third after 25
        self.assertIn("jitter = 3", self.rounded(period="1ms", offset="255us", jitter="20us")[1])
        self.assertIn("jitter = 3", self.rounded(period="1ms", offset="255us", jitter=2)[1])
        self.assertIn("jitter = 2", self.rounded(period="1ms", offset="251us", jitter="15us")[1])

    def test_periods(self) -> None:
        with self.assertRaisesRegex(UnitsRefused, "by another period they would drift"):
            self.rounded(period="1.005ms", offset="250us")
        with self.assertRaises(NoTick):
            two_tasks("5us").to_toml()


class Answers(unittest.TestCase):
    """What the library or the program says, where one is there."""

    def test_bounds(self) -> None:
        need_engine()
        for offset, bound in {5: 3, 4: 3, 3: 4, 2: 5, 1: 6, 0: 7}.items():
            self.assertEqual(two_tasks(offset).analyse().tasks["low"].worst, bound)
        self.assertEqual(two_tasks(5, "another").analyse().tasks["low"].worst, 7)
        self.assertEqual(two_tasks(None, None).analyse().tasks["low"].worst, 7)

    def test_session(self) -> None:
        need_engine()
        with two_tasks(0).session() as session:
            self.assertEqual(session.bounds["low"], 7)
            session.offset("second", 5)
            self.assertEqual(session.bounds["low"], 3)
            session.source("second", jitter=1)
            self.assertRaisesRegex(LokwurmiError, "isn't below the period 10", session.offset, "second", 10)
            session.source("first", period=20)
            system = session.to_system()
        self.assertEqual((system.sources["second"].offset, system.sources["second"].clock), (5, "timer"))
        with two_tasks("0us", tick="1us").session() as session:
            self.assertRaises(UnitsRefused, session.offset, "second", "2.5us")
            session.offset("second", "5us")
            self.assertEqual(session.bounds["low"], 3)

    def test_traces(self) -> None:
        need_engine("simulate")
        trace = "event,first,3\nevent,first,13\nevent,second,8\nevent,second,18\n"
        self.assertEqual(two_tasks().simulate(trace).tasks["low"].worst, 3)
        with self.assertRaises(TraceDisobeys):
            two_tasks().simulate(trace.replace("18", "19"))


if __name__ == "__main__":
    unittest.main()
