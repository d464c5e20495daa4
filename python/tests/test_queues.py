"""Queues, and the ports that they serve. Expected numbers are worked out by hand."""
import unittest
import warnings

from engine_for_tests import need_engine
from made import told_of

from lokwurmi import EditRefused, Kind, LokwurmiError, NameRefused, NoTick, System, SystemRefused, UnitsRefused
from lokwurmi.files.documents import Document, values_in
from lokwurmi.files.text_files import File
from lokwurmi.frames import ethernet, port_bits, port_ticks
from lokwurmi.model.view import SystemView
from lokwurmi.refusals.edits import refused_edits
from lokwurmi.refusals.words import remark_on
from lokwurmi.results.reports import buffers

PORT = """format = 4
resource = [{ name = "port", kind = "fifo", rate = 100 }, { name = "bus", kind = "can" }]
source = [{ name = "s", period = 1000 }]
task = [
  { name = "video", on = "port", after = "s", payload = 1000 },
  { name = "log", on = "port", after = "s", best = 3, worst = 9 },
  { name = "frame", on = "bus", after = "s", payload = 8, priority = 1 },
]
"""

# what a file of a port has in place of something, why it is refused, and what helps
REFUSED = [
    ("format = 4", "format = 1", "reason 1 resource 1", "it has the key `rate`, which format 1 hasn't", "= 4`"),
    ('"fifo", rate = 100', '"fifo"', "", "", ""),
    ("rate = 100", "rate = 0", "reason 2 resource 1", "`rate` is 0, below 1", "1 to 672 bits in a tick"),
    ("rate = 100", "rate = 673", "reason 2 resource 1", "above 672", "choose a shorter tick"),
    ("rate = 100", "rate = 12.5", "reason 1 resource 1", "a number with a fraction", "take another tick"),
    ("rate = 100", "bit = 1", "reason 9 resource 1", '`bit` is for the kind "can"', "write `rate` in its place"),
    ("rate = 100", "gap = 1", "reason 9 resource 1", '`gap` is for the kind "tdma"', "leave `gap` out"),
    ('"can"', '"can", rate = 2', "reason 9 resource 2", '`rate` is for the kind "fifo"', "write `bit` in its"),
    ("rate = 100", "bitrate = 1", "reason 1 resource 1", "the key `bitrate` isn't known", "rate = N, how many"),
    ("worst = 9", "worst = 9, priority = 1", "reason 9 task 2", "it has a `priority`: resource", "leave it out"),
    ("worst = 9", "worst = 9, slot = 1", "reason 9 task 2", "it has a `slot`: resource", "leave it out"),
    ("worst = 9", "worst = 9, region = 1", "reason 9 task 2", "`region` is for preemptive", "goes on to its end"),
    ("= 1000 },", "= 1000, extended = false },", "reason 9 task 1", "`extended` is for CAN", "4 bytes of `payload`"),
    ("= 1000 },", "= 1501 },", "reason 2 task 1", "`payload` is 1501, above 1500", "lengths ethernet 1500 --tagged"),
    ("= 1000 },", "= -1 },", "reason 2 task 1", "`payload` is -1, below 0", "is 0 to 1500 bytes, on can to 8"),
    ("= 8,", "= 9,", "reason 9 task 3", '`payload` is 9, above 8: resource "bus" is can', "lengths fd 12"),
    ("best = 3, worst = 9", "", "reason 1 task 2", "it has no execution", "on a queue 0 to 1500"),
    ("worst = 9", "payload = 9", "reason 1 task 2", "`best` stands beside `payload`", "`payload` alone"),
    ('"fifo"', '"port"', "reason 1 resource 1", 'did you mean "fifo"?', "strict priorities is can"),
    ('"fifo"', '"FCFS"', "reason 1 resource 1", 'did you mean "fifo"?', "tdma, can, fifo and ceiling"),
]


def two_tasks(tick: str | None = None) -> System:
    """A task of 4 ticks and one of 3 in a queue, which may come at once."""
    system = System(tick=tick)
    queue = system.fifo("queue")
    first = system.source("first", period=10)
    second = system.source("second", period=10)
    system.task("a", on=queue, after=first, best=4, worst=4)
    system.task("b", on=queue, after=second, best=1, worst=3)
    return system


class Files(unittest.TestCase):
    def test_format(self) -> None:
        text = two_tasks().to_toml()
        self.assertTrue(text.startswith("format = 4\n"), text)
        self.assertIn('{ name = "queue", kind = "fifo" }', text)
        self.assertEqual(System.from_toml(text), two_tasks())
        system = System.from_toml(PORT)
        self.assertEqual((system.resources["port"].rate, system.resources["bus"].rate), (100, None))
        self.assertEqual(System.from_toml(system.to_toml()), system)
        self.assertIn("bits in a tick", system._repr_html_())
        self.assertNotIn("bits in a tick", two_tasks()._repr_html_())

    def test_view(self) -> None:
        view = SystemView.of(values_in(PORT))
        self.assertEqual((view.resources["port"].rate, view.resources["bus"].rate), (100, 1))
        self.assertEqual([view.resources[it].is_queue for it in ("port", "bus")], [True, False])
        self.assertFalse(view.resources["port"].has_priorities)
        # 8 * 1038 bits, and those of a frame on a bus
        self.assertEqual([view.executions(it) for it in view.tasks], [(83, 84), (3, 9), (111, 135)])
        self.assertEqual((view.rivals("video"), view.rivals("log")), (["log"], ["video"]))
        self.assertEqual((view.lower("log"), view.blockers("log"), view.uninterrupted("log")), ([], [], 9))
        self.assertEqual((view.tasks["log"].priority, view.tasks["log"].slot), (None, None))
        self.assertEqual(view.clocks_at("log"), [])

    def test_lengths(self) -> None:
        # the shortest frame has 64 bytes from its addresses to its check sum, and 20 before and behind these
        self.assertEqual([port_bits(it) for it in (0, 46, 47, 1500)], [672, 672, 680, 12304])
        self.assertEqual([port_ticks(0, 672), port_ticks(0, 1), port_ticks(47, 672)], [(1, 1), (672, 672), (1, 2)])
        for size in range(43, 1497):
            self.assertEqual(port_bits(size + 4), ethernet(size, tagged=True)[0].nominal)
            # a short one that a bridge makes longer has 50 bytes
            self.assertEqual(port_bits(max(50, size + 4)), ethernet(size, tagged=True)[1].nominal)
        system = System.from_toml(PORT)
        self.assertEqual([system.execution(it) for it in system.tasks], [(83, 84), (3, 9), (111, 135)])

    def test_refusals(self) -> None:
        for old, new, line, says, helps in REFUSED:
            found = told_of(PORT.replace(old, new, 1))
            with self.subTest(new):
                self.assertEqual(found[0], line)
                self.assertIn(says, found[1])
                self.assertIn(helps, found[2])
        self.assertEqual(told_of(PORT.replace("= 1000 },", "= 0 },")), ("", "", ""))

    def test_older_formats(self) -> None:
        text = PORT.replace(", rate = 100", "").replace("format = 4", "format = 2")
        line, says, helps = told_of(text)
        self.assertEqual(line, "reason 1 resource 1")
        self.assertEqual(says, 'resource "port": its kind is "fifo", which format 2 hasn\'t')
        self.assertEqual(helps, "write `format = 4`, which has all that format 2 has")
        self.assertIn("with format = 4", told_of(text.replace('"fifo"', '"fcfs"'))[2])
        # a long payload is out of range there
        line, _, helps = told_of(text.replace('"fifo"', '"can"'))
        self.assertEqual((line, "format = 4" in helps), ("reason 2 task 1", False))
        with self.assertRaisesRegex(LokwurmiError, "which format 1 hasn't"):
            System.from_toml(PORT.replace("format = 4", "format = 1"))

    def test_edits(self) -> None:
        edits = "priority log 1\nslot log 1\nswap log video\nadd n port s 1 1 0\nadd m port s 1 1 1\nexec log 1 2\n"
        edits += "swap log frame\npriority none 1\nadd k bus s 1 1 0\npriority n 1\nadd o port s 0 1 2\n"
        count, found = refused_edits(Document(PORT), File("edits", edits))
        wanted = [(1, 2), (2, 2), (3, 2), (5, 3), (7, 2), (8, 1), (10, 2), (11, 3)]
        self.assertEqual((count, [(it.line, it.rule) for it in found]), (11, wanted))
        told = {it.line: it.why for it in found}
        self.assertEqual(told[1], "tasks on port, which is fifo, have neither a priority nor a slot")
        self.assertEqual(told[5], "N is 1, and tasks on port, which is fifo, have neither a priority nor a slot")
        remark = remark_on(Document(PORT), "assign refused 2", ["port"])
        self.assertIsNotNone(remark)
        if remark:
            self.assertIn("served in the order in which they came, and have no priorities", remark.says)


class Results(unittest.TestCase):
    def test_buffers(self) -> None:
        """How much work waits in a queue."""
        lines = "buffer a bound 1 peak 1\nresource q bound 1 peak 1\nresource r bound 0 peak 0\n"
        found = buffers(lines + "queue q work 7\nqueue r work overload\nsummary tasks 1 overload 0\n")
        self.assertEqual(found.queues, {"q": 7, "r": None})
        self.assertIn("Work in queues", found._repr_html_())
        found = buffers(lines + "summary tasks 1 overload 0\n")
        self.assertEqual(found.queues, {})
        self.assertNotIn("Work in queues", found._repr_html_())


class Units(unittest.TestCase):
    def port(self, tick: str, **given: int) -> tuple[list[str], str]:
        """What is rounded of a frame of 1,000 bytes on a port, and the lines of both in the file."""
        system = System(tick=tick)
        port = system.fifo("port", **given)
        with warnings.catch_warnings():
            warnings.simplefilter("ignore")
            system.task("video", on=port, after=system.source("s", "1 ms"), payload=1000)
            lines = system.to_toml().split("  { ")
            self.assertEqual(system.execution("video"), SystemView.of(values_in(system.to_toml())).executions("video"))
            return [str(it) for it in system.roundings], f"{lines[1]}{lines[3]}"

    def test_rates(self) -> None:
        """A rate is told where it is whole, and a frame by its payload where its length is."""
        told, lines = self.port("1us", bitrate=100_000_000)
        self.assertIn("rate = 100 }", lines)
        self.assertIn("best = 83, worst = 84", lines)
        self.assertEqual(len(told), 2)
        told, lines = self.port("80ns", bitrate=100_000_000)
        self.assertEqual((told, "rate = 8 }" in lines, "payload = 1000" in lines), ([], True, True))
        told, lines = self.port("25ns", bitrate=100_000_000)
        self.assertNotIn("rate", lines)
        self.assertIn("best = 3321, worst = 3322", lines)
        told, lines = self.port("1us", bitrate=1_000_000_000)
        self.assertNotIn("rate", lines)
        self.assertIn("best = 8, worst = 9", lines)
        self.assertIn("payload = 1000", self.port("1us", rate=100)[1])

    def test_refusals(self) -> None:
        with self.assertRaisesRegex(UnitsRefused, "it has rate and bitrate"):
            self.port("1us", bitrate=100_000_000, rate=100)
        with self.assertRaisesRegex(UnitsRefused, "below a tick: take a shorter tick"):
            self.port("1ms", bitrate=100_000_000)
        with self.assertRaises(NoTick):
            System().fifo("port", bitrate=100_000_000)

    def test_bytes(self) -> None:
        """Times in bits, where a rate tells how long one takes."""
        system = System(tick="1us")
        port = system.fifo("port", rate=100)
        task = system.task("a", on=port, after=system.source("s", "1 ms"), best="1000 bit", worst="125 bytes")
        self.assertEqual(system.execution(task), (10, 10))


class Answers(unittest.TestCase):
    """What the library or the program says, where one is there."""

    def test_bounds(self) -> None:
        need_engine()
        report = two_tasks().analyse()
        self.assertEqual([report.tasks[it].worst for it in "ab"], [7, 7])
        report = System.from_toml(PORT).analyse()
        # all of the queue comes at once
        self.assertEqual([it.worst for it in report.tasks.values()], [93, 93, 135])

    def test_session(self) -> None:
        need_engine()
        with two_tasks().session() as session:
            session.add("c", on="queue", after="first", best=1, worst=2)
            self.assertEqual(dict(session.bounds), {"a": 9, "b": 9, "c": 9})
            self.assertRaises(EditRefused, session.add, "d", on="queue", after="first", best=1, worst=2, priority=1)
            self.assertRaisesRegex(EditRefused, "neither a priority nor a slot", session.priority, "a", 1)
            self.assertRaisesRegex(EditRefused, "neither a priority nor a slot", session.slot, "a", 1)
            self.assertRaisesRegex(EditRefused, "have no priorities", session.swap, "a", "b")
            system = session.to_system()
        self.assertEqual((system.tasks["c"].priority, system.tasks["c"].slot), (None, None))
        self.assertEqual(system.analyse().tasks["c"].worst, 9)

    def test_buffers(self) -> None:
        need_engine("buffers")
        found = two_tasks().buffers("event,first,0\nevent,second,0\n")
        self.assertEqual((found.tasks["a"], found.resources["queue"]), ((1, 1), (2, 2)))
        self.assertEqual(found.queues, {"queue": 7})

    def test_refused(self) -> None:
        need_engine("assign")
        self.assertRaisesRegex(NameRefused, "have no priorities", two_tasks().assign, "queue")
        system = two_tasks()
        system.tasks["a"].priority = 1
        self.assertRaises(SystemRefused, system.analyse)

    def test_runs(self) -> None:
        """What came first is done first, and of what comes at once what stands first in the file."""
        need_engine("simulate")
        trace = "event,first,1\nevent,second,0\nevent,second,10\nevent,first,11\n"
        seen = two_tasks().simulate(trace).tasks
        self.assertEqual([seen[it].worst for it in "ab"], [6, 3])
        seen = two_tasks().simulate("event,first,0\nevent,second,0\n").tasks
        self.assertEqual([seen[it].worst for it in "ab"], [4, 7])
        self.assertEqual(two_tasks().resources["queue"].kind, Kind.FIFO)


if __name__ == "__main__":
    unittest.main()
