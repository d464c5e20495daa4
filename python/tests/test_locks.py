"""Locks under priority ceilings. Expected numbers are worked out by hand."""
import random
import unittest
import warnings
from fractions import Fraction

from engine_for_tests import need_engine
from made import told_of

from lokwurmi import EditRefused, Kind, Lock, LokwurmiError, NoTick, System, SystemRefused, UnitsRefused
from lokwurmi.files.documents import Document, values_in
from lokwurmi.files.text_files import File
from lokwurmi.model.conversion import Converter
from lokwurmi.model.view import Block, SystemView
from lokwurmi.refusals import notices
from lokwurmi.refusals.edits import refused_edits

LOCKS = """format = 4
resource = [{ name = "cpu", kind = "ceiling" }, { name = "other", kind = "ceiling" }, { name = "bus", kind = "can" }]
source = [{ name = "s", period = 1000 }]
task = [
  { name = "a", on = "cpu", after = "s", best = 2, worst = 2, priority = 1, locks = [
    { name = "x", start = 0, length = 2 },
  ] },
  { name = "b", on = "cpu", after = "s", best = 1, worst = 5, priority = 2 },
  { name = "c", on = "cpu", after = "s", best = 1, worst = 9, priority = 3, locks = [
    { name = "x", start = 1, length = 4 },
    { name = "y", start = 6, length = 9 },
  ] },
  { name = "d", on = "other", after = "s", best = 1, worst = 9, priority = 3, region = 3 },
  { name = "frame", on = "bus", after = "s", payload = 8, priority = 1 },
]
"""
X, Y = '{ name = "x", start = 0, length = 2 }', '{ name = "y", start = 6, length = 9 }'
# what a file with locks has in place of something, why it is refused, and what helps
REFUSED = [
    ("format = 4", "format = 2", "reason 1 resource 1", 'its kind is "ceiling", which format 2', "= 4`"),
    ('"ceiling"', '"preemptive"', "reason 9 task 1", "`locks` are for priority ceilings", 'write kind = "ceiling"'),
    ('"ceiling"', '"icpp"', "reason 1 resource 1", 'did you mean "ceiling"?', "fifo and ceiling"),
    ("priority = 2", "priority = 1", "reason 8 task 2", "the priority 1 is taken", "the next free one is 2"),
    ("priority = 2", "slot = 2", "reason 9 task 2", "it has a `slot` in place of a `priority`", "and no `slot`"),
    (Y, Y.replace("6", "3"), "reason 16 task 3", "ticks 4 to 12 of a job, and 2 to 5", "length = 11, so that"),
    ("start = 6", "start = 4", "reason 16 task 3", 'its section of "y" begins within that of "x"', "length = 3"),
    ("priority = 3", "priority = 3, region = 2", "reason 16 task 3", "sections beside a region", "as long as the lon"),
    ("priority = 3", "priority = 3, region = 1", "", "", ""),
    ("region = 3", 'locks = [{ name = "x", start = 0, length = 1 }]', "reason 16 task 4", '"other", and', "spinlocks"),
    ("region = 3", 'locks = [{ name = "z", start = 0, length = 1 }]', "", "", ""),
    ("region = 3", "region = 3, locks = []", "", "", ""),
    ("payload = 8", "payload = 8, locks = [" + Y + "]", "reason 9 task 5", "is can", "no job is preempted there"),
    ("payload = 8", "payload = 8, locks = []", "", "", ""),
    ("length = 4", "length = 0", "reason 2 task 3", '`length` of its lock "x" is 0, below 1', "is left out"),
    ("length = 4", "length = 10000001", "reason 2 task 3", "above 10000000", "1 to 10000000 ticks"),
    ('"y"', '"y y"', "reason 3 task 3", "the name of its lock has a blank", 'write "y_y"'),
    ("length = 4", "worst = 4", "reason 1 task 3", "did you mean `length`?", "for how many ticks"),
    ("length = 4", "ceiling = 4", "reason 1 task 3", "the key `ceiling` isn't known", "isn't written"),
    ("length = 4", "length = 4.5", "reason 1 task 3", "`length` of its lock 1 isn't a whole number", "a tick more"),
    ("length = 4", "length = true", "reason 1 task 3", "isn't a whole number", "write length = N"),
    (", length = 4", "", "reason 1 task 3", "its lock 1 has no `length`", "write length = N"),
    (Y, '"y"', "reason 1 task 3", "its lock 2 is no table", "write locks = [{"),
    ("[\n    " + X + ",\n  ]", "1", "reason 1 task 1", "`locks` is a whole number", "write locks = [{"),
    ("locks = [", "mutexes = [", "reason 1 task 1", "did you mean `locks`?", "told by the tasks"),
    ("format = 4", "format = 4\nlocks = []", "reason 1 file 0", "the key `locks` isn't known at the top", "told by"),
    ("format = 4", "format = 4\nmutex = []", "reason 1 file 0", "the key `mutex` isn't known at the top", "told by"),
    ("format = 4", "format = 4\nceiling = []", "reason 1 file 0", "the key `ceiling` isn't known at the top", ""),
]


def two_tasks(tick: str | None = None) -> System:
    """Two tasks that share a lock: the lower one may keep the other waiting for 7 ticks."""
    system = System(tick=tick)
    cpu = system.ceiling("cpu")
    first, second = system.source("first", period=100), system.source("second", period=100)
    system.task("a", on=cpu, after=first, best=2, worst=5, priority=1, locks=[Lock("x", start=0, length=2)])
    system.task("b", on=cpu, after=second, best=1, worst=20, priority=2, locks=[Lock("x", 3, 8), Lock("y", 11, 9)])
    return system


class Files(unittest.TestCase):
    def test_format(self) -> None:
        text = two_tasks().to_toml()
        self.assertTrue(text.startswith("format = 4\n"), text)
        self.assertIn('locks = [{ name = "x", start = 3, length = 8 }, { name = "y", start = 11, length = 9 }]', text)
        self.assertEqual(System.from_toml(text), two_tasks())
        self.assertEqual(System.from_toml(text).tasks["b"].locks, [Lock("x", 3, 8), Lock("y", 11, 9)])
        self.assertEqual(two_tasks().resources["cpu"].kind, Kind.CEILING)
        self.assertIn("x from 3 for 8; y from 11 for 9", two_tasks()._repr_html_())
        system = two_tasks()
        system.tasks["b"].locks = None
        self.assertNotEqual(system, two_tasks())
        self.assertNotIn("from 3 for 8", system._repr_html_())
        # a system without locks needs no later format
        system = System()
        system.task("t", on=system.preemptive("p"), after=system.source("s", 9), best=1, worst=1, priority=1, locks=[])
        self.assertTrue(system.to_toml().startswith("format = 1\n"))

    def test_headings(self) -> None:
        text = LOCKS.replace('  { name = "d"', "]\n[[task]]\n#").split("]\n[[task]]")[0] + "]\n"
        lines = ['[[task]]\nname = "e"\non = "cpu"\nafter = "s"\nbest = 1\nworst = 4\npriority = 9\n']
        lines += [f'[[task.locks]]\nname = "z{k}"\nstart = {k}\nlength = 1\n' for k in range(2)]
        text = text.split("task = [")[0] + "".join(lines)
        view = SystemView.of(values_in(text))
        self.assertEqual([(it.name, it.start, it.end) for it in view.tasks["e"].locks], [("z0", 0, 1), ("z1", 1, 2)])
        line, says, _ = told_of(text.replace("start = 1\nlength = 1", "start = 0\nlength = 0"))
        self.assertEqual((line, '"z1" is 0' in says), ("reason 2 task 1", True))

    def test_view(self) -> None:
        view = SystemView.of(values_in(LOCKS))
        self.assertTrue(view.resources["cpu"].has_priorities)
        self.assertEqual(view.locks_on("cpu"), {"x": ("a", "c"), "y": ("c",)})
        self.assertEqual([view.ceiling("cpu", it) for it in "xy"], [1, 3])
        # y has the ceiling of c alone, and x that of a
        self.assertEqual(view.blocks("a"), [Block("c", 4, "section", "x", 1), Block("b", 1, "region")])
        self.assertEqual(view.blocks("b"), [Block("c", 4, "section", "x", 1)])
        self.assertEqual([view.blockers(it) for it in "abcd"], [["c"], ["c"], [], []])
        self.assertEqual((view.rivals("c"), view.lower("a")), (["a", "b"], ["b", "c"]))
        # with another priority the ceiling is another, too
        view = view.with_keys("task", {"b": {"priority": 5}})
        self.assertEqual(view.blocks("b"), [])
        view = view.with_keys("task", {"a": {"priority": 7}})
        self.assertEqual(view.ceiling("cpu", "x"), 3)
        self.assertEqual(view.blocks("c"), [Block("a", 2, "section", "x"), Block("b", 1, "region")])

    def test_refusals(self) -> None:
        for old, new, line, says, helps in REFUSED:
            found = told_of(LOCKS.replace(old, new, 1))
            with self.subTest(new):
                self.assertEqual(found[0], line, found)
                self.assertIn(says, found[1])
                self.assertIn(helps, found[2])
        several = ", ".join(f'{{ name = "z", start = {k}, length = 1 }}' for k in range(64))
        self.assertEqual(told_of(LOCKS.replace(Y, several.replace("start = ", "start = 1")))[0], "reason 16 task 3")
        self.assertEqual(told_of(LOCKS.replace("region = 3", f"locks = [{several}]"))[0], "")
        with self.assertRaisesRegex(LokwurmiError, "which format 2 hasn't"):
            System.from_toml(LOCKS.replace("format = 4", "format = 2"))

    def test_no_sections(self) -> None:
        """What no critical section can be made of is refused as the file is read; times may have units."""
        for old, new, told in (
            ("start = 6, ", "", 'task "c": its lock 2 has no `start`'),
            ("length = 9", 'length = "9us", more = 1', 'task "c": the key `more` isn.t known in its lock 2'),
            ('{ name = "y"', '3, { name = "y"', 'task "c": its lock 2 is no table'),
        ):
            for tick in (None, "1us"):
                with self.subTest(new, tick=tick), self.assertRaisesRegex(LokwurmiError, told):
                    System.from_toml(LOCKS.replace(Y, Y.replace(old, new, 1)), tick)
        system = System()
        cpu, often = system.ceiling("cpu"), system.source("often", period=10)
        for locks in ("x", [("x", 0, 1)]):
            with self.subTest(locks), self.assertRaisesRegex(LokwurmiError, r"a list of Lock\(NAME, start=\.\.,"):
                system.task("a", on=cpu, after=often, best=1, worst=1, priority=1, locks=locks)  # type: ignore

    def test_notices(self) -> None:
        told = [it.says for it in notices.of_system(Document(LOCKS))]
        self.assertEqual(told, ['task "c" alone has the lock "y", which changes no bound'])
        told = [it.says for it in notices.of_system(Document(LOCKS.replace("start = 6", "start = 9")))]
        self.assertEqual(len(told), 2)
        self.assertIn('its section of "y" begins after 9 ticks of a job, and no job has more than 9', told[0])

    def test_edits(self) -> None:
        edits = "priority c 1\nslot c 1\npriority c 9\nswap a c\nadd n cpu s 1 1 9\nadd m cpu s 1 1 0\n"
        edits += "exec c 1 2\nswap a d\n"
        count, found = refused_edits(Document(LOCKS), File("edits", edits))
        self.assertEqual((count, [(it.line, it.rule) for it in found]), (8, [(1, 4), (2, 2), (5, 4), (8, 2)]))


class Units(unittest.TestCase):
    def converted(
        self, worst: str, *several: tuple[str | int, str | int]
    ) -> tuple[int, list[tuple[int, int]], list[str]]:
        """The greatest execution and the sections of a task in ticks of a microsecond, and what is told."""
        converter = Converter(Fraction(1000))
        locks = [{"name": f"l{k}", "start": start, "length": length} for k, (start, length) in enumerate(several)]
        task = {"name": "t", "on": "cpu", "worst": worst, "locks": locks}
        converter.convert({"format": 4, "task": [task]})
        found = [(it["start"], it["length"]) for it in locks]
        return task["worst"], found, [str(it) for it in converter.reported]  # type: ignore[return-value]

    def test_sections(self) -> None:
        """The start is rounded down, and the length up, with a tick more; so is an execution that it covers."""
        worst, found, told = self.converted("50 us", ("2.5 us", "4.2us"))
        self.assertEqual((worst, found), (50, [(2, 6)]))
        self.assertIn("lock l0 of task t: start of 2.5us is rounded down to 2", told)
        self.assertIn("lock l0 of task t: length of 4.2us is rounded up to 6, with a tick more", told)
        self.assertEqual(self.converted("4 us", ("0 us", "4 us"))[:2], (5, [(0, 5)]))
        self.assertEqual(self.converted("5 us", ("0 us", "4 us"))[:2], (5, [(0, 5)]))
        # numbers count ticks
        self.assertEqual(self.converted("50 us", (2, 4))[:2], (50, [(2, 4)]))
        self.assertEqual(self.converted("50 us", (2, "4 us"))[:2], (50, [(2, 5)]))

    def test_nesting(self) -> None:
        """What nests or is apart does so in ticks, too."""
        self.assertEqual(self.converted("50 us", ("0us", "5us"), ("5us", "5us"))[1], [(0, 6), (6, 6)])
        self.assertEqual(self.converted("50 us", ("5us", "5us"), ("0us", "5us"))[1], [(6, 6), (0, 6)])
        self.assertEqual(
            self.converted("50 us", ("0us", "10us"), ("0us", "5us"), ("5us", "5us"))[1], [(0, 12), (0, 6), (6, 6)]
        )
        self.assertEqual(self.converted("50 us", ("0.5us", "1us"), ("1.2us", "300ns"))[1], [(0, 3), (1, 2)])
        with self.assertRaisesRegex(UnitsRefused, "its section of l1 begins within that of l0 and ends behind it"):
            self.converted("50 us", ("0us", "5us"), ("4.9us", "5us"))

    def test_random_nesting(self) -> None:
        """No section is shorter than it was, and none crosses another."""
        draw = random.Random(1)
        for _ in range(500):
            several: list[tuple[int, int]] = []
            for _ in range(draw.randint(1, 6)):
                start, length = draw.randint(0, 60), draw.randint(1, 40)
                end = start + length
                if not any(a < start < a + n < end or start < a < end < a + n for a, n in several):
                    several.append((start, length))
            found = self.converted("1 ms", *((f"{a / 10} us", f"{n / 10} us") for a, n in several))[1]
            for (a, n), (start, length) in zip(several, found):
                self.assertGreaterEqual(length, -(-n // 10) + 1)
                self.assertGreaterEqual(start, a // 10)
                for other, size in found:
                    self.assertFalse(start < other < start + length < other + size, (several, found))

    def test_system(self) -> None:
        system = System(tick="1us")
        cpu, source = system.ceiling("cpu"), system.source("s", "1 ms")
        with warnings.catch_warnings():
            warnings.simplefilter("ignore")
            system.task("a", on=cpu, after=source, best="9us", worst="9us", priority=1, locks=[Lock("x", "1us", "2us")])
            self.assertIn('locks = [{ name = "x", start = 1, length = 3 }]', system.to_toml())
            self.assertEqual(system.view().tasks["a"].locks[0].length, 3)
            self.assertEqual(len(system.roundings), 1)
        # what was given stays
        self.assertEqual(system.tasks["a"].locks, [Lock("x", "1us", "2us")])
        with self.assertRaises(NoTick):
            System().task("a", on="cpu", after="s", locks=[Lock("x", 0, "2us")])


class Answers(unittest.TestCase):
    """What the library or the program says, where one is there."""

    def test_bounds(self) -> None:
        need_engine()
        report = two_tasks().analyse()
        self.assertEqual([report.tasks[it].worst for it in "ab"], [12, 25])
        report = System.from_toml(LOCKS).analyse()
        # 2 + 3, 5 + 3 + 2, 9 + 2 + 5, and alone
        self.assertEqual([it.worst for it in report.tasks.values()], [5, 10, 16, 9, 135])

    def test_session(self) -> None:
        need_engine()
        with two_tasks().session() as session:
            session.exec("b", worst=4)
            self.assertEqual(dict(session.bounds), {"a": 8, "b": 9})
            session.add("c", on="cpu", after="first", best=1, worst=2, priority=0)
            self.assertEqual(dict(session.bounds), {"a": 10, "b": 11, "c": 2})
            session.swap("a", "c")
            # the ceiling of x is 0 now
            self.assertEqual(dict(session.bounds), {"a": 8, "b": 11, "c": 10})
            self.assertRaises(EditRefused, session.slot, "a", 1)
            system = session.to_system()
        self.assertEqual(system.tasks["b"].locks, two_tasks().tasks["b"].locks)
        self.assertEqual(system.analyse().tasks["c"].worst, 10)

    def test_orders(self) -> None:
        """Below `a` the task `b` keeps it waiting for 7 ticks."""
        need_engine("assign")
        system = two_tasks()
        self.assertEqual(system.assign("cpu"), {"b": 1, "a": 2})
        system.path("in_time", ["a"], deadline=12)
        self.assertEqual(system.assign("cpu"), {"a": 1, "b": 2})
        system.paths["in_time"].deadline = 11
        self.assertIsNone(system.assign("cpu"))
        # `y` keeps `a` waiting where it has that lock too
        system.tasks["a"].locks = [Lock("x", 0, 2), Lock("y", 3, 1)]
        system.paths["in_time"].deadline = 12
        self.assertIsNone(system.assign("cpu"))
        system.paths["in_time"].deadline = 13
        self.assertEqual(system.assign("cpu"), {"a": 1, "b": 2})

    def test_refused(self) -> None:
        system = two_tasks()
        system.tasks["a"].locks = [Lock("x", 0, 5), Lock("y", 3, 5)]
        self.assertRaisesRegex(SystemRefused, "begins within that of", system.analyse)

    def test_runs(self) -> None:
        """A job that has had a tick of its section keeps the other one waiting."""
        need_engine("simulate")
        seen = two_tasks().simulate("event,second,0\nevent,first,4\n").tasks
        self.assertEqual([seen[it].worst for it in "ab"], [12, 25])
        seen = two_tasks().simulate("event,second,0\nevent,first,3\n").tasks
        self.assertEqual([seen[it].worst for it in "ab"], [5, 25])


if __name__ == "__main__":
    unittest.main()
