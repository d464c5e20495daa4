"""What the package says in words: notices, numbers without a unit, refusals, and what a session doesn't send."""
import unittest
import warnings

from engine_for_tests import need_engine

from lokwurmi import (
    CallFailed,
    EditRefused,
    LokwurmiError,
    NoticeWarning,
    NoUnitWarning,
    Program,
    ScriptRefused,
    System,
    SystemRefused,
    Unreadable,
    WordsRefused,
    ms,
)
from lokwurmi.results.reports import buffers, order


def small(tick=None):
    """Two tasks on a processor."""
    system = System(tick=tick)
    cpu = system.preemptive("cpu")
    system.task("a", on=cpu, after=system.source("x", period=10, jitter=3), best=1, worst=3, priority=1)
    system.task("b", on=cpu, after=system.source("y", period=20), best=2, worst=4, priority=2)
    return system


class Notices(unittest.TestCase):
    def setUp(self) -> None:
        need_engine()

    def mixed(self):
        system = System()
        bus = system.can("bus", bit=2)
        for name, extended, priority in (("long", True, 0x0CF00400), ("short", None, 0x3A0)):
            source = system.source(f"{name}.queued", period=10_000)
            system.task(name, on=bus, after=source, payload=8, extended=extended, priority=priority)
        return system

    def test_identifiers_of_both_lengths(self) -> None:
        """What the launcher has a notice on is a warning here, once, at the line of the call."""
        system = self.mixed()
        with self.assertWarns(NoticeWarning) as told:
            system.analyse()
        self.assertIn("goes on the bus before short", str(told.warning))
        self.assertEqual(told.filename, __file__)
        with warnings.catch_warnings():
            warnings.simplefilter("error")
            system.analyse()

    def test_no_unused_source_in_sessions(self) -> None:
        system = small()
        system.source("nobody", period=7)
        with self.assertWarnsRegex(NoticeWarning, 'source "nobody" starts nobody'):
            system.session().close()

    def test_deadlines_that_are_not_counted(self) -> None:
        """`assign` counts deadlines of paths of one task, and `slack` those of all paths."""
        system = small()
        with self.assertWarnsRegex(NoticeWarning, "0 of 2 tasks of cpu have a deadline of their own") as told:
            system.assign("cpu")
        self.assertEqual(told.filename, __file__)
        with self.assertWarnsRegex(NoticeWarning, "no path has a deadline, so that nothing can be missed"):
            system.slack("a")
        with warnings.catch_warnings():
            warnings.simplefilter("error")
            system.assign("cpu")
            system.path("pa", ["a"], deadline=10)
            system.path("pb", ["b"], deadline=20)
            system.slack("a")
            system.assign("cpu")

    def test_refused_edits_of_a_script(self) -> None:
        """What a script wanted and wasn't done is told at the call."""
        with self.assertWarnsRegex(
            NoticeWarning, r'^line 2: `exec bb 1 2` was refused: no task is called "bb"'
        ) as told:
            reports = small().session("exec b 1 5\nexec bb 1 2\nreport\n")
        self.assertEqual((told.filename, reports[0].refused), (__file__, {2: 1}))
        with warnings.catch_warnings():
            warnings.simplefilter("error")
            small().session("exec b 1 5\n")

    def test_nothing_to_say(self) -> None:
        with warnings.catch_warnings():
            warnings.simplefilter("error")
            small().analyse()


class Units(unittest.TestCase):
    def test_number_at_the_call(self) -> None:
        """A number beside times with units is told at its line."""
        system = System(tick="1us")
        cpu, source = system.preemptive("cpu"), system.source("s", period=ms(10))
        with self.assertWarnsRegex(NoUnitWarning, "it has no unit: worst of task a") as told:
            system.task("a", on=cpu, after=source, best=0, worst=5, priority=1)
        self.assertEqual(told.filename, __file__)

    def test_number_before_the_first_unit(self) -> None:
        system = System(tick="1us")
        cpu, source = system.preemptive("cpu"), system.source("s", period=100)
        system.task("a", on=cpu, after=source, best=ms(1), worst=ms(2), priority=1)
        with self.assertWarnsRegex(NoUnitWarning, "period of source s"):
            system.to_toml()

    def test_numbers_alone(self) -> None:
        with warnings.catch_warnings():
            warnings.simplefilter("error")
            small("1us").to_toml()


class Refusals(unittest.TestCase):
    def test_sentence_of_the_launcher(self) -> None:
        need_engine()
        system = small()
        system.task("c", on="CPU", after="x", best=1, worst=1, priority=3)
        with self.assertRaises(SystemRefused) as told:
            system.analyse()
        self.assertIn("task 'c': a name of nothing (reason 5)", str(told.exception))
        self.assertIn('did you mean "cpu"?', str(told.exception))

    def test_names(self) -> None:
        need_engine()
        for call, said in (
            (lambda it: it.assign("CPU"), 'no resource is called "CPU"; did you mean cpu?'),
            (lambda it: it.slack("aa"), 'no task is called "aa"'),
            (lambda it: it.simulate([("event", "z", 0)]), "z"),
            (lambda it: it.session("exce a 1 2\n"), "exec"),
        ):
            with self.assertRaises(LokwurmiError) as told:
                call(small())
            self.assertIn(said, str(told.exception))

    def test_words_of_the_launcher(self) -> None:
        """Value, nearest name and remedy stand in the exception, as the launcher says them."""
        system = small()
        system.task("c", on="cpu", after="b", best=1, worst=1, priority=3)
        for command in ("chains", "schedule"):
            need_engine(command)
        for call, said in (
            (lambda it: it.assign("cpu"), 'task "c" of cpu comes after the task "b"'),
            (lambda it: it.slack("bb"), 'no task is called "bb"; did you mean'),
            (lambda it: it.chains('format = 1\nchain = [{ name = "x", tasks = ["a"], reactoin = 5 }]\n'), "reaction"),
            (lambda it: it.schedule([("event", "z", 0)]), "z"),
        ):
            with self.assertRaises(LokwurmiError) as told:
                call(system)
            self.assertIn(said, str(told.exception))

    def test_text_as_chain(self) -> None:
        with self.assertRaisesRegex(TypeError, r"write \['ab'\]"):
            small().chain("ab")
        with self.assertRaises(TypeError):
            small().path("p", "ab")

    def test_flag_as_name(self) -> None:
        with self.assertRaises(WordsRefused):
            small().chain(["a", "b", "--while-running"])


class Sessions(unittest.TestCase):
    def setUp(self) -> None:
        need_engine()

    def test_unknown_names(self) -> None:
        with small().session() as session:
            for edit in (lambda: session.exec("x", best=1), lambda: session.source("a", period=20)):
                with self.assertRaises(EditRefused) as told:
                    edit()
                self.assertEqual(told.exception.rule, 1)
            self.assertEqual(dict(session.bounds), {"a": 3, "b": 7})

    def test_refused_edits(self) -> None:
        """The rule, and the launcher's sentence with value, nearest name and remedy, of the system as it is by then."""
        with small().session() as session:
            for call, wanted in (
                (lambda: session.exec("bb", worst=3), 'exec bb: .*rule 1.*no task is called "bb"; did you mean "b"?'),
                (lambda: session.priority("a", 2), 'rule 4.*"b" has the priority 2 on cpu: swap a b, or take .* as 3'),
                (lambda: session.edit("exec a 4 3"), "rule 5.*MIN, 4, is above MAX, 3: exchange them"),
                (lambda: session.source("x", period=0), "rule 3.*the period 0 isn't 1 to 1000000000"),
            ):
                with self.assertRaisesRegex(EditRefused, wanted):
                    call()
            session.remove("b")
            session.priority("a", 2)
            with self.assertRaisesRegex(EditRefused, 'no task is called "b"'):
                session.exec("b", worst=3)

    def test_renamed_entries(self) -> None:
        for part, name in (("tasks", "b"), ("sources", "x")):
            system = small()
            getattr(system, part)[name].name = "new"
            with self.assertRaisesRegex(LokwurmiError, "has the name 'new' by now"):
                system.session()

    def test_line_feeds_alone(self) -> None:
        """A line ends at a line feed, as the program has it."""
        for between in "\x0b\x0c\x1c\x85\u2028":
            with small().session() as session:
                session.edit(f"# was{between}exec b 2 9\nexec b 1 5")
                self.assertEqual((session.to_system().tasks["b"].worst, session.bounds["b"]), (5, 11))
        with small().session() as session, self.assertRaises(ScriptRefused):
            session.edit("# nothing")

    def test_edits_have_no_units_to_tell(self) -> None:
        system = System(tick="1us")
        cpu, source = system.preemptive("cpu"), system.source("s", period=ms(10))
        system.task("a", on=cpu, after=source, best=ms(1), worst=ms(2), priority=1)
        with warnings.catch_warnings(), system.session() as session:
            warnings.simplefilter("error")
            session.exec("a", worst=ms(3))
            session.to_system().to_toml()


class Empty(unittest.TestCase):
    def test_texts(self) -> None:
        for read in (order, buffers):
            with self.assertRaises(Unreadable):
                read("")

    def test_program_that_writes_nothing(self) -> None:
        nothing = Program("/bin/false")
        for call in (
            lambda: small().assign("cpu", engine=nothing),
            lambda: small().buffers(engine=nothing),
            lambda: small().schedule([], engine=nothing),
        ):
            with self.assertRaises((CallFailed, Unreadable, LokwurmiError)):
                call()


if __name__ == "__main__":
    unittest.main()
