"""Sessions that are kept: their bounds are those of reports, whoever answers."""
import os
import threading
import unittest
import warnings
from pathlib import Path
from random import Random

from engine_for_tests import need_engine, some_engines
from made import random_edit, random_system
from test_model import two_tasks

from lokwurmi import (
    EditRefused,
    Library,
    LokwurmiError,
    NoTick,
    RoundingWarning,
    ScriptRefused,
    Session,
    SessionClosed,
    System,
    SystemRefused,
    Verdict,
    ms,
    ns,
    us,
)

TOP = Path(__file__).resolve().parents[2]


class Kept(unittest.TestCase):
    def each(self):
        """A session of the system of two tasks by each engine that is there."""
        for engine in some_engines():
            session = two_tasks().session(engine=engine)
            self.addCleanup(session.close)
            yield session

    def test_bounds(self) -> None:
        """b takes what it needs and 3 for each a, one each 10 ticks: 7 + 3, then 5 + 3, then 8 + 2 * 3."""
        for session in self.each():
            self.assertEqual((session.bounds["b"], session.latencies["pb"]), (10, 10))
            session.exec("b", 2, 5)
            self.assertEqual((session.bounds["b"], session.latencies["pb"]), (8, 8))
            self.assertIs(session.verdict, Verdict.MET)
            session.edit("exec b 2 8")
            self.assertEqual(session.bounds["b"], 14)
            self.assertEqual(dict(session.bounds), {"a": 3, "b": 14})
            session.exec("b", 1, 20)
            self.assertEqual((session.bounds["b"], session.verdict), (None, Verdict.OVERLOAD))

    def test_each_edit(self) -> None:
        for session in self.each():
            before = session.bounds
            session.add("c", on="cpu", after="sb", best=1, worst=2, priority=3)
            # 7 + 2 and one a are 12 with the second a
            self.assertEqual(dict(session.bounds), {"a": 3, "b": 10, "c": 15})
            session.swap("b", "c")
            self.assertEqual(dict(session.bounds), {"a": 3, "b": 15, "c": 5})
            session.priority("c", 9)
            session.source("sa", jitter=4)
            self.assertEqual(session.report().tasks["a"].jitter, 4)
            session.remove("c")
            self.assertEqual(list(session.bounds), ["a", "b"])
            session.source("sa", 20, 0, 20)
            self.assertEqual(dict(session.bounds), {"a": 3, "b": 10})
            # what was handed out doesn't change
            self.assertEqual(dict(before), {"a": 3, "b": 10})
            self.assertEqual(session.report().tasks["a"].distance, 20)
            edited = session.to_system()
            self.assertEqual((edited.sources["sa"].period, edited.tasks["b"].priority), (20, 3))

    def test_slots(self) -> None:
        for engine in some_engines():
            system = System()
            ring = system.round_robin("ring")
            system.task("r", on=ring, after=system.source("s", 10), best=1, worst=2, slot=3)
            with self.subTest(engine), system.session(engine=engine) as session:
                session.slot("r", 4)
                self.assertEqual(session.to_system().tasks["r"].slot, 4)
                session.add("q", on="ring", after="s", best=1, worst=1, slot=2)
                self.assertEqual(session.to_system().tasks["q"].slot, 2)
                self.assertEqual(session.bounds["r"], 3)

    def test_turns(self) -> None:
        """A task that is added has what its resource wants, and nothing else; what is refused changes nothing."""
        for engine in some_engines():
            system = two_tasks()
            system.round_robin("ring")
            system.fifo("queue")
            with system.session(engine=engine) as session:
                for on, turn, told in (
                    ("cpu", {}, "have a priority, and neither is given"),
                    ("cpu", {"slot": 3}, "have a priority, and slot is given"),
                    ("cpu", {"priority": 3, "slot": 3}, "have a priority, and priority and slot are given"),
                    ("ring", {"priority": 3}, "have a slot, and priority is given"),
                    ("queue", {"priority": 3}, "rule 3"),
                    ("nowhere", {}, "rule 1"),
                ):
                    with self.subTest(on=on, turn=turn), self.assertRaisesRegex(LokwurmiError, told):
                        session.add("c", on=on, after="sb", best=1, worst=2, **turn)
                with self.assertRaisesRegex(LokwurmiError, "after one source or task, and not after a list"):
                    session.add("c", on="queue", after=["sb"], best=1, worst=2)  # type: ignore[arg-type]
                self.assertEqual(dict(session.bounds), {"a": 3, "b": 10})
                session.add("c", on="queue", after="sb", best=1, worst=2)
                self.assertEqual(session.bounds["c"], 2)

    def test_refusals(self) -> None:
        """The rules of docs/FILES.md, "Edits that are refused"; nothing changes by them."""
        for session in self.each():
            for line, rule in (
                ("exec zz 1 2", 1),
                ("slot a 3", 2),
                ("exec a 0 1", 3),
                ("priority b 1", 4),
                ("exec a 3 2", 5),
                ("remove a", 6),
                ("add a cpu sa 1 2 9", 7),
            ):
                with self.assertRaises(EditRefused) as caught:
                    session.edit(line)
                self.assertEqual((caught.exception.rule, caught.exception.edit), (rule, line))
            for text in ("exec b 2", "report", "", "# nothing", "exec b 2 5\nexec b 2 6", "zz"):
                with self.assertRaises(ScriptRefused, msg=text):
                    session.edit(text)
            self.assertEqual(session.report(), two_tasks().analyse())
            # blanks, comments and line ends beside an edit are none
            session.edit("# less\n\n \texec  b 2\t5 \r\n")
            self.assertEqual(session.bounds["b"], 8)
            self.assertEqual(session.to_system().tasks["b"].worst, 5)

    def test_what_is_not_given_stays(self) -> None:
        for session in self.each():
            session.exec("b", worst=5)
            self.assertEqual(session.report().tasks["b"].best, 2)
            session.exec("b", best=1)
            self.assertEqual((session.report().tasks["b"].best, session.bounds["b"]), (1, 8))

    def test_end(self) -> None:
        for session in self.each():
            self.assertIn("worst-case response time", session._repr_html_())
            session.close()
            session.close()
            self.assertTrue(session.is_closed)
            self.assertIn("closed", session._repr_html_())
            self.assertEqual(repr(session), "Session(closed)")
            for call in (lambda: session.bounds, session.report, lambda: session.edit("exec b 2 5")):
                self.assertRaises(SessionClosed, call)

    def test_closed_by_an_error(self) -> None:
        need_engine()
        with self.assertRaises(ZeroDivisionError):
            with two_tasks().session() as session:
                raise ZeroDivisionError
        self.assertTrue(session.is_closed)

    def test_refused_system(self) -> None:
        for engine in some_engines():
            system = two_tasks()
            system.tasks["b"].priority = 1
            with self.subTest(engine), self.assertRaisesRegex(SystemRefused, "task 'b': a priority twice"):
                system.session(engine=engine)

    def test_units(self) -> None:
        need_engine()
        system = System(tick="10us")
        cpu = system.preemptive("cpu")
        system.task("a", on=cpu, after=system.source("s", ms(1)), best=us(10), worst=us(50), priority=1)
        with system.session() as session, warnings.catch_warnings(record=True) as told:
            warnings.simplefilter("always")
            session.exec("a", worst=us(75))
            self.assertEqual(session.bounds["a"], 8)
            session.source("s", "1995us", jitter=ns(1))
            self.assertEqual(
                [str(it.message) for it in told],
                [
                    "task a: worst of 75us is rounded up to 8",
                    "source s: period of 1.995ms is rounded down to 199",
                    "source s: jitter of 1ns is rounded up to 1",
                ],
            )
            self.assertEqual({it.category for it in told}, {RoundingWarning})
            self.assertEqual(session.report().tasks["a"].time("period"), us(1990))
            before = session.report().roundings
            self.assertEqual([str(it) for it in before], [str(it.message) for it in told])
            # an edit that is refused leaves no rounding, and one that is made has its own alone
            self.assertRaises(EditRefused, session.exec, "a", best=us(5000), worst=us(15))
            self.assertEqual(session.report().roundings, before)
            session.exec("a", worst=us(65))
            self.assertEqual([(it.key, it.ticks) for it in session.roundings][-1], ("worst", 7))
            self.assertEqual(len(session.roundings), len(before))
        with two_tasks().session() as session:
            self.assertRaises(NoTick, session.exec, "b", worst=us(5))

    def test_frames(self) -> None:
        """What a frame's payload gives stays where one of both executions is set: 111 bits of 2 ticks at least."""
        need_engine()
        system = System()
        bus = system.can("bus", bit=2)
        system.task("f", on=bus, after=system.source("s", 10_000), payload=8, priority=1)
        with system.session() as session:
            session.exec("f", worst=300)
            self.assertEqual((session.report().tasks["f"].best, session.bounds["f"]), (222, 300))

    def test_threads(self) -> None:
        """Threads may share a session: one waits for the other."""
        need_engine()
        faults = []
        with two_tasks().session() as session:

            def work(number):
                try:
                    for worst in range(2):
                        session.exec("b", 2, 3 + number + worst)
                        assert set(session.bounds) == {"a", "b"}
                except Exception as fault:
                    faults.append(fault)

            several = [threading.Thread(target=work, args=(number,)) for number in range(4)]
            for it in several:
                it.start()
            for it in several:
                it.join()
        self.assertEqual(faults, [])

    def test_random_edits(self) -> None:
        """After each of some edits at random, accepted or not, the session's report is that of the edited system."""
        engines = some_engines()
        draw = Random(7)
        for number in range(int(os.environ.get("LOKWURMI_SYSTEMS", "4"))):
            system = random_system(draw, 0)
            for it in system.resources.values():
                # so that no busy window is followed for long
                it.limit = 5000
            sessions = [Session(system, engine) for engine in engines]
            for _ in range(4):
                line, seen = random_edit(draw, sessions[0].to_system()), []
                for session in sessions:
                    try:
                        session.edit(line)
                        seen.append(0)
                    except EditRefused as fault:
                        seen.append(fault.rule)
                    self.assertEqual(session.report(), session.to_system().analyse(engine=engines[0]), (number, line))
                    report = session.report()
                    self.assertEqual(dict(session.bounds), {name: it.worst for name, it in report.tasks.items()})
                    self.assertEqual(dict(session.latencies), {name: it.worst for name, it in report.paths.items()})
                self.assertEqual(len(set(seen)), 1, (number, line, seen))
            for session in sessions:
                session.close()

    def test_library_keeps(self) -> None:
        """By a library that has sessions they are kept in this process."""
        for engine in some_engines():
            if isinstance(engine, Library):
                with two_tasks().session(engine=engine) as session:
                    self.assertEqual(session.is_kept, engine.has("open"))


if __name__ == "__main__":
    unittest.main()
