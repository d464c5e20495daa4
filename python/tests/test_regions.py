"""Tasks with regions. Expected numbers are worked out by hand."""
import unittest
import warnings
from pathlib import Path

from engine_for_tests import need_engine

from lokwurmi import LokwurmiError, RoundingWarning, System, SystemRefused, UnitsRefused, us

EXAMPLES = Path(__file__).resolve().parents[2] / "examples"
# the log has just begun as the first control comes
TRACE = [("event", "seldom", 0), ("event", "often", 1), ("event", "often", 11), ("event", "often", 21)]


def logging(region: int | None = None, worst: int = 20, deadline: int | None = None) -> System:
    """A control task above a logger, of which a job isn't preempted for so many ticks."""
    system = System()
    cpu = system.preemptive("cpu")
    often, seldom = system.source("often", period=10), system.source("seldom", period=100)
    control = system.task("control", on=cpu, after=often, best=2, worst=2, priority=1)
    log = system.task("log", on=cpu, after=seldom, best=5, worst=worst, priority=2, region=region)
    if deadline is not None:
        system.path("control_in_time", [control], deadline=deadline)
        system.path("log_in_time", [log], deadline=60)
    return system


def bounds(system: System) -> dict:
    return {name: it.worst for name, it in system.analyse().tasks.items()}


class Calls(unittest.TestCase):
    def setUp(self) -> None:
        need_engine()

    def test_bounds(self) -> None:
        for region, control in ((None, 2), (1, 2), (2, 3), (5, 6), (19, 20), (20, 21), (1_000_000, 21)):
            self.assertEqual(bounds(logging(region)), {"control": control, "log": 26}, region)

    def test_three_tasks(self) -> None:
        """Of two regions below it the longer one holds up a task, once."""
        system = System.from_file(EXAMPLES / "regions.toml")
        self.assertEqual(bounds(system), {"a": 6, "b": 10, "c": 26})
        run = system.simulate([("event", "sc", 0), ("event", "sb", 1), ("event", "sa", 2)])
        self.assertEqual(
            ({name: it.worst for name, it in run.tasks.items()}, run.end), ({"a": 5, "b": 10, "c": 16}, 16)
        )

    def test_runs(self) -> None:
        need_engine("schedule")
        log, control = "log", "control"
        for region, wanted in (
            (
                1,
                [
                    (log, 0, 1),
                    (control, 1, 3),
                    (log, 3, 11),
                    (control, 11, 13),
                    (log, 13, 21),
                    (control, 21, 23),
                    (log, 23, 26),
                ],
            ),
            (5, [(log, 0, 5), (control, 5, 7), (log, 7, 12), (control, 12, 14), (log, 14, 24), (control, 24, 26)]),
            # one segment a job
            (20, [(log, 0, 20), (control, 20, 22), (control, 22, 24), (control, 24, 26)]),
        ):
            system = logging(region)
            self.assertEqual(list(system.schedule(TRACE)), wanted, region)
            self.assertIsNone(system.audit(TRACE, wanted))
            run = system.simulate(TRACE)
            self.assertEqual(run.tasks["log"].worst, max(end for name, _, end in wanted if name == log), region)

    def test_end_of_a_job(self) -> None:
        """A region doesn't outlast its job: the control that came meanwhile begins at once."""
        run = logging(20).simulate([*TRACE[:2], ("exec", "log", 6)])
        self.assertEqual((run.tasks["log"].worst, run.tasks["control"].worst, run.end), (6, 7, 8))

    def test_slack(self) -> None:
        """A job of 5 ticks that is never preempted holds up the control for 4, and may hold it up for 6."""
        slack = logging(20, worst=5, deadline=8).slack("log")
        self.assertEqual((slack.ticks, slack.at_limit), (2, False))
        # with a region of 5 ticks a longer one holds it up for 4 still: 48 + 6 * 2 = 60
        self.assertEqual(logging(5, worst=5, deadline=8).slack("log").ticks, 43)

    def test_assign(self) -> None:
        """Where the longer task isn't preempted, neither order meets; with regions of 5 ticks one does."""
        system = System()
        cpu = system.preemptive("cpu")
        short = system.task("short", on=cpu, after=system.source("s", 10), best=1, worst=1, priority=4)
        long = system.task("long", on=cpu, after=system.source("l", 50), best=10, worst=10, priority=3, region=10)
        system.path("short_in_time", [short], deadline=5)
        system.path("long_in_time", [long], deadline=50)
        self.assertIsNone(system.assign("cpu"))
        long.region = 5
        self.assertEqual(system.assign("cpu"), {"short": 3, "long": 4})

    def test_buffers(self) -> None:
        """In 21 ticks three controls may come."""
        for region, waiting in ((1, 1), (5, 1), (20, 3)):
            self.assertEqual(logging(region).buffers(TRACE).tasks["control"][0], waiting)
        self.assertEqual(logging(20).buffers(TRACE).tasks["control"], (3, 3))

    def test_session(self) -> None:
        """Edits keep regions, and an added task has none."""
        with logging(5).session() as session:
            session.exec("log", best=2, worst=4)
            self.assertEqual(session.bounds["control"], 5)
            session.add("watch", on="cpu", after="seldom", best=1, worst=3, priority=3)
            self.assertEqual(session.bounds["control"], 5)
            session.swap("log", "watch")
            system = session.to_system()
            self.assertEqual((system.tasks["log"].region, system.tasks["watch"].region), (5, None))
            self.assertEqual(bounds(system), dict(session.bounds))

    def test_refusals(self) -> None:
        for region, on, reason in ((0, "cpu", 2), (10_000_001, "cpu", 2), ("long", "cpu", 1), (1, "bus", 9)):
            system = logging(region)  # type: ignore[arg-type]
            system.can("bus")
            system.tasks["log"].on = on
            with self.assertRaises(SystemRefused) as fault:
                system.analyse()
            self.assertEqual((fault.exception.name, fault.exception.reason), ("log", reason))


class Files(unittest.TestCase):
    def test_least_format(self) -> None:
        for region, number in ((None, 1), (1, 4), (5, 4)):
            text = logging(region).to_toml()
            self.assertTrue(text.startswith(f"format = {number}\n"), text)
            self.assertEqual("region" in text, region is not None)
            self.assertEqual(System.from_toml(text), logging(region))
        system = logging(5)
        system.tasks["log"].after = ["often", "seldom"]
        self.assertTrue(system.to_toml().startswith("format = 4\n"))
        system.tasks["log"].region = None
        self.assertTrue(system.to_toml().startswith("format = 2\n"))

    def test_older_formats(self) -> None:
        """A file whose format hasn't what its tasks have is refused, as `analyse` does."""
        for number, wanted in (
            (1, 'line 11: task "log": it has a `region`, which format 1 hasn.t'),
            (2, "write `format = 4`"),
        ):
            text = logging(5).to_toml().replace("format = 4", f"format = {number}")
            with self.assertRaisesRegex(LokwurmiError, wanted):
                System.from_toml(text)
        system = logging()
        system.tasks["log"].after = ["often", "seldom"]
        with self.assertRaisesRegex(LokwurmiError, "`after` is a list, which format 1 hasn't: write `format = 2`"):
            System.from_toml(system.to_toml().replace("format = 2", "format = 1"))

    def test_examples(self) -> None:
        system = System.from_file(EXAMPLES / "cooperative.toml")
        self.assertEqual(system, logging(5, deadline=8))
        self.assertEqual(system.copy().tasks["log"].region, 5)
        self.assertIn("<td", system._repr_html_())
        self.assertIn(">region<", system._repr_html_())
        self.assertNotIn(">region<", logging()._repr_html_())


class Times(unittest.TestCase):
    def ticked(self, region, worst, tick: str = "1us") -> System:
        system = System(tick=tick)
        cpu, seldom = system.preemptive("cpu"), system.source("seldom", us(1000))
        with warnings.catch_warnings():
            warnings.simplefilter("ignore", RoundingWarning)
            system.task("log", on=cpu, after=seldom, best=us(10), worst=worst, priority=2, region=region)
        return system

    def numbers(self, *words) -> tuple:
        system = self.ticked(*words)
        return tuple(system.ticks(system.tasks["log"], it) for it in ("region", "worst"))

    def test_ticks(self) -> None:
        """A tick more than the time, rounded up; for an execution that the region covers too."""
        self.assertEqual(self.numbers(us(5), us(20)), (6, 20))
        self.assertEqual(self.numbers("5.5 us", us(20)), (7, 20))
        self.assertEqual(self.numbers("500 ns", us(20)), (2, 20))
        self.assertEqual(self.numbers(us(18), us("19.5")), (19, 20))
        self.assertEqual(self.numbers(us(19), us("19.5")), (20, 20))
        self.assertEqual(self.numbers("19.2us", us("19.5")), (21, 21))
        self.assertEqual(self.numbers(us(20), us(20)), (21, 21))
        self.assertEqual(self.numbers("20 s", us(20)), (10_000_000, 21))
        # a region of no time is none, and a number counts ticks
        self.assertEqual(self.numbers("0us", us(20)), (1, 20))
        self.assertEqual(self.numbers(1, us(1)), (1, 1))
        self.assertEqual(self.numbers(7, us(20)), (7, 20))
        self.assertEqual(self.numbers(20, us(20)), (20, 20))
        self.assertEqual(self.numbers(21, us(20)), (21, 21))
        self.assertEqual(self.numbers(us(20), 20), (21, 20))
        self.assertEqual(self.numbers(us(25), us(40), "10us"), (4, 4))
        with self.assertRaisesRegex(UnitsRefused, "is no time"):
            self.numbers("5", us(20))

    def test_told(self) -> None:
        """A file says which times have a tick more, and so do roundings and warnings."""
        system = self.ticked(us(20), us(20))
        more = "# a tick more, since between ticks all of a region may go by: "
        more += "region of task log is 21, worst of task log is 21"
        self.assertEqual(system.to_toml().splitlines()[:2], ["# A tick is 1us.", more])
        told = ["task log: region of 20us is 21, with a tick more", "task log: worst of 20us is 21, with a tick more"]
        self.assertEqual([str(it) for it in system.roundings], told)
        self.assertEqual([it.has_more for it in system.roundings], [True, True])
        with warnings.catch_warnings(record=True) as warned:
            warnings.simplefilter("always")
            System.from_toml(
                'format = 4\ntask = [{ name = "log", on = "cpu", after = "s", worst = "20us", region = "20us" }]',
                tick="1us",
            )
        self.assertEqual(sorted(str(it.message) for it in warned), told)
        for region, what in (
            ("5.5us", "5.5us is rounded up to 7, with a tick more"),
            ("20 s", "20s is 10000000, the most, which is as long as any execution"),
        ):
            found = [str(it) for it in self.ticked(region, us(20)).roundings if it.key == "region"]
            self.assertEqual(found, [f"task log: region of {what}"])

    def test_session(self) -> None:
        """An execution that an edit sets has the tick more too."""
        need_engine()
        with warnings.catch_warnings(), self.ticked(us(20), us(20)).session() as session:
            warnings.simplefilter("ignore", RoundingWarning)
            self.assertEqual(session.bounds["log"], 21)
            session.exec("log", worst=us(10))
            self.assertEqual(session.bounds["log"], 11)
            self.assertEqual([(it.key, it.ticks) for it in session.roundings], [("region", 21), ("worst", 11)])
            # what is exact now isn't told as rounded
            session.exec("log", worst=us(30))
            self.assertEqual(session.bounds["log"], 30)
            self.assertEqual([(it.key, it.ticks) for it in session.roundings], [("region", 21)])


if __name__ == "__main__":
    unittest.main()
