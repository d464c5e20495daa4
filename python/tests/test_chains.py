"""Chains and schedules. Expected numbers are the sums of docs/FILES.md, "Effect chains"."""
import pickle
import unittest
import warnings
from pathlib import Path

from engine_for_tests import need_engine, some_engines

from lokwurmi import (
    Chain,
    ChainsRefused,
    LokwurmiError,
    NameRefused,
    NoTick,
    RoundingWarning,
    System,
    UnitsRefused,
    Verdict,
    WordsRefused,
    ms,
    us,
)
from lokwurmi.files.chain_files import chains_in

TOP = Path(__file__).resolve().parents[2]
EXAMPLES = TOP / "examples"
TASKS = ["sense", "filter", "act"]


def effects() -> System:
    return System.from_file(EXAMPLES / "effects.toml")


class Chains(unittest.TestCase):
    def test_chain(self) -> None:
        for engine in some_engines("chain"):
            with self.subTest(engine):
                found = effects().chain(TASKS, engine=engine)
                self.assertEqual([it.kind for it in found.steps], ["first", "register", "activation"])
                self.assertEqual(
                    (found.reaction, found.age, found.held), (9 + 3 + 19 + 7 + 9, 9 + 3 + 7 + 9, 9 + 3 + 19 + 7 + 9)
                )
                self.assertFalse(found.overload or found.while_running)
                running = effects().chain(TASKS, while_running=True, engine=engine)
                self.assertEqual(
                    (running.reaction, running.age, running.held), (9 + 19 + 7 + 9, 9 + 7 + 9, 9 + 19 + 7 + 9)
                )
                self.assertTrue(running.while_running)

    def test_objects_as_tasks(self) -> None:
        need_engine("chain")
        system = effects()
        self.assertEqual(system.chain([system.tasks[it] for it in TASKS]), system.chain(TASKS))

    def test_refused_chain(self) -> None:
        for engine in some_engines("chain"):
            with self.subTest(engine):
                with self.assertRaisesRegex(NameRefused, "no task has the name in place 2") as caught:
                    effects().chain(["sense", "nobody"], engine=engine)
                self.assertEqual(caught.exception.reason, 2)
                for names in ([], ["sense"] * 33, ["-x"], [""], ["sense\nfilter"]):
                    with self.assertRaises((WordsRefused, NameRefused), msg=names):
                        effects().chain(names, engine=engine)

    def test_overload(self) -> None:
        need_engine("chain")
        system = effects()
        system.tasks["sense"].worst = 1000
        found = system.chain(TASKS)
        self.assertEqual((found.reaction, found.overload), (None, True))

    def test_chains(self) -> None:
        """The two chains of docs/FILES.md: 47 of 60 is met, 45 of 40 is missed, 21 of 30 is met."""
        text = (EXAMPLES / "effects.chains.toml").read_text()
        several = chains_in(text, effects().tasks)
        for engine in some_engines("chains"):
            for chains in (text, several):
                with self.subTest((engine, type(chains))):
                    found = effects().chains(chains, engine=engine)
                    brake, show = found.chains.values()
                    self.assertEqual(
                        (brake.reaction, brake.reaction_deadline, brake.reaction_verdict, brake.age),
                        (47, 60, Verdict.MET, 28),
                    )
                    self.assertEqual((brake.age_deadline, brake.age_verdict), (None, Verdict.NONE))
                    self.assertEqual(
                        (show.reaction, show.reaction_verdict, show.age, show.age_verdict),
                        (45, Verdict.MISSED, 21, Verdict.MET),
                    )
                    self.assertEqual((found.missed, found.overloads, found.verdict), (1, 0, Verdict.MISSED))
                    self.assertEqual(pickle.loads(pickle.dumps(found)), found)

    def test_frame(self) -> None:
        """A table of pandas, whose numbers stay whole."""
        need_engine("chains")
        try:
            import pandas
        except ImportError:
            raise unittest.SkipTest("there is no pandas")
        found = effects().chains((EXAMPLES / "effects.chains.toml").read_text()).to_dataframe()
        self.assertEqual((list(found.index), str(found["reaction"].dtype)), (["brake", "show"], "Int64"))
        self.assertEqual(list(found["reaction"]), [47, 45])
        self.assertEqual(list(found["reaction_verdict"]), ["met", "missed"])
        self.assertEqual((found.loc["show", "age"], found.loc["show", "age_deadline"]), (21, 30))
        self.assertIs(found.loc["brake", "age_deadline"], pandas.NA)
        self.assertNotIn("tick", found.columns)
        self.assertEqual(len(effects().chains([]).to_dataframe()), 0)

    def test_refused_chains(self) -> None:
        need_engine("chains")
        with self.assertRaisesRegex(ChainsRefused, "chain 'two': a name of no task") as caught:
            effects().chains([Chain("one", TASKS), Chain("two", ["nobody"])])
        self.assertEqual((caught.exception.reason, caught.exception.place, caught.exception.name), (5, 2, "two"))
        with self.assertRaisesRegex(ChainsRefused, "the file of chains: another format"):
            effects().chains("format = 2\n")
        with self.assertRaisesRegex(LokwurmiError, "the file of chains isn't TOML"):
            effects().chains("x = [")
        self.assertEqual(dict(effects().chains([]).chains), {})

    def test_reader(self) -> None:
        tasks = {"a", "b"}
        self.assertEqual(chains_in("format = 1\n", tasks), [])
        for text, why in (
            ("x = [", "isn't TOML"),
            ("format = 2", "line 1: the format is 2, and has to be 1"),
            ("format = 1\nchain = 1", "line 2: `chain` has to be an array of tables"),
            ("format = 1\nchain = [1]", "chain 1 is no table"),
            ("format = 1\nchain = [{ name = 'x' }]", "the key `tasks` is missing"),
            ("format = 1\nchain = [{ name = 'x', tasks = [] }]", "a chain has 1 to 32 tasks"),
            ("format = 1\nchain = [{ name = 'x', tasks = ['c'] }]", 'no task is called "c".*the tasks of the system'),
            (
                "format = 1\nchain = [{ name = 'x', tasks = ['a'], reaction = 0 }]",
                "`reaction` is 1 to 1000000000 ticks",
            ),
            ("format = 1\nchain = [{ name = 'x', tasks = ['a'] }, { name = 'x', tasks = ['a'] }]", '"x" is taken'),
            (
                "format = 1\nchain = [{ name = 'x', tasks = ['a'], ages = 1 }]",
                "`ages` isn't known; did you mean `age`?",
            ),
        ):
            with self.assertRaisesRegex(LokwurmiError, why, msg=text):
                chains_in(text, tasks)

    def test_units(self) -> None:
        need_engine("chains")
        system = effects()
        with self.assertRaises(NoTick):
            system.chains([Chain("x", TASKS, reaction=ms(1))])
        system.tick = "10us"
        with warnings.catch_warnings(record=True) as told:
            warnings.simplefilter("always")
            found = system.chains([Chain("x", TASKS, reaction=us(479), age="280 us")]).chains["x"]
        self.assertEqual([str(it.message) for it in told], ["chain x: reaction of 479us is rounded down to 47"])
        self.assertEqual({it.category for it in told}, {RoundingWarning})
        self.assertEqual(
            (found.time(), found.time("age_deadline"), found.reaction_verdict), (us(490), us(280), Verdict.MISSED)
        )
        self.assertEqual(system.chain(TASKS).time("held"), us(490))

    def test_times_between_ticks(self) -> None:
        """What is answered between two ticks is within the bound by any tick, and so is the verdict."""
        need_engine("chains")
        found = []
        for tick in ("1ms", "100us", "1us"):
            system = System(tick=tick)
            for name, worst in (("a", ms(2)), ("b", ms(3))):
                cpu = system.preemptive(f"on_{name}")
                source = system.source(f"s{name}", period=ms(10))
                system.task(name, on=cpu, after=source, best=worst, worst=worst, priority=1)
            report = system.chain(["a", "b"])
            several = [Chain("near", ["a", "b"], reaction=ms(24)), Chain("far", ["a", "b"], reaction=ms(25))]
            judged = system.chains(several)
            found.append([*(report.time(it) for it in ("reaction", "age", "held")), judged.missed, judged.verdict])
            self.assertEqual(sum(it.wait + it.response for it in report.steps), report.reaction)
            self.assertEqual([it.reaction_verdict for it in judged.chains.values()], [Verdict.MISSED, Verdict.MET])
        # an event at 1 us is answered at 24999 us (10 and 10 ms apart, executions of 2 and 3 ms)
        self.assertEqual(found, [[ms(25), ms(15), ms(25), 1, Verdict.MISSED]] * 3)

    def test_rounded_periods_are_refused(self) -> None:
        """A chain takes a period as the longest time between events too, so that it has no safe side."""
        need_engine("chain")
        system = effects()
        system.tick = "10us"
        with warnings.catch_warnings():
            warnings.simplefilter("ignore", RoundingWarning)
            next(iter(system.sources.values())).period = us(105)
            for call in (lambda: system.chain(TASKS), lambda: system.chains([])):
                with self.assertRaisesRegex(UnitsRefused, "chains take the period as the longest time"):
                    call()


class Schedules(unittest.TestCase):
    def test_schedule(self) -> None:
        """That of docs/FILES.md, of two turns."""
        system = System.from_file(EXAMPLES / "round_robin.toml")
        trace = (EXAMPLES / "round_robin.trace.csv").read_text()
        for engine in some_engines("schedule"):
            with self.subTest(engine):
                found = system.schedule(trace, engine=engine)
                self.assertEqual(list(found), [("a", 0, 2), ("b", 2, 3), ("a", 3, 4), ("a", 20, 23), ("b", 23, 24)])
                self.assertEqual(
                    (len(found), found.end, found.to_csv()),
                    (5, 24, (EXAMPLES / "round_robin.schedule.csv").read_text()),
                )
                self.assertEqual(set(found.on.values()), set(system.resources))
                self.assertIsNone(system.audit(trace, found.rows, engine=engine))
        system.tick = "1ms"
        self.assertEqual(system.schedule(trace).time(), ms(24))


if __name__ == "__main__":
    unittest.main()
