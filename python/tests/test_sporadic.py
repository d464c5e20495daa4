"""Sporadic sources. Expected numbers are worked out by hand."""
import unittest
import warnings
from pathlib import Path

from engine_for_tests import need_engine
from made import view_of

from lokwurmi import LokwurmiError, System, SystemRefused, UnitsRefused
from lokwurmi.refusals.silence import ASKED, AskedChain, asked_in, kinds_in, sentences_on, silences_in

EXAMPLES = Path(__file__).resolve().parents[2] / "examples"


def pressed(sporadic: bool | None = True) -> System:
    """A pedal, and a control task below it that reads what was pressed."""
    system = System()
    cpu, pedal = system.preemptive("cpu"), system.source("pedal", period=100, sporadic=sporadic)
    system.task("press", on=cpu, after=pedal, best=1, worst=1, priority=1)
    control = system.task("control", on=cpu, after=system.source("often", period=10), best=2, worst=2, priority=2)
    system.task("act", on=cpu, after=control, best=3, worst=3, priority=3)
    return system


def opened(system: System, *tasks: str, while_running: bool = False) -> dict[tuple[str, str], tuple[str, ...]]:
    """The bounds of a chain that sporadic sources leave open, by the source and by who waits."""
    found = silences_in(view_of(system), [AskedChain("", tasks)], while_running)
    return {(it.source, it.task): it.bounds[""] for it in found}


class Files(unittest.TestCase):
    def test_least_format(self) -> None:
        for sporadic, number in ((None, 1), (False, 4), (True, 4)):
            text = pressed(sporadic).to_toml()
            self.assertTrue(text.startswith(f"format = {number}\n"), text)
            self.assertEqual("sporadic" in text, sporadic is not None)
            self.assertEqual(System.from_toml(text), pressed(sporadic))

    def test_refusals(self) -> None:
        text = pressed().to_toml()
        for number in (1, 2):
            wanted = f'source "pedal": it has the key `sporadic`, which format {number} hasn\'t: write `format = 4`'
            with self.assertRaisesRegex(LokwurmiError, wanted):
                System.from_toml(text.replace("format = 4", f"format = {number}"))
        with self.assertRaisesRegex(LokwurmiError, "the key `aperiodic` isn't known; did you mean `sporadic`"):
            System.from_toml(text.replace("sporadic", "aperiodic"))

    def test_view(self) -> None:
        view = view_of(pressed())
        self.assertEqual([name for name, it in view.sources.items() if it.sporadic], ["pedal"])
        self.assertEqual([view.sporadic_sources_of(it) for it in ("press", "control", "act")], [["pedal"], [], []])
        self.assertIn("sporadic", pressed()._repr_html_())
        self.assertNotIn("sporadic", pressed(False)._repr_html_())


class Silences(unittest.TestCase):
    """Which bounds of a chain count a wait for a sporadic source."""

    def test_first(self) -> None:
        self.assertEqual(opened(pressed(), "press", "control", "act"), {("pedal", "press"): ASKED})
        self.assertEqual(opened(pressed(False), "press", "control", "act"), {})
        self.assertEqual(opened(pressed(), "control", "act"), {})
        # the age of a chain of one task, or of tasks that start each other, counts no wait
        self.assertEqual(opened(pressed(), "press"), {("pedal", "press"): ("reaction", "held")})

    def test_last(self) -> None:
        self.assertEqual(opened(pressed(), "control", "press"), {("pedal", "press"): ("reaction", "held")})
        self.assertEqual(opened(pressed(), "control", "press", "act"), {("pedal", "press"): ASKED})

    def test_several_activators(self) -> None:
        """One sporadic source of several is enough; behind a merge the age counts all waits."""
        system = pressed()
        system.tasks["act"].after = ["control", "press"]
        self.assertEqual(opened(system, "act"), {("pedal", "act"): ("reaction", "held")})
        self.assertEqual(opened(system, "press", "act"), {("pedal", "press"): ASKED})
        self.assertEqual(opened(system, "control", "act"), {})
        system.sources["often"].sporadic = True
        self.assertEqual(opened(system, "control", "act"), {("often", "control"): ASKED})
        both = {(it, "act"): ("reaction", "held") for it in ("often", "pedal")}
        self.assertEqual(opened(system, "act"), both)

    def test_while_running(self) -> None:
        """Where one source starts both, the wait of the second counts no more, and that of the first is the last."""
        system = pressed()
        system.task("show", on="cpu", after="pedal", best=1, worst=1, priority=4)
        view, tasks = view_of(system), ["press", "show"]
        self.assertEqual(kinds_in(view, tasks), ["first", "register"])
        self.assertEqual(kinds_in(view, tasks, True), ["first", "same-source"])
        self.assertEqual(kinds_in(view, ["control", "show"], True), ["first", "above"])
        self.assertEqual(opened(system, *tasks), {("pedal", "press"): ASKED, ("pedal", "show"): ("reaction", "held")})
        self.assertEqual(opened(system, *tasks, while_running=True), {("pedal", "press"): ("reaction", "held")})

    def test_sentences(self) -> None:
        text = (EXAMPLES / "brake_pedal.toml").read_text()
        told = sentences_on(text, asked_in((EXAMPLES / "brake_pedal.chains.toml").read_text()))
        lines = {it: 1 + text[: text.index(f'name = "{it}"')].count("\n") for it in ("pedal", "press")}
        self.assertEqual(
            told,
            [
                f"source pedal (line {lines['pedal']}) is sporadic: nothing bounds how long `press` (line"
                f" {lines['press']}) waits for it, so reaction and age of chain pedal, and reaction of chain pressed"
                " aren't bounded"
            ],
        )
        self.assertEqual(sentences_on(text.replace("true", "false"), [AskedChain("", ["press"])]), [])


class Calls(unittest.TestCase):
    def setUp(self) -> None:
        need_engine()

    def test_bounds(self) -> None:
        """Bounds of tasks are the same; what waits for the pedal has none."""
        worst = [{name: it.worst for name, it in pressed(it).analyse().tasks.items()} for it in (True, False)]
        self.assertEqual(worst, [{"press": 1, "control": 3, "act": 6}] * 2)

    def test_chains(self) -> None:
        need_engine("chain")
        found = pressed().chain(["press", "control", "act"])
        self.assertEqual((found.reaction, found.age, found.held), (None, None, None))
        self.assertEqual([it.wait for it in found.steps[:2]], [None, 9])
        # 9 and the responses
        self.assertEqual(pressed().chain(["control", "act"]).reaction, 9 + 3 + 6)
        self.assertEqual(pressed().chain(["control", "press"]).age, 9 + 3 + 1)

    def test_rounded_periods(self) -> None:
        """The period of a sporadic source is the least time between events alone, which rounding down only shortens."""
        need_engine("chain")
        for sporadic in (True, False):
            system = System(tick="1us")
            cpu = system.preemptive("cpu")
            with warnings.catch_warnings():
                warnings.simplefilter("ignore")
                source = system.source("pedal", "2.5us", sporadic=sporadic)
                system.task("press", on=cpu, after=source, best="1us", worst="1us", priority=1)
                if sporadic:
                    self.assertIsNone(system.chain(["press"]).reaction)
                else:
                    self.assertRaises(UnitsRefused, system.chain, ["press"])

    def test_session(self) -> None:
        """An edit of the source keeps the key."""
        with pressed().session() as session:
            session.source("pedal", period=50)
            system = session.to_system()
        self.assertEqual((system.sources["pedal"].period, system.sources["pedal"].sporadic), (50, True))

    def test_types(self) -> None:
        system = pressed(1)  # type: ignore[arg-type]
        with self.assertRaises(SystemRefused) as fault:
            system.analyse()
        self.assertEqual((fault.exception.name, fault.exception.reason), ("pedal", 1))


if __name__ == "__main__":
    unittest.main()
