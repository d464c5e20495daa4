"""What is refused of values of other types: by an error of the package that names the value, and says what to write."""
import unittest
from collections.abc import Callable
from typing import Any

from engine_for_tests import need_engine

from lokwurmi import (
    Chain,
    LokwurmiError,
    NameRefused,
    Program,
    System,
    Task,
    WordsRefused,
    WrongType,
    generated_system,
    use,
)
from lokwurmi.calls.engines import default_engine

OTHERS: tuple[Any, ...] = (5, True, b"a", object(), ["a"])


def small() -> System:
    system = System()
    cpu, often = system.preemptive("cpu"), system.source("s", period=10)
    system.task("a", on=cpu, after=often, best=1, worst=2, priority=1)
    return system


class WrongTypes(unittest.TestCase):
    def refused(self, call: Callable[[], Any], said: str) -> None:
        """An error that is a LokwurmiError and a TypeError, and says something."""
        with self.assertRaises(WrongType) as told:
            call()
        self.assertIsInstance(told.exception, LokwurmiError)
        self.assertIsInstance(told.exception, TypeError)
        self.assertIn(said, str(told.exception))

    def test_names(self) -> None:
        for it in (None, *OTHERS):
            for call in (
                lambda: small().slack(it),
                lambda: small().assign(it),
                lambda: small().chain([it]),
                lambda: small().path("p", [it]),
                lambda: small().execution(it),
                lambda: small().task("b", on=it, after="s", best=1, worst=2, priority=2),
            ):
                self.refused(call, f"{it!r} is no name: write a text")

    def test_lists(self) -> None:
        for it in (None, 5, True, b"a"):
            self.refused(lambda: small().chain(it), "a chain is a list of tasks, as [")
            self.refused(lambda: small().task("b", on="cpu", after=it, best=1, worst=2), "`after` is a name, or a list")
            self.refused(lambda: small().chains(it), "a list of Chain")
            self.refused(lambda: small().simulate(it), "a list of rows")
            if it is not None:
                self.refused(lambda: small().session(it), "a script is a text, or a list of lines")
        self.refused(lambda: small().chains(["a"]), "'a' is no Chain: write Chain(")  # type: ignore[list-item]
        self.refused(lambda: small().simulate([5]), "a list of rows")  # type: ignore[list-item]
        self.refused(lambda: small().chains([Chain("c", "a")]), "write ['a']")  # type: ignore[arg-type]

    def test_files_and_times(self) -> None:
        for it in OTHERS:
            self.refused(lambda: System.from_toml(it), f"a system file is a text, and not {it!r}")
            self.refused(lambda: System.from_file(it), f"{it!r} is no name of a file")
            self.refused(lambda: small().to_file(it), f"{it!r} is no name of a file")
            self.refused(lambda: System(tick=it), f"{it!r} is no time: write a text such as")
            self.refused(lambda: small().ticks(it, "period"), "is no resource, source, task or path")
            self.refused(lambda: use(it), f"{it!r} is no engine")
        with self.assertRaisesRegex(LokwurmiError, "there is no task 'z': the tasks are a"):
            small().execution("z")

    def test_numbers_and_texts(self) -> None:
        """What no word, no row and no system file can have; the library would take a text for a pointer."""
        for it in (None, True, "1", 1.0):
            self.refused(lambda: small().hammer(it, 1), f"a seed is a whole number, and not {it!r}")
            self.refused(lambda: small().hammer(1, it), "the number of traces is a whole number")
            self.refused(lambda: generated_system(1, it), "a size is a whole number")
        for row in (("event", "s,1\nevent", "s"), ("event", "s\n", 1)):
            self.refused(lambda: small().simulate([row]), "neither a comma nor a line end")
        need_engine()
        half = "\ud800"
        for call in (small().slack, small().simulate, small().chains, small().session):
            self.refused(lambda: call(half), "half of a pair")
        system = small()
        system.preemptive(half)
        self.refused(system.analyse, "half of a pair")
        with self.assertRaises(WordsRefused if isinstance(default_engine(), Program) else NameRefused):
            small().slack("\0")
        for number in (2**63, -(10**5000)):
            system = small()
            system.tasks["a"].worst = number
            with self.assertRaisesRegex(LokwurmiError, "^'a': a number of .* bits is no value of a system file"):
                system.analyse()

    def test_classes_below(self) -> None:
        """An entry of a class below one of the four is one of these."""

        class Marked(Task):
            mark = "kept"

        need_engine()
        system = small()
        system.tasks["b"] = Marked("b", "cpu", "s", 1, 3, priority=2)
        self.assertEqual(system.analyse().tasks["b"].worst, 5)
        self.assertEqual(system.ticks(system.tasks["b"], "worst"), 3)


if __name__ == "__main__":
    unittest.main()
