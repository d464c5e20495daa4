"""What the package loads, and when."""
import subprocess
import sys
import unittest
from importlib import import_module

import lokwurmi

HEAVY = ("results.effect_chains", "calls.engines", "calls.sessions", "calls.system", "results.reports", "model.units")


def loaded_by(statement: str) -> set[str]:
    """The modules of the package that a statement loads in a Python of its own."""
    words = [sys.executable, "-c", f"import sys\n{statement}\nprint(*sys.modules)"]
    names = subprocess.run(words, capture_output=True, text=True, check=True).stdout.split()
    return {it.removeprefix("lokwurmi.") for it in names if it.startswith("lokwurmi.")}


class Loading(unittest.TestCase):
    def test_names(self) -> None:
        self.assertLessEqual(set(lokwurmi.__all__), set(dir(lokwurmi)))
        for name in lokwurmi.__all__:
            it = getattr(lokwurmi, name)
            self.assertIs(it, getattr(import_module(it.__module__), name), name)
            self.assertTrue(it.__module__.startswith("lokwurmi."), name)

    def test_unknown(self) -> None:
        for name in ("Sytem", "_Entry"):
            with self.assertRaisesRegex(AttributeError, f"'lokwurmi' has no attribute '{name}'"):
                getattr(lokwurmi, name)

    def test_all(self) -> None:
        self.assertLessEqual(set(HEAVY), loaded_by("from lokwurmi import *\nSystem, us(3)"))
        self.assertLessEqual(set(HEAVY), loaded_by("from lokwurmi import System"))

    def test_little(self) -> None:
        self.assertEqual(loaded_by("import lokwurmi"), set())
        light = {"errors", "model", "model.formats", "model.limits", "model.statuses", "refusals", "refusals.reasons"}
        self.assertEqual(loaded_by("from lokwurmi import LokwurmiError"), light)
        self.assertEqual(loaded_by("import lokwurmi\nlokwurmi.Kind"), light)
        # a refusal is told in words while somebody waits
        self.assertEqual(set(HEAVY) & loaded_by("import lokwurmi.refusals.front"), set())


if __name__ == "__main__":
    unittest.main()
