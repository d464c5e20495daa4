"""The scripts of examples/python run, as their help says, and answer what is worked out by hand."""
import importlib.util
import os
import re
import subprocess
import sys
import tempfile
import unittest
from pathlib import Path

from engine_for_tests import need_engine

TOP = Path(__file__).resolve().parents[2]


def call(script, *words):
    """The status of a script, and what it writes; it finds the package by itself."""
    environment = {key: it for key, it in os.environ.items() if key != "PYTHONPATH"}
    done = subprocess.run(
        [sys.executable, f"examples/python/{script}", *words], cwd=TOP, capture_output=True, text=True, env=environment
    )
    return done.returncode, done.stdout, done.stderr


class Scripts(unittest.TestCase):
    def test_variants(self) -> None:
        need_engine()
        words = ("examples/crossing_chains.toml", "--variants", "6", "--seed", "5")
        status, out, err = call("variants.py", *words)
        self.assertEqual(status, 0, err)
        counts = re.fullmatch(
            r"6 variants: (\d+) met, (\d+) missed, (\d+) overload\n"
            r"path pa: \d+ to \d+, deadline 45\npath pb: \d+ to \d+, deadline 45\n",
            out,
        )
        self.assertEqual(sum(map(int, counts.groups())), 6)
        self.assertRegex(err, r"ms a variant, by (Library|Program)\(")
        self.assertEqual(call("variants.py", *words, "--session")[:2], (0, out))

    def test_largest_period(self) -> None:
        """A job of filter and act needs 6 ticks beside 3 in 10 of sense: 9 ticks do, and 8 are too few. The reaction is
        the period and 27 ticks: 9 + 3 of sense, 7 of filter and 9 of act, less one."""
        need_engine("chain")
        status, out, err = call(
            "largest_period.py", "examples/effects.toml", "slow", "sense", "filter", "act", "--reaction", "60"
        )
        self.assertEqual((status, err), (0, ""))
        self.assertEqual(
            out,
            "all deadlines are met from a period of 9 on\n"
            "the largest period with a reaction time of at most 60 is 33\n",
        )

    def test_chart(self) -> None:
        need_engine()
        if importlib.util.find_spec("matplotlib") is None:
            raise unittest.SkipTest("there is no matplotlib")
        with tempfile.TemporaryDirectory() as folder:
            picture = Path(folder, "chart.svg")
            status, out, err = call(
                "chart.py", "examples/crossing_chains.toml", "b2", "--up-to", "12", "--to", str(picture)
            )
            self.assertEqual((status, out, err), (0, "", ""))
            self.assertIn("<svg", picture.read_text())

    def test_faults(self) -> None:
        for script, words in (
            ("variants.py", ["/nowhere.toml"]),
            ("chart.py", ["examples/two_tasks.toml", "zz", "--to", "/dev/null"]),
            ("largest_period.py", ["examples/effects.toml", "zz", "act", "--reaction", "5"]),
        ):
            status, out, err = call(script, *words)
            self.assertEqual((status, out), (1, ""), script)
            self.assertNotIn("Traceback", err)
            self.assertTrue(err.strip(), script)

    def test_help(self) -> None:
        for file in sorted((TOP / "examples/python").glob("*.py")):
            status, out, _ = call(file.name, "--help")
            self.assertEqual(status, 0)
            self.assertIn(f"python3 examples/python/{file.name} examples/", out)


if __name__ == "__main__":
    unittest.main()
