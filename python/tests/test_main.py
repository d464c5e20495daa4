"""`python3 -m lokwurmi`, the doctests, and the types."""
import contextlib
import doctest
import importlib
import io
import pkgutil
import shutil
import subprocess
import sys
import tempfile
import unittest
from pathlib import Path

from engine_for_tests import need_engine

import lokwurmi
from lokwurmi.__main__ import main

TOP = Path(__file__).resolve().parents[2]
SRC = TOP / "python/src"
EXAMPLES = TOP / "examples"


class Main(unittest.TestCase):
    def call(self, *words):
        out, err = io.StringIO(), io.StringIO()
        with contextlib.redirect_stdout(out), contextlib.redirect_stderr(err):
            try:
                status = main([str(it) for it in words])
            except SystemExit as end:
                status = end.code
        return status, out.getvalue(), err.getvalue()

    def test_report(self) -> None:
        need_engine()
        for name, status in (("two_tasks", None), ("overload", 2), ("pycpa_first", 0)):
            told = (EXAMPLES / f"{name}.report.txt").read_text()
            found = self.call(EXAMPLES / f"{name}.toml")
            self.assertEqual(found[1:], (told, ""))
            self.assertIn(found[0], (0, 1, 2) if status is None else (status,))

    def test_as_module(self) -> None:
        need_engine()
        import os

        done = subprocess.run(
            [sys.executable, "-m", "lokwurmi", EXAMPLES / "pycpa_first.toml"],
            capture_output=True,
            env=os.environ | {"PYTHONPATH": str(SRC)},
            text=True,
        )
        self.assertEqual((done.returncode, done.stdout), (0, (EXAMPLES / "pycpa_first.report.txt").read_text()))

    def test_other_program(self) -> None:
        """A program that writes no report says nothing of bounds."""
        found = self.call("--program", "/bin/true", EXAMPLES / "two_tasks.toml")
        self.assertEqual(found[:2], (70, ""))
        self.assertIn("there is no whole report", found[2])

    def test_outputs(self) -> None:
        """An output that is full or closed has the status of the program, and none that says something of bounds."""
        need_engine()
        import os

        words = [sys.executable, "-m", "lokwurmi", str(EXAMPLES / "pycpa_first.toml")]
        for end in (">/dev/full", ">&-"):
            call = ["sh", "-c", f'exec "$@" {end}', "sh", *words]
            done = subprocess.run(call, stderr=subprocess.PIPE, env=os.environ | {"PYTHONPATH": str(SRC)}, text=True)
            self.assertEqual((done.returncode, done.stderr), (20, "the output can't be written\n"))

    def test_no_toml(self) -> None:
        need_engine()
        with tempfile.TemporaryDirectory() as folder:
            file = Path(folder, "net.toml")
            file.write_bytes(b"\xef\xbb\xbfformat = 1\r\nsource = x\r\n")
            says = f'{file}: the system file isn\'t TOML: line 2: `x` is no value: a text stands in quotes: write "x"\n'
            self.assertEqual(self.call(file), (13, f"not TOML {file}\n", says))

    def test_refusals(self) -> None:
        need_engine()
        with tempfile.TemporaryDirectory() as folder:
            file = Path(folder, "net.toml")
            file.write_text("format = 3\n")
            self.assertEqual(
                self.call(file),
                (
                    14,
                    "system refused reason 13 file 0\n",
                    f"{file}: the file: another format (reason 13): the format 3 isn't known: it is 1, 2 or 4: write"
                    " `format = 1`, `format = 2` so that a task's `after` may be a list, or `format = 4` so that a task"
                    " may have a `region` or `locks`, a source be `sporadic` or on a `clock`, and a resource be a"
                    " queue (`fifo`) or have priority ceilings (`ceiling`), too\n",
                ),
            )
            file.write_text('format = 1\nresource = [{ name = "cpu", kind = "preemptive", limit = 0 }]\n')
            self.assertEqual(
                self.call(file)[2],
                f"{file}: resource 'cpu': a number out of its range (reason 2): `limit` is 0, below 1: `limit` is 1 to"
                " 10000000 ticks: the longest busy window that is looked at\n",
            )
            file.write_text("x = [")
            self.assertEqual(self.call(file)[:2], (13, f"not TOML {file}\n"))
            self.assertEqual(self.call(Path(folder, "none"))[:2], (11, f"cannot read {folder}/none\n"))
            self.assertEqual(self.call(file, "--tick", "1us")[0], 10)
        self.assertEqual(self.call(EXAMPLES / "two_tasks.toml", "--library", "/nowhere.so")[0], 70)
        self.assertEqual(self.call(EXAMPLES / "two_tasks.toml", "--program", "/nowhere")[0], 70)
        self.assertEqual(self.call(EXAMPLES / "two_tasks.toml", "--tick", "soon")[0], 2)

    def test_units(self) -> None:
        need_engine()
        status, out, err = self.call(EXAMPLES / "units/switch_port.toml", "--tick", "1us")
        self.assertEqual((status, out), (0, (EXAMPLES / "switch_port.report.txt").read_text()))
        self.assertIn("task control: worst of 7.04us is rounded up to 8", err)
        with tempfile.TemporaryDirectory() as folder:
            file = Path(folder, "net.toml")
            text = (EXAMPLES / "cooperative.toml").read_text()
            file.write_text(text.replace("region = 5", 'region = "5 us"'))
            status, out, err = self.call(file, "--tick", "1us")
            self.assertIn("task log: region of 5us is 6, with a tick more\n", err)
            self.assertIn("taken as ticks, since they have no unit: period of source often, ", err)

    def test_help(self) -> None:
        status, out, _ = self.call("--help")
        self.assertEqual(status, 0)
        self.assertIn("python3 -m lokwurmi examples/two_tasks.toml", out)


class Doctests(unittest.TestCase):
    def test_modules(self) -> None:
        need_engine()
        tried = 0
        for it in pkgutil.walk_packages(lokwurmi.__path__, "lokwurmi."):
            # the shared library lies among the modules, and is none
            if it.name.rpartition(".")[2] in ("charts", "__main__", "liblokwurmi"):
                continue
            found = doctest.testmod(importlib.import_module(it.name))
            self.assertEqual(found.failed, 0, it.name)
            tried += found.attempted
        found = doctest.testmod(lokwurmi)
        self.assertEqual(found.failed, 0)
        self.assertGreater(tried, 20)


class Types(unittest.TestCase):
    def test_mypy(self) -> None:
        """Each function has types, and they fit."""
        mypy = shutil.which("mypy", path="/usr/bin:/usr/local/bin")
        if mypy is None:
            raise unittest.SkipTest("there is no mypy: apt-get install mypy")
        with tempfile.TemporaryDirectory() as folder:
            done = subprocess.run(
                [mypy, "--cache-dir", folder, "src/lokwurmi"], cwd=TOP / "python", capture_output=True, text=True
            )
        self.assertEqual(done.returncode, 0, done.stdout)


if __name__ == "__main__":
    unittest.main()
