"""The calls of the library by ctypes, over a library that stands in for it: what is handed over, room, and handles.

The stand-in is compiled with library/lokwurmi.h, so that its functions are those of the header.
"""
import os
import shutil
import subprocess
import sys
import tempfile
import unittest
from pathlib import Path

from lokwurmi import Library, NoEngine, Program, System, SystemRefused
from lokwurmi.calls.engines import KeptByScript, keep
from lokwurmi.calls.library import KeptByLibrary

HERE = Path(__file__).resolve().parent


class StandIn(unittest.TestCase):
    @classmethod
    def setUpClass(cls) -> None:
        compiler = os.environ.get("CC") or shutil.which("cc")
        if compiler is None:
            raise unittest.SkipTest("there is no C compiler")
        cls.room = tempfile.TemporaryDirectory()
        cls.libraries = {}
        for version in (1, 2, 3):
            file = Path(cls.room.name, f"stand_in_{version}.so")
            words = ["-shared", "-fPIC", "-Wall", "-Werror", f"-DSTAND_IN_VERSION={version}"]
            header = f"-I{HERE.parents[1] / 'library'}"
            subprocess.run([compiler, *words, header, "-o", str(file), str(HERE / "stand_in.c")], check=True)
            cls.libraries[version] = file

    @classmethod
    def tearDownClass(cls) -> None:
        cls.room.cleanup()

    def library(self, version: int = 2) -> Library:
        return Library(self.libraries[version])

    def test_numbers(self) -> None:
        """Numbers of 64 bits are handed over whole, and all others as the greatest one."""
        self.assertEqual(self.library().call("hammer", [b"s"], (5, 7)), (0, "s 5 7"))
        greatest = 2**64 - 1
        for number in (greatest, 2**64, -1, 2**200):
            self.assertEqual(self.library().call("hammer", [b"s"], (number, 2**63))[1], f"s {greatest} {2**63}")

    def test_chains(self) -> None:
        """The names of a chain stand one a line."""
        library = self.library()
        self.assertEqual(library.call("chain", [b"s"], ("a", "b")), (0, "s|a\nb|0"))
        self.assertEqual(library.call("chain", [b"s"], ("a", "--while-running")), (0, "s|a|1"))
        self.assertEqual(library.call("chain", [b"s"], ()), (0, "s||0"))
        # a name with a line end would be two
        self.assertEqual(library.call("chain", [b"s"], ("a\nb",)), (10, "words refused\n"))

    def test_room(self) -> None:
        """A text that is longer than the room is asked for again."""
        for length in (1, 65535, 65536, 65537, 1_000_000):
            self.assertEqual(self.library().call("analyse", [str(length).encode()]), (0, "x" * length))

    def test_handle(self) -> None:
        kept = keep(b"s", self.library())
        self.assertIsInstance(kept, KeptByLibrary)
        self.assertEqual(kept.edit("exec a 1 2"), (0, ""))
        self.assertEqual(kept.edit("refused"), (21, "line 1 refused 4\n"))
        self.assertEqual(kept.numbers(), ([1, None], [1]))
        self.assertEqual(kept.report(), (1, "report"))
        other = keep(b"s", self.library())
        self.assertEqual((other.numbers(), kept.numbers()), (([0, None], [2]), ([1, None], [2])))
        kept.close()
        kept.close()
        self.assertEqual(other.numbers()[1], [1])
        # one that is forgotten is closed
        del other
        last = keep(b"s", self.library())
        self.assertEqual(last.numbers()[1], [1])
        last.close()
        with self.assertRaises(SystemRefused):
            keep(b"bad", self.library())

    def test_older(self) -> None:
        """A library of the version before is taken, and says what it lacks; its sessions replay scripts."""
        library = self.library(1)
        self.assertEqual(library.call("hammer", [b"s"], (5, 7)), (0, "s 5 7"))
        with self.assertRaisesRegex(NoEngine, "has version 1 and no chain: build it anew"):
            library.call("chain", [b"s"], ("a",))
        kept = keep(b"s", library)
        self.assertIsInstance(kept, KeptByScript)
        self.assertEqual(kept.numbers(), ([], []))
        with System().session(engine=library) as session:
            self.assertFalse(session.is_kept)
        with System().session(engine=self.library()) as session:
            self.assertTrue(session.is_kept)

    def test_newer(self) -> None:
        with self.assertRaisesRegex(NoEngine, "has version 3, and this package is for 1 and 2"):
            self.library(3)

    def test_default(self) -> None:
        """What an older library lacks is asked of a program, where there is one."""
        script = (
            "from lokwurmi import default_engine\n"
            "print([type(default_engine(it)).__name__ for it in ('analyse', 'chain')])"
        )
        for program, told in (("/nowhere/lokwurmi", "['Library', 'Program']\n"), (None, "['Library', 'Library']\n")):
            environment = {
                "PYTHONPATH": str(HERE.parent / "src"),
                "LOKWURMI_LIBRARY": str(self.libraries[1]),
                "PATH": "",
            }
            if program:
                environment["LOKWURMI_PROGRAM"] = program
            elif Path(Program.__init__.__globals__["TOP"], "crates/cpa_cli/out/cpa_cli").is_file():
                continue
            done = subprocess.run([sys.executable, "-c", script], env=environment, capture_output=True, text=True)
            self.assertEqual((done.stdout, done.stderr), (told, ""))


class Programs(unittest.TestCase):
    def test_words(self) -> None:
        """A program is called with the command, the names of its files, and the words behind them."""
        with tempfile.TemporaryDirectory() as room:
            file = Path(room, "called")
            file.write_text('#!/bin/sh\necho "$@"\n')
            file.chmod(0o755)
            for command, files, words, told in (
                ("schedule", [b"", b""], (), "schedule system trace"),
                ("chain", [b""], ("a", "--while-running"), "chain system a --while-running"),
                ("chains", [b"", b""], (), "chains system chains"),
                ("analyse", [b""], (), "analyse system"),
            ):
                self.assertEqual(Program(file).call(command, files, words), (0, f"{told}\n"))
        with self.assertRaises(NoEngine):
            Program("/nowhere").call("analyse", [b""])


if __name__ == "__main__":
    unittest.main()
