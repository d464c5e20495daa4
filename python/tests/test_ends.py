"""How commands end: by a signal, and where what they tell can't be written."""
import subprocess
import sys
import unittest
from pathlib import Path
from typing import IO

SRC = Path(__file__).resolve().parents[1] / "src"
# a command that tidies up when a signal comes, and gets another meanwhile
TWICE = """import os, signal, types
from lokwurmi_tools import __main__ as front

def main(words):
    try:
        os.kill(os.getpid(), signal.SIGTERM)
    finally:
        os.kill(os.getpid(), signal.SIGTERM)
        os.kill(os.getpid(), signal.SIGHUP)
        print("tidied", flush=True)

front.command_of = lambda words: (types.SimpleNamespace(name="page", main=lambda: main), words)
front.sys.argv = ["lokwurmi", "page"]
front.main()
"""


class Ends(unittest.TestCase):
    def call(self, *words: str, told: IO[str] | int = subprocess.PIPE) -> tuple[int, str, str]:
        """The status of Python with some words, and both of its outputs."""
        done = subprocess.run(
            [sys.executable, *words],
            stdout=subprocess.PIPE,
            stderr=told,
            env={"PYTHONPATH": str(SRC)},
            text=True,
            check=False,
        )
        return done.returncode, done.stdout, done.stderr

    def test_two_signals(self) -> None:
        """`timeout` sends its signal to a command and to the group of it, and a terminal that closes may, too."""
        self.assertEqual(self.call("-c", TWICE), (-15, "tidied\n", "lokwurmi page: interrupted\n"))

    def test_nothing_told(self) -> None:
        """Where what is told can't be written, the status is that of the program for a file that isn't there."""
        words = ("-m", "lokwurmi_tools", "graph", "/nowhere.toml")
        self.assertEqual(self.call(*words)[0], 11)
        with open("/dev/full", "w") as full:
            self.assertEqual(self.call(*words, told=full)[0], 11)


if __name__ == "__main__":
    unittest.main()
