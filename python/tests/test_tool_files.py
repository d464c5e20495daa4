"""Files as tools take them: a pipe is read whole, or refused where it would have to be read again."""
import os
import subprocess
import sys
import tempfile
import threading
import unittest
from collections.abc import Iterator
from contextlib import contextmanager
from pathlib import Path

from lokwurmi_tools.reports.judging import Given
from lokwurmi_tools.shared.analysed import analysed
from lokwurmi_tools.shared.faults import Fault


@contextmanager
def pipe_of(text: str) -> Iterator[str]:
    """The name of a pipe from which a text comes."""
    with tempfile.TemporaryDirectory() as folder:
        name = os.path.join(folder, "pipe")
        os.mkfifo(name)

        def write() -> None:
            with open(name, "w", encoding="ascii") as it:
                it.write(text)

        writer = threading.Thread(target=write, daemon=True)
        writer.start()
        yield name


class Pipes(unittest.TestCase):
    def test_whole(self) -> None:
        """A system of format 4 may have 16,777,216 bytes; what has more is longer as a copy, too."""
        for length, copied in ((1_048_578, 1_048_578), (16_777_216, 16_777_216), (16_777_300, 16_777_217)):
            with self.subTest(length), tempfile.TemporaryDirectory() as room, pipe_of("#" * length) as name:
                self.assertEqual(len(Given(name, room).text()), copied)

    def test_read_again(self) -> None:
        with tempfile.TemporaryDirectory() as folder:
            name = os.path.join(folder, "pipe")
            os.mkfifo(name)
            with self.assertRaisesRegex(Fault, "pipe: this command reads its file several times"):
                analysed("lokwurmi", name)

    def test_standard_input(self) -> None:
        """Edits are tried of a system that is the standard input, and their script is another file."""
        report = "task a cpu period 10 jitter 0 distance 0 best 1 worst 3\nsummary tasks 1 overload 0 missed 0\n"
        calls = """from lokwurmi.results.reports import reports
from lokwurmi_tools.search.edit_trials import Trial, reports_after
before = reports(open("report").read())[0]
print(reports_after("./program", "/dev/stdin", [Trial(["exec a 1 4"], ["exec a 1 3"])], before) == [before])
"""
        program = '#!/bin/sh\necho "$1" >command\ncat "$2" >system\ncat "$3" >script\ncat report report\n'
        with tempfile.TemporaryDirectory() as folder:
            for name, text in (("report", report), ("program", program), ("given", "format = 1\n")):
                Path(folder, name).write_text(text)
            Path(folder, "program").chmod(0o755)
            with Path(folder, "given").open() as given:
                words, paths = [sys.executable, "-c", calls], os.pathsep.join(it for it in sys.path if it)
                env = os.environ | {"PYTHONPATH": paths}
                done = subprocess.run(words, stdin=given, stdout=subprocess.PIPE, text=True, cwd=folder, env=env)
            self.assertEqual(done.stdout, "True\n")
            found = [Path(folder, it).read_text() for it in ("command", "system", "script")]
        self.assertEqual(found, ["session\n", "format = 1\n", "exec a 1 4\nreport\nexec a 1 3\n"])


if __name__ == "__main__":
    unittest.main()
