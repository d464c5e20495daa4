"""The library answers as the program does."""
import os
import unittest
from collections import Counter
from concurrent.futures import ThreadPoolExecutor
from pathlib import Path
from random import Random
from typing import Any

from engine_for_tests import both_engines
from made import random_system

import lokwurmi
from lokwurmi import Chain, Library, NoEngine, System
from lokwurmi.files.chain_files import written
from lokwurmi_tools.shared.progress import Progress

TOP = Path(__file__).resolve().parents[2]
EXAMPLES = TOP / "examples"
GOOD = (EXAMPLES / "two_tasks.toml").read_bytes()
LONG = b"#" * 1_048_577
REFUSED: list[tuple[str, list[bytes], tuple[Any, ...]]] = [
    ("analyse", [b""], ()),
    ("analyse", [b"x = ["], ()),
    ("analyse", [LONG], ()),
    ("analyse", [b"\xff"], ()),
    ("analyse", [b"\0"], ()),
    ("session", [GOOD, b"exec b 2"], ()),
    ("session", [GOOD, LONG], ()),
    ("session", [GOOD, b"report\n" * 10_001], ()),
    ("simulate", [GOOD, b"event,sa,5\nevent,sa,4\n"], ()),
    ("simulate", [GOOD, b"event,sa,5\nevent,sa,6\n"], ()),
    ("simulate", [GOOD, b"event,zz,5\n"], ()),
    ("audit", [GOOD, b"", b"a,5,3\n"], ()),
    ("audit", [GOOD, b"", b""], ()),
    ("assign", [GOOD], ("zz",)),
    ("slack", [GOOD], ("zz",)),
    ("hammer", [GOOD], (0, 0)),
    ("hammer", [GOOD], (2**32, 1)),
    ("hammer", [GOOD], (0, 10_001)),
    ("generate", [], (2**40, 1)),
    ("generate", [], (1, 129)),
    ("generate", [], (-1, 1)),
    ("generate", [], (2**70, 1)),
    ("generate", [], (1, 0)),
    ("generate", [], (4_294_967_295, 128)),
    ("schedule", [GOOD, b"event,zz,5\n"], ()),
    ("chain", [GOOD], ()),
    ("chain", [GOOD], ("zz",)),
    ("chain", [GOOD], ("a", "zz", "--while-running")),
    ("chain", [GOOD], ("a",) * 32),
    ("chain", [GOOD], ("a",) * 33),
    ("chain", [GOOD], ("-a",)),
    ("chain", [GOOD], ("",)),
    ("chain", [b"x = ["], ("zz",)),
    ("chains", [GOOD, b"x = ["], ()),
    ("chains", [GOOD, b"format = 2\n"], ()),
    ("chains", [GOOD, LONG], ()),
    ("chains", [GOOD, b'format = 1\nchain = [{ name = "c", tasks = ["zz"] }]\n'], ()),
]
"""Calls most of which are refused, each with its files and its words."""


class LikeTheProgram(unittest.TestCase):
    def setUp(self) -> None:
        self.library, self.program = both_engines()

    def compare(self, command: str, files: list[bytes], words: tuple[str | int, ...] = ()) -> tuple[int, str]:
        """What both answer; a command that the library or the program hasn't is left out."""
        if not self.library.has(command):
            return 0, ""
        here = self.library.call(command, files, words)
        try:
            there = self.program.call(command, files, words)
        except NoEngine:
            return here
        self.assertEqual(here, there, (command, files, words))
        return here

    def compare_all(self, text: bytes, system: System, trace: bytes, script: bytes, draw: Random) -> None:
        """Compares all commands over a system."""
        self.compare("session", [text, script])
        _, schedule = self.compare("schedule", [text, trace])
        for command in ("simulate", "buffers"):
            self.compare(command, [text, trace])
        self.compare("audit", [text, trace, schedule.encode()])
        self.compare("audit", [text, trace, b"t0,0,1\n"])
        self.compare("hammer", [text], (draw.randint(0, 99), 2))
        self.compare("assign", [text], (draw.choice(list(system.resources)),))
        tasks = [draw.choice(list(system.tasks)) for _ in range(draw.randint(1, 4))]
        # such a name would be a word that isn't accepted
        if all(it.isascii() and it.isalnum() for it in tasks):
            self.compare("slack", [text], (tasks[0],))
            self.compare("chain", [text], (*tasks,))
            self.compare("chain", [text], (*tasks, "--while-running"))
        deadlines = {key: draw.choice([None, draw.randint(1, 2000)]) for key in ("reaction", "age")}
        chains, _ = written([Chain("c", tasks, **deadlines), Chain("d", tasks[:1], 0 if draw.random() < 0.1 else 50)])
        self.compare("chains", [text, chains.encode()])

    def test_examples(self) -> None:
        draw = Random(2)
        for file in sorted(EXAMPLES.glob("*.toml")):
            if file.name.endswith(".chains.toml"):
                continue
            with self.subTest(file.name):
                text, system = file.read_bytes(), System.from_file(file)
                self.compare("analyse", [text])
                traces = sorted(EXAMPLES.glob(f"{file.stem}*.trace.csv"))
                scripts = sorted(EXAMPLES.glob(f"{file.stem}*.script.txt"))
                trace = traces[0].read_bytes() if traces else b""
                self.compare_all(text, system, trace, scripts[0].read_bytes() if scripts else b"report\n", draw)
                for schedule in EXAMPLES.glob(f"{file.stem}*.schedule.csv"):
                    self.compare("audit", [text, trace, schedule.read_bytes()])
                for chains in EXAMPLES.glob(f"{file.stem}.chains.toml"):
                    self.compare("chains", [text, chains.read_bytes()])
                for name in system.resources:
                    self.compare("assign", [text], (name,))

    def test_random_systems(self) -> None:
        """All functions over random systems, as many as LOKWURMI_SYSTEMS says."""
        draw, seen = Random(1), Counter[int]()
        count, progress = int(os.environ.get("LOKWURMI_SYSTEMS", "40")), Progress("random systems")
        for number in range(count):
            progress.show(f"{number} of {count}{progress.left(number / count)}")
            with self.subTest(number):
                system = random_system(draw)
                text = system.to_toml().encode()
                seen[self.compare("analyse", [text])[0]] += 1
                self.compare("generate", [], (draw.randint(0, 999), draw.randint(0, 8)))
                if system.tasks:
                    name = draw.choice(list(system.tasks))
                    script = f"exec {name} 1 3\nreport\nexec {name} 2 1\nremove {name}\npriority {name} 50\n"
                    trace = "".join(f"event,s0,{at}\n" for at in range(0, 3000, 500))
                    self.compare_all(text, system, trace.encode(), script.encode(), draw)
        progress.clear()
        print(f"random systems by status: {dict(sorted(seen.items()))}")

    def test_refusals(self) -> None:
        for command, files, words in REFUSED:
            with self.subTest((command, words)):
                self.compare(command, files, words)

    def test_long_texts(self) -> None:
        """A text longer than the buffer at first is given whole."""
        text = self.library.call("generate", [], (3, 128))[1].encode()
        script = "report\n" * 20
        status, reports = self.compare("session", [text, script.encode()])
        self.assertGreater(len(reports), 500_000)

    def test_threads(self) -> None:
        """Many threads at a time get what one gets."""
        texts = [random_system(Random(k), 0).to_toml().encode() for k in range(40)]
        alone = [self.library.call("analyse", [it]) for it in texts]
        with ThreadPoolExecutor(8) as pool:
            self.assertEqual(list(pool.map(lambda it: self.library.call("analyse", [it]), texts * 20)), alone * 20)


class Choice(unittest.TestCase):
    def tearDown(self) -> None:
        lokwurmi.use(None)

    def test_use(self) -> None:
        class Fake:
            def call(self, command, files, words=()):
                return 0, "summary tasks 0 overload 0 missed 0\n"

        lokwurmi.use(Fake())
        self.assertEqual(dict(System().analyse().tasks), {})

    def test_no_library(self) -> None:
        with self.assertRaises(NoEngine):
            Library("/nowhere/liblokwurmi.so")
        with self.assertRaises(NoEngine):
            Library("/lib/x86_64-linux-gnu/libc.so.6")


if __name__ == "__main__":
    unittest.main()
