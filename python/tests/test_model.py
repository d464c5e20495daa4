"""Systems, their files, and what comes of them."""
import contextlib
import io
import pickle
import re
import tempfile
import unittest
import warnings
from pathlib import Path
from random import Random

from engine_for_tests import need_engine
from made import random_system

from lokwurmi import (
    EditRefused,
    Kind,
    NameRefused,
    NoEngine,
    NotToml,
    RoundingWarning,
    ScriptRefused,
    System,
    SystemRefused,
    TraceDisobeys,
    TraceRefused,
    Verdict,
    WordsRefused,
    default_engine,
    made_system,
)
from lokwurmi.errors import LokwurmiError
from lokwurmi.refusals.program_lines import error_of
from lokwurmi.refusals.reasons import EDIT_RULES, SYSTEM_REASONS

TOP = Path(__file__).resolve().parents[2]
EXAMPLES = TOP / "examples"


def two_tasks() -> System:
    system = System()
    cpu = system.preemptive("cpu")
    often = system.source("sa", 10)
    seldom = system.source("sb", 20)
    a = system.task("a", on=cpu, after=often, best=1, worst=3, priority=1)
    system.task("b", on="cpu", after=seldom, best=2, worst=7, priority=2)
    system.path("pa", [a], deadline=3)
    system.path("pb", ["b"], deadline=9)
    return system


class Calls(unittest.TestCase):
    def setUp(self) -> None:
        try:
            default_engine()
        except NoEngine as fault:
            raise unittest.SkipTest(str(fault))

    def test_analyse(self) -> None:
        report = two_tasks().analyse()
        self.assertEqual([it.worst for it in report.tasks.values()], [3, 10])
        self.assertEqual(
            (report.tasks["b"].period, report.tasks["b"].jitter, report.tasks["b"].on, report.tasks["b"].best),
            (20, 0, "cpu", 2),
        )
        self.assertEqual([it.verdict for it in report.paths.values()], [Verdict.MET, Verdict.MISSED])
        self.assertEqual((report.paths["pb"].slack, report.paths["pa"].slack), (-1, 0))
        self.assertEqual((report.verdict, report.missed, report.overloads, report.ok), (Verdict.MISSED, 1, 0, False))

    def test_overload(self) -> None:
        system = two_tasks()
        system.tasks["b"].worst = 20
        report = system.analyse()
        self.assertIsNone(report.tasks["b"].worst)
        self.assertTrue(report.tasks["b"].overload)
        self.assertEqual(
            (report.verdict, report.paths["pb"].verdict, report.paths["pb"].slack),
            (Verdict.OVERLOAD, Verdict.UNKNOWN, None),
        )

    def follow(self, page):
        """Runs the scripts of a page one after the other; what stands below one is what it prints."""
        seen: dict = {}
        text = (TOP / page).read_text(encoding="utf-8")
        block = r"^```python\n(.*?)^```\n(?:\n(?:</td></tr>\n</table>\n\n)?```\n(.*?)^```)?"
        for script, told in re.findall(block, text, re.S | re.M):
            # what calls modules of pyCPA isn't for here
            if "model." in script:
                continue
            printed = io.StringIO()
            with contextlib.redirect_stdout(printed), contextlib.chdir(TOP):
                exec(script, seen)  # the repository's own page
            if told and not told.startswith("$ "):
                self.assertEqual(printed.getvalue(), told, script)
        return seen

    def test_pages(self) -> None:
        """The scripts of the pages run and print what they show; that of a pyCPA model builds the example's file."""
        need_engine("chain")
        need_engine("schedule")
        with warnings.catch_warnings():
            warnings.simplefilter("ignore", RoundingWarning)
            for page in ("docs/LIBRARY.md", "python/README.md", "docs/PYTHON.md", "examples/README.md"):
                with self.subTest(page):
                    seen = self.follow(page)
        self.assertEqual(seen["s"], System.from_file(EXAMPLES / "pycpa_first.toml"))
        self.assertEqual([it.worst for it in seen["results"].tasks.values()], [10, 13, 2, 19])

    def test_processes(self) -> None:
        """Systems and what comes of them may be sent to other processes."""
        system = two_tasks()
        for it in (
            system,
            *system.session("exec zz 1 1\n"),
            system.slack("a"),
            system.simulate("event,sa,0\n"),
            system.buffers(""),
            system.hammer(1, 1),
        ):
            self.assertEqual(pickle.loads(pickle.dumps(it)), it)

    def test_loop(self) -> None:
        system = two_tasks()
        bounds = []
        for worst in range(2, 8):
            system.tasks["b"].worst = worst
            bounds.append(system.analyse().tasks["b"].worst)
        self.assertEqual(bounds, [5, 6, 7, 8, 9, 10])

    def test_several_activators(self) -> None:
        system = System.from_file(EXAMPLES / "two_activators.toml")
        self.assertEqual(system.tasks["m"].after, ["sa", "sb"])
        report = system.analyse()
        self.assertEqual((report.tasks["m"].streams, report.tasks["m"].period, report.tasks["m"].worst), (2, None, 6))

    def test_session(self) -> None:
        reports = two_tasks().session(["exec b 2 6", "report", "exec zz 1 1", "exec b 9 2", "exec b 2 5"])
        self.assertEqual([it.tasks["b"].worst for it in reports], [9, 8])
        self.assertEqual([dict(it.refused) for it in reports], [{}, {3: 1, 4: 5}])

    def test_other_calls(self) -> None:
        system = two_tasks()
        self.assertEqual(system.slack("b").ticks, None)
        system.paths["pb"].deadline = 10
        self.assertEqual((system.slack("b").ticks, system.slack("b").at_limit), (0, False))
        self.assertEqual(system.assign("cpu"), {"a": 1, "b": 2})
        system.paths["pb"].deadline = 1
        self.assertIsNone(system.assign("cpu"))
        run = system.simulate([("event", "sa", 0), ("event", "sb", 0), ("exec", "b", 2)])
        self.assertEqual((run.tasks["b"].worst, run.paths["pb"].passages, run.end), (5, 1, 5))
        self.assertIsNone(system.audit("event,sa,0\n", [("a", 0, 3)]))
        wrong = system.audit("event,sa,0\n", [("b", 0, 3)])
        self.assertEqual((wrong.place, wrong.expected), (1, ("a", 0, 3)))
        self.assertEqual(system.buffers("event,sa,0\nevent,sb,0\n").resources["cpu"], (2, 2))
        self.assertEqual(system.hammer(1, 2).beyond, 0)
        self.assertEqual(len(made_system(42, 2).tasks), 6)

    def test_refusals(self) -> None:
        system = two_tasks()
        with self.assertRaisesRegex(WordsRefused, "out of its range"):
            system.hammer(1, 0)
        with self.assertRaisesRegex(NameRefused, "no task has the name"):
            system.slack("zz")
        with self.assertRaisesRegex(ScriptRefused, "line 2"):
            system.session("report\nexec b 2\n")
        with self.assertRaisesRegex(TraceRefused, "row 2: range"):
            system.simulate("event,sa,5\nevent,sa,4\n")
        with self.assertRaisesRegex(TraceDisobeys, "source sa times 5 6"):
            system.simulate("event,sa,5\nevent,sa,6\n")
        system.tasks["b"].priority = 1
        with self.assertRaisesRegex(SystemRefused, "task 'b': a priority twice") as caught:
            system.analyse()
        self.assertEqual(
            (
                caught.exception.status,
                caught.exception.reason,
                caught.exception.part,
                caught.exception.place,
                caught.exception.name,
            ),
            (14, 8, "task", 2, "b"),
        )

    def test_out_of_range(self) -> None:
        """The number and its range are told; where they aren't known, a distance is spoken of only of a source."""
        for change, told in (
            (
                lambda it: setattr(it.tasks["b"], "region", 0),
                "task 'b': .*: `region` is 0, below 1: `region` is 1 to 10000000 ticks",
            ),
            (
                lambda it: setattr(it.tasks["b"], "priority", -1),
                "task 'b': .*: `priority` is -1, below 0: `priority` is 0 to 536870911",
            ),
            (lambda it: setattr(it.sources["sa"], "distance", 10**6), "the distance 1000000 is above the period: "),
            (
                lambda it: setattr(it.resources["cpu"], "limit", 0),
                "resource 'cpu': .*: `limit` is 0, below 1: `limit` is 1 to 10000000 ticks",
            ),
        ):
            system = two_tasks()
            change(system)
            with self.assertRaisesRegex(SystemRefused, told):
                system.analyse()

    def test_each_reason(self) -> None:
        """Each example of docs/FILES.md is refused by its reason."""
        text = (TOP / "docs/FILES.md").read_text(encoding="utf-8")
        engine = default_engine()
        found = set()
        for section in text.split("\n### ")[1:]:
            head = re.match(r"(\d+): ", section)
            for example in re.findall(r"```toml\n(.+?)```", section.split("\n## ")[0], re.S) if head else ():
                status, line = engine.call("analyse", [example.encode()])
                self.assertEqual((status, line.split()[3]), (14, head[1]), example)
                found.add(int(head[1]))
        self.assertGreaterEqual(len(found), 12)

    def test_large(self) -> None:
        """A system of a file of format 4 has the larger limits, though its entries need none: with an execution of a
        million and a tick the window is longer than its limit, which is what ends the slack, and not the greatest
        execution."""
        system = System()
        a = system.task(
            "a", on=system.preemptive("cpu"), after=system.source("s", 10**8), best=1, worst=3, priority=1
        )
        system.path("p", [a], deadline=10**8)
        found = system.slack("a")
        self.assertEqual((found.ticks, found.at_limit), (999_997, True))
        large = System.from_toml(system.to_toml().replace("format = 1", "format = 4"))
        self.assertEqual((large.to_toml().splitlines()[0], large, large.copy().is_large), ("format = 4", system, True))
        found = large.slack("a")
        self.assertEqual((found.ticks, found.at_limit), (999_997, False))
        with large.session() as session:
            session.exec("a", worst=10**7)
            self.assertTrue(session.to_system().is_large)
        with system.session() as session, self.assertRaisesRegex(EditRefused, "rule 3"):
            session.exec("a", worst=10**7)


class Files(unittest.TestCase):
    def test_round_trip(self) -> None:
        for number in range(200):
            system = random_system(Random(number), 0)
            self.assertEqual(System.from_toml(system.to_toml()), system)
        for file in EXAMPLES.glob("*.toml"):
            if file.name.endswith(".chains.toml"):
                continue
            system = System.from_file(file)
            again = System.from_toml(system.to_toml())
            self.assertEqual((again, again.is_large), (system, system.is_large))

    def test_copy(self) -> None:
        system = two_tasks()
        other = system.copy()
        other.tasks["a"].worst = 2
        self.assertEqual(system.tasks["a"].worst, 3)
        self.assertNotEqual(system, other)

    def test_unknown_keys(self) -> None:
        for text in (
            "format = 1\ntasks = []",
            "format = 3",
            "x = [",
            "format = 1\ntask = [{ name = 'a', colour = 1 }]",
            "format = 1\nsource = [{ name = 's', period = 1 }, { name = 's', period = 2 }]",
        ):
            with self.assertRaises(LokwurmiError):
                System.from_toml(text)

    def test_faults(self) -> None:
        """What can't be a system of objects says where, and what to write."""
        for text, why in (
            ("x = [", "isn't TOML: Invalid value"),
            ("format = 3", "line 1: the format 3 isn't known: it is 1, 2 or 4"),
            ("format = true", "line 1: `format` is a truth value, and has to be the whole number 1, 2 or 4"),
            (
                "format = 1\ntasks = []",
                "line 2: the key `tasks` isn't known at the top of the file; did you mean `task`",
            ),
            (
                "format = 1\ntask = 5",
                r"`task` is a whole number, and has to be an array of tables: write a section \[\[task",
            ),
            ("format = 1\ntask = [5]", "line 2: task 1 is a whole number, and has to be a table"),
            (
                "format = 1\nsource = [{ name = 's', period = 1 }, { name = 't' }]",
                'line 2: source "t": the key `period` is missing',
            ),
            ("format = 1\npath = [{ name = 4, tasks = [] }]", "line 2: path 1 of the file: `name` is a whole number"),
            ("format = 1\nsource = [{ name = 's', period = 1 }, { name = 's', period = 1 }]", 'the name "s" is taken'),
            ("format = 1\nsource = [{ name = 's', colour = 1 }]", 'line 2: source "s": the key `colour` isn.t known'),
        ):
            with self.assertRaisesRegex(LokwurmiError, why):
                System.from_toml(text)
            with tempfile.TemporaryDirectory() as room:
                file = Path(room, "net.toml")
                file.write_text(text)
                with self.assertRaisesRegex(LokwurmiError, f"{file}: .*{why}"):
                    System.from_file(file)
                file.write_bytes(b"\xff")
                with self.assertRaisesRegex(LokwurmiError, f"{file}: it isn't UTF-8"):
                    System.from_file(file)

    def test_names_twice(self) -> None:
        system = two_tasks()
        with self.assertRaises(ValueError):
            system.source("sa", 5)

    def test_kinds(self) -> None:
        system = System()
        self.assertEqual(
            [
                it.kind
                for it in (
                    system.preemptive("a"),
                    system.round_robin("b"),
                    system.tdma("c", gap=3),
                    system.can("d", bit=2),
                    system.fifo("e", rate=8),
                    system.ceiling("f"),
                )
            ],
            [str(it) for it in Kind],
        )


class Words(unittest.TestCase):
    def test_reasons_are_those_of_the_page(self) -> None:
        text = (TOP / "docs/FILES.md").read_text(encoding="utf-8")
        headings = {int(number): words for number, words in re.findall(r"^### (\d+): (.+)$", text, re.M)}
        self.assertEqual(headings, {number: it.heading for number, it in SYSTEM_REASONS.items()})
        section = text[text.index("### Edits that are refused") :].split("\n## ")[0]
        rules = re.findall(r"^\| (\d+) \| ", section, re.M)
        self.assertEqual([int(it) for it in rules], list(EDIT_RULES))

    def test_not_toml(self) -> None:
        self.assertIsInstance(error_of(13, "not TOML system\n"), NotToml)


if __name__ == "__main__":
    unittest.main()
