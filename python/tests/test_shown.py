"""How results are shown: tables of notebooks, charts, data frames."""
import importlib.util
import subprocess
import sys
import unittest
from html.parser import HTMLParser
from pathlib import Path

from lokwurmi import Chain, Kind, NotInstalled, System, ms, us
from lokwurmi.results import effect_chains as chain_results
from lokwurmi.results import reports

SRC = Path(__file__).resolve().parents[1] / "src"
REPORT = """task a cpu period 10 jitter 0 distance 0 best 1 worst 3
task <b>&amp; cpu streams 2 best 2 worst overload
path pa best 1 worst 3 deadline 3 met
path pb best 2 worst overload deadline 9 unknown
path pc best 2 worst 8 deadline 5 missed
path pd best 2 worst 8 deadline - none
summary tasks 2 overload 1 missed 1
"""


class Reader(HTMLParser):
    """Keeps the text of a page, and whether each element is closed in turn."""

    def __init__(self, text):
        super().__init__()
        self.open, self.words, self.rows = [], [], 0
        self.feed(text)
        self.close()

    def handle_starttag(self, tag, attrs):
        self.open.append(tag)
        self.rows += tag == "tr"

    def handle_endtag(self, tag):
        assert self.open.pop() == tag

    def handle_data(self, data):
        self.words.append(data)


def one_report(tick=None):
    return reports.reports(REPORT, tick)[0]


class Tables(unittest.TestCase):
    def shown(self, it):
        text = it._repr_html_()
        reader = Reader(text)
        self.assertEqual(reader.open, [])
        return " ".join(reader.words), text

    def test_report(self) -> None:
        words, text = self.shown(one_report())
        for word in (
            "<b>&amp;",
            "2 streams",
            "overload",
            "met",
            "missed",
            "unknown",
            "no deadline",
            "Times are in ticks.",
        ):
            self.assertIn(word, words)
        self.assertIn("&lt;b&gt;&amp;amp;", text)
        self.assertNotIn("<b>", text)
        # neither the page's own letters nor its ground are coloured
        self.assertNotIn("color:#000", text)
        words, _ = self.shown(one_report(us(250)))
        for word in ("2.5ms", "750us", "A tick is 250us."):
            self.assertIn(word, words)

    def test_system(self) -> None:
        system = System(tick="1us")
        bus = system.resource("<bus>", Kind.CAN, bitrate=500_000)
        source = system.source("s", ms(10), jitter="5us")
        task = system.task("f", on=bus, after=source, payload=8, extended=True, priority=1)
        system.task("g", on=bus, after=[source, task], best=1, worst=us(20), priority=2)
        system.path("p", [task, "g"], deadline=ms(5))
        words, text = self.shown(system)
        for word in (
            "<bus>",
            "500000",
            "10ms",
            "5us",
            "8 bytes, 29-bit identifier",
            "1 to 20us",
            "s or f",
            "f → g",
            "5ms",
        ):
            self.assertIn(word, words)
        self.assertIn("empty", self.shown(System())[0])

    def test_others(self) -> None:
        run = reports.run("task a jobs 2 done 1 worst 3\npath p passages 0 worst none\nsummary jobs 2 done 1 end 13\n")
        self.assertIn("one run, which isn't the worst case", self.shown(run)[0])
        self.assertIn("none is done", self.shown(run)[0])
        slack = reports.slack("slack a 5 next missed\n")
        self.assertEqual(self.shown(slack)[0], "a may grow by  5  ticks: a tick more, and a deadline is missed.")
        self.assertIn("no slack", self.shown(reports.slack("slack a none\n"))[0])
        self.assertIn("1.25ms", self.shown(reports.slack("slack a 5 next limit\n", us(250)))[0])
        order = reports.order("priority a 1\npriority b 2\nassigned cpu tasks 2\n")
        self.assertEqual(Reader(order._repr_html_()).rows, 3)
        buffers = reports.buffers(
            "buffer a bound 1 peak 1\nresource cpu bound overload peak 3\nsummary tasks 1 overload 0\n"
        )
        self.assertIn("overload", self.shown(buffers)[0])
        hammered = reports.hammered("task a jobs 5 worst none bound 3\nsummary traces 2 jobs 5 beyond 0\n")
        self.assertIn("0 jobs were beyond", self.shown(hammered)[0])
        schedule = reports.schedule("a,0,2\nb,2,3\n", {"a": "cpu", "b": "cpu"})
        self.assertIn("2 segments", self.shown(schedule)[0])
        many = reports.schedule("".join(f"a,{at},{at + 1}\n" for at in range(1000)), {"a": "cpu"})
        self.assertEqual(Reader(many._repr_html_()).rows, 201)
        self.assertIn("800 rows more", self.shown(many)[0])

    def test_chains(self) -> None:
        found = chain_results.chain_report(
            "step a first wait 9 response 3\nstep b register wait overload response 7\n"
            "chain tasks 2 reaction overload age 28 held 52 if sources stay near\n"
        )
        words, _ = self.shown(found)
        self.assertIn("Holds where sources keep their periods", words)
        self.assertIn("28", words)
        judged = chain_results.chains_report(
            "chain x tasks 3 reaction 47 deadline 60 met age 28 deadline - none\nsummary chains 1 overload 0 missed 0"
            " if sources stay near\n"
        )
        self.assertIn("no deadline", self.shown(judged)[0])
        self.assertEqual(Chain("x", ["a"]).reaction, None)


class Charts(unittest.TestCase):
    def setUp(self) -> None:
        if importlib.util.find_spec("matplotlib") is None:
            raise unittest.SkipTest("there is no matplotlib")

    def test_report(self) -> None:
        from matplotlib.figure import Figure

        figure = one_report(us(250)).plot()
        self.assertIsInstance(figure, Figure)
        paths, tasks = figure.axes
        names = [[it.get_text() for it in axes.get_yticklabels()] for axes in (paths, tasks)]
        self.assertEqual(names, [["pa", "pb", "pc", "pd"], ["cpu  a", "cpu  <b>&amp;"]])
        self.assertIn("ms, where a tick is 250us", paths.get_xlabel())
        # the bars of the bounds that are there, each with its least time, and one over the whole width
        self.assertEqual([it.get_width() for it in tasks.patches], [3, 1, 3 * 1.03])
        self.assertEqual([it.get_width() for it in paths.patches], [3, 1, 9 * 1.03, 8, 2, 8, 2])
        self.assertEqual([it.get_text() for it in tasks.texts], ["750us", "overload"])
        self.assertTrue(figure._repr_png_().startswith(b"\x89PNG"))
        self.assertNotIn("matplotlib.pyplot", sys.modules)

    def test_schedule(self) -> None:
        figure = reports.schedule("a,0,2\nb,2,3\na,3,4\n", {"a": "cpu", "b": "bus"}).plot()
        parts = [path.get_extents().bounds[2] for it in figure.axes[0].collections for path in it.get_paths()]
        self.assertEqual([round(it) for it in parts], [2, 1, 1])
        self.assertTrue(figure._repr_png_().startswith(b"\x89PNG"))

    def test_empty(self) -> None:
        report = reports.reports("summary tasks 0 overload 0 missed 0\n")[0]
        self.assertTrue(report.plot()._repr_png_())


class Frames(unittest.TestCase):
    def test_frames(self) -> None:
        try:
            import pandas
        except ImportError:
            raise unittest.SkipTest("there is no pandas")
        tasks = one_report().to_dataframe()
        self.assertEqual(list(tasks.index), ["a", "<b>&amp;"])
        self.assertEqual(str(tasks["worst"].dtype), "Int64")
        self.assertEqual((tasks.loc["a", "worst"], tasks.loc["a", "on"]), (3, "cpu"))
        self.assertIs(tasks.loc["<b>&amp;", "worst"], pandas.NA)
        paths = one_report().to_dataframe("paths")
        self.assertEqual(list(paths["verdict"]), ["met", "unknown", "missed", "none"])
        self.assertEqual(paths["deadline"].sum(), 17)
        with self.assertRaises(ValueError):
            one_report().to_dataframe("resources")


class Absent(unittest.TestCase):
    def test_packages(self) -> None:
        """Without matplotlib and pandas all else works, and the error names the package of Debian."""
        script = (
            "import sys\n"
            "sys.modules['matplotlib'] = sys.modules['pandas'] = None\n"
            "from lokwurmi import NotInstalled\n"
            "from lokwurmi.results import reports\n"
            "report = reports.reports('summary tasks 0 overload 0 missed 0\\n')[0]\n"
            "for call in (report.plot, report.to_dataframe):\n"
            "    try:\n"
            "        call()\n"
            "    except NotInstalled as fault:\n"
            "        print(fault)\n"
            "print(report._repr_html_()[:4])\n"
        )
        done = subprocess.run(
            [sys.executable, "-c", script], env={"PYTHONPATH": str(SRC)}, capture_output=True, text=True
        )
        self.assertEqual(done.stderr, "")
        self.assertEqual(
            done.stdout.splitlines()[0],
            "this needs matplotlib: on Debian and Ubuntu `apt-get install "
            "python3-matplotlib`, elsewhere `python3 -m pip install matplotlib`",
        )
        self.assertIn("apt-get install python3-pandas", done.stdout)
        self.assertTrue(issubclass(NotInstalled, ImportError))


if __name__ == "__main__":
    unittest.main()
