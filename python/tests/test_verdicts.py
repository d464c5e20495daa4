"""Verdicts and differences. The reports are texts, and expected numbers are worked out by hand."""
import pickle
import unittest
import warnings

from lokwurmi import Shift, UnitsRefused, Verdicts, changes_of, us
from lokwurmi.results.differences import Limit
from lokwurmi.results.effect_chains import chains_report
from lokwurmi.results.reports import Verdict, reports

LINE = "task {} cpu period 20 jitter 0 distance 0 best 1 worst {}\n"
BEFORE = (
    LINE.format("a", 3)
    + LINE.format("b", 10)
    + "path pa best 1 worst 3 deadline 3 met\npath pb best 1 worst 10 deadline 9 missed\n"
    + "summary tasks 2 overload 0 missed 1\n"
)
AFTER = (
    LINE.format("a", 4)
    + LINE.format("b", "overload")
    + LINE.format("c", "overload")
    + "path pa best 1 worst 4 deadline 3 missed\npath pb best 1 worst overload deadline 9 unknown\n"
    + "summary tasks 3 overload 2 missed 1\n"
)
CHAINS = (
    "chain c tasks 2 reaction 23 deadline 24 met age 14 deadline 13 missed held 23 deadline 30 met\n"
    "summary chains 1 overload 0 missed 1 if sources stay near\n"
)
LATER = CHAINS.replace("23 deadline 24 met", "25 deadline 24 missed").replace("14", "16").replace("held 23", "held 25")


def report(text, tick=None):
    return reports(text, tick)[-1]


class OfOneSystem(unittest.TestCase):
    def test_counts_and_status(self):
        found = Verdicts(report(BEFORE), chains_report(CHAINS))
        wanted = {"count": 5, "overload": 0, "deadlines": 5, "met": 3, "missed": 2, "unknown": 0}
        self.assertEqual((found.status, found.verdict, found.counts["all"]), (1, Verdict.MISSED, wanted))
        self.assertEqual(
            [(it.name, it.what, it.slack) for it in found.missed], [("pb", "latency", -1), ("c", "age", -1)]
        )
        lacking = Verdicts(report(AFTER))
        self.assertEqual((lacking.status, [it.name for it in lacking.unbounded]), (2, ["b", "c", "pb"]))

    def test_times(self):
        found = Verdicts(report(BEFORE, us(10)))
        self.assertEqual(str(found.missed[0].time("slack")), "-10us")
        self.assertEqual(found.to_dict()["paths"][1]["bound_time"], "100us")


class OfTwoVersions(unittest.TestCase):
    def test_each_change(self):
        found = report(BEFORE).diff(report(AFTER))
        told = {(it.kind, it.name): (it.shift, it.grown, it.is_newly_missed, it.is_lost) for it in found}
        wanted = {
            ("task", "a"): (Shift.WORSE, 1, False, False),
            ("task", "b"): (Shift.LOST, None, False, True),
            ("task", "c"): (Shift.APPEARED, None, False, True),
            ("path", "pa"): (Shift.WORSE, 1, True, False),
            ("path", "pb"): (Shift.LOST, None, False, True),
        }
        self.assertEqual((told, found.status()), (wanted, 2))
        back = report(AFTER).diff(report(BEFORE))
        self.assertEqual((back.status(), [it.name for it in back.newly_met]), (0, ["pa"]))
        self.assertEqual([it.name for it in back if it.shift is Shift.WENT], ["c"])

    def test_chains(self):
        found = changes_of(report(BEFORE), report(BEFORE), chains_report(CHAINS), chains_report(LATER))
        self.assertEqual([(it.what, it.grown) for it in found.changed], [("reaction", 2), ("age", 2), ("held", 2)])
        self.assertEqual([it.what for it in found.newly_missed], ["reaction"])
        alone = chains_report(CHAINS).diff(chains_report(LATER))
        self.assertEqual((len(alone), alone.status(), alone.to_dict()["premise"]), (3, 1, "if sources stay near"))

    def test_how_much_worse(self):
        found = report(BEFORE).diff(report(BEFORE.replace("worst 3", "worst 4").replace("3 met", "5 met")))
        for worse, status in ((None, 0), (1, 0), (0, 1), ("33.4%", 0), ("33.3%", 1), (Limit(ticks=2), 0)):
            self.assertEqual(found.status(worse), status, worse)
        for worse in ("x", "-1", "5 %", "%", True, 1.5):
            with self.assertRaises(ValueError):
                found.status(worse)

    def test_other_ticks(self):
        """Numbers of ticks of different times aren't compared."""
        for tick in (us(1), None):
            with self.assertRaises(UnitsRefused):
                report(BEFORE, tick).diff(report(BEFORE, us(10)))

    def test_sent_to_another_process(self):
        with warnings.catch_warnings():
            warnings.simplefilter("error")
            found = pickle.loads(pickle.dumps(report(BEFORE).diff(report(AFTER))))
        self.assertEqual((found.status(), len(found.changed)), (2, 5))


if __name__ == "__main__":
    unittest.main()
