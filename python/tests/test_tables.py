"""Shares as the tools tell them. Expected texts are worked out by hand."""
import unittest
from fractions import Fraction

from lokwurmi_tools.shared.tables import percent_above, percent_below, ratio_text


class Shares(unittest.TestCase):
    def test_above(self) -> None:
        """None is told below what it is, and what isn't the whole is never told as it."""
        for share, text in (
            (Fraction(1, 3), "33.4"),
            (Fraction(9996, 10_000), "99.96"),
            (Fraction(99_999, 100_000), "99.999"),
            (Fraction(1), "100.0"),
            (Fraction(10_001, 10_000), "100.1"),
            (Fraction(0), "0.0"),
            (Fraction(21, 2), "1050.0"),
            # a float counts as what it is meant to be
            (0.07, "7.0"),
            (0.1 + 0.2, "30.0"),
            (0.2041, "20.5"),
        ):
            self.assertEqual(percent_above(share), text, share)

    def test_below(self) -> None:
        """None is told above what it is."""
        for share, text in (
            (Fraction(160, 600), "26.6"),
            (Fraction(1197, 1200), "99.7"),
            (Fraction(1), "100.0"),
            (0.29, "29.0"),
            (0.57, "57.0"),
            (9.9999, "999.9"),
            (49_997.009, "4999700"),
        ):
            self.assertEqual(percent_below(share), text, share)

    def test_ratios(self) -> None:
        """A bound counts as reached where it is alone."""
        self.assertEqual(
            [ratio_text(*it) for it in ((99_999, 100_000), (2, 3), (7, 7))], ["0.9999", "0.6666", "1.0000"]
        )


if __name__ == "__main__":
    unittest.main()
