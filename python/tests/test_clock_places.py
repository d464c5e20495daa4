"""Where sources may lie on a clock, beside counts of each tick of its cycle."""
import math
import random
import unittest

from lokwurmi_tools.search.clock_places import Beat, Folded, Grid, peak


def most_work(beats, cycle, window):
    """The most work in a window from any tick on."""
    end = 2 * cycle + window
    several = [(time, work) for it, work in beats for time in range(it.offset, end, it.period)]
    return max(sum(work for time, work in several if 0 <= time - start < window) for start in range(cycle, 2 * cycle))


class ClockPlaces(unittest.TestCase):
    def drawn(self):
        draw = random.Random(7)
        for _ in range(150):
            periods = [draw.choice((2, 3, 4, 6, 12)) for _ in range(draw.randint(1, 4))]
            yield draw, math.lcm(*periods), [(Beat(draw.randrange(it), it), draw.randint(1, 5)) for it in periods]

    def test_peaks(self):
        for draw, cycle, beats in self.drawn():
            window = draw.randint(1, 3 * cycle)
            self.assertEqual(peak(beats, cycle, window), most_work(beats, cycle, window), (beats, window))

    def test_loads(self):
        for draw, cycle, beats in self.drawn():
            period = draw.choice((2, 3, 4, 6, 12))
            folded, whole = Folded(period, [it for it, _ in beats]), math.lcm(period, cycle)
            for place in range(period):
                own = range(place, whole, period)
                met = sum(time in own for it, _ in beats for time in range(it.offset, whole, it.period))
                self.assertEqual(folded.loads.get(place, 0) * len(own), met)

    def test_first_place_has_the_least_load(self):
        for draw, _, beats in self.drawn():
            period, grid = draw.choice((4, 6, 12)), Grid(draw.choice((1, 1, 2, 3)), draw.choice((3, 100)))
            folded = Folded(period, [it for it, _ in beats])
            ranked = folded.ranked(grid)
            self.assertTrue(all(it in grid.places(period) for it in ranked))
            least = min(folded.loads.get(it, 0) for it in grid.places(period))
            self.assertEqual(folded.loads.get(ranked[0], 0), least, (period, grid, beats))

    def test_worked(self):
        # of 12 ticks: nothing between 0 and 8; the middle is 4, by steps of 3 it is 3
        self.assertEqual(Folded(12, [Beat(0, 12), Beat(8, 12)]).ranked(Grid())[0], 4)
        self.assertEqual(Folded(12, [Beat(0, 12), Beat(8, 12)]).ranked(Grid(3))[0], 3)
        # one that comes each 4 ticks leaves the middle between its own
        self.assertEqual(Folded(12, [Beat(1, 4)]).ranked(Grid())[0], 3)
        # all is taken: where less comes
        self.assertEqual(Folded(2, [Beat(0, 2), Beat(0, 2), Beat(1, 2)]).ranked(Grid())[0], 1)


if __name__ == "__main__":
    unittest.main()
