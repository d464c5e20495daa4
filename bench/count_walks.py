#!/usr/bin/env python3
"""Counts what a search does where two chains climb to overload, and whether it would do less from the windows of the
round before.

Follows the rounds of the system `cycle-climbs-slowly` of time_analyse.py (two preemptive resources, two tasks each,
whose bounds drive each other up by some ninety ticks a round) and counts, for the less urgent task of each resource,
the jobs of its busy windows and how often the demand of a window is asked for. Each job's window is looked for in three
ways: from where the program begins, a job longer than the window before; from the window of the same job in the round
before, which is never longer than the new one; and from the longer of the two.

    python3 -m bench.count_walks
    python3 -m bench.count_walks --limit 1000000 --first 45 --second 50
"""
import argparse

PERIOD = 100


def least_window(demand, start, limit):
    """The least window from a length on that has room, or none up to the limit, and how often the demand was asked
    for."""
    asked, window = 0, start
    while window <= limit:
        asked += 1
        need = demand(window)
        if need <= window:
            return window, asked
        window = need
    return None, asked


class Walk:
    """The walks of a task through its busy windows, round by round, by one way to begin each job's window."""

    def __init__(self, way, worst, rival, limit):
        self.way, self.worst, self.rival, self.limit = way, worst, rival, limit
        self.before, self.asked, self.jobs = [], 0, 0

    def start(self, job, end):
        near, old = end + self.worst, self.before[job] if job < len(self.before) else 0
        return {"the window before": near, "the round before": max(old, self.worst), "the longer": max(near, old)}[
            self.way
        ]

    def bound(self, jitter):
        """The greatest response, where the rival's events are late by up to so much; none where a window passes the
        limit."""
        ends, end, greatest = [], 0, 0
        while True:
            count = len(ends) + 1
            demand = lambda w, count=count: count * self.worst + self.rival * -(-(w + jitter) // PERIOD)
            end, asked = least_window(demand, self.start(count - 1, end), self.limit)
            self.asked, self.jobs = self.asked + asked, self.jobs + 1
            if end is None:
                return None
            ends.append(end)
            greatest = max(greatest, end - PERIOD * (count - 1))
            if end <= PERIOD * count:
                self.before = ends
                return greatest


def climb(way, first, second, limit):
    """Both resources are alike, so that one walk a round stands for both: the bound of a task is the jitter of the
    next."""
    walk, jitter, rounds = Walk(way, first, second, limit), 0, 0
    while True:
        rounds += 1
        bound = walk.bound(jitter)
        if bound is None or bound - 1 <= jitter:
            return rounds, walk
        jitter = bound - 1


def main():
    parser = argparse.ArgumentParser(description=__doc__, formatter_class=argparse.RawDescriptionHelpFormatter)
    parser.add_argument("--limit", type=int, default=200_000, help="the limit of both resources, in ticks (200,000)")
    parser.add_argument("--first", type=int, default=45, help="the greatest execution of the less urgent tasks (45)")
    parser.add_argument("--second", type=int, default=50, help="that of the more urgent tasks (50)")
    chosen = parser.parse_args()
    for way in ("the window before", "the round before", "the longer"):
        rounds, walk = climb(way, chosen.first, chosen.second, chosen.limit)
        print(
            f"from {way}: {rounds} rounds, {walk.jobs} jobs, demand asked for {walk.asked} times,"
            f" {walk.asked / walk.jobs:.2f} a job"
        )


if __name__ == "__main__":
    main()
