"""Drives that are closed."""

import itertools
import random
import unittest
from fractions import Fraction

from mdvsp.drives import Closed


class Closing(unittest.TestCase):
    """Closed drives keep the rule of docs/formats.md, and are the least over all ways, which are counted one by one."""

    @staticmethod
    def drawn(draws, count):
        stops = [f"s{it}" for it in range(count)]
        ends = [it for it in itertools.permutations(stops, 2) if draws.random() < 0.5]
        return stops, {it: (draws.randint(1, 20 * 300), draws.randint(0, 9000)) for it in ends}

    @staticmethod
    def least_of_all_ways(stops, drives, part):
        least = {}
        for length in range(2, len(stops) + 1):
            for way in itertools.permutations(stops, length):
                legs = list(zip(way, way[1:]))
                if all(it in drives for it in legs):
                    total = sum(Fraction(drives[it][part]) for it in legs)
                    least[way[0], way[-1]] = min(total, least.get((way[0], way[-1]), total))
        return least

    def test_drawn_drives(self):
        draws = random.Random(36)
        for _ in range(60):
            stops, given = self.drawn(draws, draws.randint(2, 5))
            closed = Closed(stops, given)
            parts, metres = (self.least_of_all_ways(stops, given, it) for it in (0, 1))
            wanted = {it: (-(-parts[it] // 300), metres[it]) for it in parts}
            self.assertEqual(closed.drives, wanted)
            for a, b, c in itertools.permutations(stops, 3):
                if (a, b) in wanted and (b, c) in wanted:
                    for figure in (0, 1):
                        self.assertLessEqual(closed.drives[a, c][figure],
                                             closed.drives[a, b][figure] + closed.drives[b, c][figure])

    def test_rounding_comes_last(self):
        # 1.4 and 1.4 minutes are 2.8 together, so 3; each for itself is 2.
        closed = Closed(["A", "B", "C"], {("A", "B"): (420, 5), ("B", "C"): (420, 5), ("A", "C"): (900, 5)})
        self.assertEqual(closed.drives, {("A", "B"): (2, 5), ("A", "C"): (3, 5), ("B", "C"): (2, 5)})
        self.assertEqual(closed.shortened, [])

    def test_minutes_and_metres_by_two_ways(self):
        given = {("A", "B"): (300, 9), ("B", "D"): (300, 9), ("A", "C"): (600, 2), ("C", "D"): (600, 2)}
        closed = Closed(list("ABCD"), given)
        self.assertEqual(closed.drives["A", "D"], (2, 4))
        self.assertEqual(closed.told_added(("A", "D")), "A to D: 2 minutes by way of B, 4 metres by way of C")
        closed = Closed(list("ABCD"), {**given, ("A", "D"): (900, 5)})
        self.assertEqual(closed.told_shortened(("A", "D")),
                         "A to D: 2 in place of 3 minutes by way of B, 4 in place of 5 metres by way of C")
