"""The typed readers and writers of timetables and documents."""

import glob
import os
import unittest
from fractions import Fraction

from mdvsp import plan, side, timetable
from mdvsp.errors import InputError
from mdvsp.plan import Block, Leaf, Plan, Split
from mdvsp.side import SideFile, TripNames
from mdvsp.timetable import Layer, Trip, Way

from .support import TOP, page


def shipped():
    """Yields the timetables and the documents of examples/, each with its name and its text."""
    for path in sorted(glob.glob(os.path.join(TOP, "examples", "*.csv"))):
        yield os.path.basename(path), page(path)


class RoundTrips(unittest.TestCase):
    """What is read and written again is the same text, byte by byte."""

    def test_every_example(self):
        kinds = {"instance": timetable, "result": plan}
        count = 0
        for name, text in shipped():
            with self.subTest(name):
                self.assertEqual(kinds[text.split(",")[0]].parse(text.encode()).text(), text)
                count += 1
        self.assertGreaterEqual(count, 12)

    def test_a_side_file(self):
        names = SideFile(100, {"Hoehe": "Höhe, Süd"}, {"Bus": 'der "Büs"'}, {"t": TripNames("1 7:00 Höhe", "1", "t/ä")})
        self.assertEqual(side.parse(names.text()), names)
        self.assertEqual(side.path_of("a/town.csv"), "a/town.names.csv")


class Values(unittest.TestCase):
    def test_a_timetable(self):
        found = timetable.parse(page("examples/split_shift.csv").encode())
        self.assertEqual(found.stops, ["Depot", "Station", "School", "Works", "Hospital"])
        self.assertEqual(found.layers, {"Bus": Layer("Bus", "Depot", 12, 150000, 600, 2, 60)})
        self.assertEqual(found.trips["S0705"], Trip("S0705", "Hospital", 425, "School", 439, 4100, ("Bus",)))
        self.assertEqual(found.way("Depot", "Works"), Way(18, 8100))
        self.assertEqual(found.way("Depot", "Depot"), Way(0, 0))
        self.assertIsNone(found.way("Depot", "Nowhere"))
        self.assertEqual(found.with_fleets({"Bus": 3}).layers["Bus"].fleet, 3)
        self.assertEqual(found.layers["Bus"].fleet, 12)

    def test_a_document(self):
        found = plan.parse(page("examples/two_types_plan.csv").encode())
        self.assertEqual((found.claim, found.cost, found.bound, found.nodes), ("optimal", 2301, 2301, 1))
        self.assertEqual(found.blocks, [Block("Old", ("t1",)), Block("New", ("t2",))])
        self.assertEqual(len(found.tables), 1)
        self.assertFalse(found.tables[0].is_ray)
        self.assertEqual(found.tables[0].fleet, {"Old": 200000, "New": 0})
        self.assertEqual(found.tables[0].prices["New", "t2"], (1210000, -10000))
        self.assertEqual(found.tree, [Leaf(1)])

    def test_rays_and_splits(self):
        found = plan.parse(page("examples/three_vehicles_document.csv").encode())
        self.assertEqual((found.claim, found.cost, found.bound, found.gap), ("infeasible", None, None, None))
        self.assertTrue(all(table.is_ray for table in found.tables))
        self.assertEqual(found.tree, [Split("a", ("L1",)), Leaf(1), Leaf(2)])

    def test_the_gap(self):
        self.assertEqual(Plan("open", 200, 150).gap, Fraction(1, 4))
        self.assertEqual(Plan("optimal", 0, 0).gap, 0)

    def test_faults(self):
        for text, told in (
            ("", "timetable: the first record is none of instance,1, instance,2 and instance,3"),
            ("instance,1\nstop,D\nlayer,L,D,1,1,x,1\n", "timetable: record 3: `x` is no number"),
            ("instance,1\nstop,D\n\nbus,D\n", "timetable: record 3: `bus,D` is no record of an instance"),
        ):
            with self.assertRaises(InputError) as caught:
                timetable.parse(text.encode())
            self.assertEqual(str(caught.exception), told)


if __name__ == "__main__":
    unittest.main()
