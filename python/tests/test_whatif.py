"""Other fleets, and plans of one's own."""

import argparse
import itertools
import os
import random
import threading
import unittest

from mdvsp import timetable, whatif
from mdvsp.assign import assign
from mdvsp.plan import Plan
from mdvsp.side import SideFile

from .support import Folder, page, program, run
from .town import PRESENT, PRESENT_COST, TOWN_TEXT

FEED = "examples/feed"


class Sets(unittest.TestCase):
    def test_numbers(self):
        for text, numbers in (("2..6", [2, 3, 4, 5, 6]), ("3", [3]), ("0,2..3, 7", [0, 2, 3, 7]), ("", []), ("x", []),
                              ("2..", []), ("-1", []), ("2.5", [])):
            self.assertEqual(whatif.numbers_of(text), numbers, text)
        self.assertEqual(whatif.set_of("Mini=2..3"), ("Mini", [2, 3]))
        for text in ("Mini", "=2", "Mini=", "Mini=10001", "Mini=3..2"):
            with self.assertRaises(argparse.ArgumentTypeError):
                whatif.set_of(text)

    def test_all_combinations(self):
        town = timetable.parse(TOWN_TEXT.encode())
        self.assertEqual(whatif.fleets_of(town, {"Bus": [1, 2], "Minibus": [0, 1]}),
                         [{"Bus": 1, "Minibus": 0}, {"Bus": 1, "Minibus": 1}, {"Bus": 2, "Minibus": 0},
                          {"Bus": 2, "Minibus": 1}])
        with self.assertRaises(whatif.InputError):
            whatif.fleets_of(town, {"Bus": range(40), "Minibus": range(40)})

    def test_several_at_once(self):
        # Each search waits until the other one has begun.
        town = timetable.parse(TOWN_TEXT.encode())
        meeting = threading.Barrier(2, timeout=60)

        def solve(found):
            meeting.wait()
            return Plan("open", found.layers["Bus"].fleet, 0)

        cases = whatif.solve_all(town, [{"Bus": 2}, {"Bus": 1}], 2, solve)
        self.assertEqual([it.plan.cost for it in cases], [2, 1])
        self.assertEqual(whatif.jobs_of(None), os.cpu_count())

    def test_the_table(self):
        town = timetable.parse(TOWN_TEXT.encode())
        cases = [whatif.Case({"Bus": 2}, Plan("open", 91348000, 90000000)),
                 whatif.Case({"Bus": 1}, Plan("open", None, 5))]
        self.assertEqual(whatif.aligned(whatif.rows_of(town, cases, SideFile(100000))), (
            "Bus  claim    cost   bound      gap  used  reason\n"
            "  2  open   913.48  900.00  1.476 %\n"
            "  1  open     none    0.00                 no plan was found; there may be one\n"))


class WhatIf(Folder):
    """By hand: without the minibus four vehicles are wanted at once and three are there, since S2, S3 and H2 are under
    way at 7:35; with one bus the minibus and it can't run the three."""

    def test_the_town(self):
        given = program()
        town = self.write("town.csv", TOWN_TEXT)
        for limits in ([], ["--seconds", "600", "--gap", "0"]):
            status, printed, told = run("whatif", town, "--set", "Bus=1,3", "--unit", "100000", "--csv", "--program",
                                        given, *limits)
            self.assertEqual((status, told), (0, ""))
            self.assertEqual(printed.splitlines(), [
                "Bus,claim,cost,bound,gap,used,reason",
                '1,infeasible,none,none,,,"3 trips at 07:35, 2 vehicles of their layers: S2, S3, H2"',
                "3,optimal,913.48,913.48,0.000 %,4,",
            ])

    def test_wrong_arguments(self):
        town = self.write("town.csv", TOWN_TEXT)
        self.assertEqual(run("whatif", town)[0], 2)
        self.assertEqual(run("whatif", town, "--set", "Bus")[0], 2)
        self.assertEqual(run("whatif", town, "--set", "Bus=1", "--gap", "1000001")[0], 2)
        self.assertEqual(run("whatif", town, "--set", "Tram=1"),
                         (3, "", "unknown group Tram; there are Bus, Minibus\n"))
        self.assertEqual(run("whatif", town, "--set", "Bus=1", "--program", "/dev/null"),
                         (6, "", "/dev/null is no program that can be run\n"))


class Assigned(unittest.TestCase):
    def test_against_all_choices(self):
        draws = random.Random(7)
        for _ in range(300):
            blocks, groups = draws.randint(0, 5), draws.randint(1, 3)
            costs = [[draws.choice((None, draws.randint(0, 9))) for _ in range(groups)] for _ in range(blocks)]
            fleets = [draws.randint(0, 3) for _ in range(groups)]
            choices = [it for it in itertools.product(range(groups), repeat=blocks)
                       if all(costs[block][group] is not None for block, group in enumerate(it))
                       and all(it.count(group) <= fleets[group] for group in range(groups))]
            least = min((sum(costs[block][group] for block, group in enumerate(it)) for it in choices), default=None)
            found = assign(costs, fleets)
            self.assertEqual(found is None, least is None, (costs, fleets))
            if found is not None:
                self.assertIn(tuple(found), choices)
                self.assertEqual(sum(costs[block][group] for block, group in enumerate(found)), least)


class Prices(Folder):
    OWN = "examples/town/present_blocks.csv"

    def setUp(self):
        super().setUp()
        self.town = self.write("town.csv", TOWN_TEXT)

    def test_the_present_plan(self):
        given = program()
        status, printed, told = run("price", self.town, self.OWN, "--unit", "100000", "--program", given, "--nodes",
                                    "1", "-o", self.path("present.csv"))
        self.assertEqual((status, told), (0, ""))
        # 1046.375 and 132.895 are halves, which are rounded up; 13,289,500 of 104,637,500 are 12.70... per cent.
        self.assertEqual([it.rsplit(None, 1) if "%" not in it else it.split("  ")[-1].strip()
                          for it in printed.splitlines()],
                         [["blocks", "4"], ["cost", "1046.38"], ["bound", "913.48"], ["to be saved at most", "132.90"],
                          "12.701 %", ["a plan was found at", "913.48"], ["judged by mdvsp check", "yes"]])
        self.assertEqual(self.read("present.csv").splitlines()[:4],
                         ["result,1,open", f"cost,{PRESENT_COST}", "bound,91348000", "nodes,1"])
        present = self.path("present.csv")
        self.assertEqual(run("price", self.town, present, "--plan", present, "--program", given)[0], 0)

    def test_blocks_that_are_no_plan(self):
        own = self.write("own.csv", page(self.OWN).replace("block,Bus,S2\n", ""))
        self.assertEqual(run("price", self.town, own), (1, "", f"{own}: trip S2 stands in no block\n"))
        own = self.write("own.csv", page(self.OWN).replace("block,Bus,S2", "block,Bus,S2,S1"))
        status, _, told = run("price", self.town, own)
        self.assertEqual((status, told.splitlines()[0]), (1, f"{own}: block 2: from S2 no vehicle comes to S1 in time"))

    def test_an_export_of_blocks(self):
        text = "".join(f"{it.replace(',', ';')};;;\r\n" for it in page(self.OWN).splitlines())
        own = self.write("own.csv", text.encode("utf-16"))
        plan = self.document("plan.csv", PRESENT, PRESENT_COST)
        given = program()
        status, _, told = run("price", self.town, own, "--plan", plan, "--program", given)
        # No proof follows the timetable's 28 records and the document's 8, so the text ends where one has to stand.
        self.assertEqual((status, told.split(":")[0]), (3, "refused at record 37"))

    def test_texts_with_faults(self):
        own = self.write("own.csv", "block,Bus,S1\nbus,S2\n")
        self.assertEqual(run("price", self.town, own), (3, "", f"{own}: record 2: `bus,S2` is no block\n"))
        own = self.write("own.csv", "result,1,open\ncost,0\n")
        self.assertEqual(run("price", self.town, own), (3, "", f"{own}: there is no record block,GROUP,TRIP..\n"))
        self.assertEqual(run("price", self.town)[0], 2)


class FeedPrices(Folder):
    """The block_ids of a feed as a plan: those that gtfs-blocks wrote are priced as the plan is."""

    FILES = {
        "stops.txt": "stop_id,stop_name,stop_lat,stop_lon\np,P,50.00,7.0\nq,Q,50.01,7.0\n",
        "routes.txt": "route_id,route_short_name,route_type\nr,1,3\n",
        "stop_times.txt": "trip_id,arrival_time,departure_time,stop_id,stop_sequence\n"
                          "a,8:00:00,8:00:00,p,1\na,8:10:00,8:10:00,q,2\nb,8:20:00,8:20:00,q,1\nb,8:30:00,8:30:00,p,2\n"
                          "c,8:05:00,8:05:00,p,1\nc,8:15:00,8:15:00,q,2\n",
        "calendar.txt": "service_id,monday,tuesday,wednesday,thursday,friday,saturday,sunday,start_date,end_date\n"
                        "w,1,1,1,1,1,0,0,20260101,20261231\n",
        "depots.csv": "depot,stop\nD,p\n",
        "groups.csv": "group,depot,vehicles,fixed,per_minute,per_metre,runs\nA,D,1,1000,1,0,\nB,D,2,1500,1,0,\n",
    }

    def test_block_ids(self):
        given = program()
        for name, text in self.FILES.items():
            self.write(f"feed/{name}", text)
        self.write("feed/trips.txt", "route_id,service_id,trip_id,block_id\nr,w,a,7\nr,w,b,7\nr,w,c,\n")
        feed = self.path("feed")
        run("gtfs", feed, "--date", "2026-12-01", "--depots", f"{feed}/depots.csv", "--groups", f"{feed}/groups.csv",
            "-o", self.path("out"))
        status, printed, told = run("price", self.path("out/timetable.csv"), "--feed", feed, "--program", given)
        self.assertEqual((status, told), (0, "1 trip without a block_id: each is a block alone\n"))
        # a and b: 30 minutes from P to P. c: 10 minutes, and 4 minutes home. One is run by A, one by B: 1030 + 1514.
        self.assertEqual(printed.splitlines()[1].split(), ["cost", "2544"])

    def test_block_ids_that_are_no_plan(self):
        for name, text in self.FILES.items():
            self.write(f"feed/{name}", text)
        self.write("feed/trips.txt", "route_id,service_id,trip_id,block_id\nr,w,a,7\nr,w,b,8\nr,w,c,7\n")
        feed = self.path("feed")
        run("gtfs", feed, "--date", "2026-12-01", "--depots", f"{feed}/depots.csv", "--groups", f"{feed}/groups.csv",
            "-o", self.path("out"))
        status, _, told = run("price", self.path("out/timetable.csv"), "--feed", feed)
        self.assertEqual((status, told), (1, "no group can run the block 1-0800 1-0805: block 1: from 1-0800 no "
                                             "vehicle comes to 1-0805 in time\n"))


if __name__ == "__main__":
    unittest.main()
