"""The figures of a plan, and what `mdvsp-plan summary` prints of them."""

import os
import unittest

from mdvsp import printed
from mdvsp.duties import rest_between
from mdvsp.figures import most_out
from mdvsp.timetable import Layer, Timetable, Trip, Way

from .support import TOWN, Folder, run
from .town import (DIFFERENCE, GOOD, GOOD_COST, GOOD_SUMMARY, PRESENT, PRESENT_COST, RESTING, RESTING_COST,
                   RESTING_SUMMARY, TOWN_TEXT)


class Summaries(Folder):
    def setUp(self):
        super().setUp()
        self.town = self.write("town.csv", TOWN_TEXT)

    def test_the_two_trips(self):
        status, text, told = run("summary", "examples/two_trips.csv", "examples/two_trips_plan.csv")
        lines = [it.split() for it in text.splitlines()]
        self.assertEqual((status, told), (0, ""))
        # One vehicle from 7:50 to 9:10, an hour of it in service: 1000 and 80.
        for wanted in (["vehicles", "1", "of", "2"], ["from", "07:50"], ["to", "09:10"], ["hours", "out", "1:20"],
                       ["in", "service", "1:00"], ["driven", "empty", "0:20"], ["waiting", "0:00"], ["cost", "1080"],
                       ["of", "vehicles", "1000"], ["of", "time", "80"], ["of", "distance", "0"]):
            self.assertIn(wanted, lines)

    def test_the_town(self):
        plan = self.document("good.csv", GOOD, GOOD_COST)
        self.assertEqual(run("summary", self.town, plan), (0, GOOD_SUMMARY, ""))

    def test_the_difference(self):
        present = self.document("present.csv", PRESENT, PRESENT_COST)
        good = self.document("good.csv", GOOD, GOOD_COST)
        status, text, told = run("summary", "--unit", "100000", self.town, present, good)
        self.assertEqual((status, told), (0, ""))
        self.assertEqual(text[:len(DIFFERENCE)], DIFFERENCE)

    def test_rests(self):
        paths = [f"{TOWN}/{it}.csv" for it in ("stops", "drives", "groups_with_stay", "trips")]
        town = self.write("rests.csv", run("sheets", *paths)[1])
        plan = self.document("resting.csv", RESTING, RESTING_COST)
        status, text, told = run("summary", town, plan)
        self.assertEqual((status, told), (0, ""))
        self.assertEqual("\n".join(text.splitlines()[4:21]) + "\n", RESTING_SUMMARY)

    def test_a_stay_to_the_minute(self):
        # From Q at 8:30 the depot is reached at 8:40; for Q at 12:00 a vehicle leaves it at 11:50, 190 minutes later.
        for stay, resting, cost in ((190, "3:10", 1100), (191, "0:00", 1290)):
            text = ("instance,2\nstop,D\nstop,P\nstop,Q\ndeadhead,D,P,10,0\ndeadhead,P,D,10,0\ndeadhead,D,Q,10,0\n"
                    "deadhead,Q,D,10,0\ndeadhead,P,Q,15,0\ndeadhead,Q,P,15,0\n"
                    f"layer,L1,D,2,1000,1,0,{stay}\ntrip,t1,P,8:00,Q,8:30,0,L1\ntrip,t2,Q,12:00,P,12:30,0,L1\n")
            plan = self.document("plan.csv", [("L1", "t1", "t2")], cost)
            status, text, told = run("summary", self.write("b.csv", text), plan)
            self.assertEqual((status, told), (0, ""))
            self.assertIn(["hours", "resting", resting], [it.split() for it in text.splitlines()])

    def test_a_way_by_the_depot_that_costs_the_same_is_not_taken(self):
        # Straight on 20 minutes at 1 each; by the depot 10 and 10, and between them the stay of 1 minute wouldn't fit;
        # one minute later straight on costs 21, by the depot 20 and a metre.
        layer = Layer("L", "D", 1, 0, 1, 1, 1)
        timetable = Timetable(["D", "P"], {("P", "D"): Way(10, 1), ("D", "P"): Way(10, 0)}, {"L": layer})
        first = Trip("a", "P", 400, "P", 480, 0, ("L",))

        def rest(start):
            return rest_between(timetable, layer, first, Trip("b", "P", start, "P", start + 9, 0, ("L",)))

        self.assertIsNone(rest(500))
        self.assertIsNone(rest(501))
        self.assertEqual(rest(502), (490, 492))

    def test_depots(self):
        text = ("instance,1\nstop,D\nstop,E\ndeadhead,D,E,5,0\ndeadhead,E,D,5,0\nlayer,A,D,2,7,0,0\nlayer,B,D,2,8,0,0\n"
                "layer,C,E,2,9,0,0\ntrip,t1,D,8:00,D,8:30,0,A,B\ntrip,t2,D,8:10,D,8:40,0,A,B\n"
                "trip,t3,E,8:20,E,8:30,0,C\n")
        plan = self.document("plan.csv", [("A", "t1"), ("B", "t2"), ("C", "t3")], 24)
        lines = run("summary", self.write("depots.csv", text), plan)[1].splitlines()
        heads = [it for it in lines[3:] if it and it[0] != " "]
        self.assertEqual(heads, ["all vehicles", "depot D", "group A at D", "group B at D", "group C at E"])
        self.assertEqual([it.split()[-1] for it in lines if "most out" in it], ["3", "2", "1", "1", "1"])

    def test_a_printed_cost_that_is_another(self):
        plan = self.document("present.csv", PRESENT, 0)
        status, text, told = run("summary", self.town, plan)
        self.assertEqual((status, told),
                         (0, f"{plan}: it says that its plan costs 0; its blocks cost {PRESENT_COST}\n"))
        self.assertEqual(text.splitlines()[1].split(), ["cost", str(PRESENT_COST)])

    def test_files_in_the_other_order(self):
        plan = self.document("good.csv", GOOD, GOOD_COST)
        told = f"the files are taken by their first rows: the timetable from {self.town}, the plan from {plan}\n"
        self.assertEqual(run("summary", plan, self.town), (0, GOOD_SUMMARY, told))

    def test_texts_as_spreadsheets_export_them(self):
        plan = self.document("good.csv", GOOD, GOOD_COST)
        for encoding in ("utf-8-sig", "utf-16", "cp1252"):
            files = []
            for path in (self.town, plan):
                with open(path, encoding="utf-8") as file:
                    text = "".join(f"{it.replace(',', ';')};;\r\n" for it in file.read().splitlines())
                files.append(self.write(f"export_{os.path.basename(path)}", text.encode(encoding)))
            self.assertEqual(run("summary", *files), (0, GOOD_SUMMARY, ""), encoding)

    def test_a_folder_of_sheets(self):
        plan = self.document("good.csv", GOOD, GOOD_COST)
        self.assertEqual(run("summary", TOWN, plan), (0, GOOD_SUMMARY, ""))

    def test_money_by_the_side_file(self):
        plan = self.document("good.csv", GOOD, GOOD_COST)
        self.write("town.names.csv", "kind,name,real,line,source\nunit,100000,,,\nlayer,Bus,Büs,,\nstop,Depot,Höf,,\n")
        lines = run("summary", self.town, plan)[1].splitlines()
        self.assertEqual(lines[1].split(), ["cost", "913.48"])
        self.assertIn("group Büs at Höf", lines)
        self.assertEqual(run("summary", "--unit", "1000", self.town, plan)[1].splitlines()[1].split(),
                         ["cost", "91348.00"])

    def test_a_side_file_with_faults(self):
        plan = self.document("good.csv", GOOD, GOOD_COST)
        for text, told in (("kind,name\n", "the first row isn't kind,name,real,line,source"),
                           ("kind,name,real,line,source\nunit,x,,,\n",
                            "row 2: the unit `x` is no whole number above 0"),
                           ("kind,name,real,line,source\nbus,x,,,\n", "row 2 names no unit, stop, layer or trip")):
            path = self.write("town.names.csv", text)
            self.assertEqual(run("summary", self.town, plan), (3, "", f"{path}: {told}\n"))

    def test_a_document_behind_its_timetable(self):
        plan = self.document("good.csv", GOOD, GOOD_COST)
        with open(plan, encoding="utf-8") as file:
            both = self.write("both.csv", TOWN_TEXT + file.read() + "table,1,cost\n")
        self.assertEqual(run("summary", both, both), (0, GOOD_SUMMARY, ""))

    def test_no_plan(self):
        plan = self.write("none.csv", "result,1,infeasible\ncost,none\nbound,none\nnodes,1\ntable,1,ray\n")
        status, text, told = run("summary", self.town, plan)
        self.assertEqual((status, told), (0, f"{plan}: there is no plan in it\n"))
        self.assertEqual([it.split() for it in text.splitlines()],
                         [["claim", "infeasible"], ["cost", "none"], ["bound", "none"]])

    def test_blocks_that_are_no_plan(self):
        blocks = [("Minibus", "S1", "S2"), ("Bus", "S3", "H1"), ("Bus", "H1"), ("Bus", "H2"), ("Bus", "S4"),
                  ("Tram", "H3"), ("Bus", "N9"), ("Bus",)]
        plan = self.document("plan.csv", blocks, 0)
        status, text, told = run("summary", self.town, plan)
        self.assertEqual((status, text), (1, ""))
        self.assertEqual([it.replace(plan + ": ", "") for it in told.splitlines()], [
            "block 1: Minibus may not run S1",
            "block 2: from S3 no vehicle comes to H1 in time",
            "block 6: unknown layer Tram",
            "block 7: unknown trip N9",
            "block 8: no trip",
            "trip H1 stands more than once",
            "trip H3 stands in no block",
            "trip N1 stands in no block",
            "trip N2 stands in no block",
            "Bus has 4 blocks and 3 vehicles",
        ])

    def test_ways_that_are_missing(self):
        text = ("instance,1\nstop,D\nstop,P\nstop,Q\ndeadhead,D,P,10,0\nlayer,L,D,2,1,1,0\ntrip,a,P,0:09,P,8:00,0,L\n"
                "trip,b,Q,9:00,Q,9:30,0,L\n")
        plan = self.document("plan.csv", [("L", "a", "b")], 0)
        told = run("summary", self.write("ways.csv", text), plan)[2]
        self.assertEqual([it.replace(plan + ": ", "") for it in told.splitlines()], [
            "block 1: no vehicle of L can be at a in time",
            "block 1: from a no vehicle comes to b in time",
            "block 1: there is no way back from b",
        ])

    def test_texts_with_faults(self):
        plan = self.document("good.csv", GOOD, GOOD_COST)
        for text, told in (
            ("", "the first record is none of instance,1, instance,2 and instance,3"),
            ("instance,1\nstop,D\ndeadhead,D,E,1,1\n", "record 3: unknown stop E"),
            ("instance,1\nstop,D\nlayer,L,D,1,1,1,1,60\n",
             "record 3: `layer,L,D,1,1,1,1,60` is no record of an instance"),
            ("instance,1\nstop,D\nlayer,L,D,1,1,x,1\n", "record 3: `x` is no number"),
            ("instance,1\nstop,D\nlayer,L,D,1,1,1,1\ntrip,t,D,8,D,9:00,1,L\n", "record 4: `8` is no time"),
        ):
            path = self.write("wrong.csv", text)
            self.assertEqual(run("summary", path, plan), (3, "", f"{path}: {told}\n"))
        for text, told in (
            (TOWN_TEXT, "there is no record `result`"),
            ("result,1,open\ncost,1\n",
             "this is no document of a plan: its first rows aren't result, cost, bound and nodes"),
            ("result,1,open\ncost,x\nbound,1\nnodes,1\n", "this is no document of a plan: no row cost,N or cost,none"),
        ):
            path = self.write("wrong.csv", text)
            self.assertEqual(run("summary", self.town, path), (3, "", f"{path}: {told}\n"))


class MostOut(unittest.TestCase):
    def test_most_out(self):
        for spans, wanted in (
            ([], (0, None, None)),
            ([(5, 9)], (1, 5, 9)),
            ([(5, 9), (9, 12)], (1, 5, 12)),
            ([(5, 9), (8, 12)], (2, 8, 9)),
            ([(0, 10), (2, 4), (4, 6), (7, 9)], (2, 2, 6)),
            ([(0, 10), (2, 4), (5, 6), (5, 7)], (3, 5, 6)),
        ):
            self.assertEqual(most_out(spans), wanted, spans)


class Printed(unittest.TestCase):
    def test_money(self):
        for unit, cost, wanted in ((1, 12, "12"), (100, 1250, "12.50"), (1000, 1005, "1.01"), (1000, -1005, "-1.01"),
                                   (1000, -4, "0.00"), (100000, 91348000, "913.48"), (7, 22, "3.14")):
            self.assertEqual(printed.money(unit)(cost), wanted)

    def test_hours_and_kilometres(self):
        self.assertEqual([printed.hours(it) for it in (0, 61, -61, 6000)], ["0:00", "1:01", "-1:01", "100:00"])
        self.assertEqual([printed.kilometres(it) for it in (0, 67200, -5)], ["0.000", "67.200", "-0.005"])
