"""Timetables from GTFS feeds, and blocks written back into them."""

import csv
import io
import os
import shutil
import unittest
import zipfile

from mdvsp import timetable
from mdvsp.feed import Feed, seconds_of
from mdvsp.places import Names, Point, ascii_name, metres_between

from .support import TOP, Folder, page, run

FEED = "examples/feed"
SHEETS = ("--depots", f"{FEED}/depots.csv", "--groups", f"{FEED}/groups.csv")
DAY = ("--date", "2026-12-01", "--agency", "sb", *SHEETS)

# A feed of two stops that are a degree of latitude divided by 100 apart: 1111.95 metres on a sphere of 6,371 km.
SMALL = {
    "agency.txt": "agency_id,agency_name,agency_url,agency_timezone\na,A,u,z\n",
    "stops.txt": "stop_id,stop_name,stop_lat,stop_lon,parent_station\np,Pé,50.00,7.0,s\nq,Qü,50.01,7.0,s\n"
                 "s,Station,50.005,7.0,\n",
    "routes.txt": "route_id,route_short_name,route_type,kind\nr,1,3,big\n",
    "trips.txt": "route_id,service_id,trip_id,shape_id\nr,w,t1,\n",
    "stop_times.txt": "trip_id,arrival_time,departure_time,stop_id,stop_sequence\n"
                      "t1,8:00:00,8:00:00,p,1\nt1,8:10:00,8:10:00,q,2\n",
    "calendar.txt": "service_id,monday,tuesday,wednesday,thursday,friday,saturday,sunday,start_date,end_date\n"
                    "w,1,1,1,1,1,0,0,20260101,20261231\n",
    "depots.csv": "depot,stop\nDepôt,p\n",
    "groups.csv": "group,depot,vehicles,fixed,per_minute,per_metre,runs\nBus,Depôt,1,1000,1,0,\n",
}


class FeedFolder(Folder):
    def feed(self, **changed):
        """Writes the small feed, some of its files changed; without the file where None stands for it."""
        for name, text in SMALL.items():
            text = changed.get(name.split(".")[0], text)
            if text is not None:
                self.write(f"feed/{name}", text)
        for name, text in changed.items():
            if f"{name}.txt" not in SMALL and f"{name}.csv" not in SMALL:
                self.write(f"feed/{name}.txt", text)
        return self.path("feed")

    def convert(self, *words, date="2026-12-01", **changed):
        """Returns status, timetable and what was printed, of the small feed."""
        feed = self.feed(**changed)
        status, printed, told = run("gtfs", feed, "--date", date, "--depots", f"{feed}/depots.csv",
                                    "--groups", f"{feed}/groups.csv", "-o", self.path("out"), *words)
        found = timetable.parse(self.read("out/timetable.csv").encode()) if status == 0 else None
        return status, found, (printed + told).replace(feed + os.sep, "")


class TheFeedOfTheExamples(Folder):
    """By hand: 15 and 15 trips of line 1 and the one of the market, 14 and 14 of line 2, 8 and 8 of line Ü3."""

    def convert(self, feed=FEED, *words):
        status, printed, told = run("gtfs", feed, *DAY, *words, "-o", self.path("out"))
        self.assertEqual((status, told), (0, ""))
        return timetable.parse(self.read("out/timetable.csv").encode()), printed

    def test_trips(self):
        found, printed = self.convert()
        lines = [it.split("-")[0] for it in found.trips]
        self.assertEqual({it: lines.count(it) for it in set(lines)}, {"1": 31, "2": 28, "Ue3": 16})
        rows = [it for it in self.read("out/timetable.csv").splitlines() if it.startswith("trip")]
        for wanted in (
            # 14:30 minutes become 15; 5.20 kilometres.
            "trip,1-0630,Hauptbahnhof_A,6:30,Hoehe,6:45,5200,Gelenk,Solo",
            "trip,1-0905,Hauptbahnhof_A,9:05,Hoehe,9:18,5200,Gelenk,Solo",
            # Past midnight, along the seven points of the shape.
            "trip,2-2415,Hauptbahnhof_B,24:15,Lodz-Strasse_Hafen,24:31,4281,Gelenk",
            # 19:15 minutes from 7:10 on, two parts by the crow's flight times 1.3.
            "trip,Ue3-0710,Muehlbach,7:10,Spital_Nunoa,7:30,10195,Solo",
        ):
            self.assertIn(wanted, rows)
        # Neither the ferry nor what runs on other days.
        self.assertFalse([it for it in found.trips if it.startswith("F9") or it in ("1-0935", "2-0900")])
        self.assertIn("trips by headway, whose departures are guessed: 2\n  ue3-west: 8 departures\n", printed)
        self.assertIn("trips whose shape_dist_traveled is taken as kilometres: 31, of which the ten largest\n", printed)
        self.assertEqual(self.read("out/guesses.txt"), printed.split("\n", 1)[1])

    def test_golden_files(self):
        # Each trip and drive of these was also counted by another program, from the feed's files alone.
        _, printed = self.convert(FEED, "--drives", f"{FEED}/measured.csv")
        for name, found in (("feed_timetable.csv", self.read("out/timetable.csv")),
                            ("feed_names.csv", self.read("out/timetable.names.csv")),
                            ("feed_guesses.txt", printed.split("\n", 1)[1])):
            self.assertEqual(found.splitlines(), page(f"python/tests/golden/{name}").splitlines(), name)

    def test_names_and_unit(self):
        self.convert()
        rows = list(csv.reader(io.StringIO(self.read("out/timetable.names.csv"))))
        for wanted in (["unit", "100000", "", "", ""],
                       ["stop", "Lodz-Strasse_Hafen", "Łódź-Straße / Hafen", "", ""],
                       ["stop", "Betriebshof_Nord", "Betriebshof Nord", "", ""],
                       ["stop", "Hauptbahnhof_A", "Hauptbahnhof (A)", "", ""],
                       ["trip", "Ue3-0710", "Ü3 7:10 Mühlbach – Spital Ñuñoa", "Ü3", "ue3-west"]):
            self.assertIn(wanted, rows)

    def test_drives(self):
        found, _ = self.convert(FEED, "--drives", f"{FEED}/measured.csv")
        # 9 minutes are measured; 5.5 become 6.
        self.assertEqual(found.way("Spital_Nunoa", "Lodz-Strasse_Hafen").minutes, 9)
        self.assertEqual(found.way("Hauptbahnhof_A", "Betriebshof_Nord").minutes, 6)
        ways = found.ways
        for (a, b), first in ways.items():
            for (c, d), second in ways.items():
                if b == c and a != d:
                    self.assertLessEqual(ways[a, d].minutes, first.minutes + second.minutes)
                    self.assertLessEqual(ways[a, d].metres, first.metres + second.metres)

    def test_stations_as_one_place(self):
        found, _ = self.convert(FEED, "--stations")
        self.assertIn("Hauptbahnhof", found.stops)
        self.assertEqual(len(found.stops), 6)

    def test_chosen_lines(self):
        found, _ = self.convert(FEED, "--routes", "1, r2")
        self.assertEqual(len(found.trips), 59)

    def test_a_zip(self):
        wanted, _ = self.convert()
        with zipfile.ZipFile(self.path("feed.zip"), "w") as archive:
            for name in os.listdir(os.path.join(TOP, FEED)):
                archive.write(os.path.join(TOP, FEED, name), f"inner/{name}")
        self.assertEqual(self.convert(self.path("feed.zip"))[0], wanted)

    def test_other_days(self):
        # On Saturdays line 2 runs once, at 9:00; no trip runs on the Sunday, and none on the holiday.
        status, printed, told = run("gtfs", FEED, "--date", "2026-12-05", *SHEETS, "-o", self.path("out"))
        self.assertEqual((status, told), (0, ""))
        self.assertEqual(list(timetable.parse(self.read("out/timetable.csv").encode()).trips), ["2-0900"])
        for day in ("2026-12-06", "2026-12-25"):
            status, _, told = run("gtfs", FEED, "--date", day, "--agency", "sb", *SHEETS, "-o", self.path("out"))
            self.assertEqual((status, told), (3, f"{FEED}: no trip runs on {day} by what was chosen\n"))


class Blocks(Folder):
    """Blocks of a plan in trips.txt, and its other rows as they were."""

    def made(self, blocks):
        run("gtfs", FEED, *DAY, "-o", self.path("out"))
        found = timetable.parse(self.read("out/timetable.csv").encode())
        rows = ["result,1,open", "cost,0", "bound,0", "nodes,0", *(",".join(("block", *it)) for it in blocks(found))]
        plan = self.write("plan.csv", "\n".join(rows) + "\n")
        return run("gtfs-blocks", FEED, self.path("out/timetable.csv"), plan, "-o", self.path("back"))

    def test_each_trip_alone(self):
        status, printed, told = self.made(lambda found: [(it.layers[0], it.name) for it in found.trips.values()])
        self.assertEqual((status, printed), (1, ""))
        self.assertTrue(told.endswith("vehicles\n"), told)

    def test_blocks(self):
        run("gtfs", FEED, *DAY, "-o", self.path("out"))
        text = self.read("out/timetable.csv").replace(",6,14000000,", ",99,14000000,").replace(",3,18", ",99,18")
        self.write("out/timetable.csv", text)
        found = timetable.parse(text.encode())
        alone = [it for it in found.trips.values() if it.name != "1-0650"]
        rows = ["result,1,open", "cost,0", "bound,0", "nodes,0", "block,Solo,1-0630,1-0650",
                *(f"block,{it.layers[0]},{it.name}" for it in alone if it.name != "1-0630")]
        plan = self.write("plan.csv", "\n".join(rows) + "\n")
        status, printed, told = run("gtfs-blocks", FEED, self.path("out/timetable.csv"), plan, "-o", self.path("back"))
        self.assertEqual((status, printed), (0, f"{self.path('back')}/trips.txt: 59 trips in 74 blocks\n"))
        self.assertEqual(told.count("it runs by headways, and several vehicles run its departures"), 2)
        before = list(csv.DictReader(io.StringIO(page(f"{FEED}/trips.txt"))))
        after = list(csv.DictReader(io.StringIO(self.read("back/trips.txt"))))
        ids = {row["trip_id"]: row.pop("block_id") for row in after}
        self.assertEqual(after, before)
        self.assertEqual([ids[it] for it in ("r1-hin-1", "r1-rueck-1", "ue3-west", "sa-1")],
                         ["Solo-1", "Solo-1", "", ""])
        self.assertEqual(len({it for it in ids.values() if it}), 58)

    def test_without_a_side_file(self):
        run("gtfs", FEED, *DAY, "-o", self.path("out"))
        shutil.copy(self.path("out/timetable.csv"), self.path("alone.csv"))
        found = timetable.parse(self.read("alone.csv").encode()).with_fleets({"Solo": 99, "Gelenk": 99})
        self.write("alone.csv", found.text())
        rows = ["result,1,open", "cost,0", "bound,0", "nodes,0",
                *(f"block,{it.layers[0]},{it.name}" for it in found.trips.values())]
        status, _, told = run("gtfs-blocks", FEED, self.path("alone.csv"), self.write("p.csv", "\n".join(rows)), "-o",
                              self.path("back"))
        self.assertEqual(status, 3)
        self.assertIn("its side file doesn't say from which trip of the feed 1-0630 comes", told)


class SmallFeeds(FeedFolder):
    def test_the_small_feed(self):
        status, found, printed = self.convert()
        self.assertEqual(status, 0, printed)
        # 1111.95 metres times 1.3 are 1445.5, and at 25 km/h these take 3.47 minutes.
        self.assertEqual(found.text(), "instance,1\nstop,Pe\nstop,Que\ndeadhead,Pe,Que,4,1446\ndeadhead,Que,Pe,4,1446\n"
                                       "layer,Bus,Pe,1,1000,1,0\ntrip,1-0800,Pe,8:00,Que,8:10,1446,Bus\n")

    def test_factor_speed_and_longest(self):
        found = self.convert("--factor", "2", "--speed", "12.5")[1]
        self.assertEqual(found.ways["Pe", "Que"], (11, 2224))
        status, found, printed = self.convert("--longest", "1")
        self.assertEqual((status, found.ways), (0, {}))
        self.assertIn("no vehicle can run trip 1-0800 (1 8:00 Pé – Qü): Bus has no drive from Que back to Pe", printed)

    def test_times(self):
        times = SMALL["stop_times.txt"].split("\n")[0] + "\nt1,,23:59:31,p,1\nt1,24:10:01,,q,2\n"
        status, found, printed = self.convert(stop_times=times)
        self.assertEqual((found.trips["1-2359"].start, found.trips["1-2359"].end), (1439, 1451))
        self.assertIn("t1: 23:59:31 to 24:10:01 becomes 23:59 to 24:11", printed)
        for times, told in ((times.replace("23:59:31", ""), "without a time at their first or last stop"),
                            (times.replace("24:10:01", "48:00:00"), "past 47:59"),
                            (times.replace("t1,24:10:01,,q,2\n", ""), "with fewer than two stops"),
                            (times.replace(",q,", ",z,"), "with a stop that has no coordinates")):
            self.assertIn(f"trips left out, {told}: 1\n  t1\n", self.convert(stop_times=times)[2])

    def test_a_trip_of_no_minute(self):
        times = SMALL["stop_times.txt"].replace("8:10:00", "8:00:00")
        found = self.convert(stop_times=times)[1]
        self.assertEqual((found.trips["1-0800"].start, found.trips["1-0800"].end), (480, 481))

    def test_calls_in_another_order(self):
        head, first, last = SMALL["stop_times.txt"].splitlines()
        self.assertEqual(self.convert(stop_times="\n".join((head, last, first)))[1], self.convert()[1])

    def test_the_unit_of_distances(self):
        head = "trip_id,arrival_time,departure_time,stop_id,stop_sequence,shape_dist_traveled\n"
        for travelled, metres, unit in (("1200", 1200, "metres"), ("1.2", 1200, "kilometres"), ("0.75", 1208, "miles"),
                                        ("4000", 1220, "feet")):
            times = f"{head}t1,8:00:00,8:00:00,p,1,0\nt1,8:10:00,8:10:00,q,2,{travelled}\n"
            status, found, printed = self.convert(stop_times=times)
            self.assertEqual(found.trips["1-0800"].metres, metres)
            self.assertIn(f"is taken as {unit}: 1\n", printed)
        found = self.convert("--shape-unit", "kilometres", stop_times=times)
        self.assertEqual(found[0], 3)
        self.assertIn("trip t1 is 4000000 metres long, and may be 1000000", found[2])

    def test_a_column_that_says_who_runs_what(self):
        groups = "group,depot,vehicles,fixed,per_minute,per_metre,runs\nBus,Depôt,1,1000,1,0,{}\n"
        self.assertEqual(self.convert("--by", "kind", groups=groups.format("big;small"))[2],
                         "groups.csv:2: group Bus runs `small`, which no trip has by kind\n1 fault; nothing is written\n")
        self.assertEqual(self.convert("--by", "kind", groups=groups.format("big"))[0], 0)
        self.assertEqual(self.convert("--by", "colour")[2],
                         f"{self.path('feed')}: neither trips.txt nor routes.txt has a column colour\n")

    def test_no_group_for_a_line(self):
        routes = SMALL["routes.txt"] + "r2,2,3,big\n"
        trips = SMALL["trips.txt"] + "r2,w,t2,\n"
        times = SMALL["stop_times.txt"] + SMALL["stop_times.txt"].split("\n", 1)[1].replace("t1", "t2")
        groups = SMALL["groups.csv"].replace("0,\n", "0,1\n")
        self.assertEqual(self.convert(routes=routes, trips=trips, stop_times=times, groups=groups)[2],
                         "groups.csv: no group may run 1 trip of line 2: name it below `runs`, or leave it out with "
                         "--routes\n1 fault; nothing is written\n")

    def test_depots(self):
        for sheet, told in (
            ("depot,stop\nD,z\n", "depots.csv:2: depot D: stops.txt has no stop `z`"),
            ("depot,lat,lon\nD,500,7\n",
             "depots.csv:2: depot D: no stop, and no lat and lon in degrees such as 51.0512 and 7.0034"),
            ("depot,stop\nDepôt,p\nDepôt,q\n", "depots.csv:3: depot Depôt: it stands twice"),
        ):
            status, _, printed = self.convert(depots=sheet)
            self.assertEqual((status, printed.splitlines()[0]), (3, told))
        groups = SMALL["groups.csv"].replace("Depôt", "Depot")
        self.assertIn("groups.csv:2: group Bus: unknown depot Depot; is it Depôt?", self.convert(groups=groups)[2])
        found = self.convert(depots='depot;lat;lon\nDepôt;"50,02";"7,0"\n')[1]
        self.assertEqual((found.stops[0], found.ways["Depot", "Que"]), ("Depot", (4, 1446)))

    def test_measured_drives(self):
        sheet = self.write("m.csv", "from,to,minutes,metres\nDepôt,q,2,900\nQü,p,2.5,800\n")
        found = self.convert("--drives", sheet)[1]
        self.assertEqual(found.ways, {("Pe", "Que"): (2, 900), ("Que", "Pe"): (3, 800)})
        sheet = self.write("m.csv", "from,to,minutes,metres\nz,q,2,900\nz,p,2,x\n")
        self.assertEqual(self.convert("--drives", sheet)[2].replace(sheet, "m.csv").splitlines()[:2], [
            "m.csv:2: z to q: `z` is no depot and no stop where trips begin or end, or several are called so; give its "
            "stop_id (and on 1 further line)",
            "m.csv:3: z to p: metres `x` aren't a number; write digits alone"])

    def test_past_the_limits(self):
        times = ["trip_id,arrival_time,departure_time,stop_id,stop_sequence"]
        trips = ["route_id,service_id,trip_id"]
        for number in range(10001):
            trips.append(f"r,w,t{number}")
            times += [f"t{number},8:00:00,8:00:00,p,1", f"t{number},8:10:00,8:10:00,q,2"]
        status, _, printed = self.convert(trips="\n".join(trips), stop_times="\n".join(times))
        self.assertEqual(status, 3)
        self.assertIn("10001 trips, and there may be 10000: choose lines with --routes; trips by line: 1: 10001\n",
                      printed)

    def test_files_that_are_missing(self):
        for name in ("stops", "routes", "trips", "stop_times"):
            shutil.rmtree(self.path("feed"), ignore_errors=True)
            status, _, printed = self.convert(**{name: None})
            self.assertEqual((status, printed), (3, f"{self.path('feed')}: there is no {name}.txt\n"))
        self.assertEqual(run("gtfs", "nowhere", *DAY, "-o", self.path("x"))[::2],
                         (4, "nowhere: No such file or directory\n"))
        no_zip = self.write("no.zip", "no zip")
        self.assertEqual(run("gtfs", no_zip, *DAY, "-o", self.path("x"))[::2],
                         (3, f"{no_zip}: this is neither a folder nor a zip\n"))
        for name, column in (("stops", "stop_id"), ("trips", "trip_id"), ("stop_times", "trip_id")):
            text = SMALL[f"{name}.txt"].replace(column, "x", 1)
            self.assertEqual(self.convert(**{name: text})[2], f"{self.path('feed')}: {name}.txt has no column {column}\n")
        self.assertIn("agency.txt has no agency z", self.convert("--agency", "z")[2])
        self.assertIn("routes.txt has no route 9, x", self.convert("--routes", "9,x,r")[2])


class Parts(unittest.TestCase):
    def test_names(self):
        for text, name in (("Höhe", "Hoehe"), ("Łódź-Straße / Hafen", "Lodz-Strasse_Hafen"), ("  A  (b) ", "A_b"),
                           ("Sainte-Thérèse", "Sainte-Therese"), ("北京", ""), ("O'Hare & Co", "OHare_and_Co")):
            self.assertEqual(ascii_name(text), name)
        names = Names()
        self.assertEqual([names.new(it, f"s{it}7") for it in ("Höhe", "Hoehe", "北", "北", "x" * 40, "x" * 40)],
                         ["Hoehe", "Hoehe-2", "s7", "s7-2", "x" * 32, "x" * 30 + "-2"])

    def test_distances(self):
        # A degree of a great circle is 2 * pi * 6371 km / 360.
        self.assertAlmostEqual(metres_between(Point(0, 0), Point(0, 1)), 111194.93, 1)
        self.assertAlmostEqual(metres_between(Point(60, 7), Point(61, 7)), 111194.93, 1)
        self.assertAlmostEqual(metres_between(Point(60, 7), Point(60, 7)), 0)

    def test_times(self):
        self.assertEqual([seconds_of(it) for it in ("8:05:07", "24:20:00", "", "8:05", "x")],
                         [29107, 87600, None, None, None])

    def test_a_feed_with_a_mark(self):
        feed = Feed(os.path.join(TOP, FEED))
        self.assertEqual(next(feed.rows("routes.txt"))["route_short_name"], "1")
        self.assertEqual(list(feed.rows("nothing.txt")), [])


if __name__ == "__main__":
    unittest.main()
