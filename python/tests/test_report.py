"""The page of a plan: what it has, what its duties add up to, and how a browser shows it."""

import csv
import html.parser
import io
import os
import unittest

from mdvsp import reason, report, run, timetable
from mdvsp.duties import duties_of
from mdvsp.plan import Block, Plan
from mdvsp.plan import parse as parse_plan
from mdvsp.side import SideFile, TripNames
from mdvsp.timetable import Layer, Timetable, Trip, Way

from . import browser
from .support import Folder, page, program
from .support import run as run_command
from .town import GOOD, GOOD_COST, RESTING, RESTING_COST, TOWN_TEXT

TOWN = timetable.parse(TOWN_TEXT.encode())
NAMES = SideFile(100000, {"Depot": "Höfe & Söhne"}, {"Bus": "Gelenk<bus>"},
                 {"S1": TripNames("1 7:00 Höhe", "1", "x")})


def plan_of(blocks, cost, claim="open"):
    return Plan(claim, cost, 90000000, 1, [Block(layer, tuple(trips)) for layer, *trips in blocks], [["end"]])


def subject_of(found, plan, names=NAMES):
    duties = duties_of(found, plan.blocks) if plan.cost is not None else []
    return report.Subject("Town", found, plan, names, run.Verdict(True, ("yes",), ""), duties=duties)


def resting_town():
    text = TOWN_TEXT.replace("instance,1", "instance,2").replace(",85\n", ",85,60\n").replace(",55\n", ",55,60\n")
    return timetable.parse(text.encode())


def large(vehicles):
    """Returns a timetable and a plan of so many vehicles, each with six trips on two lines."""
    layers = {"Std": Layer("Std", "D", vehicles, 1, 1, 1), "Art": Layer("Art", "E", vehicles, 1, 1, 1)}
    stops = ["D", "E", "P", "Q"]
    ways = {(a, b): Way(9, 4000) for a in stops for b in stops if a != b}
    trips, blocks = {}, []
    for number in range(vehicles):
        names = [f"t{number}-{place}" for place in range(6)]
        for place, name in enumerate(names):
            start = 300 + number % 90 + place * 150
            ends = ("P", "Q") if place % 2 else ("Q", "P")
            trips[name] = Trip(name, ends[0], start, ends[1], start + 40 + number % 7, 9000, tuple(layers))
        blocks.append(("Art" if number % 3 else "Std", *names))
    found = Timetable(stops, ways, layers, trips)
    cost = sum(duty.cost for duty in duties_of(found, [Block(layer, tuple(it)) for layer, *it in blocks]))
    return found, plan_of(blocks, cost)


class Reader(html.parser.HTMLParser):
    """Reads a page: which elements it has, which are left open, where it leads, and its words."""

    VOID = {"meta", "link", "br", "img"}
    ALONE = {"rect", "path"}

    def __init__(self, text):
        super().__init__()
        self.open, self.counts, self.targets, self.ids, self.words = [], {}, [], set(), []
        self.feed(text)

    def handle_starttag(self, name, attributes):
        self.counts[name] = self.counts.get(name, 0) + 1
        for key, value in attributes:
            if key in ("href", "src", "action", "xlink:href"):
                self.targets.append(value)
            if key == "id":
                self.ids.add(value)
        if name not in self.VOID:
            self.open.append(name)

    def handle_startendtag(self, name, attributes):
        self.handle_starttag(name, attributes)
        self.open.pop()

    def handle_endtag(self, name):
        if not self.open or self.open.pop() != name:
            raise ValueError(f"</{name}> closes another element")

    def handle_data(self, data):
        self.words.append(data)


class Pages(Folder):
    def test_a_page_loads_nothing_and_is_whole(self):
        for found, plan in ((TOWN, plan_of(GOOD, GOOD_COST)), (resting_town(), plan_of(RESTING, RESTING_COST))):
            text = report.page(subject_of(found, plan))
            read = Reader(text)
            self.assertEqual(read.open, [])
            self.assertEqual([it for it in read.targets if not it.startswith(("#", "data:,"))], [])
            self.assertEqual([it for it in read.targets if it.startswith("#") and it[1:] not in read.ids], [])
            self.assertNotRegex(text, r"(?i)https?:|@import|url\((?!#hatch)|<script")
            self.assertIn("default-src 'none'", text)

    def test_every_move_is_in_the_picture(self):
        plan = plan_of(RESTING, RESTING_COST)
        subject = subject_of(resting_town(), plan)
        text = report.page(subject)
        moves = [move for duty in subject.duties for move in duty.moves]
        for kind, names in (("trip", ("TRIP",)), ("wait", ("WAIT",)), ("rest", ("REST",)),
                            ("empty", ("PULL_OUT", "EMPTY", "PULL_IN"))):
            # One shape of each kind stands in the legend.
            self.assertEqual(text.count(f'<g class="{kind}">') - 1, sum(it.kind.name in names for it in moves), kind)
        self.assertIn("<title>rest in the depot: 08:01–12:59 Höfe &amp; Söhne (4:58)</title>", text)
        self.assertIn("<title>1 7:00 Höhe: 07:00–07:20 Station – School, 5.200 km</title>", text)

    def test_names_and_money(self):
        words = " ".join(Reader(report.page(subject_of(TOWN, plan_of(GOOD, GOOD_COST)))).words)
        for wanted in ("913.48", "900.00", "13.48 at most to be saved", "1.476 %",
                       "Vehicle 1 · Gelenk<bus> · Höfe & Söhne", "out of the depot 06:54, back 07:51; 0:57 out, 15.200 km, cost 175.72", "4 of 4",
                       "first from 07:24 to 07:51"):
            self.assertIn(wanted, words)

    def test_duty_sheets_add_up(self):
        # By hand: 14:43 out, of which 3:00 in service, 0:58 empty, 10:45 waiting; 67,200 metres.
        sheet = report.duties_sheet(subject_of(TOWN, plan_of(GOOD, GOOD_COST)).duties, SideFile())
        rows = list(csv.DictReader(io.StringIO(sheet)))
        minutes = {}
        for row in rows:
            minutes[row["what"]] = minutes.get(row["what"], 0) + int(row["minutes"])
        self.assertEqual(minutes["trip"], 180)
        self.assertEqual(minutes["wait"], 645)
        self.assertEqual(sum(minutes.get(it, 0) for it in ("pull-out", "pull-in", "empty drive")), 58)
        self.assertEqual(sum(int(row["metres"]) for row in rows), 67200)
        self.assertEqual([row["trip"] for row in rows if row["trip"]], [it for _, *trips in GOOD for it in trips])
        self.assertEqual(rows[-1]["end"], "24:46")

    def test_200_vehicles(self):
        found, plan = large(200)
        text = report.page(subject_of(found, plan, SideFile()))
        self.assertEqual(text.count('<section class="duty"'), 200)
        self.assertEqual(text.count('<a href="#v'), 200)


class Reasons(unittest.TestCase):
    """Why there is no plan, in the program's words."""

    def test_two_trips_at_a_minute(self):
        found = timetable.parse(page("examples/one_vehicle.csv").encode())
        plan = parse_plan(page("examples/one_vehicle_document.csv").encode())
        words = "no plan: 2 trips at 08:29, 1 vehicle of their layers: t1, t2"
        self.assertEqual(reason.reason_of(found, plan).words(SideFile()), words)
        text = " ".join(Reader(report.page(subject_of(found, plan, SideFile()))).words)
        for wanted in (words, "08:00", "08:29", "L1", "Their groups"):
            self.assertIn(wanted, text)

    def test_several_cases(self):
        found = timetable.parse(page("examples/three_vehicles.csv").encode())
        plan = parse_plan(page("examples/three_vehicles_document.csv").encode())
        self.assertEqual(reason.reason_of(found, plan).words(SideFile()),
                         "no plan: 2 cases, none of which has a plan: `check` judges them")

    def test_trips_one_after_the_other(self):
        found = timetable.parse(page("examples/one_vehicle.csv").encode())
        trips = [found.trips["t1"], Trip("t3", "P", 600, "Q", 620, 0, ("L1",))]
        self.assertEqual(reason.reason_for(found, trips).words(SideFile()),
                         "no plan: 2 trips that can't be run together: t1, t3")
        self.assertEqual(reason.reason_for(found, trips[1:]).words(SideFile()),
                         "no plan: no vehicle of its layers can run the trip t3")
        many = [Trip(f"t{it}", "P", 480, "Q", 490, 0, ("L1",)) for it in range(12)]
        self.assertEqual(reason.reason_for(found, many).words(SideFile()),
                         "no plan: 12 trips at 08:00, 1 vehicle of their layers: t0, t1, t2, t3, t4, t5, t6, t7, t8, "
                         "t9 and 2 more")

    def test_no_reason(self):
        found = timetable.parse(page("examples/two_trips.csv").encode())
        self.assertIsNone(reason.reason_of(found, parse_plan(page("examples/two_trips_plan.csv").encode())))


class Command(Folder):
    TWO_TRIPS = ("examples/two_trips.csv", "examples/two_trips_plan.csv")

    def test_a_page_with_its_verdict(self):
        given = program()
        words = [*self.TWO_TRIPS, "-o", self.path("plan.html"), "--csv", self.path("duties.csv"), "--program", given]
        self.assertEqual(run_command("report", *words), (0, "", ""))
        self.assertIn("Judged by <code>mdvsp check</code>: yes.</b> No plan costs less.", self.read("plan.html"))
        self.assertEqual(self.read("duties.csv").splitlines()[1:3],
                         ["1,L1,D,7:50,8:00,pull-out,,,D,P,10,0", "1,L1,D,8:00,8:30,trip,t1,t1,P,Q,30,0"])

    def test_a_document_that_does_not_hold(self):
        given = program()
        wrong = self.write("wrong.csv", page(self.TWO_TRIPS[1]).replace(",t1,t2", ",t2,t1"))
        status, _, told = run_command("report", self.TWO_TRIPS[0], wrong, "-o", self.path("p.html"), "--program", given)
        self.assertEqual((status, told), (1, f"{wrong}: block 1: from t2 no vehicle comes to t1 in time\n"))
        text = self.read("p.html")
        self.assertIn("block 1: after trip t2 no vehicle is in time for trip t1, or no deadhead leads there", text)
        self.assertIn("<li>block 1: from t2 no vehicle comes to t1 in time</li>", text)

    def test_without_a_program(self):
        words = [*self.TWO_TRIPS, "-o", self.path("p.html"), "--program", "/dev/null"]
        self.assertEqual(run_command("report", *words),
                         (0, "", "the plan isn't judged: /dev/null is no program that can be run\n"))
        self.assertIn("<b>Not judged.</b>", self.read("p.html"))


@unittest.skipUnless(browser.find(), "there is no Chromium, so no page was looked at in a browser")
class InABrowser(Folder):
    """A page of 200 vehicles at two widths: it is painted, its console has no error, and no request leaves."""

    def test_widths(self):
        found, plan = large(200)
        path = self.write("plan.html", report.page(subject_of(found, plan)))
        for width, dark in ((1280, False), (390, True)):
            visit = browser.Visit(browser.find(), path, self.folder.name, width, dark)
            self.assertGreater(os.path.getsize(visit.picture), 20_000)
            self.assertEqual(visit.errors, [])
            self.assertEqual(visit.asked_for, [])

    def test_what_a_wrong_page_would_show(self):
        asks = "http://127.0.0.1:9/picture.png"
        path = self.write("wrong.html", f'<!doctype html><img src="{asks}"><script>missing();</script>')
        visit = browser.Visit(browser.find(), path, self.folder.name, 500)
        self.assertIn(asks, visit.asked_for)
        self.assertTrue(any("missing is not defined" in it for it in visit.errors), visit.errors)


if __name__ == "__main__":
    unittest.main()
