"""What `mdvsp-plan sheets` makes of sheets, and what it says of them."""

import itertools
import os
import subprocess
import sys
import unittest

from .support import PACKAGE, TOP, TOWN, Folder, page, run
from .town import TOWN_NOTES, TOWN_TEXT

HEADS = {
    "stops.csv": "stop\n",
    "drives.csv": "from,to,minutes,metres\n",
    "groups.csv": "group,depot,vehicles,fixed,per_minute,per_metre\n",
    "trips.csv": "trip,from,start,to,end,metres,group\n",
}
SMALL = {
    "stops.csv": "D\nP\n",
    "drives.csv": "D,P,10,500\nP,D,10,500\n",
    "groups.csv": "Bus,D,2,1000,1,0\n",
    "trips.csv": "t1,P,8:00,P,8:30,0,Bus\n",
}


class SheetFolder(Folder):
    """A test with four small sheets."""

    def sheets(self, **changed):
        """Writes the four small sheets, some of them changed: below the headings, or, as bytes, whole."""
        for name, head in HEADS.items():
            data = changed.get(name[:-4], SMALL[name])
            self.write(name, data if isinstance(data, bytes) else head + data)
        return self.folder.name

    def make(self, **changed):
        """Returns status, text and what was said, of the four small sheets, the folder's path left out."""
        status, text, told = run("sheets", self.sheets(**changed))
        return status, text, told.replace(self.folder.name + os.sep, "")


class TownText(Folder):
    def test_the_town_is_written(self):
        self.assertEqual(run("sheets", TOWN), (0, TOWN_TEXT, TOWN_NOTES.format(TOWN)))

    def test_four_sheets_do_as_well_as_a_folder(self):
        paths = [f"{TOWN}/{it}.csv" for it in ("stops", "drives", "groups", "trips")]
        self.assertEqual(run("sheets", *paths)[:2], (0, TOWN_TEXT))

    def test_sheets_as_spreadsheets_export_them_say_the_same(self):
        status, text, told = run("sheets", f"{TOWN}/exported")
        self.assertEqual((status, text), (0, TOWN_TEXT))
        unread = "{0}/stops.csv: the column `Remarks` isn't read\n{0}/groups.csv: the column `Remark` isn't read\n"
        self.assertEqual(told, (unread + TOWN_NOTES).format(f"{TOWN}/exported"))

    def test_a_stay_makes_version_2(self):
        paths = [f"{TOWN}/{it}.csv" for it in ("stops", "drives", "groups_with_stay", "trips")]
        wanted = TOWN_TEXT.replace("instance,1", "instance,2").replace(",85\n", ",85,60\n").replace(",55\n", ",55,60\n")
        self.assertEqual(run("sheets", *paths)[:2], (0, wanted))

    def test_all_faults_are_told_at_once(self):
        self.assertEqual(run("sheets", f"{TOWN}/faulty"), (3, "", page(f"{TOWN}/faulty/faults.txt")))


class SmallText(SheetFolder):
    TEXT = ("instance,1\nstop,D\nstop,P\ndeadhead,D,P,10,500\ndeadhead,P,D,10,500\nlayer,Bus,D,2,1000,1,0\n"
            "trip,t1,P,8:00,P,8:30,0,Bus\n")

    def test_small_sheets(self):
        self.assertEqual(self.make(), (0, self.TEXT, ""))

    def test_encodings(self):
        head = "stop;remark\r\nD;größer\r\nP;\r\n"
        for name in ("utf-8", "utf-8-sig", "cp1252", "utf-16", "utf-16-le", "utf-16-be"):
            with self.subTest(name):
                told = "stops.csv: the column `remark` isn't read\n"
                self.assertEqual(self.make(stops=head.encode(name)), (0, self.TEXT, told))
        self.assertEqual(self.make(stops="\ufeffstop\rD\rP".encode("utf-16-be")), (0, self.TEXT, ""))

    def test_columns_in_another_order(self):
        sheet = b"Metres,Minutes,TO, From\n500,10,P,D\n500,10,D,P\n"
        self.assertEqual(self.make(drives=sheet), (0, self.TEXT, ""))

    def test_separators(self):
        for sign in ",;\t|":
            sheet = f"sep={sign}\r\nfrom{sign}to{sign}minutes{sign}metres\r\nD{sign}P{sign}10{sign}500\r\n"
            sheet += f"P{sign}D{sign}10{sign}500\r\n"
            self.assertEqual(self.make(drives=sheet.encode()), (0, self.TEXT, ""))

    def test_numbers(self):
        for metres in ("500", "0500", "500.0", "500.00", '"500,00"'):
            self.assertEqual(self.make(drives=f"D,P,10,{metres}\nP,D,9.01,500\n"), (
                0, self.TEXT, "drives.csv: rounded up the minutes of 1 drive\n"), metres)

    def test_blank_rows_and_times_after_midnight(self):
        status, text, _ = self.make(trips="\n,,,,,,\nt1,P,23:59:00,P,47:59,0,Bus\n")
        self.assertEqual((status, text.splitlines()[-1]), (0, "trip,t1,P,23:59,P,47:59,0,Bus"))

    def test_a_group_without_a_stay_among_others(self):
        sheet = b"group,depot,vehicles,fixed,per_minute,per_metre,stay\nBus,D,2,1000,1,0,\nVan,D,1,900,1,0,45\n"
        status, text, told = self.make(groups=sheet)
        self.assertEqual(status, 0)
        self.assertEqual(text.splitlines()[5:7], ["layer,Bus,D,2,1000,1,0,600", "layer,Van,D,1,900,1,0,45"])
        self.assertEqual(told, "groups.csv: no stay, so 600 minutes are written, for Bus\n")

    def test_no_rows(self):
        status, text, told = self.make(trips="")
        self.assertEqual((status, text), (0, self.TEXT.rsplit("trip", 1)[0]))
        self.assertEqual(told, "trips.csv: there are no rows below the headings\n")

    def test_trips_that_no_vehicle_can_run(self):
        told = self.make(groups="Bus,D,0,1000,1,0\nVan,P,1,1,1,1\n", trips=SMALL["trips.csv"])[2]
        self.assertEqual(told, "trips.csv:2: no vehicle can run trip t1: Bus has no vehicle\n")
        trips = "t1,P,0:09,P,8:30,0,Bus\nt2,P,0:10,P,8:30,0,Bus\nt3,Q,9:00,P,9:30,0,Bus\nt4,P,9:00,Q,9:30,0,Bus\n"
        status, _, told = self.make(stops="D\nP\nQ\n", trips=trips)
        self.assertEqual((status, told.splitlines()), (0, [
            "trips.csv:2: no vehicle can run trip t1: Bus would leave D before 0:00",
            "trips.csv:4: no vehicle can run trip t3: Bus has no drive from D to Q",
            "trips.csv:5: no vehicle can run trip t4: Bus has no drive from Q back to D",
        ]))


class SheetFaults(SheetFolder):
    def check(self, lines, **changed):
        status, text, told = self.make(**changed)
        count = f"{len(lines)} fault{'s' if len(lines) > 1 else ''}; nothing is written"
        self.assertEqual((status, text, told.splitlines()), (3, "", [*lines, count]))

    def test_headings(self):
        self.check(["stops.csv:1: no headings; the first row has to name the columns: stop"], stops=b"D\nP\n")
        self.check(["drives.csv:1: no column minutes"], drives=b"from,to,min,metres\nD,P,10,500\n")
        self.check(["drives.csv:1: the column to stands twice"], drives=b"from,to,to,minutes,metres\nD,P,P,10,500\n")
        self.check(["groups.csv:1: the column group stands twice"],
                   groups=b"group,group,depot,vehicles,fixed,per_minute,per_metre\nBus,Bus,D,2,1000,1,0\n")
        self.check(["trips.csv:1: the sheet is empty; its first row has to name the columns: "
                    "trip, from, start, to, end, metres, group"], trips=b"")

    def test_numbers(self):
        for metres in ("500.000", '"4,500"', "5e2", "+500", "-500", "9" * 5000):
            shown = metres.strip('"')
            shown = shown if len(shown) <= 40 else shown[:37] + "..."
            self.check([f"drives.csv:2: D to P: metres `{shown}` aren't a number; write digits alone"],
                       drives=f"D,P,10,{metres}\nP,D,10,500\n")

    def test_a_workbook(self):
        self.check(["stops.csv:1: this is a workbook; export the sheet as CSV"], stops=b"PK\x03\x04 and so on")
        self.check(["stops.csv:1: this is a workbook; export the sheet as CSV"], stops=b"\xd0\xcf\x11\xe0 and so on")

    def test_a_quote_that_is_not_closed(self):
        told = ("a quote is opened and not closed, or text stands behind a closing one; "
                "the rows from here on aren't read")
        self.check([f"trips.csv:3: {told}"], trips='t1,P,8:00,P,8:30,0,Bus\nt2,"P,8:00,P,8:30,0,Bus\nt3,,,,,,\n')
        self.check([f"stops.csv:2: {told}"], stops='"D" or so\nP\n')

    def test_a_field_with_line_ends(self):
        self.check(["trips.csv:4: trip t2: unknown stop Q"],
                   trips='t1,P,8:00,P,8:30,0,"Bus\n"\nt2,Q,8:00,P,8:30,0,Bus\n')

    def test_what_only_closing_finds(self):
        long = "D,P,1000,600000\nP,D,1000,600000\nP,Q,1000,600000\n"
        self.check(["drives.csv: D to Q, by way of P, takes 2000 minutes; at most 1440 can be written",
                    "drives.csv: D to Q, by way of P, is 1200000 metres; at most 1000000 can be written"],
                   stops="D\nP\nQ\n", drives=long)

    def test_limits(self):
        stops = "D\nP\n" + "".join(f"s{it}\n" for it in range(498))
        self.assertEqual(self.make(stops=stops)[0], 0)
        self.check(["stops.csv:502: the stop Q is one too many; there may be 500"], stops=stops + "Q\n")
        groups = "Bus,D,2000,1000000000,1000000,10000\n" + "".join(f"g{it},D,0,0,0,0\n" for it in range(15))
        self.assertEqual(self.make(groups=groups)[0], 0)
        self.check(["groups.csv:18: group H: the group H is one too many; there may be 16"],
                   groups=groups + "H,D,1,1,1,1\n")
        trips = "".join(f"t{it},P,8:00,P,8:30,1000000,Bus\n" for it in range(10000))
        self.assertEqual(self.make(trips=trips)[1][:11], "instance,3\n")
        few = trips[:trips.index("t2000,")]
        self.assertEqual(self.make(trips=few)[1][:11], "instance,1\n")
        self.assertEqual(self.make(trips=few, groups="Bus,D,2001,1,1,1\n")[1][:11], "instance,3\n")
        self.assertEqual(self.make(trips=few, groups="Bus,D,1,1000000000,1000000,10000\n")[0], 0)
        self.check(["groups.csv:2: group Bus: the costs are too large for 10000 trips; count them in a larger unit"],
                   trips=trips, groups="Bus,D,1,1,0,4000\n")
        self.check(["trips.csv:10002: trip u: the trip u is one too many; there may be 10000"],
                   trips=trips + "u,P,8:00,P,8:30,0,Bus\n")
        self.assertEqual(self.make(drives="D,P,1440,1000000\nP,D,0.01,0\n")[0], 0)
        self.check(["drives.csv:2: D to P: minutes `1440.5` aren't above 0 and at most 1440"],
                   drives="D,P,1440.5,0\nP,D,1,0\n")


    def test_a_wrong_name_is_told_once(self):
        trips = "".join(f"t{it},Q,8:00,Q,8:30,0,Bus\n" for it in range(40)) + "u,P,8:00,P,8:30,0,Buss\n"
        self.check(["drives.csv:4: Q to D: unknown stop Q (and on 40 further lines)",
                    "trips.csv:42: trip u: unknown group Buss; is it Bus?"],
                   drives="D,P,10,500\nP,D,10,500\nQ,D,1,1\n", trips=trips)
        self.check(["stops.csv:4: the stop `Süd` has ü; names have letters a to z, digits and _ . : - alone "
                    "(and on 1 further line)"],
                   stops="D\nP\nSüd\n", trips="t1,P,8:00,Süd,8:30,0,Bus\n")

    def test_rates_that_are_not_whole(self):
        for rate in ("0.40", "0.00085", "0,085", "1.5", "12.3456"):
            self.check([f"groups.csv:2: group Bus: per_metre `{rate}` isn't whole; count costs in a smaller unit"],
                       groups=f'Bus,D,2,1000,1,"{rate}"\n')
        self.check(["groups.csv:2: group Bus: per_metre `1.250` isn't a number; write digits alone"],
                   groups="Bus,D,2,1000,1,1.250\n")


class Order(SheetFolder):
    """Sheets that are given in another order are known by their headings."""

    def test_every_order(self):
        folder = self.sheets()
        wanted = run("sheets", folder)[1]
        paths = [os.path.join(folder, it) for it in HEADS]
        for order in itertools.permutations(paths):
            status, text, told = run("sheets", *order)
            self.assertEqual((status, text), (0, wanted))
            said = f"the sheets are taken by their headings: stops from {paths[0]}, drives from {paths[1]}, " \
                   f"groups from {paths[2]}, trips from {paths[3]}\n"
            self.assertEqual(told, "" if list(order) == paths else said)

    def test_a_column_that_is_missing(self):
        folder = self.sheets(groups=b"group,depot,vehicles,fixed,per_minute\nBus,D,2,1000,1\n")
        paths = [os.path.join(folder, f"{it}.csv") for it in ("trips", "stops", "drives", "groups")]
        status, text, told = run("sheets", *paths)
        self.assertEqual((status, text, told.splitlines()[-2:]), (
            3, "", [f"{folder}/groups.csv:1: no column per_metre", "1 fault; nothing is written"]))

    def test_headings_that_do_not_say(self):
        paths = [self.write(f"{it}.csv", "a,b\n") for it in "wxyz"]
        self.assertIn(f"{paths[0]}:1: no headings; the first row has to name the columns: stop\n",
                      run("sheets", *paths)[2])


class Money(SheetFolder):
    """Rates by the hour and the kilometre, and the unit that is found for them."""

    HEAD = "group,depot,vehicles,fixed,per_hour,per_km\n"

    def layers(self, rows, head=HEAD):
        """Returns the layers that groups become, the unit, and what is said."""
        folder = self.sheets(groups=(head + rows).encode(), trips="t1,P,8:00,P,8:30,0,A\n")
        status, _, told = run("sheets", folder, "-o", self.path("town.csv"))
        self.assertEqual(status, 0, told)
        layers = [it for it in self.read("town.csv").splitlines() if it.startswith("layer")]
        names = self.path("town.names.csv")
        unit = self.read("town.names.csv").splitlines()[1].split(",")[1] if os.path.exists(names) else None
        return layers, unit, told.replace(self.folder.name + os.sep, "")

    def test_the_town_of_the_page(self):
        # 24.00 an hour is 0.40 a minute, 0.85 a kilometre 0.00085 a metre: in 100,000ths 40,000 and 85.
        self.assertEqual(self.layers("A,D,3,140.00,24.00,0.85\nB,D,1,90,24,0.55\n"), (
            ["layer,A,D,3,14000000,40000,85", "layer,B,D,1,9000000,40000,55"], "100000", ""))

    def test_decimal_commas(self):
        rows = 'A;D;3;140,00;24,00;0,85\n'
        self.assertEqual(self.layers(rows, self.HEAD.replace(",", ";"))[:2],
                         (["layer,A,D,3,14000000,40000,85"], "100000"))

    def test_an_hour_that_no_power_of_ten_divides(self):
        # 25.00 an hour is 5/12 a minute and 0.85 a kilometre 17/20000 a metre: the least unit of both is 60000.
        self.assertEqual(self.layers("A,D,3,140,25,0.85\n"), (["layer,A,D,3,8400000,25000,51"], "60000", ""))

    def test_whole_costs_need_no_unit(self):
        self.assertEqual(self.layers("A,D,3,140,60,2000\n"), (["layer,A,D,3,140,1,2"], None, ""))

    def test_rates_that_are_rounded(self):
        # A vehicle of 5,000 leaves room for 100,000ths, in which 0.8533 a kilometre is 85.33 a metre.
        layers, unit, told = self.layers("A,D,3,5000,24,0.8533\n")
        self.assertEqual((layers, unit), (["layer,A,D,3,500000000,40000,85"], "100000"))
        self.assertEqual(told, "groups.csv: group A: a kilometre is counted as 0.85 in place of 0.8533\n")

    def test_faults(self):
        for rows, told in (
            ("A,D,3,x,24,1\n", "groups.csv:2: group A: fixed `x` isn't an amount such as 24 or 24.50"),
            ("A,D,3,1.400,24,1\n", "groups.csv:2: group A: fixed `1.400` isn't an amount such as 24 or 24.50"),
            ("A,D,3,1,,1\n", "groups.csv:2: group A: no per_hour"),
            ("A,D,3,1,1,10000001\n", "groups.csv:2: group A: per_km `10000001` is more than 10000000"),
        ):
            folder = self.sheets(groups=(self.HEAD + rows).encode(), trips="t1,P,8:00,P,8:30,0,A\n")
            status, text, said = run("sheets", folder)
            self.assertEqual((status, text, said.replace(folder + os.sep, "")),
                             (3, "", f"{told}\n1 fault; nothing is written\n"))

    def test_both_kinds_of_rate(self):
        folder = self.sheets(groups=b"group,depot,vehicles,fixed,per_hour,per_minute,per_km\nBus,D,2,1,1,1,1\n")
        self.assertIn("groups.csv:1: both per_minute and per_hour; give one of them", run("sheets", folder)[2])

    def test_money_among_cost_units_is_asked_about(self):
        for fixed in ('"140,00"', "140.00", "140.0"):
            status, _, told = self.make(groups=f"Bus,D,2,{fixed},40,0\n")
            shown = fixed.strip('"')
            self.assertEqual((status, told), (
                0, f"groups.csv:2: group Bus: is fixed `{shown}` money? It is read as cost units, as per_minute 40 and "
                   "per_metre 0 are; with per_hour and per_km in their place all costs are money\n"))
        self.assertEqual(self.make(groups="Bus,D,2,140.00,40.00,0\n")[2], "")

    def test_a_unit_without_a_file_is_said(self):
        folder = self.sheets(groups=(self.HEAD + "A,D,3,140,24,0.85\n").encode(), trips="t1,P,8:00,P,8:30,0,A\n")
        self.assertEqual(run("sheets", folder)[2],
                         "costs are counted in a unit of which 100000 are 1.00; -o FILE keeps that in a side file\n")


class Words(SheetFolder):
    def test_wrong_words(self):
        for words in ([], ["a", "b"], ["a", "b", "c", "d", "e"], ["--most", TOWN]):
            status, text, told = run("sheets", *words)
            self.assertEqual((status, text, told[:6]), (2, "", "usage:"), words)
        for words in ([], ["a"], ["a", "b", "c", "d"], ["--unit", "0", "a", "b"], ["--unit", "x", "a", "b"]):
            status, text, told = run("summary", *words)
            self.assertEqual((status, text, told[:6]), (2, "", "usage:"), words)

    def test_help(self):
        for tool in ("sheets", "summary"):
            status, text, told = run(tool, "--help")
            self.assertEqual((status, told), (0, ""))
            self.assertIn("no part of what is proved", text)

    def test_a_file_that_is_not_there(self):
        self.assertEqual(run("sheets", "nowhere"), (4, "", "nowhere/stops.csv: No such file or directory\n"))
        self.assertEqual(run("summary", "nowhere", "plan"), (4, "", "nowhere: No such file or directory\n"))

    @unittest.skipUnless(os.path.exists("/dev/full"), "there is no /dev/full")
    def test_output_that_can_not_be_written(self):
        two_trips = ("examples/two_trips.csv", "examples/two_trips_plan.csv")
        for words, told in ((("sheets", self.sheets()), "the text can't be written: No space left on device\n"),
                            (("summary", *two_trips), "the figures can't be written: No space left on device\n")):
            with open("/dev/full", "wb") as full:
                done = subprocess.run([sys.executable, "-m", "mdvsp", *words], cwd=TOP, stdout=full,
                                      stderr=subprocess.PIPE, env={**os.environ, "PYTHONPATH": PACKAGE}, check=False)
            self.assertEqual((done.returncode, done.stderr.decode()), (5, told))

    def test_a_file_that_can_not_be_written(self):
        status, text, told = run("sheets", self.sheets(), "-o", self.folder.name)
        self.assertEqual((status, text, told), (5, "", f"{self.folder.name}: Is a directory\n"))


class ManyDrives(SheetFolder):
    def test_twenty_are_told_or_all(self):
        stops = [f"s{it}" for it in range(7)]
        drives = "".join(f"{a},{b},5,100\n{b},{a},5,100\n" for a, b in zip(stops, stops[1:]))
        folder = self.sheets(stops="D\nP\n" + "".join(it + "\n" for it in stops), drives=SMALL["drives.csv"] + drives)
        # 42 pairs of the seven stops, of which 12 are given.
        told = run("sheets", folder)[2].splitlines()
        self.assertEqual((len(told), told[20].split(": ", 1)[1]), (21, "added 10 more drives; --all tells them"))
        self.assertEqual(len(run("sheets", "--all", folder)[2].splitlines()), 30)
