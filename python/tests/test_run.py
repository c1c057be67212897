"""How the program is called, what its statuses become, and what each vehicle of its plans does."""

import csv
import io
import os
import stat
import sys
import unittest
from fractions import Fraction
from unittest import mock

from mdvsp import run, timetable
from mdvsp.duties import DRIVEN_EMPTY, Kind, duties_of
from mdvsp.figures import figures_of_plan, united
from mdvsp.plan import Block, Plan
from mdvsp.printed import clock
from mdvsp.report import duties_sheet
from mdvsp.side import SideFile

from .support import Folder, page, program

TWO_TRIPS = timetable.parse(page("examples/two_trips.csv").encode())
# A program that keeps its arguments and its input, and ends as two files beside it say.
FAKE = """#!{python}
import sys
folder = {folder!r}
open(folder + "/arguments", "w").write(" ".join(sys.argv[1:]))
open(folder + "/input", "w").write(sys.stdin.read())
sys.stdout.write(open(folder + "/output").read())
sys.exit(int(open(folder + "/status").read()))
"""


class FakeProgram(Folder):
    def fake(self, status, output):
        """Returns a program that ends with this status and writes this."""
        self.write("status", str(status))
        self.write("output", output)
        path = self.write("fake", FAKE.format(python=sys.executable, folder=self.folder.name))
        os.chmod(path, os.stat(path).st_mode | stat.S_IXUSR)
        return path


class Arguments(FakeProgram):
    OPEN = "result,1,open\ncost,7\nbound,5\nnodes,0\nblock,L1,t1,t2\n"

    def test_solve_passes_its_options(self):
        fake = self.fake(11, self.OPEN)
        for given, words in (
            ({}, "solve"),
            ({"nodes": 0}, "solve --nodes 0"),
            ({"workers": 1, "nodes": 20}, "solve --nodes 20 --workers 1"),
            ({"seconds": 86400, "gap": 1000000}, "solve --seconds 86400 --gap 1000000"),
            ({"seconds": 1, "gap": 0, "nodes": 3, "workers": 64}, "solve --nodes 3 --workers 64 --seconds 1 --gap 0"),
        ):
            plan = run.solve(TWO_TRIPS, program=fake, **given)
            self.assertEqual(self.read("arguments"), words)
            self.assertEqual(self.read("input"), TWO_TRIPS.text())
            self.assertEqual((plan.claim, plan.cost, plan.bound, plan.blocks),
                             ("open", 7, 5, [Block("L1", ("t1", "t2"))]))

    def test_options_out_of_their_range(self):
        fake = self.fake(11, self.OPEN)
        for name, values in (("nodes", (-1, 100001)), ("workers", (0, 65)), ("seconds", (0, 86401)),
                             ("gap", (-1, 1000001))):
            for value in values:
                with self.assertRaises(ValueError):
                    run.solve(TWO_TRIPS, program=fake, **{name: value})
        self.assertFalse(os.path.exists(self.path("arguments")))

    def test_resume_check_and_peak(self):
        plan = Plan("open", 7, 5, 0, [Block("L1", ("t1", "t2"))], [["end"]])
        run.resume(TWO_TRIPS, plan, seconds=9, program=self.fake(0, self.OPEN))
        self.assertEqual(self.read("arguments"), "resume --seconds 9")
        self.assertEqual(self.read("input"), TWO_TRIPS.text() + self.OPEN + "end\n")
        verdict = run.check(TWO_TRIPS, plan, program=self.fake(0, "yes,open,7,5\n"))
        self.assertEqual(self.read("arguments"), "check")
        self.assertEqual((verdict.holds, verdict.row), (True, ("yes", "open", "7", "5")))
        peaks = run.peak(TWO_TRIPS, program=self.fake(0, "result,1,peak\npeak,A,1\nblock,A,t1\npeak,B,none\nend\n"))
        self.assertEqual(self.read("arguments"), "peak")
        self.assertEqual(peaks, {"A": run.Peak(1, [Block("A", ("t1",))]), "B": run.Peak(None)})


class Statuses(FakeProgram):
    def ended(self, status, output):
        with self.assertRaises(run.RunError) as caught:
            run.solve(TWO_TRIPS, program=self.fake(status, output))
        return caught.exception

    def test_each_status(self):
        for status, output, kind, words in (
            (2, "words,2\n", run.WrongArguments, "mdvsp doesn't know its arguments; is it of another version?"),
            (4, "", run.ReadingFailed, "mdvsp couldn't read its input"),
            (5, "", run.WritingFailed, "mdvsp couldn't write its output"),
            (6, "", run.OutOfMemory, "mdvsp was out of memory"),
            (7, "", run.TooLong, "the input is longer than mdvsp takes"),
            (99, "", run.RunError, "mdvsp ended with the status 99"),
        ):
            error = self.ended(status, output)
            self.assertIs(type(error), kind)
            self.assertEqual((str(error), error.program_status, error.status), (words, status, 6))

    def test_refused(self):
        error = self.ended(3, "refused,12,6,UnknownName\n")
        self.assertIsInstance(error, run.Refused)
        self.assertEqual((error.record, error.number, error.name, error.more, error.status),
                         (12, 6, "UnknownName", [], 3))
        self.assertEqual(str(error), "refused at record 12: a name that no earlier record declares (6,UnknownName)")
        error = self.ended(3, "refused,0,10,LongerMinutes,1,2,3\n")
        self.assertEqual(error.more, ["1", "2", "3"])

    def test_a_document_that_does_not_hold(self):
        plan = Plan("open", 7, 5, 0, [Block("L1", ("t1", "t2"))], [["end"]])
        with self.assertRaises(run.DoesNotHold) as caught:
            run.resume(TWO_TRIPS, plan, program=self.fake(1, "no,2,CostDiffers,7,8\n"))
        self.assertEqual((caught.exception.flaw, caught.exception.status), (["2", "CostDiffers", "7", "8"], 1))
        for row, words in (
            ("2,CostDiffers,7,8", "the blocks cost 8, and the document says 7"),
            ("1,NotPermitted,1,2", "block 1: layer L1 may not run trip t2"),
            ("1,NoPullOut,1", "block 1: no vehicle of layer L1 is in time for trip t1, or no deadhead leads there"),
            ("1,NoConnection,1,2",
             "block 1: after trip t1 no vehicle is in time for trip t2, or no deadhead leads there"),
            ("1,NoPullIn,1", "block 1: no deadhead leads from trip t2 to the depot of layer L1"),
            ("1,Twice,t1", "trip t1 stands in the blocks more than once"),
            ("1,Uncovered,t1", "no block runs trip t1"),
            ("1,Fleet,L1,3", "layer L1 has 3 blocks, and not as many vehicles"),
            ("3,TableBroken,1,link,L1,t1,t2",
             "table 1: to go from trip t1 to trip t2 in layer L1 is worth more than it costs"),
            ("3,TableBroken,2,fleet,L1", "table 2: a vehicle of layer L1 has a price below 0"),
            ("4,BadSplit,1",
             "row 1 of the tree: the split names all layers that its trip may be run in there, or another"),
            ("5,LeafTooWeak,1,0,none", "row 1 of the tree: the leaf's table doesn't show that there is no plan"),
            ("5,LeafTooWeak,1,4,5",
             "row 1 of the tree: the leaf's table shows a cost of 4 at least, and the bound is 5"),
            ("6,ClaimDiffers,optimal,open",
             "the document claims optimal, and its cost and its bound together say open"),
        ):
            verdict = run.check(TWO_TRIPS, plan, program=self.fake(1, f"no,{row}\n"))
            self.assertEqual((verdict.holds, verdict.words), (False, words))


class FindingTheProgram(FakeProgram):
    def test_the_order(self):
        fake = self.fake(0, "")
        with mock.patch.dict(os.environ, {"MDVSP": "/dev/null"}):
            self.assertEqual(run.find_program(fake), fake)
            with self.assertRaises(run.ProgramMissing) as caught:
                run.find_program()
            self.assertEqual(str(caught.exception), "/dev/null is no program that can be run")
        with mock.patch.dict(os.environ, {"MDVSP": fake}):
            self.assertEqual(run.find_program(), fake)

    def test_on_the_path(self):
        fake = self.fake(0, "")
        named = self.path("mdvsp")
        os.rename(fake, named)
        with mock.patch.dict(os.environ, {"PATH": self.folder.name}), \
                mock.patch.object(run, "__file__", self.path("a/b/c/d.py")):
            os.environ.pop("MDVSP", None)
            self.assertEqual(run.find_program(), named)
            os.makedirs(self.path("bin"))
            os.rename(named, self.path("bin/mdvsp"))
            with self.assertRaises(run.ProgramMissing):
                run.find_program()
        with mock.patch.dict(os.environ, {"PATH": ""}), \
                mock.patch.object(run, "__file__", self.path("python/mdvsp/run.py")):
            os.environ.pop("MDVSP", None)
            self.assertEqual(run.find_program(), self.path("bin/mdvsp"))


class Limits(unittest.TestCase):
    """Searches of the program end at a limit, and what they write is judged and resumed."""

    @classmethod
    def setUpClass(cls):
        cls.program = program()

    def judged(self, found, plan):
        verdict = run.check(found, plan, program=self.program)
        self.assertEqual(verdict.row, ("yes", plan.claim, str(plan.cost), str(plan.bound)))

    def test_a_gap(self):
        for gap, figures in ((1000000, ("open", 1080, 60, 0)), (944445, ("open", 1080, 60, 0)),
                             (944444, ("optimal", 1080, 1080, 1)), (0, ("optimal", 1080, 1080, 1))):
            plan = run.solve(TWO_TRIPS, gap=gap, program=self.program)
            self.assertEqual((plan.claim, plan.cost, plan.bound, plan.nodes), figures)
            self.assertLessEqual(plan.gap, Fraction(gap, 1000000))
            self.judged(TWO_TRIPS, plan)

    def test_a_gap_that_is_met_on_the_way(self):
        found = timetable.parse(run.call(["make", "60"], "", self.program)[1].encode())
        for gap in (500000, 100000, 10000):
            plan = run.solve(found, gap=gap, workers=1, program=self.program)
            self.assertLessEqual(plan.gap, Fraction(gap, 1000000))
            self.judged(found, plan)

    def test_seconds(self):
        found = timetable.parse(run.call(["make", "100"], "", self.program)[1].encode())
        plan = run.solve(found, seconds=1, workers=2, program=self.program)
        self.judged(found, plan)
        further = run.resume(found, plan, seconds=1, nodes=3, gap=0, program=self.program)
        self.judged(found, further)
        self.assertLessEqual(further.cost, plan.cost)
        self.assertGreaterEqual(further.bound, plan.bound)


class Duties(unittest.TestCase):
    """What each vehicle does adds up to what the program and the summary say, on plans of the program."""

    @classmethod
    def setUpClass(cls):
        cls.program = program()

    def timetables(self):
        """Yields timetables without rests and with them."""
        for name in ("two_trips", "two_types", "first_hour", "split_shift"):
            yield name, timetable.parse(page(f"examples/{name}.csv").encode())
        for number in (5, 17):
            made = run.call(["make", str(number)], "", self.program)[1]
            yield f"make {number}", timetable.parse(made.encode())
            rows = made.replace("instance,1", "instance,2").splitlines()
            rested = [f"{row},30" if row.startswith("layer") else row for row in rows]
            yield f"make {number} with rests", timetable.parse("\n".join(rested).encode())

    def test_they_add_up(self):
        rests = 0
        for name, found in self.timetables():
            with self.subTest(name):
                plan = run.solve(found, nodes=0, workers=1, program=self.program)
                duties = duties_of(found, plan.blocks)
                self.judge_moves(duties)
                self.assertEqual(self.rows_of(duties), run.blocks(found, plan, program=self.program))
                self.judge_figures(duties, united(figures_of_plan(found, duties).values()))
                self.assertEqual(sum(duty.cost for duty in duties), plan.cost)
                self.judge_sheet(duties)
                rests += sum(move.kind is Kind.REST for duty in duties for move in duty.moves)
        self.assertGreater(rests, 3)

    def judge_moves(self, duties):
        for duty in duties:
            self.assertEqual((duty.moves[0].origin, duty.moves[-1].target), (duty.layer.depot, duty.layer.depot))
            for before, move in zip(duty.moves, duty.moves[1:]):
                self.assertEqual((before.end, before.target), (move.start, move.origin))
            for move in duty.moves:
                self.assertGreater(move.minutes, 0)
                self.assertEqual(move.kind in (Kind.WAIT, Kind.REST), move.origin == move.target and not move.trip)

    @staticmethod
    def rows_of(duties):
        """Returns the rows that `mdvsp blocks` has to write."""
        rows = []
        for duty in duties:
            number = str(duty.number)
            rows.append(["vehicle", number, duty.layer.name, clock(duty.leaves), clock(duty.back), str(duty.cost)])
            for move in duty.moves:
                if move.trip:
                    rows.append(["run", number, move.trip.name, move.origin, clock(move.start), move.target,
                                 clock(move.end)])
                elif move.kind is Kind.REST:
                    rows.append(["rest", number, clock(move.start), clock(move.end)])
        return rows

    def judge_sheet(self, duties):
        """The sheet for a spreadsheet has the same minutes and metres, vehicle by vehicle."""
        rows = list(csv.DictReader(io.StringIO(duties_sheet(duties, SideFile()))))
        for duty in duties:
            own = [row for row in rows if row["vehicle"] == str(duty.number)]
            self.assertEqual(sum(int(row["minutes"]) for row in own), duty.back - duty.leaves)
            self.assertEqual(sum(int(row["metres"]) for row in own), sum(move.metres for move in duty.moves))
            self.assertEqual([row["trip"] for row in own if row["trip"]], [trip.name for trip in duty.trips])

    def judge_figures(self, duties, figures):
        moves = [move for duty in duties for move in duty.moves]
        for kinds, minutes in (((Kind.TRIP,), figures.service), (DRIVEN_EMPTY, figures.empty),
                               ((Kind.WAIT,), figures.waiting), ((Kind.REST,), figures.resting)):
            self.assertEqual(sum(it.minutes for it in moves if it.kind in kinds), minutes)
        self.assertEqual(sum(it.metres for it in moves), figures.metres)
        self.assertEqual(sum(end - start for start, end in figures.spans), figures.out)
        self.assertEqual(sum(duty.cost for duty in duties), figures.cost)


if __name__ == "__main__":
    unittest.main()
