#!/usr/bin/env python3
"""Tests web/judge.html: its judge and its words in node, and the page itself in a headless Chromium.

    web/test_page.py [--pictures FOLDER]

The rows, places and words that are expected come from docs/formats.md and are worked out by hand. Where node or a
Chromium isn't installed, the script says so and skips that part. It ends with 0 where nothing failed, else with 1.
With `--pictures` it writes what the page looks like, light and dark, at two widths, for the eye.
"""

import base64
import hashlib
import json
import os
import shutil
import subprocess
import sys
import tempfile
import time
from dataclasses import dataclass
from typing import Any, Optional

# What Python compiles isn't kept beside the sources.
sys.dont_write_bytecode = True

from browser import Browser, find_browser

TOP = os.path.dirname(os.path.dirname(os.path.abspath(__file__)))
PAGE = os.path.join(TOP, "web", "judge.html")
JUDGE = os.path.join(TOP, "web", "judge_node.js")
WIDTHS = [1280, 390]
CPU_SECONDS = 3


def example(name: str) -> str:
    """Returns the text of a file of examples/."""
    with open(os.path.join(TOP, "examples", name), encoding="ascii", newline="") as file:
        return file.read()


TIMETABLE, PLAN = example("two_trips.csv"), example("two_trips_plan.csv")
PEAKS = "result,1,peak\npeak,L1,1\nblock,L1,t1,t2\nfleet,L1,0\nprice,L1,t1,1000,0\nprice,L1,t2,0,0\nend\n"

# Prices that floating point can't distinguish from one more or less. A vehicle is worth 10^18 - 1,010,000, so both
# pull-outs cost just what 10^18 for entering is worth beyond that; t1 is left for what t2 is entered.
LARGE = """result,1,open
cost,1080
bound,-100000000000000000000
nodes,1
block,L1,t1,t2
table,1,cost
fleet,L1,999999999998990000
price,L1,t1,1000000000000000000,1000000000000000000
price,L1,t2,1000000000000000000,0
leaf,1
end
"""


@dataclass(frozen=True)
class Case:
    """Two files, and what is said of them: the row, or why there is none; file and line; a part of the words."""

    name: str
    timetable: str
    plan: str
    row: Optional[str]
    place: "Optional[tuple[str, int]]" = None
    words: str = ""
    problem: Optional[str] = None


def unjudged(name: str, timetable: str, plan: str, problem: str, line: int, words: str) -> Case:
    return Case(name, timetable, plan, None, ("plan", line), words, problem)


# 4,000 trips in a layer whose dearest piece costs 10^10, the most for so many, and a document with prices of 0.
DEAR = "instance,3\nstop,D\nlayer,L1,D,1,0,0,10000\n" + "".join(
    f"trip,t{no},D,8:00,D,8:01,0,L1\n" for no in range(4000)
)
DEAR_PLAN = "result,1,open\ncost,none\nbound,0\nnodes,0\ntable,1,cost\nfleet,L1,0\n" + "".join(
    f"price,L1,t{no},0,0\n" for no in range(4000)
) + "leaf,1\nend\n"

CASES = [
    Case("two trips", TIMETABLE, PLAN, "yes,optimal,1080,1080", None, "Together they cost 1,080."),
    Case("no line end between", TIMETABLE[:-1], PLAN, "yes,optimal,1080,1080"),
    Case("a carriage return between", TIMETABLE[:-1] + "\r", PLAN, "yes,optimal,1080,1080"),
    Case(
        "an open plan", TIMETABLE, PLAN.replace("optimal", "open").replace("bound,1080", "bound,1000"),
        "yes,open,1080,1000", None, "So another plan saves 80 at most",
    ),
    Case(
        "no plan", example("one_vehicle.csv"), example("one_vehicle_document.csv"), "yes,infeasible,none,none", None,
        "the timetable or the fleets have to change",
    ),
    Case(
        "a bound alone", TIMETABLE, PLAN.replace("optimal", "open").replace("cost,1080", "cost,none")
        .replace("block,L1,t1,t2\n", ""), "yes,open,none,1080", None, "There may be no plan at all",
    ),
    Case(
        "a vehicle too late", TIMETABLE, PLAN.replace("t1,t2", "t2,t1"), "no,1,NoConnection,1,2", ("plan", 5),
        "Vehicle 1 cannot run trip t1 behind trip t2",
    ),
    Case(
        "a trip left out", TIMETABLE, PLAN.replace("L1,t1,t2", "L1,t1"), "no,1,Uncovered,t2", ("timetable", 13),
        "Trip t2 is run by no vehicle.",
    ),
    Case(
        "a trip twice", TIMETABLE, PLAN.replace("block,L1,t1,t2", "block,L1,t1,t2\nblock,L1,t2"), "no,1,Twice,t2",
        ("plan", 6), "Trip t2 is run more than once.",
    ),
    Case(
        "too many vehicles", TIMETABLE.replace("D,2,1000", "D,0,1000"), PLAN, "no,1,Fleet,L1,1", ("timetable", 11),
        "1 vehicle of layer L1",
    ),
    Case(
        "another cost", TIMETABLE, PLAN.replace("cost,1080", "cost,980"), "no,2,CostDiffers,980,1080", ("plan", 2),
        "100 more than printed",
    ),
    Case(
        "a broken table", TIMETABLE, PLAN.replace("1010000,0", "1010000,-1"), "no,3,TableBroken,1,link,L1,t1,t2",
        ("plan", 8), "going from trip t1 to trip t2",
    ),
    Case(
        "a broken price of vehicles", TIMETABLE, PLAN.replace("fleet,L1,0", "fleet,L1,-1"),
        "no,3,TableBroken,1,fleet,L1", ("plan", 7), "is below 0",
    ),
    Case(
        "a bad split", example("two_depots.csv"),
        example("two_depots_document.csv").replace("t1,L1\nleaf", "t1,L1,L2\nleaf"),
        "no,4,BadSplit,1", ("plan", 11), "The vehicles are a plan all the same, and cost 500.",
    ),
    Case(
        "a weak leaf", TIMETABLE, PLAN.replace("1010000", "1009000"), "no,5,LeafTooWeak,1,1079,1080", ("plan", 10),
        "cost 1,079 at least, and not 1,080",
    ),
    Case(
        "another claim", TIMETABLE, PLAN.replace("optimal", "open"), "no,6,ClaimDiffers,open,optimal", ("plan", 1),
        "The claim is open.",
    ),
    Case("large prices", TIMETABLE, LARGE, "yes,open,1080,-100000000000000000000"),
    Case(
        "a large price one less", TIMETABLE, LARGE.replace("998990000", "998989999"), "no,3,TableBroken,1,out,L1,t1",
        ("plan", 8), "the pull-out to trip t1",
    ),
    Case(
        "a bad time", TIMETABLE.replace("8:30,P,9:00", "8.30,P,9:00"), PLAN, "refused,13,8,BadTime", ("timetable", 13),
        "the timetable file is not in its form",
    ),
    Case(
        "carriage returns and empty lines", TIMETABLE.replace("\n", "\r\n\r\n"),
        PLAN.replace("block,L1,t1", "\r\n\nblock,L2,t1"),
        "refused,18,21,BadRow", ("plan", 7), "the plan file is not in its form",
    ),
    Case(
        "the end is missing", TIMETABLE, PLAN.replace("end\n", ""), "refused,24,24,EndsEarly", ("plan", 11),
        "Was it cut off",
    ),
    Case(
        "no closed drives", TIMETABLE.replace("deadhead,Q,P,15,0\n", ""), PLAN, "refused,0,10,NotClosed,3,1,2", None,
        "From stop Q by stop D to stop P",
    ),
    Case(
        "a fleet too large", TIMETABLE.replace("D,2,1000", "D,2001,1000"), PLAN, "refused,11,10,Range,fleet",
        ("timetable", 11), "out of its range: fleet",
    ),
    Case(
        "an open quote", TIMETABLE.replace("0,L1\ntrip,t2", '0,"L1\ntrip,t2'), PLAN, "refused,12,4,BadName",
        ("timetable", 12), "the timetable file is not in its form",
    ),
    Case(
        "two plans", TIMETABLE + PLAN, PLAN, "refused,25,25,RowsAfterEnd", ("plan", 1), "behind the row end",
    ),
    Case(
        "a version that there is not", TIMETABLE.replace("instance,1", "instance,4"), PLAN, "refused,1,1,NoHeader",
        ("timetable", 1), "instance,1, instance,2 or instance,3",
    ),
    Case("version 3", TIMETABLE.replace("instance,1", "instance,3"), PLAN, "yes,optimal,1080,1080"),
    Case("the dearest pieces", DEAR, DEAR_PLAN, "yes,open,none,0"),
    Case(
        "pieces dearer by one", DEAR.replace("D,1,0,0", "D,1,1,0"), DEAR_PLAN, "refused,3,10,TooDear", ("timetable", 3),
        "above 40,000,000,000,000",
    ),
    Case("peaks", TIMETABLE, PEAKS, "yes", None, "Layer L1: 1 vehicle can run its 2 trips, and fewer cannot."),
    Case(
        "a peak too high", TIMETABLE, PEAKS.replace("L1,1\nblock,L1,t1,t2", "L1,2\nblock,L1,t1\nblock,L1,t2"),
        "no,11,TooWeak,L1,1,2", ("plan", 2), "it takes 1 or more, and not 2",
    ),
    Case(
        "a peak's block", TIMETABLE, PEAKS.replace("t1,t2\n", "t2,t1\n"), "no,8,Blocks,L1,NoConnection,1,2",
        ("plan", 3), "Vehicle 1 cannot run trip t1 behind trip t2",
    ),
    Case(
        "a peak's price", TIMETABLE, PEAKS.replace("t2,0,0", "t2,1000,0"), "no,10,TableBroken,L1,link,L1,t1,t2",
        ("plan", 5), "going from trip t1 to trip t2",
    ),
    unjudged("an empty plan", TIMETABLE, "\n\n", "empty", 3, "has no record"),
    unjudged("a byte order mark", TIMETABLE, "\ufeff" + PLAN, "mark", 1, "byte order mark"),
    unjudged("swapped", PLAN, TIMETABLE, "swapped", 1, "each other's place"),
    unjudged("both in one", TIMETABLE, TIMETABLE + PLAN, "two timetables", 1, "has one before its plan"),
    unjudged("a trip in front", TIMETABLE, "\ntrip,t3,P,9:00,Q,9:30,0,L1\n" + PLAN, "no result", 2, "would change"),
]

MARKUP = "instance,1\nstop,<img src=x onerror=alert(1)><script>alert(2)</script>\n"


class Checks:
    """What was expected so far, and how often it wasn't so."""

    def __init__(self) -> None:
        self.count = 0
        self.failed = 0

    def equal(self, name: str, found: Any, wanted: Any) -> None:
        self.count += 1
        if found != wanted:
            self.failed += 1
            print(f"judge page: {name}: {found!r} was found, and {wanted!r} expected")

    def holds(self, name: str, part: Any, whole: Any) -> None:
        """Expects that a text or a list has a part."""
        self.count += 1
        if part not in whole:
            self.failed += 1
            print(f"judge page: {name}: {part!r} isn't in {whole!r}")


class Files:
    """Two files in a folder. Their names begin alike."""

    def __init__(self, folder: str, name: str = ""):
        self.timetable = os.path.join(folder, f"{name}timetable.csv")
        self.plan = os.path.join(folder, f"{name}plan.csv")

    def write(self, timetable: str, plan: str) -> None:
        for path, text in ((self.timetable, timetable), (self.plan, plan)):
            with open(path, "wb") as file:
                file.write(text.encode())

    def sums(self) -> "list[str]":
        return [hashlib.sha256(read(path)).hexdigest() for path in (self.timetable, self.plan)]


def read(path: str) -> bytes:
    with open(path, "rb") as file:
        return file.read()


# Large files


def clock(minute: int) -> str:
    return f"{minute // 60}:{minute % 60:02}"


def shifts(vehicles: int) -> "tuple[str, str]":
    """Returns a timetable that so many vehicles run alike, and its plan.

    Each leaves at 5:50, runs from P at 6:00 to Q at 6:30, waits, runs from Q at 7:00 to P at 7:30 and is back at 7:40;
    it rests; it leaves at 14:50, runs from P at 15:00 to Q at 15:30 and is back at 15:40. These are 160 minutes and a
    vehicle: 1,160. With all prices 0 the trips are worth their 90 minutes for each vehicle.
    """
    head = "instance,2\nstop,D\nstop,P\nstop,Q\n" + "".join(
        f"deadhead,{origin},{target},{minutes},0\n" for origin, target, minutes in
        [("D", "P", 10), ("P", "D", 10), ("D", "Q", 10), ("Q", "D", 10), ("P", "Q", 15), ("Q", "P", 15)]
    ) + f"layer,L1,D,{vehicles},1000,1,0,60\n"
    runs = [("P,6:00,Q,6:30", "a"), ("Q,7:00,P,7:30", "b"), ("P,15:00,Q,15:30", "c")]
    names = [f"{letter}{number}" for number in range(vehicles) for _, letter in runs]
    trips = "".join(f"trip,{letter}{number},{run},0,L1\n" for number in range(vehicles) for run, letter in runs)
    blocks = "".join(f"block,L1,a{number},b{number},c{number}\n" for number in range(vehicles))
    prices = "table,1,cost\nfleet,L1,0\n" + "".join(f"price,L1,{name},0,0\n" for name in names)
    result = f"result,1,open\ncost,{1160 * vehicles}\nbound,{90 * vehicles}\nnodes,1\n"
    return head + trips, result + blocks + prices + "leaf,1\nend\n"


def zeros(trips: int, layers: int, tables: int) -> "tuple[str, str]":
    """Returns a timetable and a document with a bound of 0 and tables of zeros, which hold."""
    names = [f"L{layer}" for layer in range(layers)]
    head = "instance,1\nstop,D\n" + "".join(f"layer,{name},D,1,1,1,1\n" for name in names)
    rows = (f"trip,t{no},D,{clock(no)},D,{clock(no + 1)},0,{','.join(names)}\n" for no in range(trips))
    prices = "".join(
        f"fleet,{name},0\n" + "".join(f"price,{name},t{no},0,0\n" for no in range(trips)) for name in names
    )
    document = "result,1,open\ncost,none\nbound,0\nnodes,0\n"
    document += "".join(f"table,{table},cost\n{prices}" for table in range(1, tables + 1))
    return head + "".join(rows), document + "leaf,1\nend\n"


# The judge in node


def test_node(checks: Checks, node: str, folder: str) -> None:
    """Has node judge pairs of files, and measures the largest timetable with one table."""
    pairs = [Files(folder, str(number)) for number in range(len(CASES))]
    for case, files in zip(CASES, pairs):
        files.write(case.timetable, case.plan)
    for case, files, found in zip(CASES, pairs, judged(node, pairs)):
        place = found["place"] and (found["place"]["file"], found["place"]["line"])
        words = " ".join([found["words"]["title"], *found["words"]["sentences"]])
        checks.equal(f"{case.name}, row", found["row"], case.row)
        checks.equal(f"{case.name}, place", place, case.place)
        checks.holds(f"{case.name}, words", case.words, words)
        checks.equal(f"{case.name}, problem", found["problem"] and found["problem"]["kind"], case.problem)
        checks.equal(f"{case.name}, checksums", found["sums"], files.sums())
    test_speed(checks, node, Files(folder))


def test_speed(checks: Checks, node: str, files: Files) -> None:
    files.write(*zeros(2000, 4, 1))
    before = os.times()
    checks.equal("2,000 trips", judged(node, [files])[0]["row"], "yes,open,none,0")
    after = os.times()
    seconds = after.children_user + after.children_system - before.children_user - before.children_system
    checks.holds(f"2,000 trips take {seconds:.1f} s of CPU time", seconds <= CPU_SECONDS, [True])


def judged(node: str, pairs: "list[Files]") -> "list[dict[str, Any]]":
    """Returns what the judge says of each two files."""
    names = [name for files in pairs for name in (files.timetable, files.plan)]
    run = subprocess.run([node, JUDGE, "files", *names], stdout=subprocess.PIPE, check=True)
    return [json.loads(line) for line in run.stdout.splitlines()]


# The page in a browser

VERDICT = "!document.getElementById('verdict').hidden"
ROW = "document.getElementById('row').textContent"
SUMS = "[...document.querySelectorAll('#sums code')].map((one) => one.textContent)"
# Looks at the page every ten milliseconds, if it lets one: how long it stood still, which parts of the work it named.
WATCH = """(() => {
    Object.assign(window, { gap: 0, parts: [], isImpatient: false, isCancelled: false });
    let last = performance.now();
    setInterval(() => {
        const now = performance.now(), part = document.getElementById('part').textContent.split(':')[0];
        window.gap = Math.max(window.gap, now - last);
        last = now;
        if (part && !window.parts.includes(part)) window.parts.push(part);
        if (!window.isImpatient || document.getElementById('progress').hidden) return;
        document.getElementById('cancel').click();
        window.isCancelled = true;
    }, 10);
})()"""
OVERFLOW = "document.documentElement.scrollWidth > window.innerWidth"


class PageTest:
    """The page in a browser, with the files that are chosen there."""

    def __init__(self, checks: Checks, browser: Browser, files: Files, pictures: Optional[str]):
        self.checks, self.browser, self.files, self.pictures = checks, browser, files, pictures

    def open(self, width: int, dark: bool = False) -> None:
        self.browser.open(f"file://{PAGE}", width, dark)

    def judge(self, timetable: str, plan: str) -> None:
        """Chooses both files, and waits for the verdict."""
        self.files.write(timetable, plan)
        self.browser.choose("timetable", self.files.timetable)
        self.browser.choose("plan", self.files.plan)
        self.browser.wait(VERDICT)

    def picture(self, name: str) -> None:
        if self.pictures:
            with open(os.path.join(self.pictures, f"{name}.png"), "wb") as file:
                file.write(base64.b64decode(self.browser.picture()))

    def test_looks(self) -> None:
        """Judges two hundred vehicles at both widths, light and dark."""
        for width in WIDTHS:
            for dark in (False, True):
                self.open(width, dark)
                self.judge(*shifts(200))
                name = f"shifts {width} {'dark' if dark else 'light'}"
                self.checks.equal(f"{name}, row", self.browser.evaluate(ROW), "yes,open,232000,18000")
                self.checks.equal(f"{name}, checksums", self.browser.evaluate(SUMS), self.files.sums())
                self.checks.equal(f"{name}, wider than the window", self.browser.evaluate(OVERFLOW), False)
                self.count_bars(name)
                self.picture(name.replace(" ", "_"))

    def count_bars(self, name: str) -> None:
        wanted = {"vehicle": 200, "trip": 600, "wait": 200, "rest": 200, "out": 400, "in": 400, "drive": 0}
        for kind, count in wanted.items():
            found = self.browser.evaluate(f"document.querySelectorAll('#scroller g.{kind}').length")
            self.checks.equal(f"{name}, bars {kind}", found, count)

    def test_answers(self) -> None:
        """Judges some of the cases one after the other in one page."""
        self.open(WIDTHS[0])
        for case in CASES:
            if case.name in ("two trips", "a broken table", "a bad time", "peaks", "swapped"):
                self.open(WIDTHS[0])
                self.judge(case.timetable, case.plan)
                self.checks.equal(f"{case.name}, in the page", self.browser.evaluate(ROW), case.row or "")
                text = self.browser.evaluate("document.getElementById('verdict').innerText")
                self.checks.holds(f"{case.name}, in the page", case.words, text)
                self.picture(case.name.replace(" ", "_"))

    def test_markup(self) -> None:
        """Shows what a file has as text, also its name."""
        self.open(WIDTHS[1])
        self.judge(MARKUP, PLAN)
        self.checks.equal("markup, row", self.browser.evaluate(ROW), "refused,2,4,BadName")
        found = self.browser.evaluate("document.querySelectorAll('img, main script').length")
        self.checks.equal("markup, elements", found, 0)
        line = self.browser.evaluate("document.getElementById('line').textContent")
        self.checks.equal("markup, text", line, MARKUP.splitlines()[1])

    def test_drop(self) -> None:
        """Drops the files on their fields, with a pointer."""
        self.open(WIDTHS[0])
        self.files.write(TIMETABLE, PLAN)
        for which, path in (("timetable", self.files.timetable), ("plan", self.files.plan)):
            box = f"document.getElementById('{which}-field').getBoundingClientRect()"
            x, y = self.browser.evaluate(f"(() => {{ const b = {box}; return [b.x + 20, b.y + 20]; }})()")
            data = {"items": [], "files": [path], "dragOperationsMask": 1}
            for step in ("dragEnter", "dragOver", "drop"):
                self.browser.send("Input.dispatchDragEvent", type=step, x=x, y=y, data=data)
        self.browser.wait(VERDICT)
        self.checks.equal("dropped, row", self.browser.evaluate(ROW), "yes,optimal,1080,1080")

    def test_progress(self) -> None:
        """Judges many prices: the page goes on meanwhile, says how far it is, and lets one cancel."""
        self.open(WIDTHS[0])
        self.browser.evaluate(WATCH)
        begin = time.monotonic()
        self.judge(*zeros(300, 1, 1000))
        seconds = time.monotonic() - begin
        self.checks.equal("many prices, row", self.browser.evaluate(ROW), "yes,open,none,0")
        self.checks.holds("many prices, parts", "Checking the dual prices", self.browser.evaluate("window.parts"))
        gap = self.browser.evaluate("window.gap") / 1000
        is_short = gap < max(0.5, seconds / 2)
        self.checks.holds(f"many prices, the page stands still for {gap:.1f} of {seconds:.1f} s", is_short, [True])
        self.browser.evaluate("window.isImpatient = true")
        # A field whose file stays the same says nothing.
        self.browser.choose("plan", shutil.copy(self.files.plan, f"{self.files.plan}.again"))
        self.browser.wait("window.isCancelled")
        self.checks.equal("cancelled", self.browser.evaluate("document.getElementById('progress').hidden"), True)
        self.checks.equal("cancelled, verdict", self.browser.evaluate(VERDICT), False)

    def test_quiet(self) -> None:
        """Sees that nothing was reported as an error, and that nothing was asked of a network."""
        for event in self.browser.events:
            method, parameters = event["method"], event["params"]
            if method in ("Runtime.exceptionThrown", "Runtime.consoleAPICalled", "Log.entryAdded"):
                self.checks.equal("console", parameters, None)
            if method == "Network.requestWillBeSent":
                address = parameters["request"]["url"]
                is_own = address == f"file://{PAGE}" or address.startswith(("blob:", "data:"))
                self.checks.holds(f"request of {address}", is_own, [True])


def test_browser(checks: Checks, path: str, files: Files, pictures: Optional[str]) -> None:
    browser = Browser(path)
    try:
        test = PageTest(checks, browser, files, pictures)
        steps = [test.test_looks, test.test_answers, test.test_markup, test.test_drop, test.test_progress]
        for step in [*steps, test.test_quiet]:
            step()
    finally:
        browser.close()


def main() -> int:
    words = sys.argv[1:]
    pictures = words[1] if words[:1] == ["--pictures"] and len(words) == 2 else None
    checks, node, browser = Checks(), shutil.which("node"), find_browser()
    with tempfile.TemporaryDirectory(prefix="page-test-") as folder:
        if node:
            test_node(checks, node, folder)
        if browser:
            test_browser(checks, browser, Files(folder), pictures)
    skipped = [what for what, found in (("node", node), ("Chromium", browser)) if not found]
    skips = f", skipped what needs {' and '.join(skipped)}: not installed" if skipped else ""
    print(f"judge page: {checks.count} checks, {checks.failed} failed{skips}")
    return 1 if checks.failed else 0


if __name__ == "__main__":
    sys.exit(main())
