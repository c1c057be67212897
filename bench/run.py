#!/usr/bin/env python3
"""Measures all that docs/benchmarks.md shows, and writes the runs to one file.

    bench/run.py [--program FILE] [--out FILE] [--cbc-seconds N] [--at-once N] [--quick]

Instances are made by `mdvsp make`, bench/carpaneto.py, bench/city.py and bench/largest_instance.sh. Each document is
judged by `check`. Where cbc is installed (Debian's coinor-cbc), the MIP solver gets the same instances as a time-space
model (bench/time_space_model.py), with one thread, right behind, for at most N seconds each, else 150.

PROGRAM is bin/mdvsp where it isn't given, and the file bench/results/HOST-DATE.csv. Its rows `about` say the version,
the toolchain and the processor. Each row `run` is one run, with CPU time, wall time and memory; tools/bench_page.py
makes the tables and plots of the page from it. `--at-once N` measures so many suites side by side, each on a processor
of its own, and those that need several processors behind them. `--quick` measures small instances, once each, to try
the script. Nothing else should run on the machine. It ends with 1 where a run fails, or a document isn't judged `yes`.
"""

from __future__ import annotations

import argparse
import csv
import datetime
import multiprocessing
import multiprocessing.queues
import os
import platform
import re
import shutil
import subprocess
import sys
import tempfile
import time
from concurrent.futures import ProcessPoolExecutor
from dataclasses import asdict, dataclass, field, fields, replace
from pathlib import Path

TOP = Path(__file__).resolve().parent.parent

# How often a run is repeated: at least three times, and up to nine while all together takes less than these seconds.
LEAST_RUNS, MOST_RUNS, SECONDS_OF_RUNS = 3, 9, 5.0

# A run that takes longer than this is made once.
LONG_RUN = 10.0

# What says how much memory a run held at once, in kB; where it isn't installed, 0 is written. A child of this script
# would count the script's own memory too.
TIME = "/usr/bin/time"

# The statuses of a run that did what it was asked for.
DONE = (0, 10, 11)

# A line of CBC's log: the best solution, the best possible, and the seconds.
CBC_LINE = re.compile(r"on tree, (\S+) best solution, best possible (\S+) \(([\d.]+) seconds\)")

# From here on a cost in CBC's log says that there is no plan yet.
CBC_NO_PLAN = 1e40


@dataclass
class Run:
    """One run: what was run on what, what it took, and what a document or CBC's log says of the plan."""

    suite: str
    instance: str
    trips: int
    what: str
    workers: int = 1
    number: int = 1
    cpu: float = 0.0
    wall: float = 0.0
    megabytes: float = 0.0
    out_bytes: int = 0
    status: int = 0
    claim: str = ""
    cost: str = ""
    bound: str = ""
    nodes: str = ""
    audit: str = ""


@dataclass
class Bench:
    """The program, the folder of instances, and the runs so far."""

    program: str
    folder: Path
    cbc_seconds: int
    quick: bool
    runs: list[Run] = field(default_factory=list)

    def file(self, name: str) -> Path:
        return self.folder / name.replace(" ", "_").replace(",", "")

    def make(self, name: str, command: list[str]) -> Path:
        """Writes an instance by a command, and returns its file."""
        path = self.file(name)
        with open(path, "wb") as out:
            subprocess.run(command, cwd=TOP, stdout=out, check=True)
        return path

    def once(self, command: list[str], given: Path, out: Path) -> Run:
        """Runs a command on a file, and returns what it took."""
        memory = self.folder / "memory"
        memory.write_text("0")
        watched = [TIME, "-f", "%M", "-o", str(memory), *command] if os.access(TIME, os.X_OK) else command
        before = time.monotonic()
        with open(given, "rb") as source, open(out, "wb") as sink:
            process = subprocess.Popen(watched, stdin=source, stdout=sink, stderr=subprocess.DEVNULL, cwd=TOP)
            _, ended, used = os.wait4(process.pid, 0)
        taken = Run("", "", 0, "", cpu=used.ru_utime + used.ru_stime, wall=time.monotonic() - before)
        taken.status = process.returncode = os.waitstatus_to_exitcode(ended)
        taken.megabytes = int(memory.read_text().split()[-1]) / 1000
        taken.out_bytes = out.stat().st_size
        return taken

    def measure(self, suite: str, instance: str, given: Path, words: str, workers: int = 1, least: int = 1) -> Path:
        """Runs the program's words on a file, several times, and returns what the last run wrote. Also a long run is
        made so many times at least."""
        out = self.file(f"{instance} {words} {workers}")
        command = [self.program, *words.split()]
        if words.split()[0] in ("solve", "resume", "trace"):
            command += ["--workers", str(workers)]
        taken, number = 0.0, 0
        while number < least or self.goes_on(number, taken):
            number += 1
            run = self.once(command, given, out)
            run.suite, run.instance, run.what, run.workers, run.number = suite, instance, words, workers, number
            run.trips = sum(line.startswith(b"trip,") for line in given.open("rb"))
            self.judge(run, given, out)
            self.runs.append(run)
            taken += run.wall
        print(f"{suite}: {instance}, {words}, workers {workers}: {run.cpu:.2f} s", file=sys.stderr)
        return out

    def goes_on(self, runs: int, seconds: float) -> bool:
        """Returns whether a run that was repeated so often, for so many seconds, is repeated again."""
        if runs == 0 or self.quick or seconds / runs > LONG_RUN:
            return runs == 0
        return runs < LEAST_RUNS or (runs < MOST_RUNS and seconds < SECONDS_OF_RUNS)

    def judge(self, run: Run, given: Path, out: Path) -> None:
        """Notes what the document of a run claims, and what the audit says of it."""
        rows = dict(line.split(",", 1) for line in head(out) if line.startswith(("cost,", "bound,", "nodes,")))
        claim = head(out)[:1]
        if not claim or not claim[0].startswith("result,1,") or claim[0] in ("result,1,trace", "result,1,peak"):
            return
        run.claim = claim[0].split(",")[2]
        run.cost, run.bound, run.nodes = rows.get("cost", ""), rows.get("bound", ""), rows.get("nodes", "")
        with open(self.both(given, out), "rb") as both:
            said = subprocess.run([self.program, "check"], stdin=both, capture_output=True, check=False).stdout
        run.audit = said.decode().strip().split(",")[0]

    def both(self, timetable: Path, document: Path) -> Path:
        """Returns a file that has a timetable, up to its first `result`, and a document behind it."""
        path = self.folder / "both"
        with open(path, "wb") as out:
            for line in open(timetable, "rb"):
                if line.startswith(b"result,"):
                    break
                out.write(line)
            out.write(document.read_bytes())
        return path

    def cbc(self, suite: str, instance: str, given: Path) -> None:
        """Gives a timetable to CBC, and notes its last answer and those of its log."""
        if not shutil.which("cbc"):
            return
        model, log = self.file("model.mps"), self.file("cbc.log")
        with open(given, "rb") as source, open(model, "wb") as sink:
            subprocess.run([str(TOP / "bench" / "time_space_model.py")], stdin=source, stdout=sink, check=True)
        run = self.once(["cbc", str(model), "sec", str(self.cbc_seconds), "solve"], Path(os.devnull), log)
        text = log.read_text(errors="replace")
        trips = sum(line.startswith(b"trip,") for line in given.open("rb"))
        for cost, bound, seconds in CBC_LINE.findall(text):
            noted = Run(f"{suite} log", instance, trips, "cbc", cpu=float(seconds), bound=str(int(float(bound))))
            noted.cost = "none" if float(cost) >= CBC_NO_PLAN else f"{float(cost):.0f}"
            self.runs.append(noted)
        run.suite, run.instance, run.trips, run.what = suite, instance, trips, "cbc"
        run.cost, run.bound = last_number("Objective value", text), last_number("Lower bound", text)
        run.claim = "optimal" if "Optimal solution found" in text else "open"
        self.runs.append(run)
        print(f"{suite}: {instance}, cbc: {run.cpu:.2f} s", file=sys.stderr)


def head(path: Path) -> list[str]:
    """Returns the first four lines of a file."""
    with open(path, encoding="ascii", errors="replace") as file:
        return [line.rstrip("\n") for _, line in zip(range(4), file)]


def last_number(name: str, text: str) -> str:
    """Returns the whole part of the number behind a name of CBC's log, or `none`."""
    found = re.findall(rf"^{name}: *([-\d.e+]+)", text, re.M)
    return str(int(float(found[-1]))) if found else "none"


def solve_suite(bench: Bench) -> None:
    """`make N`: one node at each size, and at four sizes the default budget and CBC."""
    sizes = [20, 40, 60] if bench.quick else [100, 200, 300, 500, 1000, 1500, 2000]
    whole = [20, 40] if bench.quick else [100, 300, 1000, 2000]
    for trips in sizes:
        made = bench.make(f"make {trips}", [bench.program, "make", str(trips)])
        bench.measure("solve", f"make {trips}", made, "solve --nodes 0")
        bench.measure("solve", f"make {trips}", made, "solve --nodes 1")
        if trips in whole:
            bench.measure("solve", f"make {trips}", made, "solve")
            bench.cbc("solve", f"make {trips}", made)
    largest = bench.make("largest", ["bench/largest_instance.sh", "1" if bench.quick else "16"])
    for name, given in (("morning_peak.csv", TOP / "examples" / "morning_peak.csv"), ("largest", largest)):
        for words in ("solve --nodes 0",) if bench.quick else ("solve --nodes 0", "solve --nodes 1"):
            bench.measure("solve", name, given, words)


def depot_suite(bench: Bench) -> None:
    """Instances by the rule of the field's papers."""
    drawn = [(200, 4, 1), *((200, 8, seed) for seed in range(1, 6)), (500, 4, 1), (500, 8, 1)]
    for trips, depots, seed in [(30, 4, 1)] if bench.quick else drawn:
        numbers = [str(trips), str(depots), str(seed)]
        class_of(bench, f"{trips} trips, {depots} depots, draw {seed}", ["bench/carpaneto.py", *numbers])


def city_suite(bench: Bench) -> None:
    """Cities."""
    for trips in [150] if bench.quick else [250, 600, 1500]:
        class_of(bench, f"city {trips}", ["bench/city.py", str(trips)])


def class_of(bench: Bench, name: str, command: list[str]) -> None:
    """Measures the instance that a command writes, with no node, one node and the default budget, and CBC."""
    made = bench.make(name, command)
    for words in ("solve --nodes 0", "solve --nodes 1", "solve"):
        bench.measure("classes", name, made, words)
    bench.cbc("classes", name, made)


def root_suite(bench: Bench) -> None:
    """The root alone, on instances by whose draws no constant of it was tuned; of cities, with 6 to 16 layers."""
    drawn = [(trips, depots, seed) for trips in (200, 300, 400) for depots in (4, 6, 8) for seed in (31, 32)]
    drawn += [(500, depots, seed) for depots in (4, 8) for seed in (31, 32)]
    cities = [(200, 41, 3, 2), (500, 42, 3, 2), (400, 43, 3, 3), (800, 44, 3, 3), (1000, 45, 3, 4), (1200, 46, 3, 4)]
    cities += [(1500, seed, 3, 4) for seed in (41, 42, 43)] + [(2000, seed, 4, 4) for seed in (41, 42, 43)]
    cities += [(2000, seed, 3, 4, 3) for seed in (41, 42, 43)]
    if bench.quick:
        drawn, cities = [(30, 6, 31)], [(150, 41, 3, 2)]
    named = [("{} trips, {} depots, draw {}".format(*numbers), ["carpaneto.py", *map(str, numbers)])
             for numbers in drawn]
    named += [("city " + " ".join(map(str, numbers)), ["city.py", *map(str, numbers)]) for numbers in cities]
    for name, (script, *words_of) in named:
        made = bench.make(f"root {name}", [f"bench/{script}", *words_of])
        bench.measure("root", name, made, "solve --nodes 1")


def progress_suite(bench: Bench) -> None:
    """The gap over time: the same instances with more and more nodes."""
    made = bench.make("progress", [bench.program, "make", "30" if bench.quick else "300"])
    name = "make 30" if bench.quick else "make 300"
    for nodes in (1, 2) if bench.quick else (1, 2, 5, 10, 20, 50, 100, 200):
        bench.measure("progress", name, made, f"solve --nodes {nodes}")
    bench.cbc("progress", name, made)


def root_worker_suite(bench: Bench) -> None:
    """Roots whose work one to four threads share, five times each: of many trips, of many depots, of many layers."""
    kinds = {
        "make 2000": [bench.program, "make", "2000"],
        "500 trips, 8 depots": ["bench/carpaneto.py", "500", "8", "1"],
        "city 1500, 12 layers": ["bench/city.py", "1500", "1", "3", "4"],
    }
    if bench.quick:
        kinds = {"30 trips, 6 depots": ["bench/carpaneto.py", "30", "6", "31"]}
    for name, command in kinds.items():
        made = bench.make(name, command)
        for count in (1, 2, 3, 4):
            bench.measure("root workers", name, made, "solve --nodes 1", count, least=1 if bench.quick else 5)


def worker_suite(bench: Bench) -> None:
    """The same search by more and more workers. At four sizes one node by four."""
    name = "make 40" if bench.quick else "make 1000"
    made = bench.make(name, [bench.program, *name.split()])
    nodes = 10 if bench.quick else 200
    workers = [count for count in (1, 2, 4, 8, 16) if count <= (os.cpu_count() or 1)]
    bench.measure("workers", name, made, "solve --nodes 1")
    for count in workers:
        bench.measure("workers", name, made, f"solve --nodes {nodes}", count)
    for trips in [20, 40] if bench.quick else [100, 300, 1000, 2000]:
        made = bench.make(f"make {trips}", [bench.program, "make", str(trips)])
        bench.measure("solve", f"make {trips}", made, "solve --nodes 1", 4)


def command_suite(bench: Bench) -> None:
    """The commands that don't search, on the largest timetables of either kind."""
    largest = ["bench/largest_instance.sh", "1" if bench.quick else "16"]
    for name, command in (("make 60" if bench.quick else "make 2000", None), ("largest", largest)):
        made = bench.make(name, command or [bench.program, *name.split()])
        document = bench.measure("commands", name, made, "solve --nodes 0")
        shutil.copy(bench.both(made, document), bench.file(f"{name} both"))
        for words in ("check", "blocks"):
            bench.measure("commands", name, bench.file(f"{name} both"), words)
        bench.measure("commands", name, made, "network")
        peaks = bench.measure("commands", name, made, "peak")
        shutil.copy(bench.both(made, peaks), bench.file(f"{name} peaks"))
        bench.measure("commands", name, bench.file(f"{name} peaks"), "peakcheck")
    if not bench.quick:
        one = bench.make("largest, 1 layer", ["bench/largest_instance.sh", "1"])
        bench.measure("commands", "largest, 1 layer", one, "network")
        deep = bench.make("deepest tree", ["bench/many_tables.sh", "1", "deep"])
        bench.measure("commands", "deepest tree", deep, "check")
    tables = bench.make("many tables", ["bench/many_tables.sh", "2" if bench.quick else "94"])
    for words in ("blocks", "check", "resume --nodes 0"):
        bench.measure("commands", "many tables", tables, words)


def carried_suite(bench: Bench) -> None:
    """A search in two runs, a trace and its replay, and a version with rests."""
    size, first, more = ("30", 2, 3) if bench.quick else ("300", 20, 180)
    made = bench.make(f"make {size}", [bench.program, "make", size])
    document = bench.measure("carried", f"make {size}", made, f"solve --nodes {first}")
    shutil.copy(bench.both(made, document), bench.file("resumed"))
    bench.measure("carried", f"make {size}", bench.file("resumed"), f"resume --nodes {more}")
    bench.measure("carried", f"make {size}", made, f"solve --nodes {first + more}")
    size = "40" if bench.quick else "1000"
    made = bench.make(f"make {size}", [bench.program, "make", size])
    trace = bench.measure("carried", f"make {size}", made, "trace")
    shutil.copy(bench.both(made, trace), bench.file("traced"))
    bench.measure("carried", f"make {size}", bench.file("traced"), "replay")
    size = "60" if bench.quick else "2000"
    made = bench.make(f"make {size}", [bench.program, "make", size])
    rests = bench.file(f"make {size} with rests")
    rests.write_text("".join(with_stay(line) for line in made.read_text().splitlines(keepends=True)))
    for words in ("solve --nodes 1", "network"):
        bench.measure("carried", f"make {size}, stay 30", rests, words)


def infeasible_suite(bench: Bench) -> None:
    """Timetables without a plan: too few vehicles, and a trip that no vehicle can reach."""
    peak = bench.file("few vehicles")
    peak.write_text("".join(with_one_vehicle(line) for line in open(TOP / "examples" / "morning_peak.csv")))
    bench.measure("infeasible", "morning_peak.csv, one vehicle a layer", peak, "solve --nodes 1")
    size = "60" if bench.quick else "2000"
    early = bench.make("early trip", [bench.program, "make", size])
    with open(early, "a", encoding="ascii") as file:
        file.write("trip,Early,S12,00:01,S1,00:41,12500,L1\n")
    # one trip less, where a timetable has as many as it may have
    early.write_text("".join(line for line in open(early) if not line.startswith(f"trip,T{size},")))
    bench.measure("infeasible", f"make {size}, a trip at 0:01", early, "solve --nodes 1")


def with_one_vehicle(line: str) -> str:
    """Returns a row in which a layer has one vehicle."""
    fields_of = line.split(",")
    return ",".join([*fields_of[:3], "1", *fields_of[4:]]) if fields_of[0] == "layer" else line


def with_stay(line: str) -> str:
    """Returns a row of version 1 as one of version 2, in which vehicles rest for 30 minutes or longer."""
    if line.startswith("instance,1"):
        return "instance,2\n"
    return line.rstrip("\n") + ",30\n" if line.startswith("layer,") else line


# The longest come first, so that several side by side end at about the same time.
SUITES = [
    depot_suite, root_suite, solve_suite, city_suite, progress_suite, command_suite, carried_suite, infeasible_suite,
]

# These need several processors.
CROWDED = [worker_suite, root_worker_suite]


def measure_suite(number: int, bench: Bench) -> list[Run]:
    """Returns the runs of a suite, made in a folder of its own."""
    suite = [*SUITES, *CROWDED][number]
    with tempfile.TemporaryDirectory(prefix="mdvsp-bench-") as folder:
        own = replace(bench, folder=Path(folder), runs=[])
        suite(own)
    return own.runs


def take_processor(free: multiprocessing.queues.Queue[int]) -> None:
    """Keeps this process, and what it starts, to one processor."""
    os.sched_setaffinity(0, {free.get()})


def measure_all(bench: Bench, at_once: int) -> list[Run]:
    """Returns the runs of all suites: several side by side or in turn, and the crowded ones last."""
    free: multiprocessing.queues.Queue[int] = multiprocessing.Queue()
    for processor in sorted(os.sched_getaffinity(0)):
        free.put(processor)
    own = take_processor if at_once > 1 else None
    with ProcessPoolExecutor(at_once, initializer=own, initargs=(free,) if own else ()) as pool:
        found = list(pool.map(measure_suite, range(len(SUITES)), [bench] * len(SUITES)))
    found += [measure_suite(len(SUITES) + k, bench) for k in range(len(CROWDED))]
    return [run for runs in found for run in runs]


def first_line(command: list[str]) -> str:
    """Returns the first line that a command prints, or `none` where it can't be run."""
    if not shutil.which(command[0]) and not os.access(command[0], os.X_OK):
        return "none"
    return subprocess.run(command, capture_output=True, text=True, check=False).stdout.strip().split("\n")[0] or "none"


def about(bench: Bench, day: str) -> list[tuple[str, str]]:
    """Returns what the runs were made with: program, toolchain, processor and CBC."""
    cpu = re.search(r"^model name\s*: (.*)$", Path("/proc/cpuinfo").read_text(), re.M)
    found = subprocess.run(["cbc", "quit"], capture_output=True, text=True).stdout if shutil.which("cbc") else ""
    cbc = re.search(r"^Version: *(\S+)", found, re.M)
    return [
        ("host", platform.node()),
        ("date", day),
        ("program", first_line([bench.program, "--version"])),
        ("toolchain", first_line(["rt", "version"])),
        ("processor", cpu[1] if cpu else platform.machine()),
        ("processors", str(os.cpu_count())),
        ("cbc", f"{cbc[1]}, at most {bench.cbc_seconds} s" if cbc else "none"),
        ("instances", "small, once each" if bench.quick else "all"),
    ]


def write(path: Path, facts: list[tuple[str, str]], runs: list[Run]) -> None:
    """Writes the facts and the runs."""
    path.parent.mkdir(parents=True, exist_ok=True)
    with open(path, "w", encoding="utf-8", newline="") as file:
        rows = csv.writer(file, lineterminator="\n")
        rows.writerows(("about", *fact) for fact in facts)
        rows.writerow(["run", *(part.name for part in fields(Run))])
        for run in runs:
            values = asdict(run).values()
            rows.writerow(["run", *(f"{value:.3f}" if isinstance(value, float) else value for value in values)])


def main() -> int:
    words = argparse.ArgumentParser(description="Measures what docs/benchmarks.md shows.")
    words.add_argument("--program", default=str(TOP / "bin" / "mdvsp"))
    words.add_argument("--out", type=Path)
    words.add_argument("--cbc-seconds", type=int, default=150)
    words.add_argument("--at-once", type=int, default=1)
    words.add_argument("--quick", action="store_true")
    given = words.parse_args()
    day = datetime.date.today().isoformat()
    bench = Bench(os.path.abspath(given.program), Path(os.devnull), given.cbc_seconds, given.quick)
    bench.runs = measure_all(bench, given.at_once)
    out = given.out or TOP / "bench" / "results" / f"{platform.node()}-{day}.csv"
    write(out, about(bench, day), bench.runs)
    print(f"bench: {len(bench.runs)} runs in {out}")
    wrong = [run for run in bench.runs if run.audit not in ("", "yes") or run.status not in DONE]
    for run in wrong:
        print(f"bench: {run.instance}, {run.what}: status {run.status}, the audit says {run.audit or 'nothing'}")
    return 1 if wrong else 0


if __name__ == "__main__":
    sys.exit(main())
