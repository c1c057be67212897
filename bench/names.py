#!/usr/bin/env python3
"""Times how long `mdvsp check` takes to read names that collide, and large inputs.

For who changes how the reader numbers names: it shows what a stranger can gain by choosing them.

    bench/names.py PROGRAM [OTHER]

PROGRAM is a built mdvsp. The names are made by bench/names/colliding.rs, which needs rustc and takes some 20
seconds: they collide under the standard library's hasher without a salt. Each instance with such names is read
alternately with the same instance with other names, and the ratio of the CPU times is printed. A large instance and
a large document are read as well; where OTHER is given, another mdvsp, the two programs read them alternately, and
their ratio is printed. Nothing is asserted.
"""

import random
import resource
import statistics
import subprocess
import sys
import tempfile
from pathlib import Path
from typing import Iterable, Iterator, List, Tuple

HERE = Path(__file__).resolve().parent
RUNS = 9
TRIPS = 2000
STOPS = 500
LAYERS = 16
TABLES = 94

# A program and what it reads.
Run = Tuple[str, bytes]


def colliding_names(work: Path) -> List[Tuple[str, str]]:
    """Names that collide, each with one that doesn't."""
    program = work / "colliding"
    subprocess.run(["rustc", "--edition", "2024", "-O", HERE / "names/colliding.rs", "-o", program], check=True)
    rows = subprocess.run([program, str(TRIPS)], check=True, capture_output=True, text=True).stdout
    pairs = [row.split(",") for row in rows.splitlines()]
    return [(pair[0], pair[1]) for pair in pairs]


def text_of(rows: Iterable[str]) -> bytes:
    return "".join(row + "\n" for row in rows).encode()


def clock(minute: int) -> str:
    return f"{minute // 60}:{minute % 60:02d}"


def trips(names: Iterable[str], stop: str, layers: str) -> Iterator[str]:
    """Trips of nine minutes that start and end at one stop."""
    for number, name in enumerate(names):
        start = 300 + number * 7 % 1080
        yield f"trip,{name},{stop},{clock(start)},{stop},{clock(start + 9)},1000,{layers}"


def named_trips(names: List[str]) -> bytes:
    """An instance whose trips have these names."""
    return text_of(["instance,1", "stop,S", "layer,L,S,2000,50000,10,1", *trips(names, "S", "L")])


def named_stops(names: List[str], shuffled: bool) -> bytes:
    """An instance whose stops have these names, with all deadheads, row by row or shuffled."""
    ways = [f"deadhead,{start},{end},10,100" for start in names for end in names if start != end]
    if shuffled:
        random.Random(1).shuffle(ways)
    stops = [f"stop,{name}" for name in names]
    layer = f"layer,L,{names[0]},2000,50000,10,1"
    return text_of(["instance,1", *stops, *ways, layer, *trips(["T"], names[0], "L")])


def document_of_prices() -> bytes:
    """An instance and a document with tables of zeros, in all some 3,000,000 prices."""
    layers = [f"L{number}" for number in range(LAYERS)]
    names = [f"T{number}" for number in range(TRIPS)]
    rows = ["instance,1", "stop,S"]
    rows += [f"layer,{layer},S,2000,50000,10,1" for layer in layers]
    rows += trips(names, "S", ",".join(layers))
    rows += ["result,1,open", "cost,none", "bound,0", f"nodes,{TABLES - 1}"]
    for table in range(1, TABLES + 1):
        rows.append(f"table,{table},cost")
        for layer in layers:
            rows.append(f"fleet,{layer},0")
            rows += [f"price,{layer},{name},0,0" for name in names]
    for table in range(1, TABLES):
        rows += [f"split,T{table},L0", f"leaf,{table}"]
    rows += [f"leaf,{TABLES}", "end"]
    return text_of(rows)


def seconds_of(run: Run) -> float:
    """The CPU time of `check` on these bytes."""
    program, text = run
    before = resource.getrusage(resource.RUSAGE_CHILDREN)
    subprocess.run([program, "check"], input=text, stdout=subprocess.DEVNULL, check=False)
    after = resource.getrusage(resource.RUSAGE_CHILDREN)
    return after.ru_utime + after.ru_stime - before.ru_utime - before.ru_stime


def medians(runs: List[Run]) -> List[float]:
    """The medians of the CPU times of some runs, made alternately."""
    rounds = [[seconds_of(run) for run in runs] for _ in range(RUNS)]
    return [statistics.median(times) for times in zip(*rounds)]


def answer_of(run: Run) -> str:
    """What `check` prints: where an instance is read whole and no document stands behind it, that there is none."""
    program, text = run
    return subprocess.run([program, "check"], input=text, capture_output=True, check=False).stdout.decode().strip()


def print_head(what: str, first: str, second: str) -> None:
    print(f"| {what} | answer | {first}, s | {second}, s | ratio |")
    print("|---|---|---:|---:|---:|")


def print_row(what: str, runs: List[Run]) -> None:
    """Prints the median of the first run, and where there are two that of the second, and their ratio."""
    first, *second = medians(runs)
    others = f"{second[0]:.4f} | {first / second[0]:.2f}" if second else "|"
    print(f"| {what} | {answer_of(runs[0])} | {first:.4f} | {others} |", flush=True)


def main() -> None:
    programs = sys.argv[1:3]
    if not programs:
        sys.exit("bench/names.py PROGRAM [OTHER]")
    with tempfile.TemporaryDirectory() as work:
        pairs = colliding_names(Path(work))
    collide = [pair[0] for pair in pairs]
    others = [pair[1] for pair in pairs]

    print_head("names", "names that collide", "other names")
    print_row("2,000 trips", [(programs[0], named_trips(names)) for names in (collide, others)])
    print_row(
        "500 stops, 249,500 deadheads in any order",
        [(programs[0], named_stops(names[:STOPS], True)) for names in (collide, others)],
    )

    print_head("large inputs", "PROGRAM", "OTHER")
    deadheads = named_stops([f"S{number}" for number in range(STOPS)], False)
    print_row("249,500 deadheads in order", [(program, deadheads) for program in programs])
    prices = document_of_prices()
    print_row("a document of 3,008,000 prices", [(program, prices) for program in programs])


if __name__ == "__main__":
    main()
