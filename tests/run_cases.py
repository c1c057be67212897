#!/usr/bin/env python3
"""Runs the built program on the cases that are stored in tests/cases, and prints what comes out otherwise.

    tests/run_cases.py [--seconds N] [PROGRAM [CASE..]]

PROGRAM is bin/mdvsp, or what the gate built, where it isn't given. A CASE is a folder of tests/cases, such as
`check/a_ray` or `replay`; where none is given, all cases are run. They run side by side on all processors, and a run is
given up after 120 seconds, or N. A case is a folder with these files:

    args      the arguments, one a line. Behind an empty line stand those of a further run on the same input, which has
              to come out the same way. Arguments that stand twice have to write the same bytes both times
    input     what the program reads. Where the file is missing, the program must read nothing
    status    the exit status. Where there are several lines, any of them
    output    all that the program has to write. In its place any of the next three:
    begins    how that has to begin
    ends      how it has to end
    lines     how many lines it has to have
    verdict   the row, or its first fields, by which the document that was written is judged behind the input: by
              `peakcheck` where it is a text of peaks, else by `check`. A trace is replayed first, and its document judged
    records   what the document is judged behind, where that isn't the input

    errors    all that has to stand on standard error
    *.csv     files that the arguments name. The program runs in the case's folder

Where `errors` is missing, nothing may stand on standard error at status 0 or 11. At 1 and 3 a line has to stand there,
at 2 two lines, the usage and what was refused, and otherwise a line may. The last line says how many runs passed and
failed, and the status is 1 where one failed or a folder is no case.
"""

from __future__ import annotations

import argparse
import concurrent.futures
import difflib
import os
import subprocess
import sys
import tempfile
from dataclasses import dataclass
from pathlib import Path
from typing import Iterable, Iterator, Optional

TOP = Path(__file__).resolve().parent.parent
CASES = TOP / "tests" / "cases"
BUILT = ("bin/mdvsp", "crates/mdvsp_main/out/mdvsp_main")
# How many lines may stand on standard error, by the status, where the case doesn't say; otherwise none or one.
SAID = {0: (0,), 1: (1,), 2: (2,), 3: (1,), 11: (0,)}
# So many lines of a difference are shown.
SHOWN = 20
# What the program finds on standard input where it must read nothing.
LEFT = b"left\n"

PARTS = ("begins", "ends", "lines")
WANTED = ("output", *PARTS, "verdict")
FILES = {"args", "input", "status", "records", "errors", *WANTED}


@dataclass(frozen=True)
class Case:
    """A case: its name, the arguments of its runs, its input, and what has to come out, by the names of the files."""

    name: str
    folder: Path
    runs: list[list[str]]
    given: Optional[bytes]
    statuses: list[int]
    records: bytes
    errors: Optional[bytes]
    wanted: dict[str, bytes]


@dataclass(frozen=True)
class Program:
    """The program that is tried, and after how many seconds a run of it is given up."""

    path: str
    seconds: int

    def run(self, arguments: list[str], given: Optional[bytes], folder: Optional[Path] = None) -> Ended:
        """Runs it on an input, or on one that it must not read, in a folder."""
        with tempfile.TemporaryFile(buffering=0) as source:
            source.write(LEFT if given is None else given)
            source.seek(0)
            command = [self.path, *arguments]
            done = subprocess.run(command, stdin=source, capture_output=True, timeout=self.seconds, cwd=folder)
            return Ended(done.returncode, done.stdout, done.stderr, os.lseek(source.fileno(), 0, os.SEEK_CUR))


@dataclass(frozen=True)
class Ended:
    """How a run of the program ended, what it wrote, and how many bytes it read."""

    status: int
    written: bytes
    errors: bytes
    read: int


@dataclass(frozen=True)
class Tried:
    """A run of a case, what it wrote, and what was wrong with it."""

    case: Case
    arguments: list[str]
    written: bytes
    faults: list[str]


class NoCase(Exception):
    """A folder that isn't a case, and why."""


def loaded(folder: Path) -> Case:
    """Returns the case of a folder."""
    name = folder.relative_to(CASES).as_posix()
    files = {path.name: path.read_bytes() for path in folder.iterdir()}
    wanted = {part: files[part] for part in WANTED if part in files}
    unknown = sorted(name for name in set(files) - FILES if not name.endswith(".csv"))
    if unknown:
        raise NoCase(f"{name}: no file of a case is called {', '.join(unknown)}")
    if "args" not in files or "status" not in files or not wanted:
        raise NoCase(f"{name}: it doesn't say what is run and what has to come out")
    if "output" in wanted and any(part in wanted for part in PARTS):
        raise NoCase(f"{name}: what is written is said whole and in parts")
    runs = [run.splitlines() for run in files["args"].decode("utf-8").split("\n\n")]
    statuses = [int(line) for line in files["status"].split()]
    given = files.get("input")
    records = files.get("records", given or b"")
    return Case(name, folder, runs, given, statuses, records, files.get("errors"), wanted)


def folders(names: list[str]) -> Iterator[Path]:
    """Yields the folders of the cases that are named, or of all."""
    for name in names or ["."]:
        found = {path.parent for path in (CASES / name).rglob("*") if path.is_file()}
        if not found:
            raise NoCase(f"{name}: tests/cases has no such case")
        yield from sorted(found)


def difference(wanted: bytes, written: bytes) -> str:
    """Returns the lines in which two texts differ, as far as they are shown."""
    texts = [text.decode("utf-8", "backslashreplace").splitlines(keepends=True) for text in (wanted, written)]
    lines = list(difflib.unified_diff(*texts, "wanted", "written", n=1))
    shown = [f"    {line!r}"[:160] for line in lines[:SHOWN]]
    return "\n".join([*shown, *(["    .."] if len(lines) > SHOWN else [])])


def output_faults(wanted: dict[str, bytes], written: bytes) -> Iterator[str]:
    """Yields what is wrong with what was written."""
    if "output" in wanted and written != wanted["output"]:
        yield "it wrote something else\n" + difference(wanted["output"], written)
    if not written.startswith(wanted.get("begins", b"")):
        head = b"".join(written.splitlines(keepends=True)[: wanted["begins"].count(b"\n") + 1])
        yield "what it wrote begins otherwise\n" + difference(wanted["begins"], head)
    if not written.endswith(wanted.get("ends", b"")):
        yield "what it wrote ends otherwise\n" + difference(wanted["ends"], written[-len(wanted["ends"]) :])
    if "lines" in wanted and written.count(b"\n") != int(wanted["lines"]):
        yield f"it wrote {written.count(10)} lines in place of {int(wanted['lines'])}"


def verdict_faults(program: Program, case: Case, written: bytes) -> Iterator[str]:
    """Yields what is wrong with the verdict on the document that was written."""
    document = written
    if document.startswith(b"result,1,trace\n"):
        replayed = program.run(["replay"], case.records + document)
        document = replayed.written
        if replayed.status != 0:
            yield f"`replay` ends with {replayed.status} and writes {document[:60]!r}"
            return
    judge = "peakcheck" if document.startswith(b"result,1,peak\n") else "check"
    judged = program.run([judge], case.records + document)
    row, wanted = judged.written, case.wanted["verdict"]
    if judged.status != 0 or row.count(b"\n") != 1 or not (row == wanted or row.startswith(wanted.rstrip(b"\n") + b",")):
        yield f"`{judge}` ends with {judged.status} and says {row[:100]!r}, wanted is {wanted!r}"


def errors_faults(case: Case, ended: Ended) -> Iterator[str]:
    """Yields what is wrong with what stands on standard error."""
    if case.errors is not None and ended.errors != case.errors:
        yield "on standard error stands something else\n" + difference(case.errors, ended.errors)
    count, most = ended.errors.count(b"\n"), SAID.get(ended.status, (0, 1))
    if case.errors is None and (count not in most or not ended.errors.endswith(b"\n" if count else b"")):
        yield f"on standard error stands {ended.errors[:200]!r}"


def faults(program: Program, case: Case, ended: Ended) -> Iterator[str]:
    """Yields what is wrong with how a run of a case ended."""
    if ended.status not in case.statuses:
        yield f"status {ended.status} in place of {' or '.join(map(str, case.statuses))}"
    if case.given is None and ended.read:
        yield f"it read {ended.read} bytes, and must read nothing"
    yield from errors_faults(case, ended)
    yield from output_faults(case.wanted, ended.written)
    if "verdict" in case.wanted:
        yield from verdict_faults(program, case, ended.written)


def tried(program: Program, case: Case, arguments: list[str]) -> Tried:
    """Makes a run of a case."""
    try:
        ended = program.run(arguments, case.given, case.folder)
        return Tried(case, arguments, ended.written, list(faults(program, case, ended)))
    except subprocess.TimeoutExpired:
        return Tried(case, arguments, b"", [f"a run of it was given up after {program.seconds} seconds"])


def compared(runs: Iterable[Tried]) -> Iterator[tuple[Tried, list[str]]]:
    """Yields each run and its faults, with what it wrote compared with what equal arguments of its case wrote."""
    first: dict[tuple[str, ...], bytes] = {}
    for run in runs:
        before = first.setdefault((run.case.name, *run.arguments), run.written)
        differs = ["at a further run it wrote other bytes\n" + difference(before, run.written)]
        yield run, run.faults + (differs if before != run.written else [])


def program_of(named: Optional[str]) -> str:
    """Returns the path of the program that is named, or that was built."""
    for path in [named] if named else [str(TOP / built) for built in BUILT]:
        if os.access(path, os.X_OK):
            return os.path.abspath(path)
    sys.exit("run_cases: no program is built: `make` builds bin/mdvsp")


def counted(program: Program, cases: list[Case]) -> tuple[int, int]:
    """Runs cases, prints what is wrong, and returns how many runs passed and how many failed."""
    passed = failed = 0
    # The largest inputs first, so that no processor is left with a long run at the end.
    runs = [(case, run) for case in sorted(cases, key=lambda it: -len(it.given or b"")) for run in case.runs]
    with concurrent.futures.ThreadPoolExecutor(os.cpu_count()) as pool:
        for run, wrong in compared(pool.map(lambda it: tried(program, *it), runs)):
            passed, failed = passed + (not wrong), failed + bool(wrong)
            for fault in wrong:
                print(f"{run.case.name}: {' '.join(run.arguments)}: {fault}")
    return passed, failed


def main() -> int:
    parser = argparse.ArgumentParser(description="Runs the built program on the cases of tests/cases.")
    parser.add_argument("--seconds", type=int, default=120, metavar="N", help="give a run up after so many (120)")
    parser.add_argument("program", nargs="?", metavar="PROGRAM", help="the program, bin/mdvsp or what the gate built")
    parser.add_argument("cases", nargs="*", metavar="CASE", help="folders of tests/cases, all where none is given")
    words = parser.parse_args()
    try:
        cases = [loaded(folder) for folder in folders(words.cases)]
    except NoCase as error:
        print(f"run_cases: {error}")
        return 1
    passed, failed = counted(Program(program_of(words.program), words.seconds), cases)
    print(f"run_cases: {len(cases)} cases: {passed} passed, {failed} failed")
    return 1 if failed else 0


if __name__ == "__main__":
    sys.exit(main())
