#!/usr/bin/env python3
"""Compares bin/mdvsp-quick with the proved program, byte for byte: what they write, and how they end.

    tests/quick.py [PROGRAM [QUICK]]

PROGRAM is the proved program, bin/mdvsp or what the gate built where it isn't given. QUICK is what `make quick` builds;
where it isn't given, it is built into a folder that is removed again. Where `rustc` isn't there or too old, the script
says so, and ends with 0. Both programs run

- every case of tests/cases. A search by several workers may come out in several ways. So where its two runs differ,
  the one of QUICK has to come out as the case says,
- and every text that tools/test_second_check.py judges, by `check` or `peakcheck`.

It ends with 1 where they differ.
"""

from __future__ import annotations

import concurrent.futures
import os
import subprocess
import sys
import tempfile
from pathlib import Path
from typing import Any, Iterator

# What Python compiles isn't kept beside the sources.
sys.dont_write_bytecode = True
TOP = Path(__file__).resolve().parent.parent
sys.path[:0] = [str(TOP / "tests"), str(TOP / "tools")]

import run_cases
import test_second_check

SECONDS = 120
# Commands that search by so many workers as they are given, four where they aren't.
SEARCHES = ("solve", "trace", "resume")
# Differences beyond so many are counted and not printed.
MOST_PRINTED = 20
# The proved program and mdvsp-quick.
Programs = "tuple[run_cases.Program, run_cases.Program]"


class Texts(test_second_check.Comparison):
    """Takes what test_second_check.py would judge: which command, which bytes, and what the text is called."""

    def __init__(self, program: str):
        super().__init__(program)
        self.taken: list[tuple[str, list[str], bytes]] = []
        self.third = self

    def judge(self, command: Any, data: bytes) -> tuple[str, None]:
        """Judges nothing: a text is only taken."""
        return "", None

    def tell(self, difference: str) -> None:
        """Has nothing to say of what isn't judged."""

    def compare(self, name: str, text: str) -> str:
        self.taken.append((name, ["check"], text.encode("utf-8", "surrogateescape")))
        return ""

    def compare_peaks(self, name: str, text: str) -> None:
        self.taken.append((name, ["peakcheck"], text.encode("utf-8", "surrogateescape")))

    def compare_run(self, name: str, text: str) -> None:
        self.compare(name, text)

    def compare_known(self, name: str, text: str, row: str) -> None:
        self.compare(name, text)

    def compare_files(self, name: str, timetable: str, plan: str) -> None:
        self.compare(name, f"{timetable}\n{plan}")

    def expect(self, name: str, words: list[str], wanted: Any) -> None:
        """Arguments of the second checker are none of the program's."""


def is_settled(arguments: list[str]) -> bool:
    """Returns whether a run of these arguments can come out in one way only."""
    return not set(SEARCHES) & set(arguments[:1]) or ("--workers", "1") in zip(arguments, arguments[1:])


def case_fault(programs: Programs, case: run_cases.Case, arguments: list[str]) -> str:
    """Returns in what the two programs differ on a run of a case."""
    proved, quick = (program.run(arguments, case.given, case.folder) for program in programs)
    if proved == quick:
        return ""
    if is_settled(arguments):
        return f"{case.name}: {' '.join(arguments)}: {proved} and {quick}"
    wrong = list(run_cases.faults(programs[1], case, quick))
    return f"{case.name}: {' '.join(arguments)}: {wrong}" if wrong else ""


def text_fault(programs: Programs, name: str, arguments: list[str], text: bytes) -> str:
    """Returns in what the two programs differ on a text."""
    proved, quick = (program.run(arguments, text) for program in programs)
    return "" if proved == quick else f"{name}: {arguments}: {proved} and {quick}"


def differences(program: str, quick: str) -> Iterator[tuple[str, str]]:
    """Yields each run, by whether a case or a text is run, and the difference or nothing."""
    programs = run_cases.Program(program, SECONDS), run_cases.Program(quick, SECONDS)
    cases = [run_cases.loaded(folder) for folder in run_cases.folders([])]
    texts = Texts(program)
    test_second_check.compare_all(texts)
    with concurrent.futures.ThreadPoolExecutor(os.cpu_count()) as pool:
        runs = [(case, run) for case in cases for run in case.runs]
        for fault in pool.map(lambda it: case_fault(programs, *it), runs):
            yield "runs of cases", fault
        for fault in pool.map(lambda it: text_fault(programs, *it), texts.taken):
            yield "texts", fault


def compared(program: str, quick: str) -> int:
    """Compares two programs, prints where they differ and how often, and returns the status."""
    counts: dict[str, int] = {}
    wrong = 0
    for kind, fault in differences(program, quick):
        counts[kind] = counts.get(kind, 0) + 1
        wrong += bool(fault)
        if fault and wrong <= MOST_PRINTED:
            print(f"quick: they differ: {fault}"[:1000])
    print(f"quick: {', '.join(f'{count} {kind}' for kind, count in counts.items())}, {wrong} differences")
    return 1 if wrong else 0


def main() -> int:
    program = run_cases.program_of(sys.argv[1] if len(sys.argv) > 1 else None)
    if len(sys.argv) > 2:
        return compared(program, os.path.abspath(sys.argv[2]))
    build = TOP / "bench" / "quick.sh"
    if subprocess.run([build, "--can"], check=False).returncode != 0:
        print("quick: so mdvsp-quick is not built and not compared: skipped")
        return 0
    with tempfile.TemporaryDirectory() as folder:
        quick = os.path.join(folder, "mdvsp-quick")
        subprocess.run([build, quick], check=True)
        return compared(program, quick)


if __name__ == "__main__":
    sys.exit(main())
