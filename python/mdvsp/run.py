"""Calls the program `mdvsp`: solve, resume, check, peak and blocks, with its statuses as exceptions.

The program is the one that is named, else the one of the environment variable MDVSP, else `bin/mdvsp` in the checkout
of this package, else `mdvsp` on the PATH.
"""

from __future__ import annotations

import os
import shutil
import subprocess
from dataclasses import dataclass, field
from typing import Dict, List, Optional, Sequence, Tuple

from . import plan as plans
from .errors import PlanError
from .flaws import flaw_words
from .plan import Block, Plan
from .timetable import Timetable

# The statuses with which a run ends that isn't refused: done, no plan, and the nodes ran out.
SETTLED, NO_PLAN, OPEN = 0, 10, 11

REFUSALS = {
    1: "the first record is none of instance,1, instance,2 and instance,3",
    2: "a record of an unknown kind",
    3: "a record with more or fewer fields than its kind has",
    4: "a name with other signs than those allowed",
    5: "a name that was declared before",
    6: "a name that no earlier record declares",
    7: "a number that isn't 1 to 10 digits",
    8: "a time that isn't one",
    9: "one stop, layer or trip too many",
    10: "a record outside its range, rates too dear for so many trips, or drives that aren't closed",
    20: "there is no record `result`",
    21: "a record that no document has",
    22: "a record where another one has to come",
    23: "a table of another number than the next",
    24: "the document ends without its record `end`",
    25: "a record behind `end`",
    26: "a price outside its range",
    40: "so many nodes are too many for a timetable of this size",
}

class RunError(PlanError):
    """The program didn't do what it was asked; `program_status` is the one with which it ended."""

    status = 6

    def __init__(self, words: str, program_status: Optional[int] = None):
        super().__init__(words)
        self.program_status = program_status


class ProgramMissing(RunError):
    """There is no program `mdvsp`."""


class DoesNotHold(RunError):
    """Status 1: the document doesn't hold. `flaw` has the fields behind `no`."""

    status = 1

    def __init__(self, row: List[str]):
        self.flaw = row[1:]
        super().__init__(f"the document doesn't hold: {flaw_words(self.flaw)}", 1)


class WrongArguments(RunError):
    """Status 2: the program doesn't know one of its arguments."""


class Refused(RunError):
    """Status 3: the input is refused at a record, for a reason with a number and a name."""

    status = 3

    def __init__(self, row: List[str]):
        self.record, self.number, self.name, self.more = int(row[1]), int(row[2]), row[3], row[4:]
        place = f"record {self.record}" if self.record else "the whole"
        why = REFUSALS.get(self.number, "docs/formats.md says why")
        super().__init__(f"refused at {place}: {why} ({','.join(row[2:])})", 3)


class ReadingFailed(RunError):
    """Status 4."""


class WritingFailed(RunError):
    """Status 5."""


class OutOfMemory(RunError):
    """Status 6."""


class TooLong(RunError):
    """Status 7: the input is longer than the limit."""


@dataclass(frozen=True)
class Verdict:
    """What `mdvsp check` answers: its row, and the words for that."""

    holds: bool
    row: Tuple[str, ...]
    words: str


@dataclass
class Peak:
    """How few vehicles a layer needs for all that it may run, with blocks that do; None where no number is enough."""

    vehicles: Optional[int]
    blocks: List[Block] = field(default_factory=list)


# --- The program -----------------------------------------------------------------------------------------------------


def find_program(given: Optional[str] = None) -> str:
    """Returns the path of the program."""
    named = given or os.environ.get("MDVSP")
    if named:
        if not is_program(named):
            raise ProgramMissing(f"{named} is no program that can be run")
        return named
    checkout = os.path.dirname(os.path.dirname(os.path.dirname(os.path.abspath(__file__))))
    built = os.path.join(checkout, "bin", "mdvsp")
    found = built if is_program(built) else shutil.which("mdvsp")
    if found is None:
        raise ProgramMissing("there is no program mdvsp: name one with --program, or by the environment variable MDVSP")
    return found


def is_program(path: str) -> bool:
    return os.path.isfile(path) and os.access(path, os.X_OK)


def call(words: Sequence[str], text: str, program: Optional[str] = None) -> Tuple[int, str]:
    """Runs the program on a text; returns its status and what it writes, or raises what its status stands for."""
    path = find_program(program)
    try:
        done = subprocess.run([path, *words], input=text.encode(), stdout=subprocess.PIPE, stderr=subprocess.PIPE,
                              check=False)
    except OSError as error:
        raise ProgramMissing(f"{path}: {error.strerror}") from error
    written = done.stdout.decode("utf-8", "replace")
    raise_for(done.returncode, written, done.stderr.decode("utf-8", "replace"))
    return done.returncode, written


def raise_for(status: int, written: str, said: str) -> None:
    """Raises what a status stands for, where it isn't one of those that come with an answer."""
    row = written.splitlines()[0].split(",") if written else []
    if status in (SETTLED, NO_PLAN, OPEN):
        return
    if status == 1 and row[:1] == ["no"] and len(row) > 1:
        raise DoesNotHold(row)
    if status == 3 and row[:1] == ["refused"] and len(row) > 3:
        raise Refused(row)
    kinds = {2: WrongArguments, 4: ReadingFailed, 5: WritingFailed, 6: OutOfMemory, 7: TooLong}
    words = {
        2: "mdvsp doesn't know its arguments; is it of another version?", 4: "mdvsp couldn't read its input",
        5: "mdvsp couldn't write its output", 6: "mdvsp was out of memory",
        7: "the input is longer than mdvsp takes",
    }
    last = said.strip().splitlines()[-1:] or [f"mdvsp ended with the status {status}"]
    raise kinds.get(status, RunError)(words.get(status, last[0]), status)


def options_of(nodes: Optional[int], workers: Optional[int], seconds: Optional[int], gap: Optional[int]) -> List[str]:
    """Returns the options of a search; ValueError where one is out of its range."""
    words: List[str] = []
    for name, value, least, most in (("nodes", nodes, 0, 100_000), ("workers", workers, 1, 64),
                                     ("seconds", seconds, 1, 86_400), ("gap", gap, 0, 1_000_000)):
        if value is None:
            continue
        if not least <= value <= most:
            raise ValueError(f"{name} is {value}, and has to be {least} to {most}")
        words += [f"--{name}", str(value)]
    return words


# --- The commands of the program -------------------------------------------------------------------------------------


def solve(timetable: Timetable, *, nodes: Optional[int] = None, workers: Optional[int] = None,
          seconds: Optional[int] = None, gap: Optional[int] = None, program: Optional[str] = None) -> Plan:
    """Returns the plan that a search finds, also where it claims that there is none or that it is still open.

    The gap is in parts per million of the cost.
    """
    words = ["solve", *options_of(nodes, workers, seconds, gap)]
    return plans.parse(call(words, timetable.text(), program)[1].encode())


def resume(timetable: Timetable, plan: Plan, *, nodes: Optional[int] = None, workers: Optional[int] = None,
           seconds: Optional[int] = None, gap: Optional[int] = None, program: Optional[str] = None) -> Plan:
    """Returns the plan of a search that goes on from a document; DoesNotHold where that one doesn't hold."""
    words = ["resume", *options_of(nodes, workers, seconds, gap)]
    return plans.parse(call(words, timetable.text() + plan.text(), program)[1].encode())


def check(timetable: Timetable, plan: Plan, *, program: Optional[str] = None) -> Verdict:
    """Returns what `mdvsp check` says of a document, yes or no."""
    try:
        written = call(["check"], timetable.text() + plan.text(), program)[1]
    except DoesNotHold as error:
        return Verdict(False, ("no", *error.flaw), flaw_words(error.flaw, plan))
    row = tuple(written.strip().split(","))
    return Verdict(True, row, "the document holds")


def blocks(timetable: Timetable, plan: Plan, *, program: Optional[str] = None) -> List[List[str]]:
    """Returns the rows of `mdvsp blocks`: vehicles, runs and rests; DoesNotHold where the blocks are no plan."""
    written = call(["blocks"], timetable.text() + plan.text(), program)[1]
    return [line.split(",") for line in written.splitlines()]


def peak(timetable: Timetable, *, program: Optional[str] = None) -> Dict[str, Peak]:
    """Returns for each layer how few vehicles it needs for all that it may run, by its name."""
    peaks: Dict[str, Peak] = {}
    for line in call(["peak"], timetable.text(), program)[1].splitlines():
        kind, *fields = line.split(",")
        if kind == "peak":
            peaks[fields[0]] = Peak(None if fields[1] == "none" else int(fields[1]))
        elif kind == "block":
            peaks[fields[0]].blocks.append(Block(fields[0], tuple(fields[1:])))
    return peaks
