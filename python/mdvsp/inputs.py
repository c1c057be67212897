"""The timetable and the plan that a command is given: two files, or a folder of sheets and a file."""

from __future__ import annotations

import argparse
import os
import re
from dataclasses import dataclass, replace
from typing import Callable, Dict, Optional, Tuple

from . import plan as plans
from . import sheets, side, texts, timetable
from .plan import Plan
from .side import SideFile
from .timetable import Timetable


@dataclass
class Given:
    """What a command is given, with the names and the unit of its side file."""

    timetable_path: str
    timetable: Timetable
    names: SideFile
    plan_path: str = ""
    plan: Optional[Plan] = None


def unit_of(text: str) -> int:
    if not re.fullmatch(r"[0-9]{1,10}", text) or int(text) == 0:
        raise argparse.ArgumentTypeError("a whole number above 0 is wanted")
    return int(text)


def add_timetable(parser: argparse.ArgumentParser) -> None:
    """Adds the arguments that name a timetable and say how its costs and names are printed."""
    parser.add_argument("--unit", type=unit_of, metavar="N", help="so many cost units are printed as 1.00")
    parser.add_argument("--names", metavar="FILE", help="the side file, where it isn't TIMETABLE.names.csv")
    parser.add_argument("timetable", metavar="TIMETABLE", help="the timetable's text, or a folder with its sheets")


def add_program(parser: argparse.ArgumentParser) -> None:
    """Adds the argument that names the program."""
    parser.add_argument("--program", metavar="PATH", help="the program mdvsp; else that of the environment variable "
                        "MDVSP, bin/mdvsp of the checkout, or mdvsp on the PATH")


def between(least: int, most: int) -> Callable[[str], int]:
    """Returns what reads a whole number within a range."""

    def number(text: str) -> int:
        if not re.fullmatch(r"[0-9]{1,7}", text) or not least <= int(text) <= most:
            raise argparse.ArgumentTypeError(f"a whole number from {least} to {most} is wanted")
        return int(text)

    return number


count_of = between(1, 1000)


def add_search(parser: argparse.ArgumentParser) -> None:
    """Adds the options of a search, as the program has them."""
    parser.add_argument("--nodes", type=between(0, 100_000), metavar="N", help="how many nodes a search has at most")
    parser.add_argument("--workers", type=between(1, 64), metavar="N", help="how many threads a search has")
    parser.add_argument("--seconds", type=between(1, 86_400), metavar="S", help="how long a search lasts at most")
    parser.add_argument("--gap", type=between(0, 1_000_000), metavar="G",
                        help="a gap that is small enough, in parts per million of the cost")


def search_of(arguments: argparse.Namespace) -> Dict[str, Optional[int]]:
    """Returns the options of a search that were given."""
    return {name: getattr(arguments, name) for name in ("nodes", "workers", "seconds", "gap")}


def read_timetable(path: str, arguments: argparse.Namespace) -> Tuple[Timetable, SideFile]:
    """Returns the timetable of a text or of a folder of sheets, and its side file."""
    if os.path.isdir(path):
        made = sheets.read(path)
        found, names = made.timetable, made.side
    else:
        found, names = timetable.read(path), side.read_for(path, arguments.names)
    return found, replace(names, unit=arguments.unit) if arguments.unit else names


def read_plan(path: str) -> Plan:
    return plans.read(path)


def begins_with(path: str, word: str) -> bool:
    """Whether the first record of a file begins with this word."""
    return os.path.isfile(path) and texts.first_word(path) == word


def read(arguments: argparse.Namespace) -> Given:
    """Returns the timetable and the plan of a command's arguments. Where a plan stands first, they are exchanged."""
    first, second = arguments.timetable, arguments.plan
    if begins_with(first, "result") and (os.path.isdir(second) or begins_with(second, "instance")):
        first, second = second, first
        texts.note(f"the files are taken by their first rows: the timetable from {first}, the plan from {second}")
    found, names = read_timetable(first, arguments)
    return Given(first, found, names, second, read_plan(second))
