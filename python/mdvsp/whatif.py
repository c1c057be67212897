"""Solves a timetable with other fleets, and prints for each what a plan costs, its bound and gap, or why there is none.

    mdvsp-plan whatif town.csv --set Minibus=0..3 --set Bus=2,3

Each --set names a group and numbers of vehicles; with several, all combinations are solved. As many searches run at
once as there are processors, each by one worker unless --workers says otherwise.

It ends with 0 where the table is printed, 2 where the arguments are wrong, 3 where the timetable has faults, 4 where it
can't be read, 5 where the table can't be written and 6 where the program is missing or failed.

This tool is no part of what is proved. What each search claims is proved by its document.
"""

from __future__ import annotations

import argparse
import itertools
import os
import re
from concurrent.futures import ThreadPoolExecutor
from dataclasses import dataclass
from typing import Callable, Dict, List, Mapping, Optional, Sequence

from . import inputs, run, texts
from .errors import InputError
from .limits import MAX_VEHICLES
from .plan import Plan
from .printed import per_cent
from .reason import reason_of
from .side import SideFile
from .timetable import Timetable

# How many cases are solved at most.
MAX_CASES = 1000


@dataclass(frozen=True)
class Case:
    """Fleets that differ from the timetable's, and the plan that was found with them."""

    fleets: Mapping[str, int]
    plan: Plan


def numbers_of(text: str) -> List[int]:
    """Returns the numbers that a text such as `2..6` or `2,4,6` names; none where it names none."""
    found = []
    for part in text.split(","):
        match = re.fullmatch(r"\s*([0-9]{1,5})(?:\.\.([0-9]{1,5}))?\s*", part)
        if not match:
            return []
        found += range(int(match[1]), int(match[2] or match[1]) + 1)
    return found


def set_of(text: str):
    """Returns a group and its numbers of vehicles, from an argument such as `Minibus=2..6`."""
    group, sign, numbers = text.partition("=")
    found = numbers_of(numbers)
    if not sign or not group or not found or max(found) > MAX_VEHICLES:
        raise argparse.ArgumentTypeError(f"`{text}` isn't a group and its vehicles, such as Bus=2..6 or Bus=2,4")
    return group, found


def fleets_of(timetable: Timetable, sets: Mapping[str, Sequence[int]]) -> List[Dict[str, int]]:
    """Returns all combinations of fleets; InputError where a group isn't known, or where they are too many."""
    unknown = [it for it in sets if it not in timetable.layers]
    if unknown:
        raise InputError(f"unknown group {unknown[0]}; there are {', '.join(timetable.layers)}")
    combinations = [dict(zip(sets, numbers)) for numbers in itertools.product(*sets.values())]
    if len(combinations) > MAX_CASES:
        raise InputError(f"{len(combinations)} combinations; at most {MAX_CASES} are solved")
    return combinations


def solve_all(timetable: Timetable, fleets: Sequence[Mapping[str, int]], jobs: int,
              solve: Callable[[Timetable], Plan]) -> List[Case]:
    """Returns the plans for all fleets, of which so many are searched at once."""
    with ThreadPoolExecutor(jobs) as pool:
        plans = list(pool.map(lambda it: solve(timetable.with_fleets(it)), fleets))
    return [Case(it, plan) for it, plan in zip(fleets, plans)]


def reason_words(timetable: Timetable, case: Case, names: SideFile) -> str:
    """Returns why there is no plan, or that none was found."""
    if case.plan.claim == "infeasible":
        reason = reason_of(timetable.with_fleets(case.fleets), case.plan)
        return reason.words(names).replace("no plan: ", "", 1) if reason else "no reason is shown"
    return "no plan was found; there may be one" if case.plan.cost is None else ""


def rows_of(timetable: Timetable, cases: Sequence[Case], names: SideFile) -> List[List[str]]:
    """Returns the table: the fleets, and what each case comes to."""
    groups = list(cases[0].fleets) if cases else []
    rows = [[*(names.layer(it) for it in groups), "claim", "cost", "bound", "gap", "used", "reason"]]
    for case in cases:
        plan = case.plan
        rows.append([*(str(case.fleets[it]) for it in groups), plan.claim,
                     *("none" if it is None else names.money(it) for it in (plan.cost, plan.bound)),
                     "" if plan.gap is None else per_cent(plan.gap), str(len(plan.blocks)) if plan.blocks else "",
                     reason_words(timetable, case, names)])
    return rows


def aligned(rows: Sequence[Sequence[str]]) -> str:
    """Returns rows as text; all columns stand at the right but the claim and the last one."""
    widths = [max(map(len, column)) for column in zip(*rows)]
    claim = rows[0].index("claim")
    lines = []
    for row in rows:
        cells = [it.ljust(width) if place == claim else it.rjust(width)
                 for place, (it, width) in enumerate(zip(row[:-1], widths))]
        lines.append("  ".join([*cells, row[-1]]).rstrip() + "\n")
    return "".join(lines)


# --- The command -----------------------------------------------------------------------------------------------------


def add_arguments(parser: argparse.ArgumentParser) -> None:
    inputs.add_timetable(parser)
    inputs.add_program(parser)
    inputs.add_search(parser)
    parser.add_argument("--set", action="append", type=set_of, required=True, metavar="GROUP=N..M", dest="sets",
                        help="a group, and the numbers of vehicles to try; may be given several times")
    parser.add_argument("--jobs", type=inputs.count_of, metavar="N",
                        help="how many searches run at once; as many as there are processors else")
    parser.add_argument("--csv", action="store_true", help="print the table as a sheet")


def command(arguments: argparse.Namespace, parser: argparse.ArgumentParser) -> int:
    """Prints what other fleets come to."""
    found, names = inputs.read_timetable(arguments.timetable, arguments)
    fleets = fleets_of(found, dict(arguments.sets))
    search = {**inputs.search_of(arguments), "workers": arguments.workers or 1}
    program = run.find_program(arguments.program)

    def solve(timetable: Timetable) -> Plan:
        return run.solve(timetable, program=program, **search)

    cases = solve_all(found, fleets, jobs_of(arguments.jobs), solve)
    rows = rows_of(found, cases, names)
    texts.print_text(texts.text_of_rows(rows) if arguments.csv else aligned(rows), "the table")
    return 0


def jobs_of(given: Optional[int]) -> int:
    return given or os.cpu_count() or 1
