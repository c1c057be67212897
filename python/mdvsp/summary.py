"""Sums up a plan of mdvsp: vehicles, most out at once, hours, kilometres and costs, by depot and vehicle group.

TIMETABLE is an instance text, or a folder with the four sheets of one; PLAN the document of a plan of it, as
`mdvsp solve` writes it. Of a second document the same figures stand beside those of the first, and what the second has
more or, with a minus, less.

Hours are h:mm and kilometres have three decimals. Costs are in money where the side file of the timetable has a unit,
else in cost units; with --unit N in units of N of them, to two decimals.

It ends with 0 where the figures are written, 1 where the blocks of a document are no plan, 2 where the arguments are
wrong, 3 where a text has faults, 4 where it can't be read and 5 where the figures can't be written.

This tool is no part of what is proved. Whether a document holds, and whether its plan is a good one, `mdvsp check`
says.
"""

from __future__ import annotations

import argparse
from typing import Callable, List, NamedTuple, Optional, Sequence, Tuple

from . import inputs, texts
from .duties import duties_of
from .figures import Figures, Scope, figures_of_plan, most_out, scopes_of, united
from .plan import Plan
from .printed import clock, hours, kilometres, money
from .side import SideFile
from .timetable import Timetable

Printed = Callable[[int], str]


class Line(NamedTuple):
    """A figure that is printed: its words, how its number is printed, and the number."""

    words: str
    printed: Printed
    value: Callable[[Figures], int]


def lines_of(unit: int) -> Tuple[Line, ...]:
    """Returns the figures that are printed of some vehicles, in order."""
    cost = money(unit)
    return (
        Line("vehicles", str, lambda it: it.vehicles),
        Line("most out at once", str, lambda it: most_out(it.spans)[0]),
        Line("hours out", hours, lambda it: it.out),
        Line("  in service", hours, lambda it: it.service),
        Line("  driven empty", hours, lambda it: it.empty),
        Line("  waiting", hours, lambda it: it.waiting),
        Line("hours resting", hours, lambda it: it.resting),
        Line("kilometres", kilometres, lambda it: it.metres),
        Line("  in service", kilometres, lambda it: it.service_metres),
        Line("  driven empty", kilometres, lambda it: it.empty_metres),
        Line("cost", cost, lambda it: it.cost),
        Line("  of vehicles", cost, lambda it: it.fixed),
        Line("  of time", cost, lambda it: it.time),
        Line("  of distance", cost, lambda it: it.distance),
    )


def row(words: str, cells: Sequence[str]) -> str:
    return f"{words:<20}" + "".join(f"{it:>17}" for it in cells).rstrip()


def head_of(scope: Scope, names: SideFile) -> str:
    """Returns what stands above the figures of some vehicles."""
    if scope.layer:
        return f"group {names.layer(scope.layer)} at {names.stop(scope.depot)}"
    return f"depot {names.stop(scope.depot)}" if scope.depot else "all vehicles"


def scope_lines(head: str, plans: Sequence[Figures], unit: int, rests: bool) -> List[str]:
    """Returns the lines of one scope: the figures of one plan, or of two and what the second has more."""
    lines = [head]
    for line in lines_of(unit):
        values = [line.value(it) for it in plans]
        cells = [line.printed(it) for it in values]
        if line.words == "vehicles":
            cells = [f"{it.vehicles} of {it.fleet}" for it in plans]
        if len(values) == 2:
            cells.append(line.printed(values[1] - values[0]))
        if line.words != "hours resting" or rests:
            lines.append(row("  " + line.words, cells))
        if line.words == "most out at once" and any(values):
            spans = [most_out(it.spans) for it in plans]
            lines.append(row("    from", [clock(it[1]) for it in spans]))
            lines.append(row("    to", [clock(it[2]) for it in spans]))
    return lines


def claim_lines(plans: Sequence[Plan], costs: Sequence[Optional[int]], unit: int) -> List[str]:
    """Returns the lines that say what documents claim, and what their plans cost."""
    printed = money(unit)

    def cells(numbers: Sequence[Optional[int]]) -> List[str]:
        return ["none" if it is None else printed(it) for it in numbers]

    return [row("claim", [it.claim for it in plans]), row("cost", cells(costs)),
            row("bound", cells([it.bound for it in plans]))]


def summary(timetable: Timetable, plans: Sequence[Tuple[str, Plan]], names: SideFile) -> Tuple[List[str], List[str]]:
    """Returns the lines that sum up one or two plans, each with its file, and the notes on them."""
    documents = [plan for _, plan in plans]
    head = [row("", ["first", "second", "second - first"])] if len(plans) == 2 else []
    without = [f"{path}: there is no plan in it" for path, plan in plans if plan.cost is None]
    if without:
        return [*head, *claim_lines(documents, [it.cost for it in documents], names.unit)], without
    figures = [figures_of_plan(timetable, duties_of(timetable, plan.blocks, path)) for path, plan in plans]
    costs = [united(it.values()).cost for it in figures]
    lines = [*head, *claim_lines(documents, costs, names.unit)]
    for scopes in zip(*(scopes_of(timetable, it) for it in figures)):
        lines += ["", *scope_lines(head_of(scopes[0], names), [it.figures for it in scopes], names.unit,
                                   timetable.rests)]
    return lines, cost_notes(plans, costs)


def cost_notes(plans: Sequence[Tuple[str, Plan]], costs: Sequence[int]) -> List[str]:
    """Returns what is to be said of documents whose blocks cost something else than they say."""
    return [f"{path}: it says that its plan costs {plan.cost}; its blocks cost {cost}"
            for (path, plan), cost in zip(plans, costs) if plan.cost != cost]


# --- The command -----------------------------------------------------------------------------------------------------


def add_arguments(parser: argparse.ArgumentParser) -> None:
    inputs.add_timetable(parser)
    parser.add_argument("plan", metavar="PLAN", help="the document of its plan")
    parser.add_argument("other", metavar="OTHER", nargs="?", help="a second document, to be compared with the first")


def command(arguments: argparse.Namespace, parser: argparse.ArgumentParser) -> int:
    """Prints the figures of one plan or two."""
    given = inputs.read(arguments)
    plans = [(given.plan_path, given.plan)]
    if arguments.other is not None:
        plans.append((arguments.other, inputs.read_plan(arguments.other)))
    lines, notes = summary(given.timetable, plans, given.names)
    for text in notes:
        texts.note(text)
    texts.print_text("".join(line + "\n" for line in lines), "the figures")
    return 0
