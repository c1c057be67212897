"""The command `mdvsp-plan`: what brings a planner's data to `mdvsp`, and shows its plans."""

from __future__ import annotations

import argparse
import sys
from typing import List, Optional

from . import gtfs, gtfs_blocks, price, report, sheets, summary, whatif
from .errors import PlanError
from .texts import note

# The commands: the name, the module, and what it does.
COMMANDS = (
    ("sheets", sheets, "make a timetable from four sheets"),
    ("gtfs", gtfs, "make a timetable from a GTFS feed"),
    ("gtfs-blocks", gtfs_blocks, "write the blocks of a plan into a feed's trips.txt"),
    ("report", report, "make a page of a plan: its picture, its figures, each vehicle's sheet"),
    ("summary", summary, "sum up a plan, or compare two"),
    ("whatif", whatif, "solve a timetable with other fleets"),
    ("price", price, "price a plan of one's own, and say how far it is from the bound"),
)


def parser() -> argparse.ArgumentParser:
    """Returns what reads the arguments."""
    top = argparse.ArgumentParser(
        prog="mdvsp-plan", description="From a GTFS feed or sheets to a vehicle plan, its picture and each vehicle's "
        "sheet. Nothing here is proved: `mdvsp check` judges each plan.")
    commands = top.add_subparsers(metavar="COMMAND", required=True)
    for name, module, words in COMMANDS:
        one = commands.add_parser(name, help=words, description=module.__doc__,
                                  formatter_class=argparse.RawDescriptionHelpFormatter)
        module.add_arguments(one)
        one.set_defaults(command=module.command, parser=one)
    return top


def main(words: Optional[List[str]] = None) -> int:
    """Runs a command, and returns the status with which it ends."""
    arguments = parser().parse_args(words)
    try:
        return arguments.command(arguments, arguments.parser)
    except PlanError as error:
        note(str(error))
        return error.status
    except KeyboardInterrupt:
        return 130


if __name__ == "__main__":
    sys.exit(main())
