"""Writes a feed's trips.txt with the blocks of a plan in its column block_id.

TIMETABLE is what `mdvsp-plan gtfs` made of FEED, with its side file beside it, which says from which trip of the feed
each trip comes. Trips that the plan doesn't have keep their block_id, unless a block of the plan is called so. A trip
that runs by headways gets a block_id where one vehicle runs all of its departures, and none else.

It ends with 0 where the file is written, 1 where the blocks are no plan, 2 where the arguments are wrong, 3 where a
file has faults, 4 where one can't be read and 5 where one can't be written.

This tool is no part of what is proved.
"""

from __future__ import annotations

import argparse
import csv
import io
import os
from collections import Counter
from typing import Dict, List, Set, Tuple

from . import inputs, texts
from .duties import faults_of_plan
from .errors import InputError, NoPlan
from .feed import Feed
from .plan import Block
from .printed import counted
from .side import SideFile


def block_ids(blocks: List[Block]) -> List[str]:
    """Returns the ids of blocks: the layer, and the number among its blocks."""
    seen: Counter = Counter()
    ids = []
    for block in blocks:
        seen[block.layer] += 1
        ids.append(f"{block.layer}-{seen[block.layer]}")
    return ids


def ids_by_trip(blocks: List[Block], names: SideFile, path: str) -> Dict[str, Set[str]]:
    """Returns the blocks that run each trip of the feed."""
    ids: Dict[str, Set[str]] = {}
    for block, called in zip(blocks, block_ids(blocks)):
        for trip in block.trips:
            source = names.trips[trip].source if trip in names.trips else ""
            if not source:
                raise InputError(f"{path}: its side file doesn't say from which trip of the feed {trip} comes")
            ids.setdefault(source, set()).add(called)
    return ids


def with_blocks(feed: Feed, ids: Dict[str, Set[str]]) -> Tuple[str, List[str], int]:
    """Returns the text of trips.txt with the blocks, what is to be said of it, and how many trips have a block."""
    with feed.open("trips.txt") as file:
        text = file.read()
    rows = list(csv.reader(io.StringIO(text, newline="")))
    if not rows or "trip_id" not in [it.strip() for it in rows[0]]:
        raise InputError(f"{feed.path}: trips.txt has no column trip_id")
    head = [it.strip() for it in rows[0]]
    if "block_id" not in head:
        head.append("block_id")
    trip, block = head.index("trip_id"), head.index("block_id")
    taken = {it for own in ids.values() for it in own}
    written, several, count = [head], [], 0
    for row in (it for it in rows[1:] if it):
        row = [*row, *[""] * (len(head) - len(row))]
        own = ids.pop(row[trip].strip(), None)
        if own is not None:
            several += [row[trip]] if len(own) > 1 else []
            count += len(own) == 1
            row[block] = min(own) if len(own) == 1 else ""
        elif row[block] in taken:
            row[block] = ""
        written.append(row)
    if ids:
        raise InputError(f"{feed.path}: trips.txt has no trip {min(ids)}")
    out = io.StringIO()
    csv.writer(out, lineterminator="\r\n" if "\r\n" in text else "\n").writerows(written)
    return out.getvalue(), several, count


def add_arguments(parser: argparse.ArgumentParser) -> None:
    parser.add_argument("feed", metavar="FEED", help="the folder or the zip of the feed")
    inputs.add_timetable(parser)
    parser.add_argument("plan", metavar="PLAN", help="the document of its plan")
    parser.add_argument("-o", "--output", required=True, metavar="OUT", help="the file that is written, or its folder")


def command(arguments: argparse.Namespace, parser: argparse.ArgumentParser) -> int:
    """Writes trips.txt with the blocks of a plan."""
    given = inputs.read(arguments)
    if given.plan.cost is None:
        raise NoPlan([f"{given.plan_path}: there is no plan in it"])
    faults = faults_of_plan(given.timetable, given.plan.blocks)
    if faults:
        raise NoPlan([f"{given.plan_path}: {it}" for it in faults])
    ids = ids_by_trip(given.plan.blocks, given.names, given.timetable_path)
    text, several, count = with_blocks(Feed(arguments.feed), ids)
    path = arguments.output if arguments.output.endswith(".txt") else os.path.join(arguments.output, "trips.txt")
    texts.write_text(path, text)
    for trip in several:
        texts.note(f"{trip}: it runs by headways, and several vehicles run its departures, so it gets no block_id")
    texts.print_text(f"{path}: {counted(count, 'trip')} in {counted(len(given.plan.blocks), 'block')}\n",
                     "what was written")
    return 0
