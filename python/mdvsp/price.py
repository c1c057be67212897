"""Prices a plan of one's own: whether it is one, what it costs, and how far it is from what every plan costs at least.

OWN has a record `block,GROUP,TRIP..` for each vehicle, as docs/planning.md shows; any document will do. In its place
--feed FEED takes the blocks from the block_id of a feed's trips.txt, for a timetable that `mdvsp-plan gtfs` made of it;
each of these blocks gets the group in which all of them together cost least, and a trip without a block_id is a block
alone.

The bound is that of the document --plan PLAN, or else of a search. With -o the own plan is written as a document with
that bound and its proof, which `mdvsp check` judges.

It ends with 0 where the plan is one, 1 where it isn't, with all that is wrong with it, 2 where the arguments are wrong,
3 where a text has faults, 4 where it can't be read, 5 where one can't be written and 6 where the program is missing or
failed.

This tool is no part of what is proved.
"""

from __future__ import annotations

import argparse
from typing import Dict, List, Optional, Sequence, Tuple

from . import inputs, run, texts
from . import plan as plans
from .assign import assign
from .duties import duties_of, duty_of, faults_of_block
from .errors import InputError, NoPlan
from .feed import Feed
from .plan import Block, Plan
from .printed import counted, per_cent
from .side import SideFile
from .timetable import Timetable, Trip


def own_blocks(path: str) -> List[Block]:
    """Returns the blocks of a file of `block` records, or of a document."""
    records = texts.records_of(texts.read_bytes(path), path)
    found = []
    for place, fields in records:
        if fields[0] == "block":
            found += plans.blocks_of([fields])
        elif not found and fields[0] in ("result", "cost", "bound", "nodes"):
            continue
        elif found and fields[0] == "table":
            break
        else:
            raise InputError(f"{path}: record {place}: `{','.join(fields)}` is no block")
    if not found:
        raise InputError(f"{path}: there is no record block,GROUP,TRIP..")
    return found


def feed_blocks(feed: Feed, timetable: Timetable, names: SideFile) -> Tuple[List[List[Trip]], int]:
    """Returns the trips of each block_id of a feed by their start, and how many trips have none."""
    ids = {row["trip_id"]: row.get("block_id", "") for row in feed.rows("trips.txt", ("trip_id",), needed=True)}
    blocks: Dict[str, List[Trip]] = {}
    alone = 0
    for trip in sorted(timetable.trips.values(), key=lambda it: it.start):
        source = names.trips[trip.name].source if trip.name in names.trips else ""
        if source not in ids:
            raise InputError(f"{feed.path}: trips.txt has no trip {source or trip.name}; was the timetable made of it?")
        alone += not ids[source]
        blocks.setdefault(ids[source] and f"id {ids[source]}" or f"trip {trip.name}", []).append(trip)
    return list(blocks.values()), alone


def with_groups(timetable: Timetable, blocks: Sequence[Sequence[Trip]]) -> List[Block]:
    """Returns blocks with the groups in which they cost least together; NoPlan where there are no such groups."""
    layers = list(timetable.layers.values())
    costs: List[List[Optional[int]]] = []
    for place, trips in enumerate(blocks, 1):
        able = [not faults_of_block(timetable, place, layer, trips) for layer in layers]
        if not any(able):
            faults = min((faults_of_block(timetable, place, layer, trips) for layer in layers), key=len)
            raise NoPlan([f"no group can run the block {' '.join(it.name for it in trips)}: {it}" for it in faults])
        costs.append([duty_of(timetable, place, layer, trips).cost if it else None for layer, it in zip(layers, able)])
    groups = assign(costs, [layer.fleet for layer in layers])
    if groups is None:
        raise NoPlan([f"the groups have fewer vehicles than these {counted(len(blocks), 'block')} need"])
    return [Block(layers[group].name, tuple(it.name for it in trips)) for group, trips in zip(groups, blocks)]


def priced(timetable: Timetable, blocks: List[Block], proof: Plan) -> Plan:
    """Returns the document of blocks with the bound of another document and its proof; NoPlan with all faults."""
    cost = sum(duty.cost for duty in duties_of(timetable, blocks))
    return Plan("optimal" if cost == proof.bound else "open", cost, proof.bound, proof.nodes, blocks, proof.proof)


def lines_of(own: Plan, best: Plan, holds: bool, names: SideFile) -> List[str]:
    """Returns what is printed of a plan that was priced."""
    def row(words: str, value: str) -> str:
        return f"{words:<24}{value:>16}"

    lines = [row("blocks", str(len(own.blocks))), row("cost", names.money(own.cost))]
    lines.append(row("bound", "none" if own.bound is None else names.money(own.bound)))
    if own.bound is not None:
        lines.append(row("to be saved at most", names.money(own.cost - own.bound)))
        lines.append(row("  of the cost", per_cent(own.gap)))
    if best.cost is not None and best.cost < own.cost:
        lines.append(row("a plan was found at", names.money(best.cost)))
    lines.append(row("judged by mdvsp check", "yes" if holds else "no"))
    return lines


# --- The command -----------------------------------------------------------------------------------------------------


def add_arguments(parser: argparse.ArgumentParser) -> None:
    inputs.add_timetable(parser)
    inputs.add_program(parser)
    inputs.add_search(parser)
    parser.add_argument("own", metavar="OWN", nargs="?", help="the plan of one's own: its blocks")
    parser.add_argument("--feed", metavar="FEED", help="the feed whose block_ids are the plan")
    parser.add_argument("--plan", metavar="PLAN", help="a document whose bound counts; without it a search finds one")
    parser.add_argument("-o", "--output", metavar="FILE", help="where the own plan is written as a document")


def blocks_given(arguments: argparse.Namespace, timetable: Timetable, names: SideFile) -> List[Block]:
    """Returns the blocks that the arguments name."""
    if arguments.own is not None:
        return own_blocks(arguments.own)
    trips, alone = feed_blocks(Feed(arguments.feed), timetable, names)
    if alone:
        texts.note(f"{counted(alone, 'trip')} without a block_id: each is a block alone")
    return with_groups(timetable, trips)


def command(arguments: argparse.Namespace, parser: argparse.ArgumentParser) -> int:
    """Prints what a plan of one's own costs, and how far it is from the bound."""
    if (arguments.own is None) == (arguments.feed is None):
        parser.error("give OWN or --feed FEED, one of them")
    timetable, names = inputs.read_timetable(arguments.timetable, arguments)
    blocks = blocks_given(arguments, timetable, names)
    duties_of(timetable, blocks, arguments.own or arguments.feed)
    best = (inputs.read_plan(arguments.plan) if arguments.plan
            else run.solve(timetable, program=arguments.program, **inputs.search_of(arguments)))
    own = priced(timetable, blocks, best)
    verdict = run.check(timetable, own, program=arguments.program)
    texts.print_text("".join(f"{line}\n" for line in lines_of(own, best, verdict.holds, names)), "the price")
    if not verdict.holds:
        texts.note(f"the bound doesn't hold for this timetable: {verdict.words}")
    if arguments.output:
        texts.write_text(arguments.output, own.text())
    return 0 if verdict.holds else 1
