"""The words for why a document doesn't hold: the rows that `mdvsp check` writes behind `no` (docs/formats.md, *Flaws of
a document*)."""

from __future__ import annotations

from typing import List, Optional, Sequence

from .plan import Block, Plan


def flaw_words(flaw: Sequence[str], plan: Optional[Plan] = None) -> str:
    """Returns the words for the fields behind `no`; with the plan, trips and layers of a block have their names."""
    number, *rest = flaw
    blocks = plan.blocks if plan else []
    words = {"1": plan_words, "3": table_words}.get(number)
    if words:
        return words(rest, blocks)
    if number == "2" and len(rest) == 3:
        return f"the blocks cost {rest[2]}, and the document says {rest[1]}"
    if number == "4":
        return (f"row {rest[1]} of the tree: the split names all layers that its trip may be run in there, or another")
    if number == "5":
        return leaf_words(rest)
    if number == "6":
        return f"the document claims {rest[1]}, and its cost and its bound together say {rest[2]}"
    return ",".join(flaw)


def plan_words(flaw: List[str], blocks: List[Block]) -> str:
    """Returns the words for blocks that are no plan."""
    kind, *rest = flaw
    if kind == "Twice":
        return f"trip {rest[0]} stands in the blocks more than once"
    if kind == "Uncovered":
        return f"no block runs trip {rest[0]}"
    if kind == "Fleet":
        return f"layer {rest[0]} has {rest[1]} blocks, and not as many vehicles"
    block = block_of(blocks, int(rest[0]))
    place = int(rest[1]) if len(rest) > 1 else 0
    layer, trip, before = block.layer, name_at(block, place), name_at(block, place - 1)
    words = {
        "NotPermitted": f"layer {layer} may not run trip {trip}",
        "NoPullOut": f"no vehicle of layer {layer} is in time for trip {name_at(block, 1)}, or no deadhead leads there",
        "NoConnection": f"after trip {before} no vehicle is in time for trip {trip}, or no deadhead leads there",
        "NoPullIn": f"no deadhead leads from trip {name_at(block, 0)} to the depot of layer {layer}",
    }
    return f"block {rest[0]}: {words.get(kind, 'it is none')}"


def block_of(blocks: List[Block], number: int) -> Block:
    """Returns the block of a number, counted from 1; one without names where it isn't known."""
    return blocks[number - 1] if number <= len(blocks) else Block("?", ())


def name_at(block: Block, place: int) -> str:
    """Returns the trip at a place of a block, counted from 1; that at 0 is the last one."""
    if place > len(block.trips) or not block.trips:
        return "?"
    return block.trips[place - 1]


def table_words(flaw: List[str], _blocks: List[Block]) -> str:
    """Returns the words for a table whose prices don't hold."""
    number, move, layer, *trips = flaw[1:]
    words = {
        "fleet": f"a vehicle of layer {layer} has a price below 0",
        "out": f"to leave the depot for trip {first(trips)} in layer {layer} is worth more than it costs",
        "link": f"to go from trip {' to trip '.join(trips)} in layer {layer} is worth more than it costs",
        "in": f"to go home from trip {first(trips)} in layer {layer} is worth more than it costs",
    }
    return f"table {number}: {words.get(move, 'its prices are wrong')}"


def first(names: List[str]) -> str:
    return names[0] if names else "?"


def leaf_words(flaw: List[str]) -> str:
    """Returns the words for a leaf whose table shows too little."""
    _, position, worth, bound = flaw
    if bound == "none":
        return f"row {position} of the tree: the leaf's table doesn't show that there is no plan"
    return f"row {position} of the tree: the leaf's table shows a cost of {worth} at least, and the bound is {bound}"
