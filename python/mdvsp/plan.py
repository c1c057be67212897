"""A plan with what proves it: a document, and its text (docs/formats.md, *A document*)."""

from __future__ import annotations

import re
from dataclasses import dataclass, field
from fractions import Fraction
from functools import cached_property
from typing import Dict, Iterable, List, NamedTuple, Optional, Tuple, Union

from . import texts
from .errors import InputError

COST = re.compile(r"-?[0-9]{1,21}")


class Block(NamedTuple):
    """What one vehicle of a layer runs: the names of its trips, in order."""

    layer: str
    trips: Tuple[str, ...]


@dataclass
class Table:
    """A table of prices in 1/1000 of a cost unit: of a vehicle by layer, of entering and leaving by layer and trip."""

    is_ray: bool
    fleet: Dict[str, int] = field(default_factory=dict)
    prices: Dict[Tuple[str, str], Tuple[int, int]] = field(default_factory=dict)


class Split(NamedTuple):
    """A row of the tree: on the left the trip is run in one of these layers, on the right in another."""

    trip: str
    layers: Tuple[str, ...]


class Leaf(NamedTuple):
    """A row of the tree: a case that the table of a number proves, counted from 1."""

    table: int


@dataclass
class Plan:
    """A document: what it claims, what it costs, what every plan costs at least, its blocks and its proof.

    The proof is kept as records; `tables` and `tree` read it when they are asked for.
    """

    claim: str
    cost: Optional[int]
    bound: Optional[int]
    nodes: int = 0
    blocks: List[Block] = field(default_factory=list)
    proof: List[List[str]] = field(default_factory=list)

    @property
    def gap(self) -> Optional[Fraction]:
        """How much of the cost a better plan can save at most, as a share of 1; None where there is no such number."""
        if self.cost is None or self.bound is None:
            return None
        return Fraction(self.cost - self.bound, self.cost) if self.cost else Fraction(0)

    @cached_property
    def tables(self) -> List[Table]:
        """The tables of prices, in order."""
        return list(tables_of(self.proof))

    @cached_property
    def tree(self) -> List[Union[Split, Leaf]]:
        """The rows of the tree, in order."""
        rows = (row for row in self.proof if row[0] in ("split", "leaf"))
        return [Split(row[1], tuple(row[2:])) if row[0] == "split" else Leaf(int(row[1])) for row in rows]

    def text(self) -> str:
        """Returns its text, which `mdvsp check` reads behind the timetable."""
        rows: List[Iterable[object]] = [
            ("result", 1, self.claim), ("cost", none_or(self.cost)), ("bound", none_or(self.bound)),
            ("nodes", self.nodes),
        ]
        rows += [("block", block.layer, *block.trips) for block in self.blocks]
        rows += self.proof
        return "".join(",".join(map(str, row)) + "\n" for row in rows)


def none_or(number: Optional[int]) -> Union[int, str]:
    return "none" if number is None else number


def tables_of(proof: List[List[str]]) -> Iterable[Table]:
    """Yields the tables of a proof's records."""
    table = None
    for row in proof:
        if row[0] == "table":
            if table is not None:
                yield table
            table = Table(row[2:3] == ["ray"])
        elif row[0] == "fleet" and table is not None:
            table.fleet[row[1]] = int(row[2])
        elif row[0] == "price" and table is not None:
            table.prices[row[1], row[2]] = (int(row[3]), int(row[4]))
    if table is not None:
        yield table


# --- Reading ---------------------------------------------------------------------------------------------------------


def read(path: str) -> Plan:
    """Returns the document of a file. What stands before its first record `result` isn't read."""
    return parse(texts.read_bytes(path), path)


def parse(data: bytes, name: str = "plan") -> Plan:
    """Returns the document of a text. The name stands in front of what is wrong with it."""
    rows = [fields for _, fields in texts.records_of(data, name)]
    begin = next((place for place, fields in enumerate(rows) if fields[0] == "result"), None)
    if begin is None:
        raise InputError(f"{name}: there is no record `result`")
    try:
        return document_of(rows[begin:])
    except ValueError as error:
        raise InputError(f"{name}: this is no document of a plan: {error}") from error


def document_of(rows: List[List[str]]) -> Plan:
    """Returns the document of its records."""
    if len(rows[0]) != 3 or len(rows) < 4 or rows[3][0] != "nodes":
        raise ValueError("its first rows aren't result, cost, bound and nodes")
    cost, bound = cost_of(rows[1], "cost"), cost_of(rows[2], "bound")
    nodes = int(rows[3][1]) if len(rows[3]) == 2 and rows[3][1].isdigit() else 0
    blocks = blocks_of(rows[4:])
    return Plan(rows[0][2], cost, bound, nodes, blocks, rows[4 + len(blocks):])


def cost_of(fields: List[str], kind: str) -> Optional[int]:
    """Returns the number of a row `cost,N` or `bound,N`, or None for `none`."""
    if len(fields) != 2 or fields[0] != kind or not (fields[1] == "none" or COST.fullmatch(fields[1])):
        raise ValueError(f"no row {kind},N or {kind},none")
    return None if fields[1] == "none" else int(fields[1])


def blocks_of(rows: List[List[str]]) -> List[Block]:
    """Returns the blocks at the beginning of some records."""
    blocks = []
    for fields in rows:
        if fields[0] != "block":
            break
        blocks.append(Block(fields[1] if len(fields) > 1 else "", tuple(fields[2:])))
    return blocks
