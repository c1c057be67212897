"""What each vehicle of a plan does, move by move, and what keeps blocks from being a plan."""

from __future__ import annotations

import enum
from collections import Counter
from dataclasses import dataclass
from typing import List, Optional, Sequence, Tuple

from .errors import NoPlan
from .plan import Block
from .timetable import Layer, Timetable, Trip


class Kind(enum.Enum):
    """What a vehicle does; all but a rest is paid by the minute."""

    PULL_OUT = "pull-out"
    TRIP = "trip"
    EMPTY = "empty drive"
    WAIT = "wait"
    REST = "rest"
    PULL_IN = "pull-in"


# The drives without passengers.
DRIVEN_EMPTY = (Kind.PULL_OUT, Kind.EMPTY, Kind.PULL_IN)


@dataclass(frozen=True)
class Move:
    """One thing that a vehicle does, from a minute to a minute and from a stop to a stop."""

    kind: Kind
    start: int
    end: int
    origin: str
    target: str
    metres: int = 0
    trip: Optional[Trip] = None

    @property
    def minutes(self) -> int:
        return self.end - self.start


@dataclass(frozen=True)
class Duty:
    """All that one vehicle does, in order and without a gap. Its number is the place of its block, counted from 1."""

    number: int
    layer: Layer
    moves: Tuple[Move, ...]

    @property
    def leaves(self) -> int:
        return self.moves[0].start

    @property
    def back(self) -> int:
        return self.moves[-1].end

    @property
    def trips(self) -> List[Trip]:
        return [move.trip for move in self.moves if move.trip is not None]

    def minutes(self, *kinds: Kind) -> int:
        """Returns how long moves of these kinds take together."""
        return sum(move.minutes for move in self.moves if move.kind in kinds)

    def metres(self, *kinds: Kind) -> int:
        """Returns how long the ways of these kinds are together."""
        return sum(move.metres for move in self.moves if move.kind in kinds)

    @property
    def cost(self) -> int:
        """What it costs: the vehicle, all minutes but those rested, and all metres."""
        paid = self.back - self.leaves - self.minutes(Kind.REST)
        return self.layer.fixed + self.layer.rate(paid, sum(move.metres for move in self.moves))

    @property
    def spans(self) -> List[Tuple[int, int]]:
        """From when to when it is out of its depot, each time."""
        ends = [self.leaves]
        for move in self.moves:
            if move.kind is Kind.REST:
                ends += [move.start, move.end]
        ends.append(self.back)
        return [span for span in zip(ends[::2], ends[1::2]) if span[0] < span[1]]


def rest_between(timetable: Timetable, layer: Layer, first: Trip, second: Trip) -> Optional[Tuple[int, int]]:
    """Returns when a vehicle is back in its depot between two trips and when it leaves again.

    None where it doesn't rest: there is no time for the stay, or to go straight is no dearer.
    """
    back, out = timetable.way(first.target, layer.depot), timetable.way(layer.depot, second.origin)
    straight = timetable.way(first.target, second.origin)
    if layer.stay is None or back is None or out is None or straight is None:
        return None
    arrives, leaves = first.end + back.minutes, second.start - out.minutes
    by_depot = layer.rate(back.minutes + out.minutes, back.metres + out.metres)
    direct = layer.rate(second.start - first.end, straight.metres)
    return (arrives, leaves) if arrives + layer.stay <= leaves and by_depot < direct else None


class MoveList:
    """The moves of a vehicle as they are added, each where the one before ends; those of no length are left out."""

    def __init__(self, timetable: Timetable, stop: str, minute: int):
        self.timetable, self.stop, self.minute = timetable, stop, minute
        self.moves: List[Move] = []

    def drive(self, kind: Kind, target: str) -> None:
        """Drives to a stop without passengers."""
        way = self.timetable.way(self.stop, target)
        if way is None:
            raise ValueError(f"no way leads from {self.stop} to {target}")
        if self.stop != target:
            self.moves.append(Move(kind, self.minute, self.minute + way.minutes, self.stop, target, way.metres))
        self.stop, self.minute = target, self.minute + way.minutes

    def stay(self, kind: Kind, until: int) -> None:
        """Stays where it is until a minute."""
        if until > self.minute:
            self.moves.append(Move(kind, self.minute, until, self.stop, self.stop))
        self.minute = until

    def run(self, trip: Trip) -> None:
        """Runs a trip."""
        self.moves.append(Move(Kind.TRIP, trip.start, trip.end, trip.origin, trip.target, trip.metres, trip))
        self.stop, self.minute = trip.target, trip.end


def duty_of(timetable: Timetable, number: int, layer: Layer, trips: Sequence[Trip]) -> Duty:
    """Returns what a vehicle does that runs trips one after the other."""
    out = timetable.way(layer.depot, trips[0].origin)
    if out is None:
        raise ValueError(f"no way leads from {layer.depot} to {trips[0].origin}")
    moves = MoveList(timetable, layer.depot, trips[0].start - out.minutes)
    moves.drive(Kind.PULL_OUT, trips[0].origin)
    moves.run(trips[0])
    for first, second in zip(trips, trips[1:]):
        rest = rest_between(timetable, layer, first, second)
        if rest:
            moves.drive(Kind.PULL_IN, layer.depot)
            moves.stay(Kind.REST, rest[1])
            moves.drive(Kind.PULL_OUT, second.origin)
        else:
            moves.drive(Kind.EMPTY, second.origin)
            moves.stay(Kind.WAIT, second.start)
        moves.run(second)
    moves.drive(Kind.PULL_IN, layer.depot)
    return Duty(number, layer, tuple(moves.moves))


def duties_of(timetable: Timetable, blocks: Sequence[Block], name: str = "") -> List[Duty]:
    """Returns the duties of the blocks of a plan; NoPlan with all faults where they are none."""
    faults = faults_of_plan(timetable, blocks)
    if faults:
        raise NoPlan([f"{name}: {it}" if name else it for it in faults])
    return [
        duty_of(timetable, number, timetable.layers[block.layer], [timetable.trips[it] for it in block.trips])
        for number, block in enumerate(blocks, 1)
    ]


# --- What is no plan -------------------------------------------------------------------------------------------------


def faults_of_block(timetable: Timetable, place: int, layer: Layer, trips: Sequence[Trip]) -> List[str]:
    """Returns what keeps trips from being a block of a layer."""
    faults = [f"block {place}: {layer.name} may not run {trip.name}" for trip in trips if layer.name not in trip.layers]
    out, back = timetable.way(layer.depot, trips[0].origin), timetable.way(trips[-1].target, layer.depot)
    if out is None or trips[0].start < out.minutes:
        faults.append(f"block {place}: no vehicle of {layer.name} can be at {trips[0].name} in time")
    for first, second in zip(trips, trips[1:]):
        if timetable.connection(first, second) is None:
            faults.append(f"block {place}: from {first.name} no vehicle comes to {second.name} in time")
    if back is None:
        faults.append(f"block {place}: there is no way back from {trips[-1].name}")
    return faults


def unknown_in(timetable: Timetable, block: Block) -> str:
    """Returns what a block names that the timetable doesn't have, or nothing."""
    unknown = [it for it in block.trips if it not in timetable.trips]
    if unknown:
        return f"unknown trip {unknown[0]}"
    if not block.trips:
        return "no trip"
    return "" if block.layer in timetable.layers else f"unknown layer {block.layer}"


def faults_of_plan(timetable: Timetable, blocks: Sequence[Block]) -> List[str]:
    """Returns all that keeps the blocks of a document from being a plan."""
    faults: List[str] = []
    run: Counter = Counter()
    used: Counter = Counter()
    for place, block in enumerate(blocks, 1):
        unknown = unknown_in(timetable, block)
        if unknown:
            faults.append(f"block {place}: {unknown}")
            continue
        trips = [timetable.trips[it] for it in block.trips]
        faults += faults_of_block(timetable, place, timetable.layers[block.layer], trips)
        run.update(block.trips)
        used[block.layer] += 1
    faults += [f"trip {it} stands more than once" for it in timetable.trips if run[it] > 1]
    faults += [f"trip {it} stands in no block" for it in timetable.trips if run[it] == 0]
    faults += [f"{it.name} has {used[it.name]} blocks and {it.fleet} vehicles"
               for it in timetable.layers.values() if used[it.name] > it.fleet]
    return faults
