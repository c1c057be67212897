"""Why there is no plan, in the words of the program: what the ray of a document shows (docs/formats.md, *Why there is
no plan*)."""

from __future__ import annotations

from dataclasses import dataclass
from typing import List, Optional

from .plan import Leaf, Plan, Table
from .printed import clock, counted
from .side import SideFile
from .timetable import Timetable, Trip

# How many trips are named at most.
MAX_NAMED = 10


@dataclass(frozen=True)
class Reason:
    """Trips that can't be run together. With a minute all of them are under way at it, and the layers that may run some
    of them have fewer vehicles. With several cases, none of which has a plan, no trips are named."""

    trips: List[Trip]
    layers: List[str]
    vehicles: int = 0
    minute: Optional[int] = None
    cases: int = 1

    def words(self, names: SideFile) -> str:
        """Returns the line that `mdvsp solve` prints on a terminal, with the real names of the trips."""
        if self.cases > 1:
            return f"no plan: {self.cases} cases, none of which has a plan: `check` judges them"
        listed = ", ".join(names.trip(trip.name) for trip in self.trips[:MAX_NAMED])
        if len(self.trips) > MAX_NAMED:
            listed += f" and {len(self.trips) - MAX_NAMED} more"
        if self.minute is not None:
            their = "its" if len(self.trips) == 1 else "their"
            return (f"no plan: {counted(len(self.trips), 'trip')} at {clock(self.minute)}, "
                    f"{counted(self.vehicles, 'vehicle')} of {their} layers: {listed}")
        if len(self.trips) == 1:
            return f"no plan: no vehicle of its layers can run the trip {listed}"
        return f"no plan: {len(self.trips)} trips that can't be run together: {listed}"


def reason_of(timetable: Timetable, plan: Plan) -> Optional[Reason]:
    """Returns why there is no plan, by a document that claims so; None where it doesn't, or shows no reason."""
    if plan.claim != "infeasible":
        return None
    try:
        tree, tables = plan.tree, plan.tables
    except (ValueError, IndexError):
        return None
    if not tree:
        return None
    first = tree[0]
    if not isinstance(first, Leaf):
        return Reason([], [], cases=sum(isinstance(row, Leaf) for row in tree))
    if not 1 <= first.table <= len(tables) or not tables[first.table - 1].is_ray:
        return None
    trips = [trip for trip in timetable.trips.values() if counts(tables[first.table - 1], trip)]
    return reason_for(timetable, trips) if trips else None


def counts(ray: Table, trip: Trip) -> bool:
    """Whether a trip counts more than 0 in the layer where it counts least."""
    prices = [ray.prices.get((layer, trip.name), (0, 0)) for layer in trip.layers]
    return min((into - leaving for into, leaving in prices), default=0) > 0


def reason_for(timetable: Timetable, trips: List[Trip]) -> Reason:
    """Returns the reason that these trips are: the minute at which all of them are under way, where that says it."""
    layers = [name for name in timetable.layers if any(name in trip.layers for trip in trips)]
    vehicles = sum(timetable.layers[name].fleet for name in layers)
    latest_start, earliest_end = max(trip.start for trip in trips), min(trip.end for trip in trips)
    minute = latest_start if vehicles < len(trips) and latest_start < earliest_end else None
    return Reason(trips, layers, vehicles, minute)
