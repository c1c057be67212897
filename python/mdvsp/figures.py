"""The figures of a plan: vehicles, most out at once, hours, kilometres and costs, by depot and vehicle group."""

from __future__ import annotations

from dataclasses import dataclass, field, fields
from typing import Dict, Iterable, List, Optional, Sequence, Tuple

from .duties import DRIVEN_EMPTY, Duty, Kind
from .timetable import Timetable

Span = Tuple[int, int]


@dataclass
class Figures:
    """What some vehicles do together: times in minutes, ways in metres, costs in cost units."""

    fleet: int = 0
    vehicles: int = 0
    service: int = 0
    empty: int = 0
    waiting: int = 0
    resting: int = 0
    service_metres: int = 0
    empty_metres: int = 0
    fixed: int = 0
    time: int = 0
    distance: int = 0
    spans: List[Span] = field(default_factory=list)

    def add(self, other: Figures) -> None:
        for it in fields(self):
            setattr(self, it.name, getattr(self, it.name) + getattr(other, it.name))

    @property
    def out(self) -> int:
        return self.service + self.empty + self.waiting

    @property
    def metres(self) -> int:
        return self.service_metres + self.empty_metres

    @property
    def cost(self) -> int:
        return self.fixed + self.time + self.distance


def figures_of_duty(duty: Duty) -> Figures:
    """Returns the figures of one vehicle."""
    service, waiting = duty.minutes(Kind.TRIP), duty.minutes(Kind.WAIT)
    empty = duty.minutes(*DRIVEN_EMPTY)
    service_metres, empty_metres = duty.metres(Kind.TRIP), duty.metres(*DRIVEN_EMPTY)
    layer = duty.layer
    return Figures(
        vehicles=1, service=service, empty=empty, waiting=waiting, resting=duty.minutes(Kind.REST),
        service_metres=service_metres, empty_metres=empty_metres, fixed=layer.fixed,
        time=layer.per_minute * (service + empty + waiting),
        distance=layer.per_metre * (service_metres + empty_metres), spans=duty.spans,
    )


def figures_of_plan(timetable: Timetable, duties: Iterable[Duty]) -> Dict[str, Figures]:
    """Returns the figures of a plan, layer by layer."""
    figures = {name: Figures(layer.fleet) for name, layer in timetable.layers.items()}
    for duty in duties:
        figures[duty.layer.name].add(figures_of_duty(duty))
    return figures


def united(parts: Iterable[Figures]) -> Figures:
    whole = Figures()
    for part in parts:
        whole.add(part)
    return whole


def changes_of(spans: Sequence[Span]) -> Dict[int, int]:
    """Returns by how many vehicles the number of those that are out changes, minute by minute."""
    changes: Dict[int, int] = {}
    for begin, end in spans:
        changes[begin] = changes.get(begin, 0) + 1
        changes[end] = changes.get(end, 0) - 1
    return dict(sorted(changes.items()))


def most_out(spans: Sequence[Span]) -> Tuple[int, Optional[int], Optional[int]]:
    """Returns how many vehicles are out of their depots at most at once, and from when to when that is so at first.

    A vehicle that comes in at a minute isn't out with one that leaves at it.
    """
    count, most, since, until = 0, 0, None, None
    for at, change in changes_of(spans).items():
        if change < 0 and count == most and until is None:
            until = at
        count += change
        if count > most:
            most, since, until = count, at, None
    return most, since, until


@dataclass(frozen=True)
class Scope:
    """Vehicles whose figures stand together: all, those of a depot, or those of a group at its depot."""

    depot: str
    layer: str
    figures: Figures


def scopes_of(timetable: Timetable, figures: Dict[str, Figures]) -> List[Scope]:
    """Returns all vehicles, then each depot and behind it its groups.

    One that has the same vehicles as the one before it is left out.
    """
    layers = timetable.layers.values()
    depots = [stop for stop in timetable.stops if any(layer.depot == stop for layer in layers)]
    scopes = []
    if len(figures) != 1:
        scopes.append(Scope("", "", united(figures.values())))
    for depot in depots:
        own = [layer.name for layer in layers if layer.depot == depot]
        if len(own) > 1 and len(depots) > 1:
            scopes.append(Scope(depot, "", united(figures[it] for it in own)))
        scopes += [Scope(depot, it, figures[it]) for it in own]
    return scopes
