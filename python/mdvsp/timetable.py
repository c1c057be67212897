"""A timetable: stops, the drives between them, layers and trips, and its text (docs/formats.md, *An instance*)."""

from __future__ import annotations

import re
from dataclasses import dataclass, field, replace
from typing import Dict, List, Mapping, NamedTuple, Optional, Tuple

from . import texts
from .errors import InputError
from .limits import USUAL_TRIPS
from .printed import short_clock

NUMBER = re.compile(r"[0-9]{1,10}")
TIME = re.compile(r"([0-9]{1,2}):([0-5][0-9])")
HEADERS = (["instance", "1"], ["instance", "2"], ["instance", "3"])
# How many fields a layer has behind its kind, by the version.
LAYER_FIELDS = {1: (6,), 2: (7,), 3: (6, 7)}


class Way(NamedTuple):
    """The drive from a stop to another."""

    minutes: int
    metres: int


STANDING = Way(0, 0)


@dataclass(frozen=True)
class Layer:
    """The vehicles of one type at one depot; without a stay they don't rest."""

    name: str
    depot: str
    fleet: int
    fixed: int
    per_minute: int
    per_metre: int
    stay: Optional[int] = None

    def rate(self, minutes: int, metres: int) -> int:
        """Returns what so many minutes and metres cost."""
        return self.per_minute * minutes + self.per_metre * metres


@dataclass(frozen=True)
class Trip:
    """A trip with passengers, in minutes from 0:00 of the first day, and the layers that may run it."""

    name: str
    origin: str
    start: int
    target: str
    end: int
    metres: int
    layers: Tuple[str, ...]


@dataclass
class Timetable:
    """All that a plan is made for. Layers and trips stand by name, in the order in which they are declared."""

    stops: List[str] = field(default_factory=list)
    ways: Dict[Tuple[str, str], Way] = field(default_factory=dict)
    layers: Dict[str, Layer] = field(default_factory=dict)
    trips: Dict[str, Trip] = field(default_factory=dict)

    def way(self, origin: str, target: str) -> Optional[Way]:
        """Returns the way from a stop to a stop, or None."""
        return STANDING if origin == target else self.ways.get((origin, target))

    def connection(self, first: Trip, second: Trip) -> Optional[Way]:
        """Returns the way between two trips where one vehicle is in time for the second, or None."""
        way = self.way(first.target, second.origin)
        return way if way is not None and first.end + way.minutes <= second.start else None

    @property
    def rests(self) -> bool:
        """Whether vehicles may rest in their depot."""
        return any(layer.stay is not None for layer in self.layers.values())

    @property
    def version(self) -> int:
        """The version of its text: 3 where it is large, else 2 where vehicles may rest, else 1."""
        if max([len(self.trips), *(layer.fleet for layer in self.layers.values())]) > USUAL_TRIPS:
            return 3
        return 2 if self.rests else 1

    def with_fleets(self, fleets: Mapping[str, int]) -> Timetable:
        """Returns the timetable with other numbers of vehicles in some of its layers."""
        layers = {name: replace(layer, fleet=fleets.get(name, layer.fleet)) for name, layer in self.layers.items()}
        return replace(self, layers=layers)

    def text(self) -> str:
        """Returns its text, which `mdvsp` reads."""
        rows: List[List[object]] = [["instance", self.version]]
        rows += [["stop", name] for name in self.stops]
        rows += [["deadhead", *ends, *way] for ends, way in self.ways.items()]
        rows += [layer_row(layer) for layer in self.layers.values()]
        rows += [trip_row(trip) for trip in self.trips.values()]
        return "".join(",".join(map(str, row)) + "\n" for row in rows)


def layer_row(layer: Layer) -> List[object]:
    row = ["layer", layer.name, layer.depot, layer.fleet, layer.fixed, layer.per_minute, layer.per_metre]
    return row if layer.stay is None else [*row, layer.stay]


def trip_row(trip: Trip) -> List[object]:
    start, end = short_clock(trip.start), short_clock(trip.end)
    return ["trip", trip.name, trip.origin, start, trip.target, end, trip.metres, *trip.layers]


# --- Reading ---------------------------------------------------------------------------------------------------------


def read(path: str) -> Timetable:
    """Returns the timetable of a file, up to its first record `result`."""
    return parse(texts.read_bytes(path), path)


def parse(data: bytes, name: str = "timetable") -> Timetable:
    """Returns the timetable of a text, up to its first record `result`. The name stands in front of what is wrong."""
    records = texts.records_of(data, name)
    if not records or records[0][1] not in HEADERS:
        raise InputError(f"{name}: the first record is none of instance,1, instance,2 and instance,3")
    version = int(records[0][1][1])
    timetable = Timetable()
    for place, fields in records[1:]:
        if fields[0] == "result":
            break
        try:
            add_record(timetable, fields, version)
        except ValueError as error:
            raise InputError(f"{name}: record {place}: {error}") from error
    return timetable


def add_record(timetable: Timetable, fields: List[str], version: int) -> None:
    """Adds what a record declares to a timetable."""
    kind, *rest = fields
    if kind == "stop" and len(rest) == 1:
        timetable.stops.append(rest[0])
    elif kind == "deadhead" and len(rest) == 4:
        origin, target = (one_of(it, timetable.stops, "stop") for it in rest[:2])
        timetable.ways[origin, target] = Way(number(rest[2]), number(rest[3]))
    elif kind == "layer" and len(rest) in LAYER_FIELDS[version]:
        depot = one_of(rest[1], timetable.stops, "stop")
        timetable.layers[rest[0]] = Layer(rest[0], depot, *(number(it) for it in rest[2:]))
    elif kind == "trip" and len(rest) >= 7:
        origin, target = (one_of(it, timetable.stops, "stop") for it in (rest[1], rest[3]))
        layers = tuple(one_of(it, timetable.layers, "layer") for it in rest[6:])
        trip = Trip(rest[0], origin, minute(rest[2]), target, minute(rest[4]), number(rest[5]), layers)
        timetable.trips[trip.name] = trip
    else:
        raise ValueError(f"`{','.join(fields)}` is no record of an instance")


def number(text: str) -> int:
    if not NUMBER.fullmatch(text):
        raise ValueError(f"`{text}` is no number")
    return int(text)


def minute(text: str) -> int:
    found = TIME.fullmatch(text)
    if not found:
        raise ValueError(f"`{text}` is no time")
    return int(found[1]) * 60 + int(found[2])


def one_of(text: str, names, kind: str) -> str:
    if text not in names:
        raise ValueError(f"unknown {kind} {text}")
    return text
