"""The day of a feed: its trips in whole minutes between places, with their metres, and what was guessed of them."""

from __future__ import annotations

import datetime
import math
from collections import Counter
from dataclasses import dataclass
from typing import Collection, Dict, List, Optional, Sequence, Tuple

from .errors import Faults
from .feed import Feed, FeedTrip, point_of, routes_of, shapes_of, trips_on
from .guesses import Guesses
from .limits import LAST_MINUTE
from .places import Point, metres_between
from .printed import counted, short_clock

UNITS = {"metres": 1.0, "kilometres": 1000.0, "miles": 1609.344, "feet": 0.3048}
ROUTE_NAMES = ("route_id", "route_short_name", "route_long_name")
# How much longer a way is than the crow's flight from stop to stop, in most feeds.
USUAL_DETOUR = 1.2


@dataclass(frozen=True)
class Options:
    """What is asked of a feed."""

    date: datetime.date
    routes: Tuple[str, ...] = ()
    agency: Optional[str] = None
    by: str = "route"
    stations: bool = False
    factor: float = 1.3
    speed: float = 25.0
    longest: float = 100.0
    shape_unit: Optional[str] = None


@dataclass
class Journey:
    """A trip of the timetable: a departure of a trip of the feed, in whole minutes, between two places."""

    trip: FeedTrip
    origin: str
    target: str
    start: int
    end: int
    metres: int = 0
    groups: Tuple[str, ...] = ()


# --- Places ----------------------------------------------------------------------------------------------------------


class Stops:
    """The stops of a feed. Where stations are asked for, the stops of one stand for it."""

    def __init__(self, feed: Feed, stations: bool):
        self.rows = {row["stop_id"]: row for row in feed.rows("stops.txt", ("stop_id",), needed=True)}
        self.stations = stations

    def place(self, stop: str) -> str:
        """Returns the place that a stop is."""
        parent = self.rows.get(stop, {}).get("parent_station", "")
        return parent if self.stations and parent in self.rows else stop

    def point(self, stop: str) -> Optional[Point]:
        """Returns where a stop is, or its station where it doesn't say."""
        row = self.rows.get(stop, {})
        parent = self.rows.get(row.get("parent_station", ""), {})
        return point_of(row, "stop_lat", "stop_lon") or point_of(parent, "stop_lat", "stop_lon")

    def real_names(self, places: Collection[str]) -> Dict[str, str]:
        """Returns what places are called; those of one name get their platform or id behind it."""
        names = {place: self.rows.get(place, {}).get("stop_name") or place for place in places}
        counts = Counter(names.values())
        return {place: name if counts[name] == 1 else
                f"{name} ({self.rows[place].get('platform_code') or place})" for place, name in names.items()}


# --- Trips -----------------------------------------------------------------------------------------------------------


def journeys_of(trips: Sequence[FeedTrip], stops: Stops, guesses: Guesses) -> List[Journey]:
    """Returns the trips of the timetable, by their start. Those that can't be read are listed with the guesses."""
    journeys = []
    for trip in trips:
        missing = what_is_missing(trip, stops)
        if missing:
            guesses.add(f"trips left out, {missing}", 0, trip.trip_id)
            continue
        for departure in trip.departures:
            journeys.append(journey_of(trip, departure, stops, guesses))
        if trip.by_headway and not trip.exact:
            guesses.add("trips by headway, whose departures are guessed", len(trip.departures),
                        f"{trip.trip_id}: {counted(len(trip.departures), 'departure')}")
    late = [it for it in journeys if it.end > LAST_MINUTE]
    for journey in late:
        guesses.add("trips left out, past 47:59", journey.end, journey.trip.trip_id)
    return sorted((it for it in journeys if it.end <= LAST_MINUTE), key=lambda it: it.start)


def what_is_missing(trip: FeedTrip, stops: Stops) -> str:
    """Returns why a trip can't be planned, or nothing."""
    if len(trip.calls) < 2:
        return "with fewer than two stops"
    if trip.calls[0].departure is None or trip.calls[-1].arrival is None:
        return "without a time at their first or last stop"
    unknown = [it.stop for it in (trip.calls[0], trip.calls[-1]) if stops.point(it.stop) is None]
    return "with a stop that has no coordinates" if unknown else ""


def journey_of(trip: FeedTrip, departure: int, stops: Stops, guesses: Guesses) -> Journey:
    """Returns a departure of a trip in whole minutes, so that it doesn't get shorter."""
    first, last = trip.calls[0], trip.calls[-1]
    arrival = departure + last.arrival - first.departure
    start, end = departure // 60, -(-arrival // 60)
    journey = Journey(trip, stops.place(first.stop), stops.place(last.stop), start, max(end, start + 1))
    added = (journey.end - start) * 60 - (arrival - departure)
    if added:
        guesses.add("trips whose times are rounded to whole minutes", added,
                    f"{trip.trip_id}: {clock_of(departure)} to {clock_of(arrival)} becomes "
                    f"{short_clock(start)} to {short_clock(journey.end)}")
    return journey


def clock_of(seconds: int) -> str:
    return f"{seconds // 3600}:{seconds // 60 % 60:02}:{seconds % 60:02}"


# --- Metres ----------------------------------------------------------------------------------------------------------


class Measure:
    """How long the trips of a feed are: by shape_dist_traveled, else by their shape, else by the crow's flight."""

    def __init__(self, feed: Feed, trips: Sequence[FeedTrip], stops: Stops, options: Options, guesses: Guesses):
        self.stops, self.options, self.guesses = stops, options, guesses
        self.shapes = shapes_of(feed, {trip.fields.get("shape_id", "") for trip in trips})
        self.unit = options.shape_unit or self.likely_unit(trips)

    def points(self, trip: FeedTrip) -> List[Point]:
        found = (self.stops.point(call.stop) for call in trip.calls)
        return [point for point in found if point is not None]

    def crow(self, trip: FeedTrip) -> float:
        """Returns how long a trip is from stop to stop by the crow's flight."""
        points = self.points(trip)
        return sum(metres_between(first, second) for first, second in zip(points, points[1:]))

    def likely_unit(self, trips: Sequence[FeedTrip]) -> str:
        """Returns the unit in which shape_dist_traveled is likeliest written."""
        ratios = sorted(travelled(trip) / self.crow(trip) for trip in trips if travelled(trip) and self.crow(trip))
        if not ratios:
            return "metres"
        ratio = ratios[len(ratios) // 2]
        return min(UNITS, key=lambda it: abs(math.log(ratio * UNITS[it] / USUAL_DETOUR)))

    def metres(self, trip: FeedTrip, about: str) -> int:
        """Returns how long a trip is, rounded up."""
        distance, shape = travelled(trip), self.shapes.get(trip.fields.get("shape_id", ""), [])
        if distance:
            metres = math.ceil(round(distance * UNITS[self.unit], 3))
            if not self.options.shape_unit:
                kind = f"trips whose shape_dist_traveled is taken as {self.unit}"
                self.guesses.add(kind, metres, f"{about}: {metres} metres")
            return metres
        if len(shape) > 1:
            metres = math.ceil(along(shape, self.points(trip)[0], self.points(trip)[-1]))
            self.guesses.add("trips as long as their shape between its points nearest to their ends", metres,
                             f"{about}: {metres} metres")
            return metres
        metres = math.ceil(self.crow(trip) * self.options.factor)
        self.guesses.add(f"trips as long as the crow's flight from stop to stop, times {self.options.factor:g}", metres,
                         f"{about}: {metres} metres")
        return metres


def travelled(trip: FeedTrip) -> float:
    """Returns the distance between a trip's first and last stop by shape_dist_traveled, and 0 where it isn't given."""
    if not trip.calls:
        return 0.0
    first, last = trip.calls[0].travelled, trip.calls[-1].travelled
    return max(0.0, last - first) if first is not None and last is not None else 0.0


def along(shape: Sequence[Point], first: Point, last: Point) -> float:
    """Returns how long a shape is between its points that are nearest to two others."""
    begin = min(range(len(shape)), key=lambda it: metres_between(shape[it], first))
    end = min(range(begin, len(shape)), key=lambda it: metres_between(shape[it], last))
    return sum(metres_between(here, there) for here, there in zip(shape[begin:end], shape[begin + 1:end + 1]))

# --- Reading ---------------------------------------------------------------------------------------------------------


def value_of(trip: FeedTrip, by: str) -> Tuple[str, ...]:
    """Returns what a trip is called in the column by which groups run trips."""
    if by == "route":
        return tuple(trip.route.get(it, "") for it in ROUTE_NAMES)
    return (trip.fields.get(by) or trip.route.get(by, ""),)


def values_in(feed: Feed, by: str) -> Collection[str]:
    """Returns all values that a feed has in the column by which groups run trips, whatever the day."""
    if by == "route":
        return {row.get(it, "") for row in feed.rows("routes.txt") for it in ROUTE_NAMES}
    return {row.get(by, "") for name in ("trips.txt", "routes.txt") for row in feed.rows(name)}

@dataclass
class Day:
    """What a feed has for a day: its stops and trips, what was guessed of them, and what groups may be said to run."""

    path: str
    stops: Stops
    journeys: List[Journey]
    guesses: Guesses
    values: Collection[str]


def read_day(path: str, options: Options) -> Day:
    """Returns the day of a feed; Faults where no trip runs on it."""
    feed, guesses = Feed(path), Guesses()
    stops = Stops(feed, options.stations)
    trips = trips_on(feed, options.date, routes_of(feed, options.routes, options.agency))
    if not trips:
        raise Faults([f"{path}: no trip runs on {options.date.isoformat()} by what was chosen"])
    if options.by != "route" and options.by not in feed.columns("trips.txt") + feed.columns("routes.txt"):
        raise Faults([f"{path}: neither trips.txt nor routes.txt has a column {options.by}"])
    journeys = journeys_of(trips, stops, guesses)
    measure = Measure(feed, trips, stops, options, guesses)
    planned = {journey.trip.trip_id: journey.trip for journey in journeys}
    lengths = {trip_id: measure.metres(trip, trip_id) for trip_id, trip in planned.items()}
    for journey in journeys:
        journey.metres = lengths[journey.trip.trip_id]
    return Day(path, stops, journeys, guesses, values_in(feed, options.by))
