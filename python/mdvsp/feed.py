"""A GTFS feed in a folder or a zip: the trips that run on a day, with their lines, stops, times and shapes."""

from __future__ import annotations

import csv
import datetime
import io
import os
import re
import zipfile
from dataclasses import dataclass, field
from typing import Collection, Dict, Iterator, List, NamedTuple, Optional, Sequence, Tuple

from .errors import InputError, Unreadable
from .places import Point

TIME = re.compile(r"\s*([0-9]{1,3}):([0-5]?[0-9]):([0-5]?[0-9])\s*")
WEEKDAYS = ("monday", "tuesday", "wednesday", "thursday", "friday", "saturday", "sunday")
ADDED, REMOVED = "1", "2"

Fields = Dict[str, str]


class Call(NamedTuple):
    """A stop of a trip: its place in the trip, and times in seconds."""

    sequence: int
    stop: str
    arrival: Optional[int]
    departure: Optional[int]
    travelled: Optional[float]


@dataclass
class FeedTrip:
    """A trip of a feed with its calls in order, and the seconds from 0:00 at which it leaves, more than one where it
    runs by headways."""

    trip_id: str
    fields: Fields
    route: Fields
    calls: List[Call] = field(default_factory=list)
    departures: List[int] = field(default_factory=list)
    by_headway: bool = False
    exact: bool = True

    @property
    def line(self) -> str:
        """What the line is called."""
        return self.route.get("route_short_name") or self.route.get("route_long_name") or self.route["route_id"]


class Feed:
    """The files of a feed."""

    def __init__(self, path: str):
        self.path = path
        self.archive: Optional[zipfile.ZipFile] = None
        self.root = ""
        if os.path.isdir(path):
            return
        try:
            self.archive = zipfile.ZipFile(path)
        except OSError as error:
            raise Unreadable(f"{path}: {error.strerror}") from error
        except zipfile.BadZipFile as error:
            raise InputError(f"{path}: this is neither a folder nor a zip") from error
        within = [name for name in self.archive.namelist() if name.rsplit("/", 1)[-1] == "trips.txt"]
        self.root = min(within, key=len)[: -len("trips.txt")] if within else ""

    def has(self, name: str) -> bool:
        if self.archive is not None:
            return self.root + name in self.archive.namelist()
        return os.path.isfile(os.path.join(self.path, name))

    def open(self, name: str) -> io.TextIOBase:
        """Opens a file as text."""
        try:
            raw = (self.archive.open(self.root + name) if self.archive is not None
                   else open(os.path.join(self.path, name), "rb"))
        except OSError as error:
            raise Unreadable(f"{self.path}: {name}: {error.strerror}") from error
        return io.TextIOWrapper(raw, "utf-8-sig", "replace", newline="")

    def rows(self, name: str, columns: Sequence[str] = (), needed: bool = False) -> Iterator[Fields]:
        """Yields the rows of a file by heading, with blanks around their fields left away.

        InputError where a needed file, or a column that a file has to have, is missing.
        """
        if not self.has(name):
            if needed:
                raise InputError(f"{self.path}: there is no {name}")
            return
        headings = self.columns(name)
        missing = [it for it in columns if it not in headings]
        if missing:
            raise InputError(f"{self.path}: {name} has no column {missing[0]}")
        with self.open(name) as file:
            for row in csv.DictReader(file):
                yield {(key or "").strip(): (value or "").strip() for key, value in row.items() if key is not None}

    def columns(self, name: str) -> List[str]:
        """Returns the headings of a file."""
        if not self.has(name):
            return []
        with self.open(name) as file:
            return [it.strip() for it in next(csv.reader(file), [])]


def seconds_of(text: str) -> Optional[int]:
    """Returns a time in seconds; None where there is none."""
    found = TIME.fullmatch(text)
    return int(found[1]) * 3600 + int(found[2]) * 60 + int(found[3]) if found else None


def services_on(feed: Feed, day: datetime.date) -> Collection[str]:
    """Returns the services that run on a day, by calendar.txt and calendar_dates.txt."""
    written, weekday = day.strftime("%Y%m%d"), WEEKDAYS[day.weekday()]
    services = {row["service_id"] for row in feed.rows("calendar.txt", ("service_id",))
                if row.get(weekday) == "1" and row.get("start_date", "") <= written <= row.get("end_date", "")}
    for row in feed.rows("calendar_dates.txt", ("service_id",)):
        if row.get("date") == written:
            (services.add if row.get("exception_type") == ADDED else services.discard)(row["service_id"])
    return services


def routes_of(feed: Feed, wanted: Sequence[str], agency: Optional[str]) -> Dict[str, Fields]:
    """Returns the routes by their ids: all of them, those named by id or short name, those of an agency."""
    agencies = {row.get("agency_id", "") for row in feed.rows("agency.txt")
                if agency in (row.get("agency_id"), row.get("agency_name"))}
    if agency is not None and not agencies:
        raise InputError(f"{feed.path}: agency.txt has no agency {agency}")
    routes = {row["route_id"]: row for row in feed.rows("routes.txt", ("route_id",), needed=True)}
    names = {it for row in routes.values() for it in (row["route_id"], row.get("route_short_name"))}
    unknown = [it for it in wanted if it not in names]
    if unknown:
        raise InputError(f"{feed.path}: routes.txt has no route {', '.join(unknown)}")
    return {
        key: row for key, row in routes.items()
        if (not wanted or row["route_id"] in wanted or row.get("route_short_name") in wanted)
        and (agency is None or row.get("agency_id", "") in agencies)
    }


def trips_on(feed: Feed, day: datetime.date, routes: Dict[str, Fields]) -> List[FeedTrip]:
    """Returns the trips of these routes that run on a day, in the order of the feed."""
    services = services_on(feed, day)
    trips = {row["trip_id"]: FeedTrip(row["trip_id"], row, routes[row["route_id"]])
             for row in feed.rows("trips.txt", ("route_id", "service_id", "trip_id"), needed=True)
             if row["service_id"] in services and row["route_id"] in routes}
    for row in feed.rows("stop_times.txt", ("trip_id", "stop_id"), needed=True):
        trip = trips.get(row.get("trip_id", ""))
        if trip is not None:
            trip.calls.append(call_of(row))
    for trip in trips.values():
        trip.calls.sort(key=lambda it: it.sequence)
        start = trip.calls[0].departure if trip.calls else None
        trip.departures = [] if start is None else [start]
    add_headways(feed, trips)
    return list(trips.values())


def call_of(row: Fields) -> Call:
    """Returns the call of a row of stop_times.txt. One time stands for both where the other is missing."""
    arrival, departure = seconds_of(row.get("arrival_time", "")), seconds_of(row.get("departure_time", ""))
    sequence, travelled = row.get("stop_sequence", ""), row.get("shape_dist_traveled", "")
    return Call(int(sequence) if sequence.isdigit() else 0, row.get("stop_id", ""),
                departure if arrival is None else arrival, arrival if departure is None else departure,
                float_or_none(travelled))


def float_or_none(text: str) -> Optional[float]:
    try:
        return float(text)
    except ValueError:
        return None


def add_headways(feed: Feed, trips: Dict[str, FeedTrip]) -> None:
    """Gives the trips of frequencies.txt their departures."""
    for row in feed.rows("frequencies.txt"):
        trip = trips.get(row.get("trip_id", ""))
        begin, end = seconds_of(row.get("start_time", "")), seconds_of(row.get("end_time", ""))
        headway = row.get("headway_secs", "")
        if trip is None or begin is None or end is None or not headway.isdigit() or int(headway) == 0:
            continue
        if not trip.by_headway:
            trip.by_headway, trip.departures = True, []
        trip.exact = trip.exact and row.get("exact_times") == "1"
        trip.departures += range(begin, end, int(headway))


def shapes_of(feed: Feed, wanted: Collection[str]) -> Dict[str, List[Point]]:
    """Returns the points of shapes, in order."""
    points: Dict[str, List[Tuple[int, Point]]] = {}
    for row in feed.rows("shapes.txt"):
        shape, sequence = row.get("shape_id", ""), row.get("shape_pt_sequence", "")
        point = point_of(row, "shape_pt_lat", "shape_pt_lon")
        if shape in wanted and point is not None and sequence.isdigit():
            points.setdefault(shape, []).append((int(sequence), point))
    return {shape: [point for _, point in sorted(found)] for shape, found in points.items()}


def point_of(row: Fields, lat: str, lon: str) -> Optional[Point]:
    """Returns the point of two fields; None where they don't name one."""
    first, second = float_or_none(row.get(lat, "").replace(",", ".")), float_or_none(row.get(lon, "").replace(",", "."))
    if first is None or second is None or not (-90 <= first <= 90 and -180 <= second <= 180):
        return None
    return Point(first, second)
