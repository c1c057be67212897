"""Makes a timetable from a GTFS feed, for one day.

FEED is a folder or a zip. The trips are those of the services that run on --date, with times past midnight and the
headways of frequencies.txt. Depots and vehicle groups stand in two sheets, as docs/planning.md says. The drives between
the stops where trips begin or end are guessed by the crow's flight, times a factor, at a speed; those of the sheet
--drives stand in their place, and all are closed afterwards.

It writes into a folder the timetable, timetable.csv; its side file with the real names and the unit of costs,
timetable.names.csv; and guesses.txt, which lists all that was guessed, and is printed too.

It ends with 0 where the timetable is written, 2 where the arguments are wrong, 3 where the feed or a sheet has faults
or is past the limits, 4 where a file can't be read and 5 where one can't be written.

This tool is no part of what is proved. mdvsp judges each text that it reads, whoever made it.
"""

from __future__ import annotations

import argparse
import datetime
import math
import os
from dataclasses import replace
from typing import Dict, Optional, Sequence, Tuple

from . import sheets, texts
from .company import Company, Places, read_company
from .drives import PARTS, Closed, Ends
from .errors import Faults
from .feed_day import UNITS, Day, Journey, Options, read_day
from .guesses import Guesses
from .limits import MAX_METRES, MAX_MINUTES
from .places import Names, Point, metres_between
from .printed import counted, short_clock
from .sheets import Made
from .side import SideFile, TripNames
from .timetable import Timetable, Trip

# --- The timetable ---------------------------------------------------------------------------------------------------


def guessed_drives(points: Dict[str, Point], options: Options) -> Dict[Ends, Tuple[int, int]]:
    """Returns the drives by the crow's flight, in parts of a minute and in metres; none longer than is asked for."""
    drives = {}
    for origin, first in points.items():
        for target, second in points.items():
            if origin == target:
                continue
            metres = math.ceil(metres_between(first, second) * options.factor)
            parts = max(1, math.ceil(metres * 60 * PARTS / (options.speed * 1000)))
            if metres <= options.longest * 1000 and metres <= MAX_METRES and parts <= MAX_MINUTES * PARTS:
                drives[origin, target] = (parts, metres)
    return drives

def stop_names(places: Places, side: SideFile) -> Dict[str, str]:
    """Returns the names of places in the timetable's text, and keeps the real ones in the side file."""
    names, found = Names(), {}
    for place, called in places.called.items():
        found[place] = names.new(called, place)
        side.stops[found[place]] = called
    return found


def trips_by_name(journeys: Sequence[Journey], stops: Dict[str, str], side: SideFile) -> Dict[str, Trip]:
    """Returns the trips by their names, which are made of the line and the start."""
    names, trips = Names(), {}
    for journey in journeys:
        line, start = journey.trip.line, short_clock(journey.start)
        digits = start.replace(":", "").zfill(4)
        name = names.new(f"{line}-{digits}", f"t-{digits}")
        origin, target = stops[journey.origin], stops[journey.target]
        trips[name] = Trip(name, origin, journey.start, target, journey.end, journey.metres, journey.groups)
        real = f"{line} {start} {side.stop(origin)} – {side.stop(target)}"
        side.trips[name] = TripNames(real, line, journey.trip.trip_id)
    return trips


def close(day: Day, company: Company, stops: Dict[str, str], side: SideFile, options: Options) -> Closed:
    """Returns the closed drives, by the names of the stops, and lists those that were guessed."""
    measured = {(stops[a], stops[b]): figures for (a, b), figures in company.measured.items()}
    guessed = {(stops[a], stops[b]): figures for (a, b), figures in
               guessed_drives(company.places.points, options).items()}
    closed = Closed(list(stops.values()), {**guessed, **measured})
    kind = (f"drives by the crow's flight, times {options.factor:g}, at {options.speed:g} km/h, where they are at most "
            f"{options.longest:g} km")
    for (origin, target), (minutes, metres) in closed.drives.items():
        if (origin, target) not in measured:
            way = "" if (origin, target) in guessed else ", by way of others"
            day.guesses.add(kind, metres, f"{side.stop(origin)} to {side.stop(target)}: "
                                          f"{counted(minutes, 'minute')}, {metres} metres{way}")
    for ends in closed.shortened:
        if ends in measured:
            day.guesses.add("measured drives that are shorter by way of another stop", measured[ends][1],
                            closed.told_shortened(ends))
    return closed


def list_names(side: SideFile, guesses: Guesses) -> None:
    """Lists the stops that have another name in the timetable's text."""
    for name, real in side.stops.items():
        if name != real:
            guesses.add("stops with another name in the timetable", len(real), f"{real}: {name}")


def convert(day: Day, company: Company, options: Options) -> Made:
    """Returns the timetable of a day with its side file, and lists what was guessed."""
    side = SideFile(company.unit)
    stops = stop_names(company.places, side)
    trips = trips_by_name(day.journeys, stops, side)
    closed = close(day, company, stops, side, options)
    too_long = closed.too_long()
    if too_long:
        raise Faults([f"{day.path}: {text}" for text in too_long])
    layers = {name: replace(layer, depot=stops[company.places.depots[layer.depot]])
              for name, layer in sheets.layers_of(company.groups, company.unit).items()}
    list_names(side, day.guesses)
    notes = list(company.notes)
    for trip in trips.values():
        why = sheets.unreachable(trip, layers, closed.drives)
        if why:
            notes.append(f"no vehicle can run trip {trip.name} ({side.trip(trip.name)}): {why}")
    return Made(Timetable(list(stops.values()), closed.drives, layers, trips), side, notes)


def read(feed: str, depots: str, groups: str, measured: Optional[str], options: Options) -> Tuple[Made, Guesses]:
    """Returns what a feed and its sheets come to, and what was guessed."""
    day = read_day(feed, options)
    company = read_company(day, depots, groups, measured, options)
    return convert(day, company, options), day.guesses


# --- The command -----------------------------------------------------------------------------------------------------


def date_of(text: str) -> datetime.date:
    try:
        return datetime.date.fromisoformat(text)
    except ValueError:
        raise argparse.ArgumentTypeError("a date such as 2026-12-01 is wanted") from None


def positive(text: str) -> float:
    try:
        value = float(text)
    except ValueError:
        value = 0.0
    if not 0 < value < 10**6:
        raise argparse.ArgumentTypeError("a number above 0 is wanted")
    return value


def add_arguments(parser: argparse.ArgumentParser) -> None:
    usual = Options(datetime.date.min)
    parser.add_argument("feed", metavar="FEED", help="the folder or the zip of the feed")
    parser.add_argument("--date", type=date_of, required=True, help="the day, such as 2026-12-01")
    parser.add_argument("--routes", default="", help="these lines alone, by id or short name, with commas between them")
    parser.add_argument("--agency", help="the lines of this agency alone, by id or name")
    parser.add_argument("--depots", required=True, metavar="SHEET", help="the depots: depot, and stop or lat and lon")
    parser.add_argument("--groups", required=True, metavar="SHEET", help="the vehicle groups, and what they run")
    parser.add_argument("--by", default=usual.by, metavar="COLUMN", help="what `runs` names: route, or a column of "
                        "trips.txt or routes.txt")
    parser.add_argument("--drives", metavar="SHEET", help="measured drives: from, to, minutes and metres")
    parser.add_argument("--stations", action="store_true", help="make one place of the stops of a station")
    parser.add_argument("--factor", type=positive, default=usual.factor, metavar="F",
                        help=f"how much longer ways are than the crow's flight; {usual.factor:g} else")
    parser.add_argument("--speed", type=positive, default=usual.speed, metavar="KMH",
                        help=f"how fast empty vehicles drive; {usual.speed:g} km/h else")
    parser.add_argument("--longest", type=positive, default=usual.longest, metavar="KM",
                        help=f"how long a drive is at most that is guessed; {usual.longest:g} km else")
    parser.add_argument("--shape-unit", choices=sorted(UNITS), help="the unit of shape_dist_traveled")
    parser.add_argument("-o", "--output", required=True, metavar="DIR", help="the folder that is written")


def command(arguments: argparse.Namespace, parser: argparse.ArgumentParser) -> int:
    """Writes the timetable of a feed, its side file and the list of what was guessed."""
    routes = tuple(it.strip() for it in arguments.routes.split(",") if it.strip())
    options = Options(arguments.date, routes, arguments.agency, arguments.by, arguments.stations, arguments.factor,
                      arguments.speed, arguments.longest, arguments.shape_unit)
    made, guesses = read(arguments.feed, arguments.depots, arguments.groups, arguments.drives, options)
    path = os.path.join(arguments.output, "timetable.csv")
    sheets.write(made, path)
    listed_guesses = "".join(f"{line}\n" for line in guesses.lines())
    texts.write_text(os.path.join(arguments.output, "guesses.txt"), listed_guesses)
    for text in made.notes:
        texts.note(text)
    found = made.timetable
    texts.print_text(f"{path}: {counted(len(found.trips), 'trip')}, {counted(len(found.stops), 'stop')}, "
                     f"{counted(len(found.layers), 'group')}\n{listed_guesses}", "what was guessed")
    return 0
