"""What the sheets beside a feed have: depots, vehicle groups with what they run, and drives that were measured."""

from __future__ import annotations

import re
from collections import Counter
from dataclasses import dataclass
from typing import Callable, Collection, Dict, List, Optional, Sequence, Tuple

from . import sheets
from .drives import Ends
from .errors import Faults
from .feed import point_of
from .feed_day import Day, Journey, Options, Stops, value_of
from .limits import MAX_METRES, MAX_STOPS, MAX_TRIPS
from .places import Point
from .printed import counted
from .sheet_reader import FaultList, Fields, Form, Row, Sheet, near_name, read_sheet, shown
from .sheets import Group

DEPOTS = Form("depots.csv", ("depot",), ("lat", "lon", "stop"))
GROUPS = Form("groups.csv", sheets.GROUPS.wanted, ("stay", "runs"), "runs", sheets.IN_MONEY)
MEASURED = Form("measured.csv", ("from", "to", "minutes", "metres"))


# --- Depots, groups and who may run what -----------------------------------------------------------------------------


def read_depots(sheet: Sheet, stops: Stops, faults: FaultList) -> Dict[str, Tuple[Optional[str], Optional[Point]]]:
    """Returns the depots by name: the place of the feed that one is, or its point."""
    depots: Dict[str, Tuple[Optional[str], Optional[Point]]] = {}
    for line, fields in sheet.rows:
        row = Row(sheet, line, f"depot {fields['depot'] or '?'}", faults)
        stop, point = fields["stop"], point_of(fields, "lat", "lon")
        if not fields["depot"]:
            row.fault("no depot")
        elif fields["depot"] in depots:
            row.fault("it stands twice")
        elif stop and stop not in stops.rows:
            row.fault(f"stops.txt has no stop {shown(stop)}{near_name(stop, stops.rows)}")
        elif not stop and point is None:
            row.fault("no stop, and no lat and lon in degrees such as 51.0512 and 7.0034")
        elif stop and stops.point(stop) is None:
            row.fault(f"the stop {shown(stop)} has no coordinates")
        else:
            depots[fields["depot"]] = (stops.place(stop), None) if stop else (None, point)
    return depots


def runs_of(fields: Fields) -> List[str]:
    """Returns what a group may run by its row; an empty list stands for everything."""
    return [it.strip() for cell in fields["runs"] for it in re.split(r"[;,|]", cell) if it.strip()]

def permit(day: Day, sheet: Sheet, by: str, faults: FaultList) -> None:
    """Gives each trip its groups; a fault for each line that no group may run, and for each value of no trip."""
    runs = {}
    for line, fields in sheet.rows:
        group, values = fields["group"], runs_of(fields)
        runs.setdefault(group, values)
        for value in (it for it in values if it not in day.values):
            faults.add(sheet, line, f"group {group} runs {shown(value)}, which no trip has by {by}"
                                    f"{near_name(value, day.values)}")
    without: Counter = Counter()
    for journey in day.journeys:
        own = set(value_of(journey.trip, by))
        journey.groups = tuple(it for it, values in runs.items() if not values or own.intersection(values))
        if not journey.groups:
            without[journey.trip.line] += 1
    for line, count in without.items():
        faults.add(sheet, 0, f"no group may run {counted(count, 'trip')} of line {line}: name it below `runs`, or "
                             "leave it out with --routes")


# --- Limits ----------------------------------------------------------------------------------------------------------


def limit_faults(journeys: Sequence[Journey], places: Collection[str], stations: bool) -> List[str]:
    """Returns what is past the limits, with what to leave out."""
    told = []
    if len(journeys) > MAX_TRIPS:
        lines = Counter(journey.trip.line for journey in journeys)
        told.append(f"{len(journeys)} trips, and there may be {MAX_TRIPS}: choose lines with --routes; trips by line: "
                    + listed(lines))
    if len(places) > MAX_STOPS:
        lines = Counter()
        for line in {journey.trip.line for journey in journeys}:
            lines[line] = len({it for journey in journeys if journey.trip.line == line
                               for it in (journey.origin, journey.target)})
        merge = "" if stations else " make one place of each station with --stations, or"
        told.append(f"{len(places)} places where trips begin or end, and there may be {MAX_STOPS}:{merge} choose lines "
                    "with --routes; places by line: " + listed(lines))
    told += [f"trip {it.trip.trip_id} is {it.metres} metres long, and may be {MAX_METRES}: leave out its line "
             f"{it.trip.line} with --routes, or name the unit with --shape-unit"
             for it in journeys if it.metres > MAX_METRES][:10]
    return told


def listed(counts: Counter) -> str:
    """Returns counts by name, the ten largest."""
    more = f" and {len(counts) - 10} more" if len(counts) > 10 else ""
    return ", ".join(f"{name}: {count}" for name, count in counts.most_common(10)) + more

# --- Places and drives -----------------------------------------------------------------------------------------------


@dataclass
class Places:
    """The places of a timetable: what they are called and where they are. `depots` has the place of each depot."""

    called: Dict[str, str]
    points: Dict[str, Point]
    depots: Dict[str, str]


def places_of(day: Day, depots: Dict[str, Tuple[Optional[str], Optional[Point]]]) -> Places:
    """Returns the places of the timetable, depots first. A depot at a stop is called as the stop is."""
    own = {depot: place or f"depot:{depot}" for depot, (place, _) in depots.items()}
    ends = dict.fromkeys(it for journey in day.journeys for it in (journey.origin, journey.target))
    real = day.stops.real_names(dict.fromkeys([*(place for place, _ in depots.values() if place), *ends]))
    called = {place: real.get(place, depot) for depot, place in own.items()}
    called.update((place, real[place]) for place in ends)
    points = {own[depot]: point or day.stops.point(place) for depot, (place, point) in depots.items()}
    points.update((place, day.stops.point(place)) for place in ends if place not in points)
    return Places(called, points, own)


def finder(places: Places, stops: Stops) -> Callable[[str], str]:
    """Returns what finds the place of a name that a sheet has: a depot's, a stop's id, or a stop's name."""
    by_name: Dict[str, List[str]] = {}
    for place, name in places.called.items():
        for it in {name, stops.rows.get(place, {}).get("stop_name", name)}:
            by_name.setdefault(it, []).append(place)

    def known(text: str) -> str:
        if text in places.depots:
            return places.depots[text]
        place = stops.place(text)
        if place in places.called:
            return place
        named = by_name.get(text, [])
        return named[0] if len(named) == 1 else ""

    return known

def measured_drives(sheet: Sheet, known: Callable[[str], str], faults: FaultList) -> Dict[Ends, Tuple[int, int]]:
    """Returns the drives of a sheet between places that are known, each by its own name, its id, or its stop's name."""
    drives: Dict[Ends, Tuple[int, int]] = {}
    for line, fields in sheet.rows:
        row = Row(sheet, line, f"{fields['from'] or '?'} to {fields['to'] or '?'}", faults)
        ends = tuple(known(fields[it]) for it in ("from", "to"))
        for end, column in zip(ends, ("from", "to")):
            if not end:
                row.fault_once("stop", fields[column], f"{shown(fields[column])} is no depot and no stop where trips "
                                                       "begin or end, or several are called so; give its stop_id")
        parts = row.drive_time(fields["minutes"])
        metres = row.whole_number("metres", fields["metres"], 0, MAX_METRES, "are these kilometres?")
        if row.good and ends[0] != ends[1]:
            drives[ends] = (parts, metres)
    return drives

@dataclass
class Company:
    """What the sheets beside a feed have: the groups, the places with the depots, drives that were measured, and the
    unit of costs."""

    groups: Dict[str, Group]
    places: Places
    measured: Dict[Ends, Tuple[int, int]]
    unit: int
    notes: List[str]


def read_company(day: Day, depots_path: str, groups_path: str, measured_path: Optional[str],
                 options: Options) -> Company:
    """Returns what the sheets have, and gives the trips their groups; Faults where sheets or limits have any."""
    faults = FaultList()
    depot_sheet = read_sheet(0, depots_path, DEPOTS, faults)
    group_sheet = read_sheet(1, groups_path, GROUPS, faults)
    depots = read_depots(depot_sheet, day.stops, faults)
    whole = depot_sheet.whole and not faults.found
    groups = sheets.read_groups(group_sheet, lambda row, text: row.listed("depot", text, depots, whole), faults)
    if group_sheet.whole:
        permit(day, group_sheet, options.by, faults)
    places = places_of(day, depots)
    measured = {}
    if measured_path:
        sheet = read_sheet(2, measured_path, MEASURED, faults)
        measured = measured_drives(sheet, finder(places, day.stops), faults)
    unit, notes = sheets.unit_of(group_sheet, groups, len(day.journeys), faults)
    past = [f"{day.path}: {text}" for text in limit_faults(day.journeys, places.called, options.stations)]
    lines = [*faults.lines(), *past]
    if lines:
        raise Faults([*lines, f"{counted(len(lines), 'fault')}; nothing is written"])
    notes = [*sheets.sheet_notes([depot_sheet, group_sheet]), *notes, *sheets.group_notes(group_sheet, groups)]
    return Company(groups, places, measured, unit, notes)
