"""Makes a timetable text for mdvsp from four sheets: stops, drives, vehicle groups and trips.

The sheets are CSV files as spreadsheets export them; a folder has them as stops.csv, drives.csv, groups.csv and
trips.csv. The first row of a sheet has the headings, in any order, and docs/planning.md says what stands below them.

The drives are closed: what is missing and can be driven by way of other stops is added, and what is longer than
such a way is shortened. What was added or shortened is printed on standard error, twenty drives of a kind, with --all
every one. Where the sheets have faults, all of them are printed there, with sheet, line and names, and nothing is
written.

Where the groups have their rates by the hour and the kilometre, in money, the unit in which costs are counted stands in
the side file beside the text that -o names.

It ends with 0 where the text is written, 2 where the arguments are wrong, 3 where the sheets have faults, 4 where a
sheet can't be read and 5 where the text can't be written.

This tool is no part of what is proved. mdvsp judges each text that it reads, whoever made it.
"""

from __future__ import annotations

import argparse
import itertools
import os
import re
from dataclasses import dataclass, field
from typing import Callable, Collection, Dict, List, Mapping, Optional, Sequence, Tuple

from . import side, texts
from .drives import Closed, Ends
from .errors import Faults
from .limits import (LAST_MINUTE, MAX_FIXED, MAX_GROUPS, MAX_METRES, MAX_PER_METRE, MAX_PER_MINUTE, MAX_STAY, MAX_STOPS,
                     MAX_TRIPS, MAX_VEHICLES, are_payable)
from .printed import counted, short_clock
from .rates import Rates, rounded_rates, unit_for
from .sheet_reader import (FaultList, Fields, Form, Row, Sheet, declare, headings_in, path_in, read_sheet, shown)
from .side import SideFile
from .timetable import Layer, Timetable, Trip, Way

IN_MONEY = {"per_minute": "per_hour", "per_metre": "per_km"}
STOPS = Form("stops.csv", ("stop",))
DRIVES = Form("drives.csv", ("from", "to", "minutes", "metres"))
GROUPS = Form("groups.csv", ("group", "depot", "vehicles", "fixed", "per_minute", "per_metre"), ("stay",),
              instead=IN_MONEY)
TRIPS = Form("trips.csv", ("trip", "from", "start", "to", "end", "metres", "group"), repeated="group")
FORMS = (STOPS, DRIVES, GROUPS, TRIPS)


@dataclass
class Made:
    """What sheets come to: a timetable, its side file, and what is to be said of what was added or guessed."""

    timetable: Timetable
    side: SideFile
    notes: List[str] = field(default_factory=list)


@dataclass
class Group:
    """A vehicle group as its row gives it: rates in cost units, or in money and then without cost units yet."""

    name: str
    line: int
    depot: Optional[str]
    vehicles: Optional[int]
    costs: Optional[Tuple[Optional[int], Optional[int], Optional[int]]]
    money: Optional[Rates]
    stay: Optional[int]


# --- The four sheets -------------------------------------------------------------------------------------------------


def read_stops(sheet: Sheet, faults: FaultList) -> Dict[str, int]:
    """Returns the stops, in order, each with its line."""
    stops: Dict[str, int] = {}
    for line, fields in sheet.rows:
        row = Row(sheet, line, "", faults)
        declare(row, "stop", row.name("stop", fields["stop"]), stops, MAX_STOPS)
    return stops


def read_drives(sheet: Sheet, stops: Collection[str], whole: bool, faults: FaultList) -> Dict[Ends, Tuple[int, int]]:
    """Returns the drives: by the two stops, the parts of a minute and the metres."""
    drives: Dict[Ends, Tuple[int, int]] = {}
    seen: Dict[Ends, int] = {}
    for line, fields in sheet.rows:
        row = Row(sheet, line, f"{fields['from'] or '?'} to {fields['to'] or '?'}", faults)
        ends = (row.known("stop", fields["from"], stops, whole), row.known("stop", fields["to"], stops, whole))
        parts = row.drive_time(fields["minutes"])
        metres = row.whole_number("metres", fields["metres"], 0, MAX_METRES, "are these kilometres?")
        named = (fields["from"], fields["to"])
        if named[0] and named[0] == named[1]:
            row.fault("a drive leads to another stop; from a stop to itself there is none to give")
        elif all(named) and named in seen:
            row.fault(f"this drive stands twice, first on line {seen[named]}")
        seen.setdefault(named, line)
        if row.good and None not in ends:
            drives[ends] = (parts, metres)
    return drives


def costs_of(row: Row, fields: Fields) -> Tuple[Optional[int], Optional[int], Optional[int]]:
    """Returns a group's costs in cost units: of a vehicle, a minute and a metre."""
    hint = "count costs in a smaller unit"
    return (
        row.whole_number("fixed", fields["fixed"], 0, MAX_FIXED, hint),
        row.whole_number("per_minute", fields["per_minute"], 0, MAX_PER_MINUTE, hint),
        row.whole_number("per_metre", fields["per_metre"], 0, MAX_PER_METRE, hint),
    )


def money_of(row: Row, fields: Fields, columns: Collection[str]) -> Optional[Rates]:
    """Returns a group's rates in money, or None where they have faults."""
    fixed = row.amount("fixed", fields["fixed"], MAX_FIXED)
    time, times = ("per_hour", 60) if "per_hour" in columns else ("per_minute", 1)
    way, metres = ("per_km", 1000) if "per_km" in columns else ("per_metre", 1)
    by_time = row.amount(time, fields[time], MAX_PER_MINUTE * times)
    by_way = row.amount(way, fields[way], MAX_PER_METRE * metres)
    if fixed is None or by_time is None or by_way is None:
        return None
    return Rates(fixed, by_time / times, by_way / metres)


def is_in_money(columns: Collection[str]) -> bool:
    """Whether the groups have rates by the hour or the kilometre, so that all of their costs are in money."""
    return not set(IN_MONEY.values()).isdisjoint(columns)


def read_groups(sheet: Sheet, depot_of: Callable[[Row, str], Optional[str]], faults: FaultList) -> Dict[str, Group]:
    """Returns the vehicle groups by name, in order. Each depot is found by its row and its field."""
    groups: Dict[str, Group] = {}
    lines: Dict[str, int] = {}
    in_money = is_in_money(sheet.columns)
    for line, fields in sheet.rows:
        row = Row(sheet, line, f"group {fields['group'] or '?'}", faults)
        declare(row, "group", row.name("group", fields["group"]), lines, MAX_GROUPS)
        depot = depot_of(row, fields["depot"])
        vehicles = row.whole_number("vehicles", fields["vehicles"], 0, MAX_VEHICLES)
        costs = None if in_money else costs_of(row, fields)
        money = money_of(row, fields, sheet.columns) if in_money else None
        stay = row.whole_number("stay", fields["stay"], 1, MAX_STAY) if fields["stay"] else None
        groups.setdefault(fields["group"], Group(fields["group"], line, depot, vehicles, costs, money, stay))
    return groups


def groups_of_trip(row: Row, fields: Fields, groups: Collection[str], whole: bool) -> List[str]:
    """Returns the groups that may run a trip, in the order in which its row names them."""
    named = [it for cell in fields["group"] for it in re.split(r"[\s,;]+", cell) if it]
    found: List[str] = []
    for text in named:
        name = row.known("group", text, groups, whole)
        if name is not None and name in found:
            row.fault(f"the group {name} stands twice")
        elif name is not None:
            found.append(name)
    if not named:
        row.fault("no group; name one at least that may run the trip")
    return found


def judge_times(row: Row, start: Optional[int], end: Optional[int]) -> None:
    """Keeps a fault where a trip doesn't end after it starts."""
    if start is None or end is None or end > start:
        return
    night = start - end > 1440 // 2 and end + 1440 <= LAST_MINUTE
    later = f"; past midnight go on with {short_clock(end + 1440)}" if night else ""
    row.fault(f"it ends at {short_clock(end)}, not after its start at {short_clock(start)}{later}")


def read_trips(sheet: Sheet, stops: Collection[str], groups: Collection[str], whole: Tuple[bool, bool],
               faults: FaultList) -> List[Tuple[int, Trip]]:
    """Returns the trips, each with its line. Whole says whether all stops, and all groups, were read."""
    trips: List[Tuple[int, Trip]] = []
    lines: Dict[str, int] = {}
    for line, fields in sheet.rows:
        row = Row(sheet, line, f"trip {fields['trip'] or '?'}", faults)
        name = row.name("trip", fields["trip"])
        declare(row, "trip", name, lines, MAX_TRIPS)
        origin = row.known("stop", fields["from"], stops, whole[0])
        start = row.time("start", fields["start"])
        target = row.known("stop", fields["to"], stops, whole[0])
        end = row.time("end", fields["end"])
        metres = row.whole_number("metres", fields["metres"], 0, MAX_METRES, "are these kilometres?")
        judge_times(row, start, end)
        permitted = tuple(groups_of_trip(row, fields, groups, whole[1]))
        trips.append((line, Trip(name, origin, start, target, end, metres, permitted)))
    return trips


# --- What is said of them --------------------------------------------------------------------------------------------


def some_drives(head: str, kind: str, drives: Sequence[Ends], told: Callable[[Ends], str], every: bool) -> List[str]:
    """Returns the words for drives of a kind, twenty of them or every one."""
    some = drives if every else drives[:20]
    notes = [f"{head}: {kind} {told(ends)}" for ends in some]
    if len(some) < len(drives):
        notes.append(f"{head}: {kind} {len(drives) - len(some)} more drives; --all tells them")
    return notes


def drive_notes(head: str, closed: Closed, every: bool) -> List[str]:
    """Returns what is to be said of drives that were closed."""
    notes = some_drives(head, "added", closed.added, closed.told_added, every)
    notes += some_drives(head, "shortened", closed.shortened, closed.told_shortened, every)
    if closed.rounded:
        notes.append(f"{head}: rounded up the minutes of {counted(closed.rounded, 'drive')}")
    return notes


def sheet_notes(sheets: Sequence[Sheet]) -> List[str]:
    """Returns what is to be said of the sheets as such."""
    notes = []
    for sheet in sheets:
        notes += [f"{sheet.path}: the column {shown(name)} isn't read" for name in sheet.unread]
        if not sheet.rows:
            notes.append(f"{sheet.path}: there are no rows below the headings")
    return notes


def group_notes(sheet: Sheet, groups: Mapping[str, Group]) -> List[str]:
    """Returns what is to be said of the groups: a stay that is missing, and what may be money among cost units."""
    notes = []
    without = [name for name, group in groups.items() if group.stay is None]
    if 0 < len(without) < len(groups):
        notes.append(f"{sheet.path}: no stay, so {MAX_STAY} minutes are written, for {', '.join(without)}")
    if not is_in_money(sheet.columns):
        notes += [money_question(sheet.path, line, fields) for line, fields in sheet.rows if looks_like_money(fields)]
    return notes


def looks_like_money(fields: Fields) -> bool:
    """Whether a vehicle's cost has decimals while the rates with it are written without."""
    rates = fields["per_minute"] + fields["per_metre"]
    return bool(re.search(r"[.,]", fields["fixed"])) and not re.search(r"[.,]", rates)


def money_question(path: str, line: int, fields: Fields) -> str:
    rates = f"per_minute {fields['per_minute']} and per_metre {fields['per_metre']}"
    return (f"{path}:{line}: group {fields['group']}: is fixed {shown(fields['fixed'])} money? It is read as cost "
            f"units, as {rates} are; with per_hour and per_km in their place all costs are money")


def unreachable(trip: Trip, layers: Mapping[str, Layer], drives: Mapping[Ends, Way]) -> str:
    """Returns why no vehicle can run a trip alone, or nothing where one can."""
    reasons = []
    for name in trip.layers:
        depot = layers[name].depot
        out = 0 if depot == trip.origin else drives.get((depot, trip.origin), (None,))[0]
        if layers[name].fleet == 0:
            reasons.append(f"{name} has no vehicle")
        elif out is None:
            reasons.append(f"{name} has no drive from {depot} to {trip.origin}")
        elif out > trip.start:
            reasons.append(f"{name} would leave {depot} before 0:00")
        elif depot != trip.target and (trip.target, depot) not in drives:
            reasons.append(f"{name} has no drive from {trip.target} back to {depot}")
        else:
            return ""
    return "; ".join(reasons)


# --- Making the timetable --------------------------------------------------------------------------------------------


def in_order(paths: List[str]) -> Tuple[List[str], List[str]]:
    """Returns the paths of four sheets in the order stops, drives, groups and trips, and what is to be said of that.

    That is the order in which the fewest columns are missing; where several orders are as good, the one given is taken.
    """
    every = {it for form in FORMS for it in form.known}
    found = [headings_in(path, every) for path in paths]

    def badness(order: Tuple[int, ...]) -> Tuple[int, int]:
        missing = sum(len(form.missing(found[place])) for form, place in zip(FORMS, order))
        return missing, -sum(len(found[place] & set(form.known)) for form, place in zip(FORMS, order))

    given = tuple(range(len(FORMS)))
    orders = sorted(itertools.permutations(given), key=badness)
    if badness(given) == badness(orders[0]) or badness(orders[0]) == badness(orders[1]):
        return paths, []
    taken = [paths[place] for place in orders[0]]
    said = ", ".join(f"{form.name[:-4]} from {path}" for form, path in zip(FORMS, taken))
    return taken, [f"the sheets are taken by their headings: {said}"]


def layers_of(groups: Mapping[str, Group], unit: int) -> Dict[str, Layer]:
    """Returns the layers of groups whose rates, where they are in money, are counted in this unit."""
    rests = any(group.stay is not None for group in groups.values())
    layers = {}
    for name, group in groups.items():
        costs = group.costs if group.money is None else group.money.in_units(unit)
        stay = (MAX_STAY if group.stay is None else group.stay) if rests else None
        layers[name] = Layer(name, group.depot, group.vehicles, *costs, stay)
    return layers


def unit_of(sheet: Sheet, groups: Mapping[str, Group], trips: int, faults: FaultList) -> Tuple[int, List[str]]:
    """Returns how many cost units are 1.00 with so many trips, and what is said of rates that aren't whole in them."""
    for group in groups.values():
        if group.costs is not None and None not in group.costs and not are_payable(trips, *group.costs):
            faults.add(sheet, group.line, f"group {group.name}: the costs are too large for {trips} trips; count them "
                                          "in a larger unit")
    rates = {name: group.money for name, group in groups.items() if group.money is not None}
    if not rates:
        return 1, []
    unit = unit_for(list(rates.values()), trips)
    if not unit:
        faults.add(sheet, 0, "the costs are too large to be counted; write them in a larger currency unit")
        return 1, []
    return unit, [f"{sheet.path}: {said}" for said in rounded_rates(rates, unit)]


def make(paths: List[str], every: bool = False) -> Made:
    """Returns what four sheets come to; Faults where they have any."""
    faults = FaultList()
    sheets = [read_sheet(order, path, form, faults) for order, (path, form) in enumerate(zip(paths, FORMS))]
    stop_sheet, drive_sheet, group_sheet, trip_sheet = sheets
    stops = read_stops(stop_sheet, faults)
    drives = read_drives(drive_sheet, stops, stop_sheet.whole, faults)
    groups = read_groups(group_sheet, lambda row, text: row.known("stop", text, stops, stop_sheet.whole), faults)
    trips = read_trips(trip_sheet, stops, groups, (stop_sheet.whole, group_sheet.whole), faults)
    unit, rounded = unit_of(group_sheet, groups, len(trips), faults)
    closed = None
    if not any(order in (0, 1) for order, _, _ in faults.found):
        closed = Closed(list(stops), drives)
        for text in closed.too_long():
            faults.add(drive_sheet, 0, text)
    lines = faults.lines()
    if lines or closed is None:
        raise Faults([*lines, f"{counted(len(lines), 'fault')}; nothing is written"])
    layers = layers_of(groups, unit)
    timetable = Timetable(list(stops), closed.drives, layers, {trip.name: trip for _, trip in trips})
    notes = [*sheet_notes(sheets), *drive_notes(drive_sheet.path, closed, every), *rounded]
    notes += group_notes(group_sheet, groups)
    for line, trip in trips:
        why = unreachable(trip, layers, closed.drives)
        if why:
            notes.append(f"{trip_sheet.path}:{line}: no vehicle can run trip {trip.name}: {why}")
    return Made(timetable, SideFile(unit), notes)


def read(*paths: str, every: bool = False) -> Made:
    """Returns what the sheets of one folder, or four sheets in whatever order, come to."""
    if len(paths) == 1:
        return make([path_in(paths[0], form) for form in FORMS], every)
    if len(paths) != len(FORMS):
        raise ValueError("give one folder, or four sheets: stops, drives, groups and trips")
    taken, notes = in_order(list(paths))
    made = make(taken, every)
    made.notes[:0] = notes
    return made


# --- The command -----------------------------------------------------------------------------------------------------

USAGE = "%(prog)s [-h] [--all] [-o FILE] FOLDER | STOPS DRIVES GROUPS TRIPS"


def add_arguments(parser: argparse.ArgumentParser) -> None:
    parser.usage = USAGE
    parser.add_argument("--all", action="store_true", help="print every drive that was added or shortened")
    parser.add_argument("-o", "--output", metavar="FILE", help="where the text is written, with its side file")
    parser.add_argument("sheets", nargs="+", metavar="SHEET", help="a folder with the four sheets, or the four sheets")


def command(arguments: argparse.Namespace, parser: argparse.ArgumentParser) -> int:
    """Writes the text that sheets come to."""
    if len(arguments.sheets) not in (1, len(FORMS)):
        parser.error("give one folder, or four sheets: stops, drives, groups and trips")
    made = read(*arguments.sheets, every=arguments.all)
    for text in made.notes:
        texts.note(text)
    unit = made.side.unit
    if arguments.output:
        write(made, arguments.output)
        return 0
    if unit != 1:
        texts.note(f"costs are counted in a unit of which {unit} are 1.00; -o FILE keeps that in a side file")
    texts.print_text(made.timetable.text(), "the text")
    return 0


def write(made: Made, path: str) -> None:
    """Writes a timetable, and its side file where it has anything to say; a side file that is left over goes."""
    texts.write_text(path, made.timetable.text())
    beside = side.path_of(path)
    if made.side != SideFile():
        texts.write_text(beside, made.side.text())
    elif os.path.isfile(beside):
        os.remove(beside)
