"""The side file of a timetable: what its names stand for, and how many cost units are 1.00 in money.

The side file of `town.csv` is `town.names.csv`, beside it. It is a sheet with the columns kind, name, real, line and
source: a row `unit` with the number of cost units; a row `stop`, `layer` or `trip` for each name with the real one; and
for a trip also its line and the trip of the feed from which it comes.
"""

from __future__ import annotations

import csv
import io
import os
from dataclasses import dataclass, field
from typing import Callable, Dict, List, Optional

from . import printed, texts
from .errors import InputError
from .timetable import Trip

COLUMNS = ["kind", "name", "real", "line", "source"]


@dataclass(frozen=True)
class TripNames:
    """What the name of a trip stands for."""

    real: str
    line: str = ""
    source: str = ""


@dataclass
class SideFile:
    """The real names by kind and name, and the unit; without one costs are printed in cost units."""

    unit: int = 1
    stops: Dict[str, str] = field(default_factory=dict)
    layers: Dict[str, str] = field(default_factory=dict)
    trips: Dict[str, TripNames] = field(default_factory=dict)

    def stop(self, name: str) -> str:
        return self.stops.get(name, name)

    def layer(self, name: str) -> str:
        return self.layers.get(name, name)

    def trip(self, name: str) -> str:
        return self.trips[name].real if name in self.trips else name

    def line(self, trip: Trip) -> str:
        """Returns the line of a trip, or what stands for it in a small space: its name."""
        names = self.trips.get(trip.name)
        return names.line if names and names.line else trip.name

    @property
    def money(self) -> Callable[[int], str]:
        """How a cost is printed."""
        return printed.money(self.unit)

    def text(self) -> str:
        """Returns its text."""
        rows: List[List[object]] = [list(COLUMNS)]
        if self.unit != 1:
            rows.append(["unit", self.unit, "", "", ""])
        rows += [["stop", name, real, "", ""] for name, real in self.stops.items()]
        rows += [["layer", name, real, "", ""] for name, real in self.layers.items()]
        rows += [["trip", name, it.real, it.line, it.source] for name, it in self.trips.items()]
        return texts.text_of_rows(rows)


def path_of(timetable: str) -> str:
    """Returns where the side file of a timetable is."""
    stem = timetable[:-4] if timetable.endswith(".csv") else timetable
    return f"{stem}.names.csv"


def read_for(timetable: str, given: Optional[str] = None) -> SideFile:
    """Returns the side file that is given, or the one beside a timetable; an empty one where there is none."""
    path = given or path_of(timetable)
    if given is None and not os.path.isfile(path):
        return SideFile()
    return parse(texts.text_of(texts.read_bytes(path)), path)


def parse(text: str, name: str = "names") -> SideFile:
    """Returns the side file of a text."""
    rows = list(csv.reader(io.StringIO(text, newline="")))
    if not rows or rows[0] != COLUMNS:
        raise InputError(f"{name}: the first row isn't {','.join(COLUMNS)}")
    side = SideFile()
    for line, row in enumerate(rows[1:], 2):
        if len(row) != len(COLUMNS) or row[0] not in ("unit", "stop", "layer", "trip"):
            raise InputError(f"{name}: row {line} names no unit, stop, layer or trip")
        add_row(side, row, f"{name}: row {line}")
    return side


def add_row(side: SideFile, row: List[str], place: str) -> None:
    """Adds what a row says to a side file."""
    kind, name, real, line, source = row
    if kind == "unit":
        if not name.isdigit() or not 0 < int(name) <= 10**10:
            raise InputError(f"{place}: the unit `{name}` is no whole number above 0")
        side.unit = int(name)
    elif kind == "trip":
        side.trips[name] = TripNames(real, line, source)
    else:
        {"stop": side.stops, "layer": side.layers}[kind][name] = real
