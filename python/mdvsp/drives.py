"""Drives between stops, closed: where one can drive from A to B and from B to C, there is a drive from A to C, and it
is no longer than the two, in minutes and in metres."""

from __future__ import annotations

from typing import Dict, Iterable, List, Sequence, Tuple

from .limits import MAX_METRES, MAX_MINUTES
from .timetable import Way

# A drive is counted in parts of a minute, so that seconds and 0.01 minutes are whole.
PARTS = 300
NO_WAY = 10**12

Ends = Tuple[str, str]


def shortest(lengths: List[List[int]]) -> List[List[int]]:
    """Returns, from lengths between places, the least length over all ways between them."""
    least = [list(row) for row in lengths]
    for middle in range(len(least)):
        behind = least[middle]
        for place, row in enumerate(least):
            to_middle = row[middle]
            if to_middle < NO_WAY and place != middle:
                least[place] = [own if own <= to_middle + rest else to_middle + rest for own, rest in zip(row, behind)]
    return least


def matrix(stops: Iterable[str], drives: Dict[Ends, Tuple[int, int]], part: int) -> List[List[int]]:
    """Returns the drives' minutes or metres as rows of a table, with 0 from a stop to itself."""
    number = {name: place for place, name in enumerate(stops)}
    table = [[0 if place == other else NO_WAY for other in range(len(number))] for place in range(len(number))]
    for (begin, finish), figures in drives.items():
        table[number[begin]][number[finish]] = figures[part]
    return table


def minutes_of(parts: int) -> int:
    """Returns whole minutes, rounded up."""
    return -(-parts // PARTS)


class Closed:
    """The closed drives by the two stops, in minutes and metres, and which of them were added or shortened.

    Drives are given by the two stops, in parts of a minute and in metres.
    """

    def __init__(self, stops: Sequence[str], given: Dict[Ends, Tuple[int, int]]):
        self.names, self.given = list(stops), given
        self.parts, self.metres = shortest(matrix(stops, given, 0)), shortest(matrix(stops, given, 1))
        self.rounded = sum(parts % PARTS != 0 for parts, _ in given.values())
        places = range(len(self.names))
        self.drives = {
            (self.names[place], self.names[other]): Way(minutes_of(self.parts[place][other]), self.metres[place][other])
            for place in places for other in places if place != other and self.parts[place][other] < NO_WAY
        }
        self.added = [ends for ends in self.drives if ends not in given]
        self.shortened = [ends for ends, (parts, metres) in given.items()
                          if self.drives[ends] != (minutes_of(parts), metres)]

    def way(self, least: List[List[int]], ends: Ends) -> str:
        """Returns a stop between two that lies on a shortest way from the one to the other."""
        begin, finish = (self.names.index(it) for it in ends)
        row = least[begin]
        between = (middle for middle in range(len(row)) if middle not in (begin, finish))
        return self.names[next(it for it in between if row[it] + least[it][finish] == row[finish])]

    def told_added(self, ends: Ends) -> str:
        """Returns the words for a drive that was added."""
        (minutes, metres), quick, short = self.drives[ends], self.way(self.parts, ends), self.way(self.metres, ends)
        if quick == short:
            return f"{ends[0]} to {ends[1]}, by way of {quick}: {minutes} minutes, {metres} metres"
        return f"{ends[0]} to {ends[1]}: {minutes} minutes by way of {quick}, {metres} metres by way of {short}"

    def told_shortened(self, ends: Ends) -> str:
        """Returns the words for a drive that was shortened."""
        (minutes, metres), (parts, given_metres) = self.drives[ends], self.given[ends]
        told = []
        if minutes < minutes_of(parts):
            told.append(f"{minutes} in place of {minutes_of(parts)} minutes by way of {self.way(self.parts, ends)}")
        if metres < given_metres:
            told.append(f"{metres} in place of {given_metres} metres by way of {self.way(self.metres, ends)}")
        return f"{ends[0]} to {ends[1]}: {', '.join(told)}"

    def too_long(self) -> List[str]:
        """Returns the words for the drives that are too long to be written."""
        told = []
        for ends, (minutes, metres) in self.drives.items():
            name = f"{ends[0]} to {ends[1]}, by way of"
            if minutes > MAX_MINUTES:
                told.append(f"{name} {self.way(self.parts, ends)}, takes {minutes} minutes; "
                            f"at most {MAX_MINUTES} can be written")
            if metres > MAX_METRES:
                told.append(f"{name} {self.way(self.metres, ends)}, is {metres} metres; "
                            f"at most {MAX_METRES} can be written")
        return told
