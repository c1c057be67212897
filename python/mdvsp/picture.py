"""The pictures of a plan as SVG: each vehicle's day as a bar, and how many vehicles are out over the day.

Shapes show what a vehicle does, with or without colour. A trip is a full bar with its line in it, and an empty drive
a thin hatched bar. A wait is a dotted line, and a rest in the depot a dashed frame. Names stand in the titles, which a
browser shows on hover.
"""

from __future__ import annotations

from dataclasses import dataclass
from html import escape
from typing import List, Sequence, Tuple

from .duties import Duty, Kind, Move
from .figures import Figures, changes_of
from .printed import clock, hours, kilometres
from .side import SideFile

ROW = 22
CURVE = 64
# The width of the picture of a day, and of an hour at least and at most.
WIDTH, LEAST_HOUR, MOST_HOUR = 1060, 52, 240
# About how wide a letter in a bar is.
LETTER = 6.2

# The shapes that the pictures share: the hatching of empty drives.
SHAPES = ('<svg class="shapes" width="0" height="0" aria-hidden="true"><defs>'
          '<pattern id="hatch" width="5" height="5" patternUnits="userSpaceOnUse" patternTransform="rotate(45)">'
          '<rect class="hatch-ground" width="5" height="5"/><path class="hatch-line" d="M0 0V5"/></pattern>'
          '</defs></svg>')


@dataclass(frozen=True)
class Axis:
    """The hours that a picture shows, and where each minute stands."""

    first: int
    last: int

    @property
    def hour(self) -> int:
        """How wide an hour is."""
        return max(LEAST_HOUR, min(MOST_HOUR, WIDTH // (self.last - self.first)))

    @property
    def width(self) -> int:
        return (self.last - self.first) * self.hour

    def at(self, minute: int) -> float:
        """Returns where a minute stands."""
        return round((minute - self.first * 60) * self.hour / 60, 1)

    def between(self, start: int, end: int) -> float:
        return round(self.at(end) - self.at(start), 1)

    def grid(self, height: int) -> str:
        """Returns the lines of the hours."""
        lines = "".join(f"M{(hour - self.first) * self.hour} 0V{height}" for hour in range(self.first, self.last + 1))
        return f'<path class="grid" d="{lines}"/>'

    def scale(self) -> str:
        """Returns the hours' numbers."""
        numbers = "".join(
            f'<text x="{(hour - self.first) * self.hour + 3}" y="15">{hour}:00</text>'
            for hour in range(self.first, self.last))
        return f'<svg class="scale" width="{self.width}" height="{ROW}">{self.grid(ROW)}{numbers}</svg>'


def axis_of(duties: Sequence[Duty]) -> Axis:
    """Returns the hours in which vehicles are out."""
    first = min((duty.leaves for duty in duties), default=0) // 60
    last = -(-max((duty.back for duty in duties), default=60) // 60)
    return Axis(first, max(last, first + 1))


def number(value: float) -> str:
    """Returns a number as SVG has it, without decimals that say nothing."""
    return f"{value:.1f}".rstrip("0").rstrip(".")


def move_title(move: Move, names: SideFile) -> str:
    """Returns what a move is, in words."""
    times = f"{clock(move.start)}–{clock(move.end)}"
    origin, target = names.stop(move.origin), names.stop(move.target)
    if move.trip is not None:
        return f"{names.trip(move.trip.name)}: {times} {origin} – {target}, {kilometres(move.metres)} km"
    if move.kind is Kind.WAIT:
        return f"wait: {times} {origin} ({hours(move.minutes)})"
    if move.kind is Kind.REST:
        return f"rest in the depot: {times} {origin} ({hours(move.minutes)})"
    return f"{move.kind.value}: {times} {origin} – {target}, {kilometres(move.metres)} km"


def move_shape(move: Move, axis: Axis, top: int, names: SideFile) -> str:
    """Returns the shape of a move in the row that begins at a height."""
    left, width = number(axis.at(move.start)), max(axis.between(move.start, move.end), 1.0)
    title = f"<title>{escape(move_title(move, names))}</title>"
    wide, middle = number(width), top + ROW // 2
    if move.trip is not None:
        line = names.line(move.trip)
        fits = len(line) * LETTER + 4 <= width
        text = (f'<text x="{number(axis.at(move.start) + width / 2)}" y="{middle + 4}">{escape(line)}</text>'
                if fits else "")
        return (f'<g class="trip">{title}<rect x="{left}" y="{top + 3}" width="{wide}" height="{ROW - 6}" rx="2"/>'
                f"{text}</g>")
    if move.kind is Kind.WAIT:
        return (f'<g class="wait">{title}<rect class="hit" x="{left}" y="{top + 3}" width="{wide}" height="{ROW - 6}"/>'
                f'<path d="M{left} {middle}h{wide}"/></g>')
    if move.kind is Kind.REST:
        text = f'<text x="{number(axis.at(move.start) + width / 2)}" y="{middle + 4}">rest</text>' if width > 30 else ""
        return (f'<g class="rest">{title}<rect x="{left}" y="{top + 4}" width="{wide}" height="{ROW - 8}" rx="3"/>'
                f"{text}</g>")
    return f'<g class="empty">{title}<rect x="{left}" y="{middle - 3}" width="{wide}" height="6"/></g>'


def bars(duties: Sequence[Duty], axis: Axis, names: SideFile) -> str:
    """Returns the days of some vehicles, a row for each."""
    height = len(duties) * ROW
    rows = "".join(
        f'<g>{"".join(move_shape(move, axis, place * ROW, names) for move in duty.moves)}</g>'
        for place, duty in enumerate(duties))
    return f'<svg class="bars" width="{axis.width}" height="{height}">{axis.grid(height)}{rows}</svg>'


def steps_of(figures: Figures) -> List[Tuple[int, int, int]]:
    """Returns from when to when how many vehicles are out, where that changes."""
    changes, out, steps = changes_of(figures.spans), 0, []
    minutes = list(changes)
    for start, end in zip(minutes, minutes[1:]):
        out += changes[start]
        if steps and steps[-1][2] == out:
            steps[-1] = (steps[-1][0], end, out)
        else:
            steps.append((start, end, out))
    return steps


def curve(figures: Figures, axis: Axis) -> str:
    """Returns how many vehicles are out over the day, below the line of those that there are."""
    steps = steps_of(figures)
    most = max([figures.fleet, 1, *(out for _, _, out in steps)])

    def height(count: int) -> float:
        return CURVE - 4 - (CURVE - 18) * count / most

    area = "".join(
        f'<g class="out"><title>{clock(start)}–{clock(end)}: {out} out</title><rect x="{number(axis.at(start))}" '
        f'y="{number(height(out))}" width="{number(axis.between(start, end))}" '
        f'height="{number(CURVE - 4 - height(out))}"/></g>' for start, end, out in steps if out)
    line = height(figures.fleet)
    fleet = (f'<path class="fleet" d="M0 {number(line)}H{axis.width}"/>'
             f'<text class="fleet-text" x="3" y="{number(line - 3)}">fleet {figures.fleet}</text>')
    return (f'<svg class="curve" width="{axis.width}" height="{CURVE}">{axis.grid(CURVE)}{area}{fleet}'
            f'<path class="ground" d="M0 {CURVE - 4}H{axis.width}"/></svg>')
