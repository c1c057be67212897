"""How times, distances and costs are printed."""

from __future__ import annotations

from fractions import Fraction
from typing import Callable, Optional


def short_clock(minute: int) -> str:
    """Returns a time as a timetable's text has it: 7:05, and 24:20 after midnight."""
    return f"{minute // 60}:{minute % 60:02}"


def clock(minute: Optional[int]) -> str:
    """Returns a time with two digits for the hour, and nothing for none."""
    return "" if minute is None else f"{minute // 60:02}:{minute % 60:02}"


def hours(minutes: int) -> str:
    return f"{'-' if minutes < 0 else ''}{abs(minutes) // 60}:{abs(minutes) % 60:02}"


def kilometres(metres: int) -> str:
    return f"{'-' if metres < 0 else ''}{abs(metres) // 1000}.{abs(metres) % 1000:03}"


def money(unit: int) -> Callable[[int], str]:
    """Returns how a cost is printed: whole, or in larger units to two decimals, halves away from 0."""

    def printed(cost: int) -> str:
        if unit == 1:
            return str(cost)
        hundredths = (abs(cost) * 200 + unit) // (2 * unit)
        return f"{'-' if cost < 0 and hundredths else ''}{hundredths // 100}.{hundredths % 100:02}"

    return printed


def per_cent(part: Optional[Fraction]) -> str:
    """Returns a share of 1 in per cent with three decimals, or that there is none."""
    if part is None:
        return "none"
    thousandths = round(part * 100_000)
    return f"{thousandths // 1000}.{thousandths % 1000:03} %"


def counted(count: int, noun: str, plural: str = "") -> str:
    """Returns a count with its noun: 1 trip, 2 trips."""
    return f"{count} {noun if count == 1 else plural or noun + 's'}"
