"""Rates in money, and the unit in which they are counted: whole numbers of it for each vehicle, minute and metre."""

from __future__ import annotations

import math
from dataclasses import dataclass
from fractions import Fraction
from typing import Dict, List, Tuple

from .limits import MAX_FIXED, MAX_PER_METRE, MAX_PER_MINUTE, are_payable

# A larger unit than this brings no rate nearer to what was given that anyone would pay.
MOST_UNIT = 10**6


@dataclass(frozen=True)
class Rates:
    """What a group costs, in money: a vehicle, a minute and a metre."""

    fixed: Fraction
    per_minute: Fraction
    per_metre: Fraction

    def in_units(self, unit: int) -> Tuple[int, int, int]:
        """Returns the rates in cost units of which so many are 1.00, rounded to the nearest."""
        return nearest(self.fixed * unit), nearest(self.per_minute * unit), nearest(self.per_metre * unit)

    def fits(self, unit: int, trips: int) -> bool:
        """Whether the rates are within the limits of a timetable's text, with so many trips."""
        rates = self.in_units(unit)
        within = all(rate <= most for rate, most in zip(rates, (MAX_FIXED, MAX_PER_MINUTE, MAX_PER_METRE)))
        return within and are_payable(trips, *rates)

    def is_exact(self, unit: int) -> bool:
        return all((rate * unit).denominator == 1 for rate in (self.fixed, self.per_minute, self.per_metre))


def nearest(value: Fraction) -> int:
    return math.floor(value + Fraction(1, 2))


def unit_for(groups: List[Rates], trips: int) -> int:
    """Returns how many cost units are to be 1.00 with so many trips; 0 where the rates are past the limits always.

    It is the least power of ten by which all rates are whole, else the least number, else, where none is within the
    limits, the largest power of ten that is.
    """
    powers = [10**digits for digits in range(len(str(MOST_UNIT)))]
    within = [unit for unit in powers if all(rates.fits(unit, trips) for rates in groups)]
    exact = [unit for unit in within if all(rates.is_exact(unit) for rates in groups)]
    if exact:
        return exact[0]
    least = least_exact(groups)
    if least <= MOST_UNIT and all(rates.fits(least, trips) for rates in groups):
        return least
    return within[-1] if within else 0


def least_exact(groups: List[Rates]) -> int:
    """Returns the least unit by which all rates are whole."""
    unit = 1
    for rates in groups:
        for rate in (rates.fixed, rates.per_minute, rates.per_metre):
            unit = unit * rate.denominator // math.gcd(unit, rate.denominator)
    return unit


def rounded_rates(groups: Dict[str, Rates], unit: int) -> List[str]:
    """Returns what is to be said of the rates that aren't whole in the unit."""
    said = []
    for name, rates in groups.items():
        counted = rates.in_units(unit)
        for what, given, cost, times in (("a vehicle", rates.fixed, counted[0], 1),
                                         ("an hour", rates.per_minute, counted[1], 60),
                                         ("a kilometre", rates.per_metre, counted[2], 1000)):
            if given * unit != cost:
                said.append(f"group {name}: {what} is counted as {amount(Fraction(cost * times, unit))} "
                            f"in place of {amount(given * times)}")
    return said


def amount(value: Fraction) -> str:
    """Returns an amount with as many decimals as it has, six at most and two at least."""
    text = f"{nearest(value * 10**6) / 10**6:.6f}".rstrip("0")
    whole, decimals = text.split(".")
    return f"{whole}.{decimals.ljust(2, '0')}"
