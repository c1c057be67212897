"""The limits of a timetable's text, as docs/formats.md gives them."""

MAX_STOPS, MAX_GROUPS, MAX_TRIPS = 500, 16, 10_000
MAX_MINUTES, MAX_METRES = 1440, 1_000_000
MAX_VEHICLES, MAX_FIXED, MAX_PER_MINUTE, MAX_PER_METRE, MAX_STAY = 10_000, 10**9, 10**6, 10**4, 600
# Versions 1 and 2 of the text have no more trips, and no more vehicles in a layer.
USUAL_TRIPS = 2_000
# The trips times what a piece can cost by the rates of a layer: a vehicle, two days and the longest way.
MAX_DEAREST_SUM = 4 * 10**13
LAST_MINUTE = 48 * 60 - 1
MAX_NAME = 32


def are_payable(trips: int, fixed: int, per_minute: int, per_metre: int) -> bool:
    """Whether so many trips may have these rates, in cost units."""
    return trips * (fixed + per_minute * (LAST_MINUTE + 1) + per_metre * MAX_METRES) <= MAX_DEAREST_SUM
