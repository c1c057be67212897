#!/usr/bin/env python3
"""Writes the timetable of a city of at most so many trips: lines with a peak in the morning and one in the afternoon,
three or four types of vehicles at three or four depots each, and fleets that bind.

    bench/city.py TRIPS [SEED [TYPES DEPOTS [INTERVAL]]]

With an INTERVAL of 5 lines run a fifth as often as with 1, so there are some five times as many, each with a stop of
its own.

A line runs both ways between one of four hubs and an end of its own, more often in the peaks, when it takes longer
too, and may be run by one type or by two. Each line was given to one of its types, and a type has as many vehicles as
its lines need when each is run by itself. So there is a plan; but the cheap types are too few for all the lines that
may have them, and a plan that takes vehicles from line to line needs fewer. The same numbers always give the same
instance.
"""

import math
import random
import sys

# A text of version 1 has so many trips, and vehicles in a layer, at most.
USUAL = 2_000
CITY = 12_000
METRES_A_MINUTE = 400
DEPOTS = [(2_000, 3_000), (10_000, 2_500), (6_500, 10_500), (1_500, 8_500)]
HUBS = [(6_000, 6_000), (3_500, 7_500), (8_000, 4_000), (7_500, 9_000)]
# A vehicle, a minute and a metre of each type, and what it costs more at each further depot.
TYPES = {"Mini": (40_000, 9, 1), "Solo": (60_000, 11, 1), "Bend": (90_000, 14, 2), "Maxi": (110_000, 16, 2)}
DEARER = 1_500
# The types that a line may have, and how often it runs in the peaks and outside of them.
KINDS = [
    (["Mini", "Solo"], 30, 60),
    (["Solo", "Bend"], 15, 30),
    (["Solo"], 20, 60),
    (["Bend"], 12, 40),
    (["Mini"], 20, 240),
    (["Bend", "Maxi"], 15, 40),
    (["Maxi"], 20, 60),
]
PEAKS = [(390, 510), (930, 1_080)]
DAY = (300, 1_380)


def metres(a, b):
    return abs(a[0] - b[0]) + abs(a[1] - b[1])


def minutes(a, b):
    """Minutes of a drive along streets. Rounded up as they are, two drives are never shorter than the straight one."""
    return max(1, math.ceil(metres(a, b) / METRES_A_MINUTE))


def clock(minute):
    return f"{minute // 60}:{minute % 60:02d}"


def runs_of(start, ends, often, seldom):
    """The runs of a line, as start, end, and the number of the end where each begins."""
    runs = []
    for origin, phase in ((0, start), (1, start + 5)):
        minute = DAY[0] + phase
        while minute < DAY[1]:
            peak = any(low <= minute < high for low, high in PEAKS)
            drive = math.ceil(minutes(*ends) * (1.7 if peak else 1.4))
            runs.append((minute, minute + drive, origin))
            minute += often if peak else seldom
    return sorted(runs)


def alone(runs):
    """How many vehicles a line needs by itself: a run takes one that waits where it begins, or a further one."""
    waiting, count = ([], []), 0
    for start, end, origin in runs:
        free = [minute for minute in waiting[origin] if minute <= start]
        if free:
            waiting[origin].remove(min(free))
        else:
            count += 1
        waiting[1 - origin].append(end)
    return count


def lines_of(most, kinds, interval, whole):
    """Lines with at most so many runs in all, each with its hub, its own end, its types and its runs."""
    lines, count = [], 0
    while True:
        hub, end = whole(1, len(HUBS)), (whole(0, CITY), whole(0, CITY))
        types, often, seldom = kinds[whole(0, len(kinds) - 1)]
        phase = whole(0, 20 * interval)
        runs = runs_of(phase, (HUBS[hub - 1], end), often * interval, seldom * interval)
        count += len(runs)
        if count > most:
            return lines
        lines.append((hub, end, types, runs))


def main(most, seed=1, type_count=3, depot_count=3, interval=1):
    draw = random.Random(seed).random
    whole = lambda low, high: low + int(draw() * (high - low + 1))
    vehicles, depots = dict(list(TYPES.items())[:type_count]), DEPOTS[:depot_count]
    kinds = [kind for kind in KINDS if set(kind[0]) <= set(vehicles)]
    lines, fleet = lines_of(most, kinds, interval, whole), dict.fromkeys(vehicles, 0)
    for _, _, types, runs in lines:
        fleet[types[whole(0, len(types) - 1)]] += alone(runs)
    stops = {f"D{k}": place for k, place in enumerate(depots, 1)} | {f"H{k}": place for k, place in enumerate(HUBS, 1)}
    stops |= {f"E{k}": end for k, (_, end, _, _) in enumerate(lines, 1)}
    version = 3 if max(sum(len(runs) for *_, runs in lines), *fleet.values()) > USUAL else 1
    print(f"instance,{version}", *(f"stop,{name}" for name in stops), sep="\n")
    for name, place in stops.items():
        for other, end in stops.items():
            if name != other:
                print(f"deadhead,{name},{other},{minutes(place, end)},{metres(place, end)}")
    for name, (fixed, minute, metre) in vehicles.items():
        for k in range(len(depots)):
            own = (fleet[name] + k) // len(depots)
            print(f"layer,{name}{k + 1},D{k + 1},{own},{fixed + DEARER * k},{minute},{metre}")
    for k, (hub, end, types, runs) in enumerate(lines, 1):
        layers = ",".join(f"{name}{depot + 1}" for name in types for depot in range(len(depots)))
        ends, length = (f"H{hub}", f"E{k}"), metres(HUBS[hub - 1], end)
        for n, (start, finish, origin) in enumerate(runs, 1):
            print(f"trip,L{k}.{n},{ends[origin]},{clock(start)},{ends[1 - origin]},{clock(finish)},{length},{layers}")


main(*map(int, sys.argv[1:]))
