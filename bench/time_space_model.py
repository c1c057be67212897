#!/usr/bin/env python3
"""Writes the time-space model of a timetable as MPS, for a MIP solver to compare with.

Reads the text of an instance on standard input. The model is the usual one (Kliewer, Mellouli and Suhl 2006): a network
for each layer, of places and minutes, with deadheads by latest first match; a whole flow on each arc, conserved at each
node; each trip run once over all layers; at most the fleet on the return arc. Where a layer has a stay, vehicles may
rest in the depot between two trips, along a line of the minutes at which they leave it again. Costs are in cost units.
"""

import csv
import sys
from bisect import bisect_left
from collections import defaultdict


def minute(time):
    hours, minutes = time.split(":")
    return 60 * int(hours) + int(minutes)


def read(lines):
    """The deadheads by pair of stops, the layers, and the trips."""
    ways, layers, trips = {}, [], []
    for row in csv.reader(lines):
        if not row:
            continue
        if row[0] == "deadhead":
            ways[row[1], row[2]] = (int(row[3]), int(row[4]))
        elif row[0] == "stop":
            ways[row[1], row[1]] = (0, 0)
        elif row[0] == "layer":
            layers.append((row[1], row[2], *map(int, row[3:7]), int(row[7]) if len(row) > 7 else None))
        elif row[0] == "trip":
            trips.append((row[2], minute(row[3]), row[4], minute(row[5]), int(row[6]), set(row[7:])))
        elif row[0] == "result":
            break
    return ways, layers, trips


def deadheads(ways, departures, arrivals):
    """The pairs of events that deadheads join by latest first match, each with the way between them."""
    latest = {}
    for stop, reached in arrivals.items():
        for other, left in departures.items():
            if stop == other or (stop, other) not in ways:
                continue
            minutes, metres = ways[stop, other]
            for arrival in sorted(reached):
                first = min((start for start in left if start >= arrival + minutes), default=None)
                if first is not None:
                    latest[stop, other, first] = (arrival, metres)
    return [(stop, arrival, other, start, metres) for (stop, other, start), (arrival, metres) in latest.items()]


def arcs_of(ways, layer, trips):
    """The arcs of a layer's network: from, to, cost, most units, and the trip that one runs, if any."""
    name, depot, fleet, fixed, per_minute, per_metre, stay = layer
    cost = lambda minutes, metres: per_minute * minutes + per_metre * metres
    events, departures, arrivals = defaultdict(set), defaultdict(set), defaultdict(set)
    arcs = []
    for i, (origin, start, destination, end, metres, permitted) in enumerate(trips):
        if name not in permitted:
            continue
        events[origin].add(start)
        events[destination].add(end)
        departures[origin].add(start)
        arrivals[destination].add(end)
        arcs.append(((origin, start), (destination, end), cost(end - start, metres), 1, i))
    for stop, minutes in events.items():
        ordered = sorted(minutes)
        for here, there in zip(ordered, ordered[1:]):
            arcs.append(((stop, here), (stop, there), cost(there - here, 0), fleet, None))
    for stop, arrival, other, start, metres in deadheads(ways, departures, arrivals):
        arcs.append(((stop, arrival), (other, start), cost(start - arrival, metres), fleet, None))
    for stop, starts in departures.items():
        if (depot, stop) in ways:
            way = ways[depot, stop]
            arcs += [("out", (stop, start), fixed + cost(*way), fleet, None) for start in starts if start >= way[0]]
    for stop, ends in arrivals.items():
        if (stop, depot) in ways:
            arcs += [((stop, end), "in", cost(*ways[stop, depot]), fleet, None) for end in ends]
    if stay is not None:
        arcs += rests(ways, depot, departures, arrivals, stay, cost, fleet)
    arcs.append(("in", "out", 0, fleet, None))
    return arcs


def rests(ways, depot, departures, arrivals, stay, cost, fleet):
    """The arcs by which vehicles rest: into the depot, on along its line, and out of it again."""
    outs = []
    for stop, starts in departures.items():
        if (depot, stop) in ways:
            minutes, metres = ways[depot, stop]
            way = cost(minutes, metres)
            outs += [(("depot line", start - minutes), (stop, start), way) for start in starts if start >= minutes]
    line = sorted({here[1] for here, _, _ in outs})
    arcs = [(here, there, paid, fleet, None) for here, there, paid in outs]
    arcs += [(("depot line", here), ("depot line", there), 0, fleet, None) for here, there in zip(line, line[1:])]
    for stop, ends in arrivals.items():
        if (stop, depot) in ways:
            minutes, metres = ways[stop, depot]
            for end in ends:
                place = bisect_left(line, end + minutes + stay)
                if place < len(line):
                    arcs.append(((stop, end), ("depot line", line[place]), cost(minutes, metres), fleet, None))
    return arcs


def write(ways, layers, trips):
    rows, columns, bounds = [], [], []
    rows += [f" E trip{i}" for i in range(len(trips))]
    for l, layer in enumerate(layers):
        numbers = {}
        for k, (origin, destination, cost, most, trip) in enumerate(arcs_of(ways, layer, trips)):
            column = f"x{l}_{k}"
            ends = [f"node{l}_{numbers.setdefault(node, len(numbers))}" for node in (origin, destination)]
            columns.append(f" {column} cost {cost} {ends[0]} 1")
            columns.append(f" {column} {ends[1]} -1" + (f" trip{trip} 1" if trip is not None else ""))
            bounds.append(f" UP bound {column} {most}")
        rows += [f" E node{l}_{number}" for number in numbers.values()]
    print("NAME timetable", "ROWS", " N cost", *rows, sep="\n")
    print("COLUMNS", " whole 'MARKER' 'INTORG'", *columns, " whole 'MARKER' 'INTEND'", sep="\n")
    print("RHS", *(f" right trip{i} 1" for i in range(len(trips))), sep="\n")
    print("BOUNDS", *bounds, "ENDATA", sep="\n")


write(*read(sys.stdin))
