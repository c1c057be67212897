#!/usr/bin/env python3
"""Writes an instance by the rule of Carpaneto, Dell'Amico, Fischetti and Toth (1989), class A, as the papers of the
field measure by.

    bench/carpaneto.py TRIPS DEPOTS [SEED]

Points, a third to a half as many as trips, lie evenly in a square of 60 by 60 minutes, four depots in its corners and
further ones anywhere in it. Two fifths of the trips are short, from a point to another, with a peak in the morning and
one in the evening; the others are long, from a point back to it. Every trip may go from every depot. A vehicle costs
5000, a minute of an empty run 10 and a minute of waiting 2, which the text says by 8 metres a minute. The same numbers
always give the same instance.
"""

import math
import random
import sys

SIDE = 60
CORNERS = [(0, 0), (SIDE, SIDE), (0, SIDE), (SIDE, 0)]
MOST_STOPS = 500


def drive(a, b):
    """Minutes from a place to another. Rounded up as they are, two drives are never shorter than the straight one."""
    return max(1, math.ceil(math.dist(a, b)))


def clock(minute):
    return f"{minute // 60}:{minute % 60:02d}"


class Draw:
    """Draws from a fixed seed."""

    def __init__(self, seed):
        self.random = random.Random(seed).random

    def whole(self, low, high):
        """A whole number from low to high, both included."""
        return low + int(self.random() * (high - low + 1))

    def place(self):
        return (SIDE * self.random(), SIDE * self.random())

    def short_trip(self, places):
        """From, start, to, end: in the morning, over the day or in the evening."""
        origin, other = self.whole(0, len(places) - 1), self.whole(0, len(places) - 2)
        destination = other + (other >= origin)
        part = self.random()
        span = (420, 480) if part < 0.15 else (480, 1020) if part < 0.85 else (1020, 1080)
        start = self.whole(*span)
        return origin, start, destination, start + drive(places[origin], places[destination]) + self.whole(5, 40)

    def long_trip(self, places):
        point, start = self.whole(0, len(places) - 1), self.whole(300, 1200)
        return point, start, point, start + self.whole(180, 300)


def main(trips, depots, seed=1):
    draw = Draw(seed)
    count = min(draw.whole(math.ceil(trips / 3), trips // 2), MOST_STOPS - depots)
    places = [draw.place() for _ in range(count)]
    ends = CORNERS[:depots] + [draw.place() for _ in range(depots - len(CORNERS))]
    stops = [(f"P{k}", place) for k, place in enumerate(places, 1)]
    stops += [(f"D{k}", place) for k, place in enumerate(ends, 1)]
    print("instance,1")
    for name, _ in stops:
        print(f"stop,{name}")
    for name, place in stops:
        for other, end in stops:
            if name != other:
                minutes = drive(place, end)
                print(f"deadhead,{name},{other},{minutes},{8 * minutes}")
    for k in range(1, depots + 1):
        fleet = draw.whole(3 + math.ceil(trips / (3 * depots)), 3 + trips // (2 * depots))
        print(f"layer,L{k},D{k},{fleet},5000,2,1")
    layers = ",".join(f"L{k}" for k in range(1, depots + 1))
    for k in range(1, trips + 1):
        kind = draw.short_trip if draw.random() < 0.4 else draw.long_trip
        origin, start, destination, end = kind(places)
        print(f"trip,T{k},P{origin + 1},{clock(start)},P{destination + 1},{clock(end)},0,{layers}")


main(*map(int, sys.argv[1:]))
