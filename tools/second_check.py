#!/usr/bin/env python3
"""A second checker of documents.

    tools/second_check.py TIMETABLE PLAN
    cat TIMETABLE PLAN | tools/second_check.py

It reads an instance and a document behind it, from two files or from standard input, judges the document against all
connections of the timetable, prints the row that `mdvsp check` prints, and ends with the same status. Records are
counted through both files. A second file that doesn't begin with a record `result` is no document: the checker says so
on standard error and ends with 3.

This file can be copied and used alone. It is no part of what is proved: it was written from
the pages alone (docs/formats.md, docs/formats/, docs/audit.md, docs/definitions.md, README.md), without a look at the sources of
`mdvsp`, so that a mistake of the one is no mistake of the other, and nothing is promised of it but what
tools/test_second_check.py tries. All sums are of whole numbers, and it needs the standard library alone.

The parts stand in the order in which an input is judged: records, instance, document, plan, prices, tree, claim.
"""

from __future__ import annotations

import re
import sys
from array import array
from dataclasses import dataclass, field

# Limits, as docs/formats/input.md gives them.
MOST_BYTES = 536_870_912
MOST_STOPS, MOST_LAYERS = 500, 16
# By the version: how many trips there may be, and how many vehicles in a layer; and how many fields a layer has.
MOST_TRIPS = {1: 2_000, 2: 2_000, 3: 10_000}
LAYER_FIELDS = {1: (7,), 2: (8,), 3: (7, 8)}
MOST_MINUTES, MOST_METRES = 1_440, 1_000_000
MOST_COST, MOST_BOUND, MOST_NODES = 10**17, 10**20, 10**18
MOST_TABLE_NUMBER, MOST_PRICE, PRICE_DIGITS = 10**9, 10**18, 19
MOST_FIXED, MOST_PER_MINUTE, MOST_PER_METRE, MOST_STAY = 10**9, 10**6, 10**4, 600
# The trips times the dearest piece that the rates of a layer allow: a vehicle, two days and the longest way.
TWO_DAYS, MOST_FOR_PIECES = 2_880, 4 * 10**13
# Prices are in 1/1000 of a cost unit.
PARTS = 1_000

# How a run ends.
HOLDS, HOLDS_NOT, WRONG_WORDS, REFUSED = 0, 1, 2, 3
READING_FAILED, WRITING_FAILED, NO_MEMORY, TOO_LONG = 4, 5, 6, 7

NAME = re.compile(r"[A-Za-z0-9_.:-]{1,32}")
SHORT_NUMBER = re.compile(r"[0-9]{1,10}")
TIME = re.compile(r"([0-9]{1,2}):([0-9]{2})")
# No number of a document has more digits than the greatest bound.
NUMBER = re.compile(r"0|-?[1-9][0-9]{0,20}")


class Refused(Exception):
    """The input is refused at a record, for a reason with a number and a name; what more is given stands behind."""

    def __init__(self, row, number, name, *more):
        super().__init__(row, number, name, *more)
        self.fields = ("refused", row, number, name, *more)


# Records

LINE_ENDS = re.compile(r"[\r\n]*")
PLAIN = re.compile(r"[^,\r\n]*")
QUOTED = re.compile(r'"([^"]*(?:""[^"]*)*)"?')


def records(text):
    """Yields the records of a text, each a list of fields. Empty lines are none, and no text is refused here."""
    at = LINE_ENDS.match(text).end()
    while at < len(text):
        fields, at = record_from(text, at)
        yield fields
        at = LINE_ENDS.match(text, at).end()


def record_from(text, at):
    """Returns the fields of the record that begins at a place, and the place of the line end behind it."""
    value, at = field_from(text, at)
    fields = [value]
    while text[at : at + 1] == ",":
        value, at = field_from(text, at + 1)
        fields.append(value)
    return fields, at


def field_from(text, at):
    """Returns the field that begins at a place, and the place of the comma or the line end behind it.

    Only a quote at its very front opens a field. What stands behind the closing one joins it; where nothing closes it,
    it takes the rest of the text.
    """
    opened = QUOTED.match(text, at)
    value = opened.group(1).replace('""', '"') if opened else ""
    plain = PLAIN.match(text, opened.end() if opened else at)
    return value + plain.group(), plain.end()


# Instances


@dataclass(frozen=True)
class Way:
    """The drive from a stop to another."""

    minutes: int
    metres: int


STANDING = Way(0, 0)


@dataclass(frozen=True)
class Layer:
    """The vehicles of one type at one depot; without a stay they don't rest."""

    name: str
    depot: int
    fleet: int
    fixed: int
    per_minute: int
    per_metre: int
    stay: int | None

    def rate(self, minutes, metres):
        """Returns what so many minutes and metres cost."""
        return minutes * self.per_minute + metres * self.per_metre


@dataclass(frozen=True)
class Trip:
    """A trip of the timetable, in minutes from 0:00 of the first day, and the layers that may run it."""

    name: str
    origin: int
    start: int
    target: int
    end: int
    metres: int
    layers: frozenset


@dataclass
class Instance:
    """A timetable. Stops, layers and trips are numbered from 0 as they are declared."""

    stops: list = field(default_factory=list)
    deadheads: dict = field(default_factory=dict)
    layers: list = field(default_factory=list)
    trips: list = field(default_factory=list)

    def way(self, origin, target):
        """Returns the way from a stop to a stop, or none."""
        return STANDING if origin == target else self.deadheads.get((origin, target))

    def permitted(self, layer):
        """Returns the numbers of the trips that a layer may run, in order."""
        return [trip for trip, facts in enumerate(self.trips) if layer in facts.layers]


class InstanceReader:
    """Takes the records of an instance one by one, and refuses the first that breaks a rule of numbers 1 to 9.

    The names of each kind are kept with their numbers. What a refusal by number 10 names is kept with the record's row.
    """

    def __init__(self):
        self.version = 0
        self.row = 0
        self.names = {"stop": {}, "layer": {}, "trip": {}}
        self.layers, self.deadheads, self.trips = [], [], []

    def take(self, fields):
        """Takes the next record."""
        self.row += 1
        if self.row == 1:
            self.take_header(fields)
            return
        takers = {
            "stop": self.take_stop, "deadhead": self.take_deadhead,
            "layer": self.take_layer, "trip": self.take_trip,
        }
        if fields[0] not in takers:
            raise Refused(self.row, 2, "UnknownKind")
        takers[fields[0]](fields)

    def take_header(self, fields):
        if fields not in (["instance", "1"], ["instance", "2"], ["instance", "3"]):
            raise Refused(1, 1, "NoHeader")
        self.version = int(fields[1])

    def take_stop(self, fields):
        self.want_fields(len(fields) == 2)
        name = self.new_name("stop", fields[1])
        self.declare("stop", name, MOST_STOPS)

    def take_deadhead(self, fields):
        self.want_fields(len(fields) == 5)
        origin = self.known("stop", fields[1])
        target = self.known("stop", fields[2])
        way = Way(self.number(fields[3]), self.number(fields[4]))
        self.deadheads.append((self.row, origin, target, way))

    def take_layer(self, fields):
        self.want_fields(len(fields) in LAYER_FIELDS[self.version])
        name = self.new_name("layer", fields[1])
        depot = self.known("stop", fields[2])
        numbers = [self.number(text) for text in fields[3:]]
        self.declare("layer", name, MOST_LAYERS)
        stay = numbers[4] if len(numbers) == 5 else None
        self.layers.append((self.row, Layer(name, depot, *numbers[:4], stay)))

    def take_trip(self, fields):
        self.want_fields(len(fields) >= 8)
        name = self.new_name("trip", fields[1])
        origin, start = self.known("stop", fields[2]), self.time(fields[3])
        target, end = self.known("stop", fields[4]), self.time(fields[5])
        metres = self.number(fields[6])
        layers = set()
        for text in fields[7:]:
            layer = self.known("layer", text)
            if layer in layers:
                raise Refused(self.row, 5, "NameTwice")
            layers.add(layer)
        self.declare("trip", name, MOST_TRIPS[self.version])
        self.trips.append((self.row, Trip(name, origin, start, target, end, metres, frozenset(layers))))

    def want_fields(self, right):
        if not right:
            raise Refused(self.row, 3, "FieldCount")

    def name(self, text):
        if not NAME.fullmatch(text):
            raise Refused(self.row, 4, "BadName")
        return text

    def new_name(self, kind, text):
        if self.name(text) in self.names[kind]:
            raise Refused(self.row, 5, "NameTwice")
        return text

    def known(self, kind, text):
        """Returns the number of what a name was declared for."""
        if self.name(text) not in self.names[kind]:
            raise Refused(self.row, 6, "UnknownName")
        return self.names[kind][text]

    def number(self, text):
        if not SHORT_NUMBER.fullmatch(text):
            raise Refused(self.row, 7, "BadNumber")
        return int(text)

    def time(self, text):
        match = TIME.fullmatch(text)
        if not match or int(match.group(1)) > 47 or int(match.group(2)) > 59:
            raise Refused(self.row, 8, "BadTime")
        return int(match.group(1)) * 60 + int(match.group(2))

    def declare(self, kind, name, most):
        if len(self.names[kind]) == most:
            raise Refused(self.row, 9, "TooMany")
        self.names[kind][name] = len(self.names[kind])

    def finish(self):
        """Returns the instance, once all its records were taken, or refuses the first error in it."""
        if self.row == 0:
            raise Refused(1, 1, "NoHeader")
        self.want_layers()
        self.want_deadheads()
        self.want_trips()
        deadheads = {(origin, target): way for _, origin, target, way in self.deadheads}
        want_closure(len(self.names["stop"]), deadheads)
        layers = [layer for _, layer in self.layers]
        return Instance(list(self.names["stop"]), deadheads, layers, [trip for _, trip in self.trips])

    def want_layers(self):
        for row, layer in self.layers:
            want_range(row, "fleet", 0, layer.fleet, MOST_TRIPS[self.version])
            want_range(row, "fixed", 0, layer.fixed, MOST_FIXED)
            want_range(row, "per_minute", 0, layer.per_minute, MOST_PER_MINUTE)
            want_range(row, "per_metre", 0, layer.per_metre, MOST_PER_METRE)
            if layer.stay is not None:
                want_range(row, "stay", 1, layer.stay, MOST_STAY)
            dearest = layer.fixed + layer.per_minute * TWO_DAYS + layer.per_metre * MOST_METRES
            if len(self.trips) * dearest > MOST_FOR_PIECES:
                raise Refused(row, 10, "TooDear")

    def want_deadheads(self):
        given = set()
        for row, origin, target, way in self.deadheads:
            if origin == target:
                raise Refused(row, 10, "SelfDeadhead")
            want_range(row, "minutes", 1, way.minutes, MOST_MINUTES)
            want_range(row, "metres", 0, way.metres, MOST_METRES)
            if (origin, target) in given:
                raise Refused(row, 10, "DeadheadTwice")
            given.add((origin, target))

    def want_trips(self):
        for row, trip in self.trips:
            want_range(row, "metres", 0, trip.metres, MOST_METRES)
            if trip.end <= trip.start:
                raise Refused(row, 10, "EndNotAfterStart")


def want_range(row, what, least, value, most):
    """Refuses a number outside its range."""
    if not least <= value <= most:
        raise Refused(row, 10, "Range", what)


def want_closure(stops, deadheads):
    """Refuses deadheads A-B and B-C without an A-C that is as short: the first by the numbers of A, of B and of C."""
    ways = [{} for _ in range(stops)]
    for first, second in sorted(deadheads):
        ways[first][second] = deadheads[first, second]
    for first, second in sorted(deadheads):
        want_shortest(first, second, ways)


def want_shortest(first, second, ways):
    """Refuses the way from a first stop over a second to a third one if the straight way is missing or longer."""
    begin, straight_ways = ways[first][second], ways[first]
    for third, onward in ways[second].items():
        straight = straight_ways.get(third)
        if third == first:
            continue
        if straight is None:
            raise Refused(0, 10, "NotClosed", first + 1, second + 1, third + 1)
        if straight.minutes > begin.minutes + onward.minutes:
            raise Refused(0, 10, "LongerMinutes", first + 1, second + 1, third + 1)
        if straight.metres > begin.metres + onward.metres:
            raise Refused(0, 10, "LongerMetres", first + 1, second + 1, third + 1)


# Documents


@dataclass
class Table:
    """A table of prices: of the vehicles by layer, of entering and leaving a trip by layer and trip."""

    is_ray: bool
    fleet: list = field(default_factory=list)
    into: dict = field(default_factory=dict)
    out_of: dict = field(default_factory=dict)


@dataclass(frozen=True)
class Block:
    """What one vehicle of a layer runs: the numbers of its trips, in order."""

    layer: int
    trips: list


@dataclass(frozen=True)
class Split:
    """A row of the tree: in its left part the trip is run in these layers, in its right part in others."""

    trip: int
    left: frozenset


@dataclass(frozen=True)
class Leaf:
    """A row of the tree: a case that the table of a number proves, counted from 1."""

    table: int


@dataclass
class Document:
    """A document that was read. A cost or a bound that is printed as `none` is none; the tree is its rows."""

    claim: str = ""
    cost: int | None = None
    bound: int | None = None
    blocks: list = field(default_factory=list)
    tables: list = field(default_factory=list)
    tree: list = field(default_factory=list)


class BadRow(Exception):
    """A record is no row of a document, wherever it stands."""


class OutOfOrder(Exception):
    """A record is a row of a document, and another has to come there."""


def whole(text, least, most):
    """Returns the number that a field writes, within a range."""
    if not NUMBER.fullmatch(text) or not least <= int(text) <= most:
        raise BadRow
    return int(text)


def price(text):
    """Returns the price that a field writes. Whether it is within its range is judged later (number 26)."""
    if not NUMBER.fullmatch(text) or len(text.lstrip("-")) > PRICE_DIGITS:
        raise BadRow
    return int(text)


def one_of(words, text):
    if text not in words:
        raise BadRow
    return text


class DocumentReader:
    """Takes the rows of a document one by one, and refuses the first that may not come where it stands.

    `place` says what has to come next: the kind of a row, `blocks`, `tables` or `tree` where several may, `end`, or
    `nothing` behind the end. A table's prices are taken off the list of those that are still `due`. `parts` is how
    many parts of the tree are still to come.
    """

    def __init__(self, instance):
        self.instance = instance
        self.layers = {layer.name: number for number, layer in enumerate(instance.layers)}
        self.trips = {trip.name: number for number, trip in enumerate(instance.trips)}
        self.every_price = prices_in_order(instance)
        self.document = Document()
        self.place = "result"
        self.due = []
        self.parts = 1

    def take(self, row, fields):
        """Takes the record of a row number."""
        if self.place == "nothing":
            raise Refused(row, 25, "RowsAfterEnd")
        try:
            values = self.form(fields)
            self.come(row, fields[0], values)
        except BadRow:
            raise Refused(row, 21, "BadRow") from None
        except OutOfOrder:
            raise Refused(row, 22, "OutOfOrder") from None

    def finish(self, row):
        """Returns the document; the row is that of the record that would come next."""
        if self.place != "nothing":
            raise Refused(row, 24, "EndsEarly")
        return self.document

    # The form of a row: what its fields say.

    def form(self, fields):
        """Returns the values that a row says behind its first field."""
        kind, rest = fields[0], fields[1:]
        forms = {
            "result": self.form_result, "cost": self.form_cost, "bound": self.form_bound, "nodes": self.form_nodes,
            "block": self.form_block, "table": self.form_table, "fleet": self.form_fleet, "price": self.form_price,
            "split": self.form_split, "leaf": self.form_leaf, "end": self.form_end,
        }
        if kind not in forms:
            raise BadRow
        return forms[kind](rest)

    def form_result(self, rest):
        version, claim = exactly(2, rest)
        one_of(["1"], version)
        return one_of(["optimal", "infeasible", "open"], claim)

    def form_cost(self, rest):
        (text,) = exactly(1, rest)
        return None if text == "none" else whole(text, 0, MOST_COST)

    def form_bound(self, rest):
        (text,) = exactly(1, rest)
        return None if text == "none" else whole(text, -MOST_BOUND, MOST_BOUND)

    def form_nodes(self, rest):
        (text,) = exactly(1, rest)
        return whole(text, 0, MOST_NODES)

    def form_block(self, rest):
        at_least(2, rest)
        return Block(self.layer(rest[0]), [self.trip(text) for text in rest[1:]])

    def form_table(self, rest):
        number, kind = exactly(2, rest)
        return table_number(number), one_of(["cost", "ray"], kind) == "ray"

    def form_fleet(self, rest):
        layer, text = exactly(2, rest)
        return self.layer(layer), price(text)

    def form_price(self, rest):
        layer, trip, into, out_of = exactly(4, rest)
        return self.layer(layer), self.trip(trip), price(into), price(out_of)

    def form_split(self, rest):
        at_least(2, rest)
        left = [self.layer(text) for text in rest[1:]]
        if len(set(left)) < len(left):
            raise BadRow
        return Split(self.trip(rest[0]), frozenset(left))

    def form_leaf(self, rest):
        (number,) = exactly(1, rest)
        return Leaf(table_number(number))

    def form_end(self, rest):
        exactly(0, rest)

    def layer(self, text):
        if text not in self.layers:
            raise BadRow
        return self.layers[text]

    def trip(self, text):
        if text not in self.trips:
            raise BadRow
        return self.trips[text]

    # Where a row may come, and what it adds.

    def come(self, row, kind, values):
        """Adds a row to the document where it may come."""
        if kind in ("result", "cost", "bound", "nodes"):
            self.come_head(kind, values)
        elif kind == "block":
            self.come_block(values)
        elif kind == "table":
            self.come_table(row, values)
        elif kind in ("fleet", "price"):
            self.come_price(row, kind, values)
        elif kind in ("split", "leaf"):
            self.come_tree(row, values)
        else:
            self.want_place(["end"])
            self.place = "nothing"

    def want_place(self, places):
        if self.place not in places:
            raise OutOfOrder

    def come_head(self, kind, value):
        self.want_place([kind])
        if kind == "result":
            self.document.claim, self.place = value, "cost"
        elif kind == "cost":
            self.document.cost, self.place = value, "bound"
        elif kind == "bound" and value is None and self.document.cost is not None:
            raise BadRow
        elif kind == "bound":
            self.document.bound, self.place = value, "nodes"
        else:
            self.place = "blocks"

    def come_block(self, block):
        self.want_place(["blocks"])
        if self.document.cost is None:
            raise OutOfOrder
        self.document.blocks.append(block)

    def come_table(self, row, values):
        self.want_place(["blocks", "tables"])
        number, is_ray = values
        if number != len(self.document.tables) + 1:
            raise Refused(row, 23, "TableNumber")
        self.document.tables.append(Table(is_ray))
        self.due = list(reversed(self.every_price))
        self.place = "prices" if self.due else "tables"

    def come_price(self, row, kind, values):
        self.want_place(["prices"])
        whose, prices = (values[:1], values[1:]) if kind == "fleet" else (values[:2], values[2:])
        if self.due[-1] != whose:
            raise OutOfOrder
        if any(abs(value) > MOST_PRICE for value in prices):
            raise Refused(row, 26, "PriceRange")
        self.due.pop()
        table = self.document.tables[-1]
        if kind == "fleet":
            table.fleet.append(prices[0])
        else:
            table.into[whose], table.out_of[whose] = prices
        self.place = "prices" if self.due else "tables"

    def come_tree(self, row, part):
        self.want_place(["blocks", "tables", "tree"])
        if isinstance(part, Leaf) and not 1 <= part.table <= len(self.document.tables):
            raise Refused(row, 23, "TableNumber")
        self.document.tree.append(part)
        self.parts += 1 if isinstance(part, Split) else -1
        self.place = "tree" if self.parts else "end"


def exactly(count, rest):
    if len(rest) != count:
        raise BadRow
    return rest


def at_least(count, rest):
    if len(rest) < count:
        raise BadRow


def table_number(text):
    return whole(text, 0, MOST_TABLE_NUMBER)


def prices_in_order(instance):
    """Returns whose prices a table has, in order: a layer's vehicles as (layer,), then its trips as (layer, trip)."""
    order = []
    for layer in range(len(instance.layers)):
        order.append((layer,))
        order.extend((layer, trip) for trip in instance.permitted(layer))
    return order


# Ways and pieces


def connects(instance, first, second):
    """Returns the way between two trips where the first connects to the second, or none."""
    way = instance.way(first.target, second.origin)
    return way if way is not None and first.end + way.minutes <= second.start else None


def pull_out(instance, layer, trip):
    """Returns the way from the depot to a trip where it can be begun at minute 0 or later, or none."""
    way = instance.way(layer.depot, trip.origin)
    return way if way is not None and trip.start >= way.minutes else None


def pull_in(instance, layer, trip):
    """Returns the way from a trip back to the depot, or none."""
    return instance.way(trip.target, layer.depot)


def rest(instance, layer, first, second):
    """Returns the ways in and out where a vehicle can rest in the depot between two trips, or none."""
    if layer.stay is None:
        return None
    into, out = instance.way(first.target, layer.depot), instance.way(layer.depot, second.origin)
    if into is None or out is None or second.start - first.end - into.minutes - out.minutes < layer.stay:
        return None
    return into, out


def link_cost(instance, layer, first, second, way):
    """Returns what it costs to go from a trip to one that it connects to, straight or by the depot."""
    straight = layer.rate(second.start - first.end, way.metres)
    ways = rest(instance, layer, first, second)
    if ways is None:
        return straight
    return min(straight, layer.rate(ways[0].minutes + ways[1].minutes, ways[0].metres + ways[1].metres))


# Plans


def plan_flaws(instance, document):
    """Yields what is wrong with the blocks, or that they cost something else than is printed."""
    faults = False
    for flaw in plan_faults(instance, document.blocks):
        faults = True
        yield (1, *flaw)
    if not faults:
        found = sum(block_cost(instance, block) for block in document.blocks)
        if found != document.cost:
            yield 2, "CostDiffers", document.cost, found


def plan_faults(instance, blocks):
    """Yields all that keeps blocks from being a plan, in order."""
    for number, block in enumerate(blocks, 1):
        yield from block_faults(instance, number, block)
    times = [0] * len(instance.trips)
    for trip in (trip for block in blocks for trip in block.trips):
        times[trip] += 1
    yield from (("Twice", trip.name) for trip, count in zip(instance.trips, times) if count > 1)
    yield from (("Uncovered", trip.name) for trip, count in zip(instance.trips, times) if count == 0)
    used = [0] * len(instance.layers)
    for block in blocks:
        used[block.layer] += 1
    yield from (("Fleet", layer.name, count) for layer, count in zip(instance.layers, used) if count > layer.fleet)


def block_faults(instance, number, block):
    """Yields what keeps the block of a number from being one, trip by trip."""
    layer = instance.layers[block.layer]
    before = None
    for place, no in enumerate(block.trips, 1):
        trip = instance.trips[no]
        if block.layer not in trip.layers:
            yield "NotPermitted", number, place
        if before is None and pull_out(instance, layer, trip) is None:
            yield "NoPullOut", number
        if before is not None and connects(instance, before, trip) is None:
            yield "NoConnection", number, place
        before = trip
    if pull_in(instance, layer, before) is None:
        yield "NoPullIn", number


def block_cost(instance, block):
    """Returns what a block costs: the vehicle, all its minutes but those rested, and all its metres."""
    layer = instance.layers[block.layer]
    trips = [instance.trips[no] for no in block.trips]
    out, back = pull_out(instance, layer, trips[0]), pull_in(instance, layer, trips[-1])
    minutes = trips[-1].end + back.minutes - (trips[0].start - out.minutes)
    metres = out.metres + sum(trip.metres for trip in trips) + back.metres
    for first, second in zip(trips, trips[1:]):
        rested, driven = between(instance, layer, first, second)
        minutes -= rested
        metres += driven
    return layer.fixed + layer.rate(minutes, metres)


def between(instance, layer, first, second):
    """Returns how many minutes a vehicle rests between two trips of a block, and how many metres it drives there."""
    straight = connects(instance, first, second)
    ways = rest(instance, layer, first, second)
    if ways is None:
        return 0, straight.metres
    gap, away = second.start - first.end, ways[0].minutes + ways[1].minutes
    driven = ways[0].metres + ways[1].metres
    if layer.rate(away, driven) < layer.rate(gap, straight.metres):
        return gap - away, driven
    return 0, straight.metres


# Prices


@dataclass
class Links:
    """The trips that one trip connects to in a layer, in number order, and what the links cost in 1/1000."""

    trips: array
    costs: array


class Pieces:
    """What the moves of each layer cost in 1/1000 of a cost unit, counted once for all tables."""

    def __init__(self, instance):
        self.instance = instance
        self.links = {}

    def pull_out(self, layer, trip):
        """Returns what a pull-out costs, the vehicle's fixed cost and all, or none."""
        facts = self.instance.layers[layer]
        way = pull_out(self.instance, facts, self.instance.trips[trip])
        return None if way is None else PARTS * (facts.fixed + facts.rate(way.minutes, way.metres))

    def pull_in(self, layer, trip):
        """Returns what a pull-in costs, or none."""
        facts = self.instance.layers[layer]
        way = pull_in(self.instance, facts, self.instance.trips[trip])
        return None if way is None else PARTS * facts.rate(way.minutes, way.metres)

    def own(self, layer, trip):
        """Returns what a trip itself costs."""
        facts = self.instance.trips[trip]
        return PARTS * self.instance.layers[layer].rate(facts.end - facts.start, facts.metres)

    def links_from(self, layer, trip):
        """Returns the links of a trip in a layer."""
        key = layer, trip
        if key not in self.links:
            self.links[key] = self.count_links(layer, trip)
        return self.links[key]

    def count_links(self, layer, trip):
        facts, first = self.instance.layers[layer], self.instance.trips[trip]
        links = Links(array("H"), array("q"))
        for no, second in enumerate(self.instance.trips):
            way = connects(self.instance, first, second) if layer in second.layers else None
            if way is not None:
                links.trips.append(no)
                links.costs.append(PARTS * link_cost(self.instance, facts, first, second, way))
        return links


def table_flaws(instance, pieces, tables):
    """Yields for each table that breaks where it does so first."""
    for number, table in enumerate(tables, 1):
        for place in breaks(instance, pieces, table):
            yield (3, "TableBroken", number, *place)
            break


def breaks(instance, pieces, table):
    """Yields the places at which a table breaks, in order."""
    names = [trip.name for trip in instance.trips]
    for no, layer in enumerate(instance.layers):
        if table.fleet[no] < 0:
            yield "fleet", layer.name
        for trip in instance.permitted(no):
            if out_breaks(pieces, table, no, trip):
                yield "out", layer.name, names[trip]
            yield from (("link", layer.name, names[trip], names[to]) for to in broken_links(pieces, table, no, trip))
            if in_breaks(pieces, table, no, trip):
                yield "in", layer.name, names[trip]


def out_breaks(pieces, table, layer, trip):
    """Says whether entering a trip from the depot is worth more than it costs, the vehicle's price with it."""
    cost = pieces.pull_out(layer, trip)
    if cost is None:
        return False
    return table.into[layer, trip] > (0 if table.is_ray else cost) + table.fleet[layer]


def broken_links(pieces, table, layer, trip):
    """Yields the trips to which going on from a trip is worth more than it costs."""
    links, leaving = pieces.links_from(layer, trip), table.out_of[layer, trip]
    for to, cost in zip(links.trips, links.costs):
        if table.into[layer, to] - leaving > (0 if table.is_ray else cost):
            yield to


def in_breaks(pieces, table, layer, trip):
    """Says whether going home from a trip is worth more than it costs."""
    cost = pieces.pull_in(layer, trip)
    if cost is None:
        return False
    return -table.out_of[layer, trip] > (0 if table.is_ray else cost)


NO_PLAN = "none"


def worth(instance, pieces, table, sets):
    """Returns what a table is worth where each trip may be run in the layers of its set, or that there is no plan."""
    value = -sum(layer.fleet * paid for layer, paid in zip(instance.layers, table.fleet))
    value += sum(min(pays(pieces, table, layer, trip) for layer in layers) for trip, layers in enumerate(sets))
    if table.is_ray:
        return NO_PLAN if value > 0 else 0
    return -(-value // PARTS)


def pays(pieces, table, layer, trip):
    """Returns what a trip pays in a layer."""
    own = 0 if table.is_ray else pieces.own(layer, trip)
    return table.into[layer, trip] + own - table.out_of[layer, trip]


# The tree


def tree_flaws(instance, pieces, document):
    """Yields the splits that don't share out their trip's layers and the leaves that are too weak, row by row.

    What waits on the stack are the sets of layers of the parts that are still to come, the next one at the top. Only
    the first flaw is printed, so nothing is judged behind a split that shares out nothing.
    """
    stack = [[trip.layers for trip in instance.trips]]
    for position, row in enumerate(document.tree, 1):
        sets = stack.pop()
        if isinstance(row, Leaf):
            found = worth(instance, pieces, document.tables[row.table - 1], sets)
            if not is_enough(found, document.bound):
                yield 5, "LeafTooWeak", position, found, told(document.bound)
        elif row.left < sets[row.trip]:
            stack.append(with_set(sets, row.trip, sets[row.trip] - row.left))
            stack.append(with_set(sets, row.trip, row.left))
        else:
            yield 4, "BadSplit", position
            return


def with_set(sets, trip, layers):
    """Returns the sets with that of one trip replaced."""
    return [*sets[:trip], layers, *sets[trip + 1 :]]


def is_enough(found, bound):
    """Says whether a leaf that is worth so much shows the printed bound, or no plan where none is printed."""
    return found == NO_PLAN or (bound is not None and found >= bound)


# The whole


def told(number):
    """Returns a cost or a bound as it is printed."""
    return "none" if number is None else number


def found_claim(document):
    """Returns the claim that cost and bound make together."""
    if document.cost is None and document.bound is None:
        return "infeasible"
    return "optimal" if document.cost == document.bound else "open"


def flaws(instance, document):
    """Yields the flaws of a document in the order in which they are printed."""
    pieces = Pieces(instance)
    if document.cost is not None:
        yield from plan_flaws(instance, document)
    yield from table_flaws(instance, pieces, document.tables)
    yield from tree_flaws(instance, pieces, document)
    claim = found_claim(document)
    if claim != document.claim:
        yield 6, "ClaimDiffers", document.claim, claim


def read(text):
    """Returns the instance and the document of a text."""
    instances = InstanceReader()
    rest_of_text = records(text)
    first = None
    for fields in rest_of_text:
        if fields[0] == "result":
            first = fields
            break
        instances.take(fields)
    instance, row = instances.finish(), instances.row + 1
    if first is None:
        raise Refused(row, 20, "NoResult")
    documents = DocumentReader(instance)
    documents.take(row, first)
    for fields in rest_of_text:
        row += 1
        documents.take(row, fields)
    return instance, documents.finish(row + 1)


def check(text):
    """Returns the row that answers a text, as a tuple of fields, and the status."""
    try:
        instance, document = read(text)
    except Refused as refusal:
        return refusal.fields, REFUSED
    for flaw in flaws(instance, document):
        return ("no", *flaw), HOLDS_NOT
    return ("yes", document.claim, told(document.cost), told(document.bound)), HOLDS


def text_of(data):
    """Returns the text of bytes, one sign for each byte, without a byte order mark at the front."""
    return data.removeprefix(b"\xef\xbb\xbf").decode("latin-1")


def joined(timetable, plan):
    """Returns the text of a timetable and a document behind it, which begins a line of its own."""
    return text_of(timetable) + "\n" + text_of(plan)


def begins_a_document(data):
    """Says whether the first record of bytes begins with `result`."""
    return next(records(text_of(data)), [""])[0] == "result"


def read_file(path):
    """Returns the bytes of a file, up to one more than are taken."""
    with open(path, "rb") as file:
        return file.read(MOST_BYTES + 1)


def bad_word(words):
    """Returns the number of the first argument that is wrong, counted from 1, or 0: there are none, or two files."""
    if words and words[0].startswith("-"):
        return 1
    return {0: 0, 1: 2, 2: 0}.get(len(words), 3)


def answer(words):
    """Returns the row that answers what is read, and the status; no row where the status says all."""
    if not words:
        data = sys.stdin.buffer.read(MOST_BYTES + 1)
        return check(text_of(data)) if len(data) <= MOST_BYTES else (None, TOO_LONG)
    timetable, plan = (read_file(path) for path in words)
    if len(timetable) + len(plan) > MOST_BYTES:
        return None, TOO_LONG
    if not begins_a_document(plan):
        print(f"{words[1]}: its first record isn't `result`, so it is no document of a plan", file=sys.stderr)
        return None, REFUSED
    return check(joined(timetable, plan))


def main():
    words = sys.argv[1:]
    if bad_word(words):
        print(f"words,{bad_word(words)}")
        return WRONG_WORDS
    try:
        row, status = answer(words)
    except OSError as error:
        if error.filename:
            print(f"{error.filename}: {error.strerror}", file=sys.stderr)
        return READING_FAILED
    except MemoryError:
        return NO_MEMORY
    if row is None:
        return status
    try:
        print(",".join(str(value) for value in row), flush=True)
    except OSError:
        return WRITING_FAILED
    return status


if __name__ == "__main__":
    sys.exit(main())
