"""Texts for tools/test_second_check.py: the examples of the pages, small timetables, those at limits, drawn ones."""

import os
import re
import subprocess

import second_check

TOP = os.path.dirname(os.path.dirname(os.path.abspath(__file__)))


def page(name):
    """Returns a file of the repository."""
    with open(os.path.join(TOP, name), encoding="utf-8") as file:
        return file.read()


# The examples of the pages

# A command on a page, and what the page says that it prints.
CONSOLE = re.compile(r"^```console\n(.*?)^```", re.MULTILINE | re.DOTALL)
JUDGED = re.compile(r"^\$ (.*) \| bin/mdvsp check\n(.*)$", re.MULTILINE)


def printed():
    """Yields what README and the pages of docs/ show of `check`: the page, the text that is judged, and the row."""
    names = sorted(os.listdir(os.path.join(TOP, "docs")))
    for name in ["README.md", *(f"docs/{name}" for name in names if name.endswith(".md"))]:
        for command, row in commands(page(name)):
            made = subprocess.run(["bash", "-c", command], cwd=TOP, capture_output=True, check=True)
            yield f"{name}: {command}", made.stdout.decode(), row


def commands(text):
    """Yields the commands of a page whose output `check` judges, with the row that it shows.

    Those that read other files than examples/ has, or run the program themselves, are left out: they go on from the
    commands before them.
    """
    for block in CONSOLE.findall(text):
        for command, row in JUDGED.findall(block):
            files = re.findall(r"\S+\.csv", command)
            if all(file.startswith("examples/") for file in files) and "mdvsp" not in command:
                yield command, row.strip()


def shipped():
    """Yields the timetables of examples/ that a document stands beside: its name, and both together."""
    for name, timetable, document in shipped_files():
        yield name, timetable + document


def shipped_files():
    """Yields the same, each with the text of the timetable and that of the document."""
    names = sorted(os.listdir(os.path.join(TOP, "examples")))
    for name in names:
        for ending in ("_plan.csv", "_document.csv"):
            document = name.removesuffix(".csv") + ending
            if document in names:
                yield document, page(f"examples/{name}"), page(f"examples/{document}")


# Small timetables

TWO_TRIPS = page("examples/two_trips.csv")
TWO_TRIPS_PLAN = page("examples/two_trips_plan.csv")

THREE_AT_ONCE = """instance,1
stop,D
stop,P
deadhead,D,P,10,0
deadhead,P,D,10,0
layer,L1,D,1,1000,1,0
layer,L2,D,1,1000,1,0
trip,t1,P,8:00,P,8:30,0,L1,L2
trip,t2,P,8:00,P,8:30,0,L1,L2
trip,t3,P,8:00,P,8:30,0,L1,L2
"""

THREE_AT_ONCE_RAY = """result,1,infeasible
cost,none
bound,none
nodes,1
table,1,ray
fleet,L1,1
price,L1,t1,1,0
price,L1,t2,1,0
price,L1,t3,1,0
fleet,L2,1
price,L2,t1,1,0
price,L2,t2,1,0
price,L2,t3,1,0
leaf,1
end
"""

# Three layers, of which one has no vehicle; rests that are cheaper and some that aren't; a trip too early for a depot.
RESTS = """instance,2
stop,D
stop,E
stop,P
stop,Q
deadhead,D,P,10,700
deadhead,P,D,12,800
deadhead,D,Q,30,900
deadhead,Q,D,30,900
deadhead,D,E,25,1000
deadhead,E,D,25,900
deadhead,E,P,27,600
deadhead,P,E,27,700
deadhead,E,Q,5,0
deadhead,Q,E,5,100
deadhead,P,Q,22,600
deadhead,Q,P,22,600
layer,A,D,2,1000,3,1,60
layer,B,E,1,900,2,0,1
layer,C,D,0,0,0,0,600
trip,a,P,0:20,Q,0:50,4000,A,B
trip,b,Q,1:00,P,1:30,4000,C,B,A
trip,c,P,5:00,P,5:30,0,A,C
trip,d,Q,05:10,E,6:00,100,B,A
trip,e,D,7:00,D,7:01,1,A
trip,f,D,8:01,P,8:20,1,A,B
"""

# From a to b there are 80 minutes: two ways of 10 and the stay. So the vehicle is out for 140 minutes, and rests 60.
JUST_A_REST = """instance,2
stop,D
stop,P
deadhead,D,P,10,0
deadhead,P,D,10,0
layer,L,D,1,0,1,0,60
trip,a,P,8:00,P,8:30,0,L
trip,b,P,9:50,P,10:00,0,L
"""

JUST_A_REST_PLAN = """result,1,optimal
cost,80
bound,80
nodes,1
block,L,a,b
table,1,cost
fleet,L,0
price,L,a,10000,-10000
price,L,b,10000,-10000
leaf,1
end
"""

# Three trips in three layers, with prices of 0 for all trips: they hold, and show what the trips themselves cost.
SPLITS = """instance,1
stop,D
stop,P
deadhead,D,P,10,0
deadhead,P,D,10,0
layer,L1,D,3,100,1,0
layer,L2,P,3,200,2,0
layer,L3,D,0,300,3,0
trip,t1,P,8:00,P,8:30,0,L1,L2,L3
trip,t2,P,9:00,P,9:10,0,L1,L2,L3
trip,t3,D,9:00,P,9:30,0,L1,L3
"""

SPLITS_PLAN = """result,1,open
cost,330
bound,70
nodes,7
block,L1,t1,t2
block,L1,t3
table,1,cost
fleet,L1,0
price,L1,t1,0,0
price,L1,t2,0,0
price,L1,t3,0,0
fleet,L2,0
price,L2,t1,0,0
price,L2,t2,0,0
fleet,L3,0
price,L3,t1,0,0
price,L3,t2,0,0
price,L3,t3,0,0
table,2,cost
fleet,L1,0
price,L1,t1,0,0
price,L1,t2,0,0
price,L1,t3,0,0
fleet,L2,0
price,L2,t1,0,0
price,L2,t2,0,0
fleet,L3,900
price,L3,t1,0,0
price,L3,t2,0,0
price,L3,t3,0,0
split,t1,L1
split,t2,L2,L1
leaf,1
leaf,2
split,t1,L3
leaf,2
split,t3,L1
leaf,1
leaf,1
end
"""

# What is known of some texts, as a page says in its words or as counted by hand: a name, the text, and its row.
KNOWN = [
    ("two trips", TWO_TRIPS + TWO_TRIPS_PLAN, "yes,optimal,1080,1080"),
    (
        "two trips, a price changed", TWO_TRIPS + TWO_TRIPS_PLAN.replace("t1,1010000,0", "t1,1010000,-1"),
        "no,3,TableBroken,1,link,L1,t1,t2",
    ),
    ("three trips at once", THREE_AT_ONCE + THREE_AT_ONCE_RAY, "yes,infeasible,none,none"),
    ("splits", SPLITS + SPLITS_PLAN, "yes,open,330,70"),
    ("just a rest", JUST_A_REST + JUST_A_REST_PLAN, "yes,optimal,80,80"),
    ("a stay too long", JUST_A_REST.replace(",60\n", ",61\n") + JUST_A_REST_PLAN, "no,2,CostDiffers,80,140"),
    (
        "a way by the depot too dear", JUST_A_REST + JUST_A_REST_PLAN.replace("a,10000,-10000", "a,10000,-10001"),
        "no,3,TableBroken,1,link,L,a,b",
    ),
]


# A text of peaks of the two trips, as docs/formats.md has it, and what it says of changes of it.
PEAKS = """result,1,peak
peak,L1,1
block,L1,t1,t2
fleet,L1,0
price,L1,t1,1000,0
price,L1,t2,0,0
end
"""

KNOWN_PEAKS = [(row, TWO_TRIPS + PEAKS.replace(old, new), row) for row, old, new in [
    ("yes", "", ""),
    ("no,11,TooWeak,L1,1,2", "peak,L1,1\nblock,L1,t1,t2", "peak,L1,2\nblock,L1,t1\nblock,L1,t2"),
    ("no,9,CountDiffers,L1,2,1", "peak,L1,1", "peak,L1,2"),
    ("no,8,Blocks,L1,Uncovered,t2", "block,L1,t1,t2", "block,L1,t1"),
    ("no,10,TableBroken,L1,link,L1,t1,t2", "price,L1,t2,0,0", "price,L1,t2,1000,0"),
    (
        "no,11,TooWeak,L1,0,none", "peak,L1,1\nblock,L1,t1,t2\nfleet,L1,0\nprice,L1,t1,1000",
        "peak,L1,none\nfleet,L1,0\nprice,L1,t1,0",
    ),
    ("no,10,TableBroken,L1,out,L1,t1", "peak,L1,1\nblock,L1,t1,t2", "peak,L1,none"),
    ("refused,14,60,NoPeak", "result,1,peak", "result,1,peaks"),
]]


# Timetables at their limits and one past


def clock(minute):
    """Returns a time as texts write it."""
    return f"{minute // 60}:{minute % 60:02}"


def limits():
    """Yields timetables with as many stops, layers and trips as there may be, and with one more."""
    head, tail = "result,1,open\ncost,none\nbound,0\nnodes,0\ntable,1,cost\n", "leaf,1\nend\n"
    for stops in (500, 501):
        yield f"{stops} stops", "instance,1\n" + "".join(f"stop,s{no}\n" for no in range(stops)) + head + tail
    for layers in (16, 17):
        rows = "instance,1\nstop,D\n" + "".join(f"layer,l{no},D,1,1,1,1\n" for no in range(layers))
        prices = "".join(f"fleet,l{no},0\n" for no in range(layers))
        yield f"{layers} layers", rows + head + prices + tail
        yield f"{layers} layers, one twice", rows.replace(f"l{layers - 1}", "l0") + head + prices + tail
    for version, trips in ((1, 2000), (1, 2001), (3, 2001), (3, 10000), (3, 10001)):
        rows = f"instance,{version}\nstop,D\n" + "".join(f"layer,l{no},D,1,1,1,1\n" for no in range(16))
        rows += "".join(f"trip,t{no},D,{clock(no % 2879)},D,{clock(no % 2879 + 1)},0,l{no % 16}\n" for no in range(trips))
        whose = [[f"price,l{layer},t{no},0,0\n" for no in range(layer, trips, 16)] for layer in range(16)]
        prices = "".join(f"fleet,l{layer},0\n" + "".join(prices) for layer, prices in enumerate(whose))
        yield f"{trips} trips of version {version}", rows + head + prices + tail
    for fixed in (0, 1):
        rows = f"instance,3\nstop,D\nlayer,l,D,1,{fixed},0,10000\n"
        rows += "".join(f"trip,t{no},D,0:00,D,0:01,0,l\n" for no in range(4000))
        prices = "fleet,l,0\n" + "".join(f"price,l,t{no},0,0\n" for no in range(4000))
        yield f"4000 trips whose dearest piece costs {10**10 + fixed}", rows + head + prices + tail


# Drawn timetables and documents. They take from the second checker what costs what, so that most nearly hold.


class Draws:
    """Numbers drawn by a rule, the same each time for the same number to begin with."""

    def __init__(self, begin):
        self.last = begin * 7919 + 1
        self.below(2)

    def below(self, count):
        """Draws a number from 0 on, of so many."""
        self.last = self.last * 48271 % 2147483647
        return self.last // 7 % count

    def seldom(self, often=12):
        """Says yes once in so many times."""
        return self.below(often) == 0

    def one_of(self, values):
        return values[self.below(len(values))]

    def some_of(self, values):
        """Draws some of the values, one at least, in their order."""
        sure = self.one_of(values)
        return [value for value in values if value == sure or self.below(2)]


def drawn_timetable(draws):
    """Returns a timetable of a few stops, layers and trips."""
    stops, version = 2 + draws.below(4), 1 + draws.below(2)
    rows = [f"instance,{version}", *(f"stop,S{no}" for no in range(stops)), *drawn_deadheads(draws, stops)]
    layers = [f"L{no}" for no in range(1 + draws.below(4))]
    for layer in layers:
        numbers = [draws.below(6), draws.below(800), draws.below(6), draws.below(3), 1 + draws.below(90)]
        numbers = numbers if version == 2 else numbers[:4]
        rows.append(",".join(["layer", layer, f"S{draws.below(stops)}", *map(str, numbers)]))
    for no in range(draws.below(8)):
        start = 20 + draws.below(500)
        begin = f"S{draws.below(stops)},{clock(start)}"
        end = f"S{draws.below(stops)},{clock(start + 1 + draws.below(60))}"
        rows.append(",".join([f"trip,t{no}", begin, end, str(draws.below(9000)), *draws.some_of(layers)]))
    return "".join(row + "\n" for row in rows)


def drawn_deadheads(draws, stops):
    """Returns the records of deadheads that are closed: the least minutes and the least metres of drawn drives."""
    ways = {(origin, target): (1 + draws.below(60), draws.below(900))
            for origin in range(stops) for target in range(stops) if origin != target and not draws.seldom(4)}
    for middle in range(stops):
        ways = shortened(ways, middle, stops)
    return [f"deadhead,S{origin},S{target},{minutes},{metres}" for (origin, target), (minutes, metres) in ways.items()]


def shortened(ways, middle, stops):
    """Returns the ways, shorter where a stop in the middle makes them so."""
    shorter = dict(ways)
    for origin in range(stops):
        for target in range(stops):
            begin, end = ways.get((origin, middle)), ways.get((middle, target))
            if origin != target and begin and end:
                straight = ways.get((origin, target), (10**9, 10**9))
                shorter[origin, target] = min(straight[0], begin[0] + end[0]), min(straight[1], begin[1] + end[1])
    return shorter


def instance_of(text):
    """Returns a timetable as the second checker reads it."""
    reader = second_check.InstanceReader()
    for fields in second_check.records(text):
        reader.take(fields)
    return reader.finish()


def drawn_document(draws, instance):
    """Returns a document for a timetable: its blocks, prices, tree and bound are mostly right, and seldom aren't."""
    pieces = second_check.Pieces(instance)
    blocks = drawn_blocks(draws, instance) if not draws.seldom(3) else []
    cost = drawn_cost(draws, instance, blocks)
    tables = [drawn_table(draws, instance, pieces) for _ in range(1 + draws.below(3))]
    tree = drawn_tree(draws, instance, 1 + draws.below(3), len(tables))
    bound = drawn_bound(draws, instance, pieces, (cost, tables, tree))
    document = second_check.Document("", cost, bound, blocks if cost is not None else [], tables, tree)
    claims = ["optimal", "open", "infeasible"]
    document.claim = draws.one_of(claims) if draws.seldom() else second_check.found_claim(document)
    return written(instance, document)


def drawn_blocks(draws, instance):
    """Returns blocks that trips join as they start, mostly where they may."""
    blocks = []
    for no, trip in sorted(enumerate(instance.trips), key=lambda pair: pair[1].start):
        layer = draws.below(len(instance.layers)) if draws.seldom(20) else draws.one_of(sorted(trip.layers))
        open_to = [block for block in blocks if block.layer == layer and may_join(draws, instance, block, trip)]
        if open_to and not draws.seldom(6):
            draws.one_of(open_to).trips.append(no)
        elif not draws.seldom(30):
            blocks.append(second_check.Block(layer, [no]))
    return blocks


def may_join(draws, instance, block, trip):
    return draws.seldom(20) or second_check.connects(instance, instance.trips[block.trips[-1]], trip) is not None


def drawn_cost(draws, instance, blocks):
    """Returns what blocks cost that are a plan, mostly, for others some number, and none where there are no blocks."""
    if not blocks and (instance.trips or draws.below(2)):
        return None
    if any(second_check.plan_faults(instance, blocks)):
        return draws.below(10**6)
    found = sum(second_check.block_cost(instance, block) for block in blocks)
    return max(found + draws.one_of([-1, 1, 2]), 0) if draws.seldom() else found


def drawn_table(draws, instance, pieces):
    """Returns a table with prices as high as they may be, mostly."""
    table = second_check.Table(draws.seldom(3))
    for no in range(len(instance.layers)):
        table.fleet.append(draws.one_of([0, 0, 1, 700, 250000, -1 if draws.seldom(4) else 3]))
        draw_prices(draws, instance, pieces, (table, no))
    return table


def draw_prices(draws, instance, pieces, where):
    """Draws the prices of the trips in a layer of a table: for leaving, and then mostly the greatest for entering."""
    table, layer = where
    trips = instance.permitted(layer)
    limits_of = {trip: [0 if table.is_ray else 10**7] for trip in trips}
    for trip in trips:
        home, out = pieces.pull_in(layer, trip), pieces.pull_out(layer, trip)
        low = 0 if table.is_ray or home is None else -home
        table.out_of[layer, trip] = low + draws.one_of([0, 0, 1, draws.below(300000)]) - draws.seldom(25)
        if out is not None:
            limits_of[trip].append((0 if table.is_ray else out) + table.fleet[layer])
    for trip in trips:
        links = pieces.links_from(layer, trip)
        for to, cost in zip(links.trips, links.costs):
            limits_of[to].append((0 if table.is_ray else cost) + table.out_of[layer, trip])
    for trip in trips:
        limit = min(limits_of[trip][1:], default=limits_of[trip][0])
        table.into[layer, trip] = limit - draws.one_of([0, 0, 0, 1, draws.below(9000)]) + draws.seldom(25)


def drawn_tree(draws, instance, depth, tables):
    """Returns the rows of a tree, of which most splits share out the layers of a trip."""
    rows, waiting = [], [(depth, [trip.layers for trip in instance.trips])]
    while waiting:
        left, sets = waiting.pop()
        choices = [trip for trip, layers in enumerate(sets) if len(layers) > 1 or draws.seldom(30)]
        if left == 0 or not choices or draws.seldom(3):
            rows.append(second_check.Leaf(1 + draws.below(tables)))
            continue
        trip = draws.one_of(choices)
        named = frozenset(draws.some_of(sorted(sets[trip] or instance.trips[trip].layers)))
        if len(named) > 1 and not draws.seldom(10):
            named = frozenset(sorted(named)[1:])
        rows.append(second_check.Split(trip, named))
        waiting.append((left - 1, second_check.with_set(sets, trip, sets[trip] - named)))
        waiting.append((left - 1, second_check.with_set(sets, trip, named)))
    return rows


def drawn_bound(draws, instance, pieces, parts):
    """Returns mostly the least of what the leaves are worth and of the cost, or none where the leaves show no plan."""
    cost, tables, tree = parts
    worths, stack = [], [[trip.layers for trip in instance.trips]]
    for row in tree:
        sets = stack.pop()
        if isinstance(row, second_check.Leaf):
            worths.append(leaf_worth(instance, pieces, tables[row.table - 1], sets))
            continue
        stack.append(second_check.with_set(sets, row.trip, sets[row.trip] - row.left))
        stack.append(second_check.with_set(sets, row.trip, row.left))
    numbers = [found for found in worths if found != second_check.NO_PLAN]
    if cost is None and (not numbers or draws.seldom()):
        return None
    least = min([*numbers, *([cost] if cost is not None else [])], default=0)
    return least + draws.one_of([1, -1, 5]) if draws.seldom(8) else least


def leaf_worth(instance, pieces, table, sets):
    return second_check.worth(instance, pieces, table, sets) if all(sets) else 0


def written(instance, document):
    """Returns a document as its records."""
    told = second_check.told
    rows = [f"result,1,{document.claim}", f"cost,{told(document.cost)}", f"bound,{told(document.bound)}", "nodes,1"]
    layers, trips = [layer.name for layer in instance.layers], [trip.name for trip in instance.trips]
    for block in document.blocks:
        rows.append(",".join(["block", layers[block.layer], *(trips[trip] for trip in block.trips)]))
    for number, table in enumerate(document.tables, 1):
        rows.append(f"table,{number},{'ray' if table.is_ray else 'cost'}")
        rows.extend(price_row(table, layers, trips, whose) for whose in second_check.prices_in_order(instance))
    for part in document.tree:
        if isinstance(part, second_check.Leaf):
            rows.append(f"leaf,{part.table}")
        else:
            rows.append(",".join(["split", trips[part.trip], *(layers[layer] for layer in sorted(part.left))]))
    return "".join(row + "\n" for row in [*rows, "end"])


def price_row(table, layers, trips, whose):
    """Returns the record of one price of a table, of a layer's vehicles or of a trip in a layer."""
    if len(whose) == 1:
        return f"fleet,{layers[whose[0]]},{table.fleet[whose[0]]}"
    return f"price,{layers[whose[0]]},{trips[whose[1]]},{table.into[whose]},{table.out_of[whose]}"
