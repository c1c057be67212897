"""Changes of texts, for tools/test_second_check.py.

A way to change a text yields all its changes of this way, from its records, each with a name that says what it is.
"""

from dataclasses import dataclass

# Records that are put before each other record: each kind of each part, well formed for the two trips and not.
STRANGE_RECORDS = ["", '""', ",", "stop,N\u00e9", "stop," + "n" * 32, "stop," + "n" * 33, *"""
instance,1
instance,2
stop,New
stop,D
stop,
stop,New,1
stop,a b
Stop,New
 stop,New
stop,New\x20
deadhead,D,P,10,0
deadhead,D,D,10,0
deadhead,D,D,0,0
deadhead,D,X,10,0
deadhead,D,P,0,0
deadhead,D,P,1441,1000001
deadhead,D,P,10
layer,New,D,1,1,1,1
layer,New,D,1,1,1,1,60
layer,New,D,2001,1000000001,1000001,10001,601
layer,L1,D,1,1,1,1
layer,New,X,1,1,1,1
trip,New,P,8:00,P,8:01,0,L1
trip,t1,P,8:00,P,8:01,0,L1
trip,New,P,8:00,P,8:00,0,L1
trip,New,P,8:00,P,8:01,0
trip,New,P,8:00,P,8:01,0,
trip,New,P,8:00,P,8:01,0,L1,L1
trip,New,P,8:00,P,8:01,1000001,L1
trip,New,P,8:00,P,8:00,1000001,L1
result,1,open
result
result,2,open
result,1,maybe
cost,1
cost,none
cost,None
bound,1
bound,none
nodes,1
nodes,none
block,L1,t1
block,L1
block,L1,t1,t1
block,L1,nobody
block,nobody,t1
table,1,cost
table,2,ray
table,3,ray
table,0,cost
table,-1,cost
table,1,other
table,1
fleet,L1,0
fleet,L1,-1
fleet,L1,1000000000000000001
fleet,L1
price,L1,t1,0,0
price,L1,t1,0
price,L1,t1,0,9999999999999999999
split,t1,L1
split,t1,L1,L1
split,t1
split,nobody,L1
leaf,1
leaf,0
leaf,-1
leaf,2
leaf,1000000000
leaf,1000000001
leaf,01
leaf
end
end,
End
""".strip("\n").splitlines()]

# Records of texts of peaks, for the two trips.
STRANGE_PEAKS = """
result,1,peak
result,1,peaks
peak,L1,1
peak,L1,0
peak,L1,none
peak,L1,None
peak,L1,01
peak,L1,-1
peak,L1,2001
peak,L1
peak,nobody,1
block,L1,t1
block,L1,t1,t2
block,L1,t2,t1
fleet,L1,0
fleet,L1,1000
price,L1,t1,1000,0
price,L1,t2,0,0
cost,1
leaf,1
table,1,cost
end
""".split()

# What is put into records. The sign \udc80 stands for a byte 128 alone, which is no UTF-8.
STRANGE_SIGNS = [
    '"', '""', '"""', '"x"', '"\n"', '","', "\r", "\r\r", "\n", "\r\n",
    ",", "\0", "\x80", "\udc80", "\u00e9", " ", "'",
]

# How a field is quoted, well or badly.
QUOTINGS = ['"{}"', '"{}" ', ' "{}"', '"{}', '{}"', '"{}"x', '"{}""', '"{}"""', '"{}"x"']

# What each field is exchanged for, whatever stands there.
STRANGE_FIELDS = ["", "1 ", " 1", "9" * 60, "\u0661", *"""
none nobody optimal infeasible open Open cost ray end a.b a_b a-b a:b a/b
0 -0 1 -1 00 01 +1 1.0 1e3 0x1
0:00 8:00 8:0 08:00 008:00 23:59 24:00 47:59 48:00 7:60 8.00 8:00:00 :00 8: -8:00
600 601 1440 1441 2000 2001 10000 10001 1000000 1000001 1000000000 1000000001
9999999999 10000000000 0000000001 00000000001
100000000000000000 100000000000000001
1000000000000000000 1000000000000000001 -1000000000000000000 -1000000000000000001
9223372036854775807 9223372036854775808 9999999999999999999 -9999999999999999999
10000000000000000000 -10000000000000000000 18446744073709551615 18446744073709551616
100000000000000000000 100000000000000000001 -100000000000000000000 -100000000000000000001
999999999999999999999 1000000000000000000000 170141183460469231731687303715884105728
""".split()]


# The limits of the numbers and times of each record, by its kind and the place of the field, and what is one past.
TIMES = ["0:00", "47:59", "48:00"]
TABLE_NUMBERS = [-1, 0, 10**9, 10**9 + 1]
PRICES = [sign * size for size in (10**18, 10**18 + 1, 10**19 - 1, 10**19) for sign in (1, -1)]
LIMITS = {
    ("deadhead", 3): [0, 1, 1440, 1441], ("deadhead", 4): [0, 10**6, 10**6 + 1],
    ("layer", 3): [0, 2000, 2001, 10000, 10001], ("layer", 4): [0, 10**9, 10**9 + 1], ("layer", 5): [0, 10**6, 10**6 + 1],
    ("layer", 6): [0, 10**4, 10**4 + 1], ("layer", 7): [0, 1, 600, 601],
    ("trip", 3): TIMES, ("trip", 5): TIMES, ("trip", 6): [0, 10**6, 10**6 + 1],
    ("cost", 1): [-1, 0, 10**17, 10**17 + 1], ("bound", 1): [10**20, 10**20 + 1, -(10**20), -(10**20) - 1],
    ("nodes", 1): [-1, 0, 10**18, 10**18 + 1], ("table", 1): TABLE_NUMBERS, ("leaf", 1): TABLE_NUMBERS,
    ("peak", 2): [-1, 0, 1, 2000, 10000, 10001, "none"], ("fleet", 2): PRICES, ("price", 3): PRICES, ("price", 4): PRICES,
}


@dataclass(frozen=True)
class Change:
    """Some records of a text, from one on to before another, exchanged for others."""

    name: str
    begin: int
    end: int
    records: list

    def text(self, records):
        """Returns the changed text."""
        return joined(records[: self.begin] + self.records + records[self.end :])


def joined(records):
    """Returns the text of records."""
    return "".join(record + "\n" for record in records)


def in_place(at, record):
    """Returns the change that puts a record in the place of another."""
    return Change(f"{record!r} for record {at + 1}", at, at + 1, [record])


def with_field(at, fields, place, value):
    """Returns the change that puts a value in the place of a field."""
    return in_place(at, ",".join(fields[:place] + [str(value)] + fields[place + 1 :]))


def row_changes(records):
    """Yields each record left out, doubled, exchanged with the next and put at the end, and all cut off before it."""
    for at, record in enumerate(records):
        yield Change(f"without record {at + 1}", at, at + 1, [])
        yield Change(f"record {at + 1} twice", at, at, [record])
        yield Change(f"record {at + 1} at the end", at, len(records), records[at + 1 :] + [record])
        yield Change(f"the first {at} records", at, len(records), [])
        yield Change(f"record {at + 1} behind the next", at, at + 2, records[at + 1 : at + 2] + [record])


def strange_records(records):
    """Yields other records put before each record, in the place of each, and behind the last."""
    for at in range(len(records) + 1):
        for strange in STRANGE_RECORDS:
            yield Change(f"{strange!r} before record {at + 1}", at, at, [strange])
            yield in_place(at, strange)


def strange_peaks(records):
    """Yields records of texts of peaks put before each record, and in the place of each."""
    for at in range(len(records) + 1):
        for strange in STRANGE_PEAKS:
            yield Change(f"{strange!r} before record {at + 1}", at, at, [strange])
            yield in_place(at, strange)


def field_changes(records):
    """Yields each field dropped, doubled, moved, and if it is a number changed by one or in sign."""
    for at, record in enumerate(records):
        fields = record.split(",")
        for place, value in enumerate(fields):
            yield from (in_place(at, ",".join(changed)) for changed in moved(fields, place))
            yield from (with_field(at, fields, place, near) for near in nearby(value))


def moved(fields, place):
    """Returns the fields with the one at a place dropped, doubled, put at the end and exchanged with the next."""
    before, value, behind = fields[:place], fields[place], fields[place + 1 :]
    lists = [before + behind, before + [value, value] + behind, before + behind + [value]]
    if behind:
        lists.append(before + [behind[0], value] + behind[1:])
    return lists


def nearby(value):
    """Returns what a number or a time is changed to: some more, some less, the other sign, a sign before it."""
    if ":" in value and value.replace(":", "").isdigit():
        hour, minute = value.split(":")
        minutes = [f"{hour}:{(int(minute) + by) % 60:02}" for by in (1, 59)]
        return minutes + [f"{int(hour) + by}:{minute}" for by in (1, -1)]
    if not value.lstrip("-").isdigit():
        return []
    number = int(value)
    return [number + 1, number - 1, number + 1000, number - 1000, -number, 2 * number, f"0{value}", f"-{value}"]


def limit_changes(records):
    """Yields each number and time at its limits and one past."""
    for at, record in enumerate(records):
        fields = record.split(",")
        for place in range(1, len(fields)):
            limits = LIMITS.get((fields[0], place), [])
            yield from (with_field(at, fields, place, value) for value in limits)


def strange_fields(records):
    """Yields each field exchanged for others that may or may not stand there."""
    for at, record in enumerate(records):
        fields = record.split(",")
        for place in range(len(fields)):
            yield from (with_field(at, fields, place, strange) for strange in STRANGE_FIELDS)


def name_changes(records):
    """Yields each name exchanged for each other one of the text."""
    declared = [record.split(",")[1] for record in records if record.startswith(("stop,", "layer,", "trip,"))]
    names = list(dict.fromkeys(declared))
    for at, record in enumerate(records):
        fields = record.split(",")
        for place in (place for place, value in enumerate(fields) if value in names):
            others = (name for name in names if name != fields[place])
            yield from (with_field(at, fields, place, name) for name in others)


def sign_changes(records):
    """Yields signs put into each record, and one of its fields quoted well or badly."""
    for at, record in enumerate(records):
        for cut in sorted({0, 1, len(record) // 2, len(record) - 1, len(record)}):
            yield from (in_place(at, record[:cut] + sign + record[cut:]) for sign in STRANGE_SIGNS)
        fields = record.split(",")
        for place in sorted({0, len(fields) // 2, len(fields) - 1}):
            yield from (with_field(at, fields, place, way.format(fields[place])) for way in QUOTINGS)


def text_changes(records):
    """Yields the whole text written otherwise: its name, and the text."""
    text = joined(records)
    quoted = joined(",".join(f'"{value}"' for value in record.split(",")) for record in records)
    yield "no line end at the end", text[:-1]
    yield "carriage returns", text.replace("\n", "\r\n")
    yield "carriage returns, none at the end", text.replace("\n", "\r\n")[:-1]
    yield "carriage returns alone", text.replace("\n", "\r")
    yield "two carriage returns", text.replace("\n", "\r\r\n")
    yield "empty lines", text.replace("\n", "\n\n")
    yield "empty lines with carriage returns", "\r\n" + text.replace("\n", "\r\n\r\n")
    yield "an empty line at the front", "\n" + text
    yield "a byte order mark", "\ufeff" + text
    yield "two byte order marks", "\ufeff\ufeff" + text
    yield "a byte order mark behind an empty line", "\n\ufeff" + text
    yield "a byte order mark alone", "\ufeff"
    yield "all quoted", quoted
    yield "all quoted, carriage returns", quoted.replace("\n", "\r\n")
    yield "all quoted, no line end at the end", quoted[:-1]
    yield "all quoted, no quote at the end", quoted[:-2]
    yield "a byte order mark and quotes", "\ufeff" + quoted
    yield "a zero byte at the end", text + "\0"
    yield "a blank at the end", text + " "
    yield "a blank line at the end", text + " \n"
    yield "a comma at the end", text + ","
    yield "a carriage return at the end", text + "\r"
    yield "a quote at the end", text + '"'
    yield "two quotes at the end", text + '""'
    yield "three quotes at the end", text + '"""'
    yield "blanks at the ends of lines", text.replace("\n", " \n")
    yield "commas at the ends of lines", text.replace("\n", ",\n")
    yield "nothing", ""
    yield "a line end alone", "\n"
    yield "a carriage return alone", "\r"
    yield "twice", text + text


WAYS = [row_changes, strange_records, field_changes, limit_changes, strange_fields, name_changes, sign_changes]


def spread(changes, most):
    """Returns the changes, or where they are more than so many, about as many, spread over them by a fixed rule."""
    changes = list(changes)
    return [change for at, change in enumerate(changes) if at * 2654435761 % 2**32 * len(changes) < most * 2**32]
