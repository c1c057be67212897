"""Texts with several faults, for tools/test_second_check.py, and the row that the pages say is printed.

Each is a text in which parts are exchanged for others. The rows are what docs/formats/solution.md
(*check*) and docs/formats/errors.md say, found by reading and not by a program.
"""

from second_texts import JUST_A_REST, JUST_A_REST_PLAN, SPLITS, SPLITS_PLAN, TWO_TRIPS, TWO_TRIPS_PLAN

# Records 1 to 13 are the timetable: the header, 3 stops, 6 deadheads, a layer and 2 trips. Then comes the document.
OF_TWO_TRIPS = [
    # Numbers 1 to 9 are printed before 10, and these by kind and not by record; the document is judged last.
    ("refused,13,6,UnknownName", "layer,L1,D,2,", "layer,L1,D,2001,", "trip,t2,Q,", "trip,t2,R,"),
    ("refused,11,10,Range,fleet", "layer,L1,D,2,", "layer,L1,D,2001,", "deadhead,P,Q,15,0", "deadhead,P,Q,0,0"),
    ("refused,11,10,Range,fleet", "layer,L1,D,2,", "layer,L1,D,2001,", "result,1,optimal", "result,2,optimal"),
    ("refused,11,10,Range,fleet", "layer,L1,D,2,", "layer,L1,D,2001,", TWO_TRIPS_PLAN, ""),
    ("refused,11,10,Range,fixed", "L1,D,2,1000,1,0", "L1,D,2,1000000001,1000001,10001"),
    ("refused,11,10,Range,per_minute", "L1,D,2,1000,1,0", "L1,D,2,1000,1000001,10001"),
    ("refused,11,10,Range,per_metre", "L1,D,2,1000,1,0", "L1,D,2,1000,1000000,10001"),
    (
        "refused,13,10,Range,minutes", "deadhead,Q,P,15,0\n", "", "8:30,0,L1", "8:00,0,L1",
        "result", "deadhead,Q,P,0,0\nresult",
    ),
    ("refused,11,10,EndNotAfterStart", "deadhead,Q,P,15,0\n", "", "8:30,0,L1", "8:00,0,L1"),
    ("refused,0,10,NotClosed,3,1,2", "deadhead,Q,P,15,0\n", ""),
    # Several errors in one record.
    ("refused,10,10,SelfDeadhead", "deadhead,Q,P,15,0", "deadhead,Q,Q,0,1000001"),
    ("refused,10,10,Range,minutes", "deadhead,Q,P,15,0", "deadhead,P,Q,0,1000001"),
    ("refused,10,10,Range,metres", "deadhead,Q,P,15,0", "deadhead,P,Q,1,1000001"),
    ("refused,10,10,DeadheadTwice", "deadhead,Q,P,15,0", "deadhead,P,Q,1,0"),
    ("refused,12,10,Range,metres", "8:30,0,L1", "8:00,1000001,L1"),
    ("refused,0,10,LongerMinutes,2,1,3", "deadhead,P,Q,15,0", "deadhead,P,Q,21,1"),
    ("refused,0,10,LongerMetres,2,1,3", "deadhead,P,Q,15,0", "deadhead,P,Q,20,1"),
    # Several faults of one record, from the left, behind its number of fields.
    ("refused,11,3,FieldCount", "layer,L1,D,2,1000,1,0", "layer,a b,X,two,1000,1,0,60"),
    ("refused,11,4,BadName", "layer,L1,D,2,1000,1,0", "layer,a b,X,two,1000,1,0"),
    ("refused,12,5,NameTwice", "trip,t1,", "layer,L1,X,two,1,1,1\ntrip,t1,"),
    ("refused,11,6,UnknownName", "layer,L1,D,2,1000,1,0", "layer,L1,X,two,1000,1,0"),
    ("refused,13,5,NameTwice", "trip,t2,Q,8:30,P,9:00,0,L1", "trip,t1,X,8,X,9,x,X,X"),
    ("refused,13,8,BadTime", "trip,t2,Q,8:30,P,9:00,0,L1", "trip,t2,Q,8,X,9,x,X,X"),
    ("refused,13,7,BadNumber", "trip,t2,Q,8:30,P,9:00,0,L1", "trip,t2,Q,8:30,P,9:00,x,X,X"),
    ("refused,13,5,NameTwice", "trip,t2,Q,8:30,P,9:00,0,L1", "trip,t2,Q,8:30,P,8:30,1000001,L1,L1,X"),
    # The form of a row, then whether it comes there, then its table, then its prices.
    ("refused,16,21,BadRow", "bound,1080", "bound,none"),
    ("refused,17,22,OutOfOrder", "nodes,1", "bound,none"),
    ("refused,18,22,OutOfOrder", "block,L1,t1,t2", "bound,none"),
    ("refused,15,22,OutOfOrder", "cost,1080", "bound,none"),
    ("refused,18,22,OutOfOrder", "cost,1080", "cost,none", "bound,1080", "bound,none"),
    ("refused,19,23,TableNumber", "table,1,cost", "table,0,cost"),
    ("refused,19,21,BadRow", "table,1,cost", "table,-1,cost"),
    ("refused,17,22,OutOfOrder", "nodes,1", "table,0,cost"),
    ("refused,20,22,OutOfOrder", "fleet,L1,0", "table,3,cost"),
    ("refused,23,23,TableNumber", "leaf,1", "leaf,0"),
    ("refused,23,21,BadRow", "leaf,1", "leaf,-1"),
    ("refused,19,23,TableNumber", "table,1,cost", "leaf,1"),
    ("refused,20,23,TableNumber", "table,1,cost", "split,t1,L1\nleaf,1"),
    ("refused,24,22,OutOfOrder", "leaf,1", "split,t1,L1\ntable,2,cost"),
    ("refused,20,26,PriceRange", "fleet,L1,0", "fleet,L1,-1000000000000000001"),
    ("refused,20,21,BadRow", "fleet,L1,0", "fleet,L1,-10000000000000000000"),
    ("refused,20,22,OutOfOrder", "fleet,L1,0", "price,L1,t2,0,1000000000000000001"),
    ("refused,20,21,BadRow", "fleet,L1,0", "price,L1,t2,0,10000000000000000000"),
    ("refused,18,22,OutOfOrder", "block,L1,t1,t2", "result,1,open"),
    ("refused,18,21,BadRow", "block,L1,t1,t2", "stop,R"),
    ("refused,24,22,OutOfOrder", "leaf,1", "leaf,1\nleaf,1"),
    ("refused,24,24,EndsEarly", "end\n", ""),
    ("refused,25,25,RowsAfterEnd", "end\n", "end\nwhatever\n"),
    # Flaws of a table, in order; those of tables that no leaf names too.
    ("no,3,TableBroken,1,fleet,L1", "fleet,L1,0", "fleet,L1,-1", "1010000,0", "1010000,-10001"),
    ("no,3,TableBroken,1,out,L1,t1", "1010000,0", "1010001,-10001"),
    ("no,3,TableBroken,1,link,L1,t1,t2", "1010000,0", "1010000,-10001"),
    ("no,3,TableBroken,1,in,L1,t2", "0,-10000", "0,-10001"),
    ("no,3,TableBroken,1,out,L1,t2", "t2,0,-10000", "t2,1010001,-10001", "1010000,0", "1010000,1010001"),
    ("no,3,TableBroken,2,fleet,L1", "leaf,1", "table,2,ray\nfleet,L1,-1\nprice,L1,t1,0,0\nprice,L1,t2,0,0\nleaf,1"),
]

# The layers L1 and L3 have their depot at D, L2 at P; L3 has no vehicle, and t3 may not be run in L2.
OF_SPLITS = [
    ("no,1,NotPermitted,1,2", "block,L1,t1,t2", "block,L2,t2,t3"),
    ("no,1,NoConnection,1,2", "block,L1,t1,t2", "block,L2,t2,t1,t3"),
    ("no,1,NoConnection,3,2", "block,L1,t3", "block,L1,t1\nblock,L1,t2,t1"),
    ("no,1,Twice,t3", "block,L1,t1,t2", "block,L1,t3"),
    ("no,1,Uncovered,t1", "block,L1,t1,t2\nblock,L1,t3", "block,L3,t3"),
    ("no,1,Fleet,L3,1", "block,L1,t3", "block,L3,t3", "cost,330", "cost,1"),
    ("no,2,CostDiffers,331,330", "cost,330", "cost,331", "fleet,L3,900", "fleet,L3,-1"),
    ("no,3,TableBroken,2,fleet,L3", "fleet,L3,900", "fleet,L3,-1", "bound,70", "bound,71"),
    ("no,5,LeafTooWeak,3,70,71", "bound,70", "bound,71", "split,t1,L3", "split,t1,L1"),
    ("no,4,BadSplit,5", "split,t1,L3", "split,t1,L1"),
    ("no,4,BadSplit,5", "split,t1,L3", "split,t1,L3,L1", "result,1,open", "result,1,optimal"),
    ("no,4,BadSplit,1", "split,t1,L1", "split,t1,L3,L1,L2", "bound,70", "bound,71"),
    ("no,4,BadSplit,7", "split,t3,L1", "split,t3,L2"),
    ("no,5,LeafTooWeak,3,70,71", "bound,70", "bound,71", "result,1,open", "result,1,optimal"),
    ("no,6,ClaimDiffers,optimal,open", "result,1,open", "result,1,optimal"),
]

OF_A_REST = [
    ("refused,6,10,Range,per_metre", "L,D,1,0,1,0,60", "L,D,1,0,1,10001,601"),
    ("refused,6,10,Range,stay", "L,D,1,0,1,0,60", "L,D,1,0,1,0,601"),
    ("refused,6,10,Range,stay", "L,D,1,0,1,0,60", "L,D,1,0,1,0,0"),
    ("no,2,CostDiffers,80,140", "L,D,1,0,1,0,60", "L,D,1,0,1,0,61"),
    ("no,3,TableBroken,1,link,L,a,b", "a,10000,-10000", "a,10000,-10001"),
]

# A-B is longer than by C, and A-D isn't given though B-D is: A, B, D comes first.
BY_A_THEN_B = """instance,1
stop,A
stop,B
stop,C
stop,D
deadhead,A,B,9,0
deadhead,A,C,1,0
deadhead,C,B,1,0
deadhead,B,D,1,0
result,1,open
"""

TEXTS = [
    (TWO_TRIPS + TWO_TRIPS_PLAN, OF_TWO_TRIPS),
    (SPLITS + SPLITS_PLAN, OF_SPLITS),
    (JUST_A_REST + JUST_A_REST_PLAN, OF_A_REST),
    (BY_A_THEN_B, [("refused,0,10,NotClosed,1,2,4",), ("refused,0,10,LongerMinutes,1,3,2", "deadhead,B,D,1,0\n", "")]),
]


def orders():
    """Yields texts with several faults: what was exchanged, the text, and its row."""
    for text, changes in TEXTS:
        for row, *parts in changes:
            yield f"{parts}", exchanged(text, parts), row


def exchanged(text, parts):
    """Returns a text with the first of each two parts, where it first stands, exchanged for the second."""
    for old, new in zip(parts[::2], parts[1::2]):
        if old not in text:
            raise ValueError(f"{old!r} isn't in the text")
        text = text.replace(old, new, 1)
    return text
