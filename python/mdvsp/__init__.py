"""From a GTFS feed or sheets to a vehicle plan of `mdvsp`, its picture and each vehicle's sheet.

    from mdvsp import run, sheets
    made = sheets.read("examples/town")
    plan = run.solve(made.timetable, nodes=20, workers=1)

Nothing of this package is proved. It is tested, and whatever it makes is judged by `mdvsp check`.
"""

__version__ = "1.0.0"
