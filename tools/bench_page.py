#!/usr/bin/env python3
"""Keeps docs/benchmarks.md and its plots as the file of runs says that the page names.

    tools/bench_page.py                 fails where the page or a plot isn't what the file says
    tools/bench_page.py --write [FILE]  writes tables and plots, from FILE where it is given, which the page then names

The file is one that bench/run.py writes. The page names it in a line `<!-- bench: file NAME -->`; while the name is
`none`, nothing is compared. What is written stands between the lines `<!-- bench: NAME -->` and `<!-- bench: end -->`,
where NAME is a key of SECTIONS. Times are medians, with the least and the greatest behind them. The table `leaves` is
of bench/results/leaves_by_class.csv, which bench/classes.sh writes, and the table `large` of
bench/results/large_timetables.csv, which bench/large_timetables.sh writes. The plots are docs/pictures/bench_gap.svg
(gap over time, beside CBC), bench_trips.svg (time over trips) and bench_workers.svg (speed-up over workers).
"""

from __future__ import annotations

import csv
import math
import re
import statistics
import sys
from dataclasses import dataclass, field
from pathlib import Path

TOP = Path(__file__).resolve().parent.parent
PAGE = TOP / "docs" / "benchmarks.md"
PICTURES = TOP / "docs" / "pictures"
CLASSES = TOP / "bench" / "results" / "leaves_by_class.csv"
LARGE = TOP / "bench" / "results" / "large_timetables.csv"
NAMED = re.compile(r"<!-- bench: file (\S+) -->")
PART = re.compile(r"(<!-- bench: (?!file|end)(\w+) -->\n)(.*?)(<!-- bench: end -->)", re.S)

Row = dict[str, str]
Point = tuple[float, float]
# A line of a plot: its name, its colour and its points.
Line = tuple[str, str, list[Point]]

BLUE, BROWN, GREEN, RED, VIOLET = "#1f5fa8", "#b35900", "#2e7d32", "#a4262c", "#6b3fa0"


@dataclass
class Results:
    """The facts and the runs of a file."""

    about: dict[str, str] = field(default_factory=dict)
    runs: list[Row] = field(default_factory=list)

    def of(self, suite: str) -> dict[tuple[str, str, str], list[Row]]:
        """Returns the runs of a suite by instance, what was run, and workers, in the order of the file."""
        found: dict[tuple[str, str, str], list[Row]] = {}
        for run in self.runs:
            if run["suite"] == suite:
                found.setdefault((run["instance"], run["what"], run["workers"]), []).append(run)
        return found


def read(path: Path) -> Results:
    """Reads a file of runs."""
    found, names = Results(), []
    with open(path, encoding="utf-8", newline="") as file:
        for row in csv.reader(file):
            if row[0] == "about":
                found.about[row[1]] = row[2]
            elif row[1] == "suite":
                names = row[1:]
            else:
                found.runs.append(dict(zip(names, row[1:])))
    return found


def gap(run: Row) -> float | None:
    """Returns the gap of a run's plan in per cent of its cost, or None without a plan or a bound."""
    if run["cost"] in ("", "none", "0") or run["bound"] in ("", "none"):
        return None
    return 100 * (int(run["cost"]) - int(run["bound"])) / int(run["cost"])


def median(runs: list[Row], what: str) -> float:
    return statistics.median(float(run[what]) for run in runs)


def spread(runs: list[Row], what: str) -> str:
    """Returns the median of some runs, with the least and the greatest where they differ."""
    values = sorted(float(run[what]) for run in runs)
    low, mid, high = (short(value) for value in (values[0], statistics.median(values), values[-1]))
    return mid if low == high else f"{mid} ({low}–{high})"


def short(value: float) -> str:
    """Returns a number with about two digits that count."""
    return f"{value:.0f}" if value >= 10 else f"{value:.1f}" if value >= 1 else f"{value:.2f}"


def thousands(number: str) -> str:
    return f"{int(number):,}" if number.lstrip("-").isdigit() else number


# The columns of a table of searches.
SEARCH_HEADS = [
    *("Timetable", "Greedy plan", "One node: plan", "gap, %", "CPU s"),
    *("Default: plan", "gap, %", "nodes", "CPU s", "CBC: plan", "bound", "CPU s"),
]


def table(heads: list[str], rows: list[list[str]]) -> str:
    """Returns a table of a page."""
    lines = [f"| {' | '.join(cells)} |\n" for cells in [heads, *rows]]
    return "".join([lines[0], "|---" * len(heads) + "|\n", *lines[1:]])


def facts(found: Results) -> str:
    """Returns what the runs were made with."""
    return table(["What", "Of these runs"], [[name, text] for name, text in found.about.items()])


def searches(found: Results, suite: str) -> str:
    """Returns a row for each timetable of a suite: the greedy rule, one node, the default budget, and CBC."""
    groups = found.of(suite)
    rows = []
    for instance in dict.fromkeys(name for name, _, _ in groups):
        of = {what: runs for (name, what, count), runs in groups.items() if name == instance and count == "1"}
        greedy = thousands(runs[-1]["cost"]) if (runs := of.get("solve --nodes 0")) else ""
        plan, apart, _, seconds = solved(of.get("solve --nodes 1"))
        rows.append([instance, greedy, plan, apart, seconds, *solved(of.get("solve")), *by_cbc(of.get("cbc"))])
    return table(SEARCH_HEADS, rows)


def solved(runs: list[Row] | None) -> list[str]:
    """Returns plan, gap in per cent, nodes and seconds of some runs of a search."""
    if not runs:
        return [""] * 4
    run, apart = runs[-1], gap(runs[-1])
    shown = "" if apart is None else "0" if apart == 0 else f"{apart:.4f}"
    return [thousands(run["cost"]), shown, run["nodes"], spread(runs, "cpu")]


def roots(found: Results) -> str:
    """Returns a row for each timetable whose root alone was worked on."""
    rows = [
        [instance, solved(runs)[1], spread(runs, "cpu"), short(median(runs, "megabytes"))]
        for (instance, _, _), runs in found.of("root").items()
    ]
    return table(["Timetable", "Gap, %", "CPU s", "MB"], rows)


def by_cbc(runs: list[Row] | None) -> list[str]:
    """Returns plan, bound and seconds of CBC."""
    if not runs:
        return [""] * 3
    run = runs[-1]
    if run["claim"] == "optimal":
        return [thousands(run["cost"]), thousands(run["cost"]), spread(runs, "cpu")]
    return [thousands(run["cost"]), thousands(run["bound"]), spread(runs, "cpu") + ", not ended"]


def root_workers(found: Results) -> str:
    """Returns for each root the wall and CPU time by one to four workers, as shares of what one takes."""
    rows = []
    for name, alone, groups in roots_by_workers(found):
        for count, runs in groups:
            wall, cpu = (median(runs, what) / max(median(alone, what), 1e-3) for what in ("wall", "cpu"))
            rows.append([name, str(count), spread(runs, "wall"), f"{wall:.2f}", f"{cpu:.2f}"])
    return table(["Timetable", "Workers", "Wall seconds", "of one worker's", "CPU time, of one worker's"], rows)


def roots_by_workers(found: Results) -> list[tuple[str, list[Row], list[tuple[int, list[Row]]]]]:
    """Returns for each timetable the runs of its root by one worker, and those by each number of workers."""
    by_name: dict[str, dict[int, list[Row]]] = {}
    for (name, _, count), runs in found.of("root workers").items():
        by_name.setdefault(name, {})[int(count)] = runs
    return [(name, groups[1], sorted(groups.items())) for name, groups in by_name.items()]


def workers(found: Results) -> str:
    """Returns the wall times by more and more workers, and the speed-up."""
    rows = [[str(count), spread(runs, "wall"), f"{times:.1f}"] for count, times, runs in speed_ups(found)]
    return table(["Workers", "Wall seconds", "Speed-up"], rows)


def speed_ups(found: Results) -> list[tuple[int, float, list[Row]]]:
    """Returns for each number of workers how many times as fast as by one the search was."""
    groups = found.of("workers").items()
    by_count = {int(count): runs for (_, what, count), runs in groups if what != "solve --nodes 1"}
    alone = median(by_count[1], "wall")
    return [(count, alone / max(median(runs, "wall"), 1e-3), runs) for count, runs in sorted(by_count.items())]


def commands(found: Results, suite: str) -> str:
    """Returns time, memory and output of each command of a suite."""
    rows = []
    for (instance, what, _), runs in found.of(suite).items():
        size = f"{int(runs[-1]['out_bytes']):,}"
        rows.append([instance, f"`{what}`", spread(runs, "cpu"), short(median(runs, "megabytes")), size])
    return table(["Timetable", "Command", "CPU s", "MB", "Bytes written"], rows)


def carried(found: Results) -> str:
    """Returns gap and time of searches that were carried on, traced, replayed or made with rests."""
    rows = [
        [instance, f"`{what}`", solved(runs)[1], spread(runs, "cpu"), short(median(runs, "megabytes"))]
        for (instance, what, _), runs in found.of("carried").items()
    ]
    return table(["Timetable", "Command", "Gap, %", "CPU s", "MB"], rows)


def memory(found: Results) -> str:
    """Returns how much memory searches of one node held at once, by one worker and by four."""
    groups, rows = found.of("solve"), []
    for (instance, what, count), runs in groups.items():
        if what == "solve --nodes 1" and count == "1":
            four = groups.get((instance, what, "4"))
            most = short(median(four, "megabytes")) if four else ""
            rows.append([instance, short(median(runs, "megabytes")), most, f"{int(runs[-1]['out_bytes']):,}"])
    return table(["Timetable", "MB, one worker", "MB, four workers", "Bytes of the document"], rows)


# The columns of the table of leaves, and what the classes of bench/classes.sh are called there.
LEAVES_HEADS = [
    *("Timetable", "No kept cuts: gap, %", "leaves", "CPU s", "but the root's"),
    *("This search: gap, %", "leaves", "CPU s", "but the root's", "ms a leaf", "CBC: gap, %", "CPU s"),
]
CLASS_NAMES = {"d4": "200 trips, 4 depots", "d8": "200 trips, 8 depots", "t4": "300 trips, 4 depots", "c4": "city 400"}


def leaves(_: Results) -> str:
    """Returns a row for each timetable that bench/classes.sh gave to two programs and to CBC, and one for each class."""
    by_class: dict[str, dict[str, dict[str, Row]]] = {}
    with open(CLASSES, encoding="utf-8", newline="") as file:
        for row in csv.DictReader(file):
            by_class.setdefault(row["class"], {}).setdefault(row["timetable"], {})[row["by"]] = row
    rows = []
    for name, timetables in by_class.items():
        title = CLASS_NAMES.get(name, "")
        for timetable, by in timetables.items():
            cells = [*searched(by, "1"), *searched(by, "2"), for_a_leaf(by, "2"), *apart_and_seconds(by["cbc"])]
            rows.append([named(title, timetable), *cells])
        if len(timetables) > 1:
            rows.append([f"**{title}, together**", *together(list(timetables.values()))])
    return table(LEAVES_HEADS, rows)


def named(title: str, timetable: str) -> str:
    """Returns what a timetable is called on the page."""
    return f"{title}, draw {timetable.rsplit('_', 1)[1]}" if title else timetable.replace("_", " ")


def searched(by: dict[str, Row], program: str) -> list[str]:
    """Returns gap, leaves, and seconds of a search, and those of its further nodes."""
    run = by[f"program {program}"]
    apart, seconds = apart_and_seconds(run)
    return [apart, run["leaves"], seconds, short(further(by, program))]


def further(by: dict[str, Row], program: str) -> float:
    """Returns the seconds of a search that aren't the root's."""
    run, root = by[f"program {program}"], by[f"program {program} --nodes 1"]
    return max(float(run["cpu seconds"]) - float(root["cpu seconds"]), 0.0)


def for_a_leaf(by: dict[str, Row], program: str) -> str:
    """Returns how many milliseconds a leaf took, where the root was split."""
    count = int(by[f"program {program}"]["leaves"])
    return short(1000 * further(by, program) / count) if count > 1 else ""


def apart_and_seconds(run: Row) -> list[str]:
    """Returns the gap of a run in per cent, and its seconds."""
    apart = gap(run)
    shown = "" if apart is None else "0" if apart == 0 else f"{apart:.4f}"
    return [shown, short(float(run["cpu seconds"]))]


def together(timetables: list[dict[str, Row]]) -> list[str]:
    """Returns how many of some timetables are closed, and the seconds of all, by each program and by CBC."""
    cells = []
    for by, spare in (("program 1", 1), ("program 2", 2), ("cbc", 0)):
        closed = sum(runs[by]["claim"] == "optimal" for runs in timetables)
        seconds = short(sum(float(runs[by]["cpu seconds"]) for runs in timetables))
        cells += [f"{closed} closed", *([""] if spare else []), seconds, *([""] * spare)]
    return cells


def large(_: Results) -> str:
    """Returns a row for each timetable that bench/large_timetables.sh had planned by four workers."""
    rows = []
    with open(LARGE, encoding="utf-8", newline="") as file:
        for run in csv.DictReader(file):
            apart = gap(run)
            shown = "" if apart is None else f"{apart:.4f}"
            seconds = [short(int(run[what]) / 1000) for what in ("wall", "cpu")]
            judged = short(int(run["check"]) / 1000)
            rows.append([run["timetable"], thousands(run["trips"]), run["layers"], thousands(run["cost"]), shown])
            rows[-1] += [*seconds, run["megabytes"], judged]
    heads = ["Timetable", "Trips", "Layers", "Plan", "Gap, %", "Seconds", "CPU s", "MB", "`check`, s"]
    return table(heads, rows)


def plots(_: Results) -> str:
    """Returns the links to the plots."""
    return "".join(f"![{plot[0]}](pictures/{name})\n\n" for name, plot in PLOTS.items())


SECTIONS = {
    "about": facts,
    "solve": lambda found: searches(found, "solve"),
    "classes": lambda found: searches(found, "classes"),
    "roots": roots,
    "root_workers": root_workers,
    "workers": workers,
    "commands": lambda found: commands(found, "commands"),
    "carried": carried,
    "infeasible": lambda found: commands(found, "infeasible"),
    "memory": memory,
    "leaves": leaves,
    "large": large,
    "plots": plots,
}


def gap_lines(found: Results) -> list[Line]:
    """Returns the gap over time, of this program and of CBC."""
    mine, other = [], []
    for (_, what, _), runs in found.of("progress").items():
        if what != "cbc" and (apart := gap(runs[-1])) is not None:
            mine.append((median(runs, "cpu"), apart))
    for runs in found.of("progress log").values():
        other += [(float(run["cpu"]), apart) for run in runs if (apart := gap(run)) is not None]
    return [("mdvsp", BLUE, sorted(mine)), ("CBC", BROWN, sorted(other))]


def trip_lines(found: Results) -> list[Line]:
    """Returns the time of one node over the number of trips of `make N`, and of CBC."""
    lines = []
    for name, colour, wanted in (("mdvsp, one node", BLUE, "solve --nodes 1"), ("CBC", BROWN, "cbc")):
        groups = [
            runs
            for (name_of, what, count), runs in found.of("solve").items()
            if what == wanted and count == "1" and name_of.startswith("make ")
        ]
        lines.append((name, colour, [(float(runs[0]["trips"]), median(runs, "cpu")) for runs in groups]))
    return lines


def worker_lines(found: Results) -> list[Line]:
    """Returns the speed-up over the number of workers, and the best that there could be."""
    points = [(float(count), times) for count, times, _ in speed_ups(found)]
    lines = [("make 1000 with 200 nodes", BLUE, points)]
    for (name, alone, groups), colour in zip(roots_by_workers(found), (BROWN, RED, VIOLET)):
        root = [(float(count), median(alone, "wall") / median(runs, "wall")) for count, runs in groups]
        lines.append((f"root of {name}", colour, root))
    return [*lines, ("as many times as workers", GREEN, [(count, count) for count, _ in points])]


# Each plot: its title, its axes, and its lines.
PLOTS = {
    "bench_gap.svg": ("Gap over time", "CPU seconds", "gap in per cent", gap_lines),
    "bench_trips.svg": ("Time over trips", "trips", "CPU seconds", trip_lines),
    "bench_workers.svg": ("Speed-up over workers", "workers", "times as fast", worker_lines),
}

# The plot's size, and the room for its axes at the left, right, top and bottom.
WIDTH, HEIGHT = 640, 360
LEFT, RIGHT, ABOVE, BELOW = 70, 20, 40, 50


def scale(values: list[float], low: float, high: float) -> tuple[list[float], list[float]]:
    """Returns the marks of a logarithmic axis over some values, and the places of marks and values on it."""
    # a gap of 0 has no logarithm: it stands at the lowest mark
    positive = [value for value in values if value > 0] or [1.0]
    first, last = math.floor(math.log10(min(positive))), math.ceil(math.log10(max(positive)))
    last = max(last, first + 1)
    marks = [10.0**power for power in range(first, last + 1)]
    share = lambda value: (math.log10(max(value, marks[0])) - first) / (last - first)
    return marks, [low + (high - low) * share(value) for value in [*marks, *values]]


def number(value: float) -> str:
    return f"{value:.10g}"


def text(x: float, y: float, words: str, anchor: str = "middle", colour: str = "#1a1a1a") -> str:
    return f'<text x="{x:.1f}" y="{y:.1f}" font-size="12" text-anchor="{anchor}" fill="{colour}">{words}</text>\n'


def axes(marks_x: list[float], at_x: list[float], marks_y: list[float], at_y: list[float]) -> str:
    """Returns the grid and the numbers at both axes."""
    bottom, right = HEIGHT - BELOW, WIDTH - RIGHT
    drawn = []
    for mark, x in zip(marks_x, at_x):
        drawn.append(f'<path d="M{x:.1f},{ABOVE} V{bottom}" stroke="#dddddd"/>\n' + text(x, bottom + 18, number(mark)))
    for mark, y in zip(marks_y, at_y):
        grid = f'<path d="M{LEFT},{y:.1f} H{right}" stroke="#dddddd"/>\n'
        drawn.append(grid + text(LEFT - 8, y + 4, number(mark), "end"))
    return "".join(drawn)


def curve(line: Line, xs: list[float], ys: list[float], place: int) -> str:
    """Returns a line of a plot, with its name at the top."""
    name, colour, _ = line
    path = " ".join(f"{x:.1f},{y:.1f}" for x, y in zip(xs, ys))
    dots = "".join(f'<circle cx="{x:.1f}" cy="{y:.1f}" r="3" fill="{colour}"/>\n' for x, y in zip(xs, ys))
    drawn = f'<polyline points="{path}" fill="none" stroke="{colour}" stroke-width="1.6"/>\n'
    return drawn + dots + text(LEFT + 8, ABOVE + 16 + 16 * place, name, "start", colour)


def drawing(title: str, name_x: str, name_y: str, lines: list[Line]) -> str:
    """Returns a plot with logarithmic axes as SVG."""
    lines = [line for line in lines if line[2]]
    points = [point for line in lines for point in line[2]]
    marks_x, at_x = scale([x for x, _ in points], LEFT, WIDTH - RIGHT)
    marks_y, at_y = scale([y for _, y in points], HEIGHT - BELOW, ABOVE)
    size = f'viewBox="0 0 {WIDTH} {HEIGHT}" width="{WIDTH}" height="{HEIGHT}"'
    drawn = f'<svg xmlns="http://www.w3.org/2000/svg" {size} font-family="sans-serif" role="img"'
    drawn += f' aria-label="{title}">\n'
    drawn += f'<title>{title}</title>\n<rect width="{WIDTH}" height="{HEIGHT}" fill="#ffffff"/>\n'
    drawn += axes(marks_x, at_x, marks_y, at_y)
    xs, ys = at_x[len(marks_x) :], at_y[len(marks_y) :]
    for place, line in enumerate(lines):
        count = len(line[2])
        drawn += curve(line, xs[:count], ys[:count], place)
        xs, ys = xs[count:], ys[count:]
    drawn += text(WIDTH / 2, 22, title) + text(WIDTH / 2, HEIGHT - 10, name_x)
    return drawn + text(LEFT - 8, ABOVE - 12, name_y, "start") + "</svg>\n"


def written(found: Results) -> dict[Path, str]:
    """Returns the text of the page and of each plot, as the runs say."""
    page = PAGE.read_text(encoding="utf-8")
    files = {PAGE: PART.sub(lambda part: part[1] + SECTIONS[part[2]](found) + part[4], page)}
    for name, (title, name_x, name_y, lines_of) in PLOTS.items():
        files[PICTURES / name] = drawing(title, name_x, name_y, lines_of(found))
    return files


def main(words: list[str]) -> int:
    if words[:1] not in ([], ["--write"]) or len(words) > 2:
        print(__doc__)
        return 2
    page = PAGE.read_text(encoding="utf-8")
    if len(words) == 2:
        named = Path(words[1]).resolve().relative_to(TOP).as_posix()
        PAGE.write_text(NAMED.sub(f"<!-- bench: file {named} -->", page), encoding="utf-8")
        page = PAGE.read_text(encoding="utf-8")
    name = NAMED.search(page)
    if not name or name[1] == "none":
        print("bench_page: docs/benchmarks.md names no file of runs")
        return 0
    files = written(read(TOP / name[1]))
    wrong = [path for path, made in files.items() if not path.exists() or path.read_text(encoding="utf-8") != made]
    for path in wrong:
        if words:
            path.write_text(files[path], encoding="utf-8")
        else:
            print(f"bench_page: {path.relative_to(TOP)} isn't what {name[1]} says: tools/bench_page.py --write")
    if words or not wrong:
        print(f"bench_page: docs/benchmarks.md and its plots are those of {name[1]}")
    return 1 if wrong and not words else 0


if __name__ == "__main__":
    sys.exit(main(sys.argv[1:]))
