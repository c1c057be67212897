#!/usr/bin/env python3
"""Compares `mdvsp check` with tools/second_check.py and the judge of web/judge.html, row by row and status by status.

    tools/test_second_check.py [PROGRAM] [--kinds]

PROGRAM is the built program; without it bin/mdvsp or crates/mdvsp_main/out/mdvsp_main is taken, where both are there
the newer. The three judge

- the examples that the pages print and texts with several faults, of which the row is known from the pages,
- the timetables of examples/ and some small ones, with documents that stand beside them or that `solve` writes,
- each of these changed in small ways: a record left out, doubled, moved, exchanged with the next, another one before
  it or in its place; each number one more, one less, of the other sign, at its limits and one past; each field another
  one; each name another one; and the text as a whole (line ends, quotes, what is behind the end),
- timetables and documents that are drawn from numbers,
- and timetables at their limits and one past.

Timetables and documents of examples/ are also given to the second checker as two files.

They are the same each time; of the many changes of a text some are taken, spread by a fixed rule. Any difference
fails. So does a program that isn't there. The judge of the page also judges texts of peaks, as `mdvsp peakcheck` does:
those that `peak` writes, changed in the same ways. It runs in node; where that isn't installed, the script says so and
compares the other two. With `--kinds` it prints how often each kind of answer came.
"""

import os
import subprocess
import sys
import tempfile
import time
from collections import Counter

# What Python compiles isn't kept beside the sources.
sys.dont_write_bytecode = True

import second_check
import second_changes
import second_orders
import second_texts
import third_judge

PLACES = ["bin/mdvsp", "crates/mdvsp_main/out/mdvsp_main"]
SECOND = os.path.join(second_texts.TOP, "tools", "second_check.py")
# How many changes of each way are made of a small text, about, how many timetables are drawn, and documents for each.
CHANGES, TIMETABLES, DOCUMENTS = 80, 60, 10
PEAK_CHANGES = 40
# Differences beyond so many are counted and not printed.
MOST_TOLD = 20


class Comparison:
    """The checkers, what they answered so far, and where they differed."""

    def __init__(self, program):
        self.program = program
        self.third = third_judge.third_judge()
        self.compared = 0
        self.peaks = 0
        self.differences = 0
        self.kinds = Counter()

    def run(self, name, *words, text=""):
        """Runs the program on a text, and returns what it prints."""
        run = subprocess.run([self.program, *words], input=text.encode(), capture_output=True, check=False)
        if run.returncode not in (0, 10, 11):
            sys.exit(f"second_check: {name}: `{' '.join(words)}` ends with status {run.returncode}")
        return run.stdout.decode()

    def judge(self, command, data):
        """Returns what a checker prints of a text that is given to it, and its status."""
        run = subprocess.run(command, input=data, capture_output=True, check=False)
        return run.stdout.decode("latin-1"), run.returncode

    def compare(self, name, text):
        """Judges a text by the program and here, and returns what is answered here."""
        data = text.encode("utf-8", "surrogateescape")
        row, status = second_check.check(second_check.text_of(data))
        here = ",".join(str(value) for value in row) + "\n", status
        self.note(name, self.judge([self.program, "check"], data), here, self.judge_third("check", data))
        return here[0]

    def compare_run(self, name, text):
        """Judges a text by the program and by the second checker as it is called."""
        data = text.encode()
        second = self.judge([sys.executable, SECOND], data)
        self.note(name, self.judge([self.program, "check"], data), second, self.judge_third("check", data))

    def judge_third(self, command, data):
        """Returns what the judge of the page says of a text, or nothing where it can't run."""
        return self.third.judge(command, data) if self.third else None

    def compare_peaks(self, name, text):
        """Judges a text of peaks by the program and by the judge of the page."""
        data = text.encode("utf-8", "surrogateescape")
        self.peaks += 1
        self.note(name, self.judge([self.program, "peakcheck"], data), None, self.judge_third("peakcheck", data))

    def compare_files(self, name, timetable, plan):
        """Judges a text by the program and, as two files, by the second checker."""
        with tempfile.TemporaryDirectory() as folder:
            paths = [os.path.join(folder, it) for it in ("timetable.csv", "plan.csv")]
            for path, text in zip(paths, (timetable, plan)):
                with open(path, "wb") as file:
                    file.write(text.encode())
            here = self.judge([sys.executable, SECOND, *paths], b"")
        self.note(f"{name}, two files", self.judge([self.program, "check"], f"{timetable}\n{plan}".encode()), here, None)

    def expect(self, name, words, wanted):
        """Calls the second checker with arguments whose answer is known: what it prints, says, and ends with."""
        run = subprocess.run([sys.executable, SECOND, *words], capture_output=True, stdin=subprocess.DEVNULL, check=False)
        found = run.stdout.decode(), run.stderr.decode(), run.returncode
        self.compared += 1
        if found != wanted:
            self.tell(f"{name}: {found!r} is answered, and {wanted!r} is known")

    def compare_known(self, name, text, row):
        """Judges a text of which the row is known."""
        found = self.compare(name, text)
        if found != row + "\n":
            self.tell(f"{name}: {found!r} is answered, and {row!r} is known")

    def note(self, name, first, second, third):
        """Counts an answer, and prints it where one judge differs from the program. None is a judge that can't say."""
        self.compared += 1
        self.kinds[kind_of(first[0])] += 1
        if any(other not in (None, first) for other in (second, third)):
            self.tell(f"{name}\n  mdvsp         {first}\n  second check  {second}\n  judge page    {third}")

    def tell(self, difference):
        self.differences += 1
        if self.differences <= MOST_TOLD:
            print(f"second_check: they differ: {difference}")


def kind_of(row):
    """Returns what kind of answer a row is: yes and the claim, or the number and the name of the flaw or refusal."""
    fields = row.strip().split(",")
    if fields[0] == "yes":
        return ",".join(fields[:2])
    if fields[0] == "no":
        return ",".join(fields[:3] + (fields[4:5] if fields[1] == "3" else []))
    return ",".join(fields[:1] + fields[2:4])


def texts(comparison):
    """Yields the texts that are changed: a name, a timetable with a document, and how many changes of each way."""
    yield "splits", second_texts.SPLITS + second_texts.SPLITS_PLAN, 2 * CHANGES
    yield "just a rest", second_texts.JUST_A_REST + second_texts.JUST_A_REST_PLAN, CHANGES // 2
    for name, text in second_texts.shipped():
        yield name, text, 2 * CHANGES if name == "two_trips_plan.csv" else CHANGES // 3
    no_vehicle = second_texts.TWO_TRIPS.replace("layer,L1,D,2,", "layer,L1,D,0,")
    made = comparison.run("make", "make", "6")
    small = [("no vehicle", no_vehicle, CHANGES // 3), ("six made trips", made, CHANGES // 3)]
    towns = ["split_shift.csv", "first_hour.csv", "morning_peak.csv"]
    large = [(name, second_texts.page(f"examples/{name}"), CHANGES // 6) for name in towns]
    for name, timetable, most in [("rests", second_texts.RESTS, CHANGES), *small, *large]:
        for nodes in ("0", "1"):
            document = comparison.run(name, "solve", "--workers", "1", "--nodes", nodes, text=timetable)
            yield f"{name}, {nodes} nodes", timetable + document, most


def compare_changed(comparison, name, text, most):
    """Judges a text as it is and changed in so many ways of each kind."""
    comparison.compare_run(name, text)
    records = text.splitlines()
    for way in second_changes.WAYS:
        for change in second_changes.spread(way(records), most):
            comparison.compare(f"{name}: {change.name}", change.text(records))
    for change, changed in second_changes.text_changes(records):
        comparison.compare(f"{name}: {change}", changed)


def compare_files(comparison):
    """Judges what examples/ has as two files, and calls the second checker with arguments that are wrong."""
    for name, timetable, plan in second_texts.shipped_files():
        comparison.compare_files(name, timetable, plan)
        comparison.compare_files(f"{name} without its last line end", timetable.rstrip("\n"), plan)
        comparison.compare_files(f"{name} with marks", f"\ufeff{timetable}", f"\r\n{plan}")
    two_trips = os.path.join(second_texts.TOP, "examples", "two_trips.csv")
    told = "its first record isn't `result`, so it is no document of a plan"
    for name, words, wanted in (
        ("a timetable twice", [two_trips, two_trips], ("", f"{two_trips}: {told}\n", 3)),
        ("a file that isn't there", [two_trips, "nowhere"], ("", "nowhere: No such file or directory\n", 4)),
        ("one file", [two_trips], ("words,2\n", "", 2)),
        ("three files", [two_trips] * 3, ("words,3\n", "", 2)),
        ("an option", ["--quickly"], ("words,1\n", "", 2)),
    ):
        comparison.expect(name, words, wanted)


def compare_drawn(comparison):
    """Judges drawn documents, and those that `solve` writes for drawn timetables."""
    for number in range(TIMETABLES):
        draws = second_texts.Draws(number)
        timetable = second_texts.drawn_timetable(draws)
        words = ["solve", "--workers", "1", "--nodes", str(number % 4)]
        document = comparison.run(f"drawn {number}", *words, text=timetable)
        comparison.compare(f"drawn {number}, solved:\n{timetable}{document}", timetable + document)
        records = document.splitlines()
        for change in second_changes.spread(second_changes.field_changes(records), DOCUMENTS // 2):
            text = timetable + change.text(records)
            comparison.compare(f"drawn {number}, solved, {change.name}:\n{text}", text)
        instance = second_texts.instance_of(timetable)
        for _ in range(DOCUMENTS):
            document = second_texts.drawn_document(draws, instance)
            comparison.compare(f"drawn {number}:\n{timetable}{document}", timetable + document)


def compare_peaks(comparison):
    """Judges the texts of peaks that the page shows and that `peak` writes, these changed in small ways too."""
    for name, text, row in second_texts.KNOWN_PEAKS:
        comparison.compare_peaks(name, text)
        found = comparison.third.judge("peakcheck", text.encode())[0]
        if found != row + "\n":
            comparison.tell(f"{name}: {found!r} is answered, and {row!r} is known")
    timetables = [("splits", second_texts.SPLITS), ("rests", second_texts.RESTS), ("no layer", "instance,1\n")]
    timetables += [("two trips", second_texts.TWO_TRIPS), ("split shift", second_texts.page("examples/split_shift.csv"))]
    for name, timetable in timetables:
        text = timetable + comparison.run(name, "peak", text=timetable)
        comparison.compare_peaks(name, text)
        compare_changed_peaks(comparison, name, text.splitlines())
    for number in range(TIMETABLES):
        timetable = second_texts.drawn_timetable(second_texts.Draws(number))
        records = comparison.run(f"drawn {number}", "peak", text=timetable).splitlines()
        for change in second_changes.spread(second_changes.field_changes(records), DOCUMENTS):
            comparison.compare_peaks(f"peaks of drawn {number}: {change.name}", timetable + change.text(records))


def compare_changed_peaks(comparison, name, records):
    """Judges a text of peaks changed in each way."""
    for way in [*second_changes.WAYS, second_changes.strange_peaks]:
        for change in second_changes.spread(way(records), PEAK_CHANGES):
            comparison.compare_peaks(f"peaks of {name}: {change.name}", change.text(records))
    for change, changed in second_changes.text_changes(records):
        comparison.compare_peaks(f"peaks of {name}: {change}", changed)


def find_program(words):
    """Returns the path of the built program, or ends."""
    places = words or [os.path.join(second_texts.TOP, place) for place in PLACES]
    built = [place for place in places if os.path.isfile(place) and os.access(place, os.X_OK)]
    if not built:
        sys.exit(f"second_check: the program isn't built: there is no {' and no '.join(words or PLACES)}")
    return max(built, key=os.path.getmtime)


def compare_all(comparison):
    """Judges all texts that the first lines of this file name."""
    for name, text, row in [*second_texts.KNOWN, *second_orders.orders(), *second_texts.printed()]:
        comparison.compare_known(name, text, row)
    for name, text in second_texts.limits():
        comparison.compare(name, text)
    for name, text, most in texts(comparison):
        compare_changed(comparison, name, text, most)
    compare_drawn(comparison)
    if comparison.third:
        compare_peaks(comparison)
    compare_files(comparison)


def main():
    begin = time.monotonic()
    comparison = Comparison(find_program([word for word in sys.argv[1:] if word != "--kinds"]))
    compare_all(comparison)
    if "--kinds" in sys.argv:
        print(*(f"{count:6} {kind}" for kind, count in sorted(comparison.kinds.items())), sep="\n")
    documents, seconds = comparison.compared - comparison.peaks, time.monotonic() - begin
    judges = "three judges" if comparison.third else "two judges (node isn't here, so the page's judge is skipped)"
    print(f"second_check: {documents} texts judged by {judges}, {comparison.peaks} texts of peaks by two, "
          f"{comparison.differences} differences, {seconds:.0f} seconds")
    return 1 if comparison.differences else 0


if __name__ == "__main__":
    sys.exit(main())
