#!/usr/bin/env python3
"""Has each call for memory fail in turn, and sees that the program ends as it promises: with status 6 and nothing
written, or with the answer that it gives with ample memory. Of a crew of two workers it sees what search they hand
back then.

    tests/each_allocation.py [PROGRAM [MEETING]]

PROGRAM is bin/mdvsp, or what the gate built, where it isn't given. MEETING is the program of crates/test_meeting,
which has a crew share a search whose root is split, and prints what the crew made of it; where it isn't given, the one
that was built, if any. A small C library (tests/refuse_nth.c, built by gcc or another C compiler) is preloaded, which
refuses the call of a number. Each number is tried twice: that call alone is refused, and it and all later ones are.
First the calls of a run with ample memory are counted. Up to 1,000 calls all are tried; of more the first 400, the
last 100, and 300 evenly between. A number past the last call has to meet no refusal.

A run of one worker has to print the same bytes where it ends well, and so has one of four workers with the root alone.
Of two workers that share leaves the documents may differ: the claim, the cost and the bound have to be the same, and
`check` has to say yes to each document; so it is of the documents to which their traces replay. The calls of several
workers come in another order each time, so there a number stands for another call in each run.

A run of MEETING has to end with status 6 and nothing written, or to print a row in which no worker holds a leaf. In
that row the history has gone on: it begins with the steps that stood, and no count, cost or bound has got worse. Where
the crew says that the search is over, claim, cost and bound have to be those that are found with ample memory. Where
it runs out of memory and hands the search back as it was, a second row has to say what a further crew made of it. That
one has to find the same, if the call was refused alone. Each of these answers has to come in some run, so that it was
tried.

Nothing of the program is made of this. It ends with 0 where all is as promised, with 1 and a line for each run that
isn't, and how to repeat it. It takes some twenty seconds.
"""

import concurrent.futures
import os
import re
import shutil
import struct
import subprocess
import sys
import tempfile

TOP = os.path.dirname(os.path.dirname(os.path.abspath(__file__)))
SECONDS = 30
# A crew whose workers wait for each other for ever is given up after so many.
MEETING_SECONDS = 10
NO_MEMORY = 6
# What may stand on standard error then; in all other runs nothing may.
SAID = b"out of memory\n"


def example(name):
    """Returns the text of a file of examples/."""
    with open(f"{TOP}/examples/{name}", encoding="ascii") as file:
        return file.read()


# One trip and two layers that may run it, both at a cost of 500; and a document of it whose tree has a split.
TIMETABLE = example("two_depots.csv")
DOCUMENT = example("two_depots_document.csv")

# Words for a search of the root alone, by four workers.
AT_ROOT = ["solve", "--workers", "4", "--nodes", "1"]

# One whose one leaf leaves all open.
OPEN = (
    "result,1,open\ncost,none\nbound,30\nnodes,0\ntable,1,cost\n"
    "fleet,L1,0\nprice,L1,t1,0,0\nfleet,L2,0\nprice,L2,t1,0,0\nleaf,1\nend\n"
)

# The trace of a search of two workers that share it by a split.
TRACE = (
    "result,1,trace\nopening,5,2\nfirst,none\ntook,1,1\nsplit,1,1,t1,L1\n"
    "table,1,cost\nfleet,L1,0\nprice,L1,t1,0,0\nfleet,L2,0\nprice,L2,t1,0,0\n"
    "took,1,2\ntook,2,3\noffered,1,500\nblock,L1,t1\nclosed,1,2\n"
    "table,2,cost\nfleet,L1,0\nprice,L1,t1,460000,-10000\nfleet,L2,0\nprice,L2,t1,455000,-15000\nclosed,2,3\n"
    "table,3,cost\nfleet,L1,0\nprice,L1,t1,460000,-10000\nfleet,L2,0\nprice,L2,t1,455000,-15000\nend\n"
)

# 20 trips of 8 depots. Within the root there are rounds of circulations and walks for plans.
OF_DEPOTS = subprocess.run([f"{TOP}/bench/carpaneto.py", "20", "8", "3"], capture_output=True, check=True, text=True).stdout

# Words, timetable, what stands behind it, and whether workers share the run.
RUNS = [
    (AT_ROOT, OF_DEPOTS, "", True),
    (["solve", "--workers", "2"], TIMETABLE, "", True),
    (["solve", "--workers", "1"], TIMETABLE, "", False),
    (["resume", "--workers", "2"], TIMETABLE, OPEN, True),
    (["resume", "--workers", "1"], TIMETABLE, OPEN, False),
    (["trace", "--workers", "2"], TIMETABLE, "", True),
    (["trace", "--workers", "1"], TIMETABLE, "", False),
    (["replay"], TIMETABLE, TRACE, False),
    (["check"], TIMETABLE, DOCUMENT, False),
    (["network"], TIMETABLE, "", False),
    (["blocks"], TIMETABLE, DOCUMENT, False),
    (["make", "2"], "", "", False),
    (["trial", "2"], "", "", False),
]


def program():
    """The program to try: the one that was named, else the one that was built."""
    if len(sys.argv) > 1:
        return os.path.abspath(sys.argv[1])
    for path in ("bin/mdvsp", "crates/mdvsp_main/out/mdvsp_main"):
        if os.access(os.path.join(TOP, path), os.X_OK):
            return os.path.join(TOP, path)
    sys.exit("each_allocation: no program is built: `make` builds bin/mdvsp")


def meeting():
    """The program whose crew is tried: the one that was named, else the one that was built; nothing where none was."""
    if len(sys.argv) > 2:
        return os.path.abspath(sys.argv[2])
    path = os.path.join(TOP, "crates/test_meeting/out/test_meeting")
    return path if os.access(path, os.X_OK) else None


def library(room):
    """Builds the library that refuses calls."""
    known = [shutil.which(name) for name in (os.environ.get("CC", "gcc"), "cc", "clang")]
    compiler = next((path for path in known if path), None)
    if not compiler:
        sys.exit("each_allocation: no C compiler is found, by which the library is built that refuses calls")
    built, source = os.path.join(room, "refuse_nth.so"), os.path.join(TOP, "tests", "refuse_nth.c")
    subprocess.run([compiler, "-O2", "-shared", "-fPIC", "-o", built, source, "-ldl"], check=True)
    return built


class Trial:
    """A program over the preloaded library, and after how many seconds a run is given up."""

    def __init__(self, path, room, refusing, seconds):
        self.path, self.room, self.library, self.seconds = path, room, refusing, seconds

    def run(self, words, text, at=0, on=False):
        """Runs the words with the call of this number refused; gives how it ended, and the calls and refusals."""
        handle, tally = tempfile.mkstemp(dir=self.room)
        os.write(handle, bytes(16))
        os.close(handle)
        known = {"LD_PRELOAD": self.library, "REFUSE_TALLY": tally, "REFUSE_AT": str(at)}
        if on:
            known["REFUSE_ON"] = "1"
        try:
            command = [self.path, *words]
            done = subprocess.run(command, input=text.encode(), capture_output=True, timeout=self.seconds, env=known)
        except subprocess.TimeoutExpired:
            done = None
        with open(tally, "rb") as file:
            calls, refused = struct.unpack("=QQ", file.read(16))
        os.unlink(tally)
        return done, calls, refused

    def judged(self, timetable, document):
        """Whether `check` says yes to a document of the timetable, with ample memory."""
        both = timetable.encode() + document
        done = subprocess.run([self.path, "check"], input=both, capture_output=True, timeout=SECONDS)
        return done.returncode == 0 and done.stdout.startswith(b"yes,")

    def document(self, timetable, written):
        """The document that was written of a timetable, or the one to which a trace of it replays, with ample memory."""
        if not written.startswith(b"result,1,trace\n"):
            return written
        both = timetable.encode() + written
        return subprocess.run([self.path, "replay"], input=both, capture_output=True, timeout=SECONDS).stdout


def told(document):
    """Claim, cost and bound of a document."""
    return document.split(b"\n")[:3]


def numbers(calls):
    """The calls to refuse: all of up to 1,000, else the first 400, the last 100 and 300 evenly between."""
    if calls <= 1000:
        return list(range(1, calls + 1))
    between = [400 + k * (calls - 500) // 300 for k in range(1, 301)]
    return [*range(1, 401), *between, *range(calls - 99, calls + 1)]


def fault(trial, ample, done, judge, on):
    """What is wrong with how a run ended; nothing where it is as promised. What it wrote, if anything, is judged."""
    if done is None:
        return f"it ran for {trial.seconds} seconds"
    if done.returncode < 0:
        return f"it died by signal {-done.returncode}"
    if done.stderr and (done.returncode, done.stderr) != (NO_MEMORY, SAID):
        return f"it wrote to standard error: {done.stderr[:100]!r}"
    if done.returncode == NO_MEMORY:
        return f"status 6, and it wrote {done.stdout[:60]!r}" if done.stdout else ""
    if done.returncode != ample.returncode:
        return f"status {done.returncode}, with ample memory {ample.returncode}"
    return judge(ample.stdout, done.stdout, on)


def same_bytes(ample, written, _on):
    """What is wrong with what one worker wrote, or several of the root alone."""
    return "" if written == ample else f"other bytes: {written[:100]!r}"


def same_answer(trial, timetable):
    """Judges what two workers wrote of a timetable: a document, or a trace by the document to which it replays."""

    def judge(ample, written, _on):
        wanted, found = trial.document(timetable, ample), trial.document(timetable, written)
        if told(found) != told(wanted):
            return f"another claim, cost or bound: {told(found)!r}"
        return "" if trial.judged(timetable, found) else "`check` says no to its document"

    return judge


# A row of MEETING: which crew it is about, what that answered, and how the search stood before and after it.
COUNT, COST = r"\d+", r"none|\d+"
COLUMNS = {"steps": COUNT, "spots": COUNT, "finished": COUNT, "cost": COST, "bound": COUNT}
ROW = re.compile(
    r"(?P<crew>crew|again),(?P<answer>ok|memory),met,(?P<met>\d+),held,(?P<held>yes|no),stands,(?P<stands>yes|no)"
    + "".join(f",{name},(?P<{name}_before>{form}),(?P<{name}>{form})" for name, form in COLUMNS.items())
    + r",claim,(?P<claim>\w+)"
)


def crew_rows(written):
    """The rows that MEETING wrote; nothing where they have another form."""
    lines = written.decode("ascii", "replace").splitlines()
    rows = [ROW.fullmatch(line) for line in lines]
    right = all(rows) and [row["crew"] for row in rows] in (["crew"], ["crew", "again"])
    return rows if right and written.endswith(b"\n") else []


def found(row):
    """What a search has found."""
    return row["claim"], row["cost"], row["bound"]


def worse(row):
    """What of a search is worse than before."""
    for name in ("steps", "spots", "finished", "bound"):
        if int(row[name]) < int(row[f"{name}_before"]):
            yield name
    if row["cost_before"] != "none" and (row["cost"] == "none" or int(row["cost"]) > int(row["cost_before"])):
        yield "cost"


def row_fault(ample, row):
    """What is wrong with the search that a crew handed back."""
    if row["held"] == "yes":
        return "a worker holds a leaf"
    if row["stands"] != "yes":
        return "the history doesn't begin with the steps that stood"
    for name in worse(row):
        return f"{name} before: {row[f'{name}_before']}, now: {row[name]}"
    if row["answer"] == "ok" and found(row) != found(ample):
        return f"the search is over with {found(row)}, with ample memory with {found(ample)}"
    return ""


class Crews:
    """Judges what crews made of a search, and counts their answers."""

    KINDS = ("the search over", "no memory and the search as it was", "no memory and the search gone on")

    def __init__(self):
        self.seen = dict.fromkeys(self.KINDS, 0)

    def __call__(self, ample, written, on):
        rows = crew_rows(written)
        if not rows:
            return f"it wrote {written[:200]!r}"
        first, again = rows[0], rows[1] if len(rows) > 1 else None
        over, moved = first["answer"] == "ok", first["steps"] != first["steps_before"]
        self.seen[self.KINDS[0 if over else 2 if moved else 1]] += 1
        if bool(again) != (not over and not moved):
            return "a further crew had the search, though it had moved" if again else "no further crew had the search"
        if again and not on and again["answer"] != "ok":
            return "a further crew found no memory, though no call of its own was refused"
        faults = [row_fault(crew_rows(ample)[0], row) for row in rows]
        return next((f"{bad}: {row[0]}" for bad, row in zip(faults, rows) if bad), "")


def tried(trial, name, words, text, shared, judge):
    """Tries each number with these words; prints what came, and gives how many runs were wrong."""
    ample, calls, _ = trial.run(words, text)
    if ample is None or calls == 0:
        print(f"{name}: no call for memory was counted, so nothing is shown: isn't the C library linked by the loader?")
        return 1
    if ample.returncode == 2 and words[:1] == ["trial"]:
        print(f"{name}: this program has no such command")
        return 0
    if ample.returncode != 0:
        print(f"{name}: with ample memory it ends with {ample.returncode}, where 0 is wanted")
        return 1
    chosen = numbers(calls)
    ways = [(at, on) for at in chosen for on in (False, True)]
    # Past the last call nothing is refused. Two workers may ask for some calls more or fewer.
    ways += [(2 * calls + 1000, False), (2 * calls + 1000, True)]
    wrong, without, missed = 0, 0, 0
    with concurrent.futures.ThreadPoolExecutor(os.cpu_count()) as pool:
        ended = pool.map(lambda way: (way, *trial.run(words, text, *way)), ways)
        for (at, on), done, _, refused in ended:
            bad = fault(trial, ample, done, judge, on)
            if at > 2 * calls and refused:
                bad = "past the last call there still was a refusal"
            if at <= calls and not refused and not shared:
                bad = "the call was never made, though as many were counted"
            missed += refused == 0
            without += done is not None and done.returncode == NO_MEMORY
            if bad:
                wrong += 1
                print(f"{name}, call {at}{' and all later ones' if on else ''} refused: {bad}")
                command = " ".join([trial.path, *words])
                print(f"  repeat it: REFUSE_AT={at} {'REFUSE_ON=1 ' if on else ''}LD_PRELOAD=.. {command}")
    scope = "all" if len(chosen) == calls else f"{len(chosen)}"
    print(
        f"{name}: {calls} calls, {scope} tried, in {len(ways)} runs: {without} without memory, "
        f"{len(ways) - without - wrong} with the answer, {missed} that met no refusal, {wrong} wrong"
    )
    return wrong


def crews_tried(trial):
    """Tries each number of a crew's calls; prints what came, and gives how much was wrong."""
    crews = Crews()
    wrong = tried(trial, "a crew of two workers", [], "", True, crews)
    for kind, times in crews.seen.items():
        print(f"  {kind}: {times}" if times else f"  {kind}: in no run, so this isn't shown")
    return wrong + list(crews.seen.values()).count(0)


def main():
    path, of_crew = program(), meeting()
    wrong = 0
    with tempfile.TemporaryDirectory() as room:
        refusing = library(room)
        trial = Trial(path, room, refusing, SECONDS)
        for words, timetable, behind, shared in RUNS:
            judge = same_answer(trial, timetable) if shared and words != AT_ROOT else same_bytes
            wrong += tried(trial, " ".join(words), words, timetable + behind, shared, judge)
        if of_crew:
            wrong += crews_tried(Trial(of_crew, room, refusing, MEETING_SECONDS))
        else:
            print("a crew of two workers: crates/test_meeting isn't built, so none is tried")
    return 1 if wrong else 0


sys.exit(main())
