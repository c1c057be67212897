#!/usr/bin/env python3
"""Runs the program with standard error a terminal, and sees which words stand there and which row is written. They have
to be the same where standard error is a pipe, and none with --quiet. Where standard input is a terminal too, it has to
say what it waits for. A search has to print how far it has come, there and in a log. The line by which mdvsp-quick says
what it is counts for nothing.

    tests/terminal.py [PROGRAM]

PROGRAM is bin/mdvsp, or what the gate built, where it isn't given. Nothing of the program is made of this. It ends with 0
where all is as it has to be, and with 1 and a line for each run that isn't.
"""

import os
import pty
import re
import select
import subprocess
import sys
import termios

TOP = os.path.dirname(os.path.dirname(os.path.abspath(__file__)))
SECONDS = 30

# The timetable of two trips: its stops with the deadheads between them, its layer, and its trips.
with open(f"{TOP}/examples/two_trips.csv", encoding="ascii") as two_trips:
    LINES = two_trips.readlines()
STOPS, LAYER, TRIPS = "".join(LINES[:10]), LINES[10], "".join(LINES[11:])
PRICES = "table,1,cost\nfleet,L1,0\nprice,L1,t1,1010000,0\nprice,L1,t2,0,-10000\nleaf,1\nend\n"
HEAD = "result,1,optimal\ncost,1080\nbound,1080\nnodes,1\n"
TOWN = "instance,1\nstop,Depot\nstop,Harbour\nstop,Market\n"
WAYS = "deadhead,Depot,Harbour,5,900\ndeadhead,Harbour,Market,7,600\ndeadhead,Depot,Market,15,1500\n"

# Words, input, status, what is written, and what stands on the terminal.
RUNS = [
    (
        ["check"],
        STOPS + LAYER + "trip,t1,P,8:00,Centrall,8:30,0,L1\n",
        3,
        "refused,12,6,UnknownName\n",
        "record 12: unknown stop Centrall\n",
    ),
    (
        ["solve"],
        TOWN + WAYS,
        3,
        "refused,0,10,LongerMinutes,1,2,3\n",
        "Depot to Market by way of Harbour is shorter: 12 in place of 15 minutes\n",
    ),
    (
        ["network"],
        "Stop;Name\n",
        3,
        "refused,1,1,NoHeader\n",
        "record 1: it isn't instance,1, instance,2 or instance,3: is this a spreadsheet's export?\n",
    ),
    (
        ["check"],
        STOPS + LAYER + TRIPS,
        3,
        "refused,14,20,NoResult\n",
        "record 14: no document of a plan follows the timetable\n",
    ),
    (
        ["check"],
        STOPS + LAYER + TRIPS + HEAD + "block,L1,t2,t1\n" + PRICES,
        1,
        "no,1,NoConnection,1,2\n",
        "block 1: after trip t2 no vehicle is in time for trip t1, or no deadhead leads there\n",
    ),
    (
        ["blocks"],
        STOPS + LAYER + TRIPS + HEAD + "block,L1,t1\n" + PRICES,
        1,
        "no,1,Uncovered,t2\n",
        "no block runs trip t2\n",
    ),
    (
        ["replay"],
        STOPS + LAYER + TRIPS + HEAD + "block,L1,t1,t2\n" + PRICES,
        3,
        "refused,14,50,NoTrace\n",
        "record 14: no trace of a search follows the timetable\n",
    ),
    (
        ["replay"],
        STOPS + LAYER + TRIPS + "result,1,trace\nopening,1,1\nfirst,none\ntook,1,2\nend\n",
        1,
        "no,7,NotAStep,1\n",
        "step 1 of the trace may not come there; where it has no such step, a leaf is still held at its end\n",
    ),
    (["check"], STOPS + LAYER + TRIPS + HEAD + "block,L1,t1,t2\n" + PRICES, 0, "yes,optimal,1080,1080\n", ""),
]


# What is typed, status, what is written, and how what stands on the terminal begins, behind what was typed.
TYPED = [
    (["network"], "instance,1\n", 0, "", "reading a timetable from the terminal, up to Ctrl-D"),
    (["check"], "instance,1\n", 3, "refused,2,20,NoResult\n", "reading a timetable and what stands behind it from "),
    (["solve", "-"], "x\n", 3, "refused,1,1,NoHeader\n", "reading a timetable from the terminal"),
    (["check", "examples/two_trips.csv", "-"], "x\n", 3, "", "reading a timetable and what stands behind it from "),
    (["--quiet", "network"], "instance,1\n", 0, "", None),
    (["network", "examples/two_trips.csv"], "", 0, None, None),
    (["make", "0"], "", 0, None, None),
    ([], "", 2, "words,1\n", "usage: mdvsp "),
    (["network", "nothing.csv"], "", 2, "words,2\n", "usage: mdvsp network [TIMETABLE]\n\"nothing.csv\" names no file"),
]

# The line of mdvsp-quick.
QUICK = re.compile(r"\Amdvsp-quick: .*\n")

# A line of a log: seconds, cases, open leaves, cost, bound and gap. On a terminal the open leaves are left out.
NUMBER = r"(-?\d+|none)"
LOGGED = re.compile(rf"seconds=(\d+) cases=(\d+) open=(\d+) cost={NUMBER} bound={NUMBER} gap=(\d+\.\d{{4}}|none)\n")
SHOWN = re.compile(rf"\r(\d+) seconds, (\d+) cases, cost {NUMBER}, bound {NUMBER}, gap (\d+\.\d{{4}} %|none) {{4}}")

# What a search reads, its words, its status, and how the last line of its log goes on behind the seconds.
SEARCHES = [
    ("two_trips", ["solve"], 0, ("1", "0", "1080", "1080", "0.0000")),
    ("two_trips", ["solve", "--nodes", "0"], 11, ("0", "1", "1080", "60", "94.4445")),
    ("two_trips", ["trace", "--workers", "1"], 0, ("1", "0", "1080", "1080", "0.0000")),
    ("one_vehicle", ["solve", "--workers", "2"], 10, ("1", "0", "none", "none", "none")),
]


def program():
    """The program to try: the one that was named, else the one that was built."""
    if len(sys.argv) > 1:
        return os.path.abspath(sys.argv[1])
    for path in ("bin/mdvsp", "crates/mdvsp_main/out/mdvsp_main"):
        if os.access(os.path.join(TOP, path), os.X_OK):
            return os.path.join(TOP, path)
    sys.exit("terminal: no program is built: `make` builds bin/mdvsp")


def ended(path, words, text):
    """Runs the words with standard error a terminal; gives the status, what was written, and what the terminal has."""
    ours, theirs = pty.openpty()
    done = subprocess.run([path, *words], input=text.encode(), stdout=subprocess.PIPE, stderr=theirs, timeout=SECONDS)
    os.close(theirs)
    shown = b""
    try:
        while piece := os.read(ours, 65536):
            shown += piece
    except OSError:
        pass  # the terminal's other end is shut, and all was read
    os.close(ours)
    return done.returncode, done.stdout.decode(), QUICK.sub("", shown.decode().replace("\r\n", "\n"))


def piped(path, words, text):
    """Runs the words with standard error a pipe; gives the status, what was written, and what stands in the pipe."""
    done = subprocess.run([path, *words], input=text.encode(), capture_output=True, timeout=SECONDS)
    return [done.returncode, done.stdout.decode(), done.stderr.decode()]


def typed(path, words, text):
    """Runs the words on a terminal, types the text and Ctrl-D; gives the status, what was written and what is shown."""
    ours, theirs = pty.openpty()
    form = termios.tcgetattr(theirs)
    form[3] &= ~termios.ECHO
    termios.tcsetattr(theirs, termios.TCSANOW, form)
    # Two ends of input: the beginning of a second stream is read ahead, and its end is met twice.
    os.write(ours, text.encode() + b"\4\4\4")
    done = subprocess.run([path, *words], stdin=theirs, stdout=subprocess.PIPE, stderr=theirs, cwd=TOP, timeout=SECONDS)
    shown = b""
    while select.select([ours], [], [], 0)[0]:
        shown += os.read(ours, 65536)
    os.close(theirs)
    os.close(ours)
    return done.returncode, done.stdout.decode(), QUICK.sub("", shown.decode().replace("\r\n", "\n"))


def typed_fault(path, words, text, status, written, begins):
    """What is wrong with a run on a terminal; nothing where it is as it has to be."""
    found = typed(path, words, text)
    said = not found[2] if begins is None else found[2].startswith(begins)
    if found[0] != status or not said or written not in (None, found[1]):
        return f"{' '.join(words)} on a terminal: {found}, and it has to be {(status, written, begins)}"
    return ""


def said_faults(path, words, text, status, written, said):
    """Yields what is wrong with what stands on a terminal, in a pipe, and with --quiet."""
    for how, found, wanted in (
        ("on a terminal", list(ended(path, words, text)), said),
        ("in a pipe", piped(path, words, text), said),
        ("with --quiet", list(ended(path, ["--quiet", *words], text)), ""),
    ):
        if found != [status, written, wanted]:
            yield f"{' '.join(words)} {how}: {found}, and it has to be {[status, written, wanted]}"


def gap_of(cost, bound):
    """How far the bound is below the cost, in per cent of the cost: four decimals, rounded up."""
    if "none" in (cost, bound):
        return "none"
    millionths = -((int(bound) - int(cost)) * 1_000_000 // max(int(cost), 1))
    return f"{millionths // 10_000}.{millionths % 10_000:04}"


def line_faults(lines, last):
    """Yields what is wrong with the lines of a log, each in its fields."""
    seconds = [int(line[0]) for line in lines]
    if not lines or lines[-1][1:] != last:
        yield f"the last line isn't {last}"
    if any(behind <= before for before, behind in zip(seconds, seconds[1:-1])) or seconds[-1:] < seconds[-2:-1]:
        yield f"the lines were printed in seconds {seconds}"
    yield from (f"the gap of {line}" for line in lines if line[5] != gap_of(*line[3:5]))


def is_said(rest, reason):
    """Whether behind the progress stands the sentence that begins so, or nothing where there is no such."""
    return rest.startswith(reason) if reason else not rest


def log_faults(path, text, words, status, last, reason):
    """Yields what is wrong with a log: asked for before the command, behind it, and beside --quiet."""
    for run, behind in ((["--log", *words], reason), ([*words, "--log"], reason), (["--quiet", "--log", *words], "")):
        for found, _, said in (ended(path, run, text), piped(path, run, text)):
            faults = list(line_faults(LOGGED.findall(said), last))
            if found != status or faults or not is_said(LOGGED.sub("", said), behind):
                yield f"{' '.join(run)}: status {found}, {faults}, and in the log stands {said[-300:]!r}"


def shown_faults(path, text, words, status, last, reason):
    """Yields what is wrong with what a search shows on a terminal, where --quiet keeps it still."""
    found, _, said = ended(path, words, text)
    cases, _, cost, bound, gap = last
    wanted = (cases, cost, bound, gap if gap == "none" else f"{gap} %")
    if found != status or [it[1:] for it in SHOWN.findall(said)][-1:] != [wanted]:
        yield f"{' '.join(words)}: status {found}, and on the terminal stands {said[-300:]!r}"
    if not is_said(SHOWN.sub("", said), f"\n{reason}"):
        yield f"{' '.join(words)}: on the terminal stands {said[-300:]!r}"
    found, _, said = ended(path, ["--quiet", *words], text)
    if found != status or said:
        yield f"--quiet {' '.join(words)}: status {found}, and on the terminal stands {said[-300:]!r}"


def search_faults(path, name, words, status, last):
    """Yields what is wrong with what a search of an example prints of how far it has come."""
    with open(f"{TOP}/examples/{name}.csv", encoding="ascii") as file:
        text = file.read()
    reason = "no plan: " if status == 10 else ""
    yield from log_faults(path, text, words, status, last, reason)
    yield from shown_faults(path, text, words, status, last, reason)


def about_faults(path):
    """Yields what is wrong with what the program says about itself and its commands."""
    for words, begins in (
        (["--help"], "usage: mdvsp "),
        (["-h"], "usage: mdvsp "),
        (["--version"], "mdvsp "),
        (["--quiet", "--version"], "mdvsp "),
        (["solve", "--help"], "usage: mdvsp solve [TIMETABLE] "),
        (["check", "nothing.csv", "-h"], "usage: mdvsp check [TIMETABLE] [PLAN]\n\nJudge "),
    ):
        status, written, shown = ended(path, words, "")
        if status != 0 or not written.startswith(begins) or shown:
            yield f"{' '.join(words)}: status {status}, {written[:60]!r} and {shown[:60]!r} on the terminal"
    status, written, shown = ended(path, ["--help", "me"], "")
    if (status, written) != (2, "words,1\n") or not shown.startswith("usage: mdvsp "):
        yield f"--help me: status {status}, {written[:60]!r} and {shown[:60]!r} on the terminal"


def main():
    path = program()
    try:
        ours, theirs = pty.openpty()
    except OSError as error:
        print(f"terminal: the system gives no terminal ({error}), so nothing was tried")
        return 0
    os.close(ours)
    os.close(theirs)
    faults = [fault for run in RUNS for fault in said_faults(path, *run)]
    faults += [fault for run in TYPED if (fault := typed_fault(path, *run))]
    faults += [fault for search in SEARCHES for fault in search_faults(path, *search)]
    faults += about_faults(path)
    for fault in faults:
        print(fault)
    print(f"terminal: {len(RUNS) + len(TYPED) + len(SEARCHES)} inputs, {len(faults)} faults")
    return 1 if faults else 0


sys.exit(main())
