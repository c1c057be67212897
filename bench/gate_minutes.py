#!/usr/bin/env python3
"""Counts the processor minutes that a run of the gate takes, crate by crate.

    bench/gate_minutes.py [FILE]            runs `rt ci` and prints a row a crate, proof, tests and edits apart
    bench/gate_minutes.py FILE rt ci NAME.. the same for another command of rt; FILE takes the rows, and what it had is added to

Each second it looks at the provers that the command started and notes how much processor time each has had. What a
prover takes in the second in which it ends is lost, so the figures are low by about half a second a prover. A run counts
only what it proves: crates that an earlier run kept take no time, so a count from nothing wants a machine that has kept
nothing, or `rt ci --anew`.
"""

import collections
import os
import subprocess
import sys
import time

TICKS = os.sysconf("SC_CLK_TCK")
MARK = f"GATE_MINUTES={os.getpid()}"
KINDS = ("proof", "tests", "edits")


def words_of(pid):
    """Returns the words of a prover that this run started, or None for any other process."""
    try:
        with open(f"/proc/{pid}/environ", "rb") as file:
            if MARK.encode() not in file.read().split(b"\0"):
                return None
        with open(f"/proc/{pid}/cmdline", "rb") as file:
            words = file.read().decode(errors="replace").split("\0")
    except OSError:
        return None
    return words if os.path.basename(words[0]).startswith("rattle") else None


def seconds_of(pid):
    """Returns the processor seconds of a process and of its children that have ended."""
    with open(f"/proc/{pid}/stat", encoding="utf-8") as file:
        fields = file.read().rsplit(")", 1)[1].split()
    return sum(int(fields[k]) for k in (11, 12)) / TICKS


def place_of(pid, words):
    """Returns the crate that a prover works on, and whether on its proof, its tests or an edit."""
    name = words[words.index("--crate-name") + 1] if "--crate-name" in words else "other"
    if "rt-edit" in os.readlink(f"/proc/{pid}/cwd"):
        return name, "edits"
    return (name.removesuffix("_tests"), "tests") if "--test" in words or name.endswith("_tests") else (name, "proof")


def look(seen):
    for pid in filter(str.isdigit, os.listdir("/proc")):
        words = words_of(pid)
        if words:
            try:
                start = os.stat(f"/proc/{pid}").st_mtime_ns
                seen[pid, tuple(words), start] = (place_of(pid, words), seconds_of(pid))
            except OSError:
                pass


def read(path):
    """Returns the seconds that earlier runs noted in a file, if it is there."""
    took = collections.Counter()
    if path and os.path.exists(path):
        with open(path, encoding="utf-8") as file:
            for line in (it for it in file if not it.startswith("#")):
                name, kind, seconds = line.split()
                took[name, kind] += float(seconds)
    return took


def main():
    path = sys.argv[1] if len(sys.argv) > 1 else None
    command = sys.argv[2:] or ["rt", "ci"]
    key, value = MARK.split("=")
    seen = {}
    begun = time.time()
    run = subprocess.Popen(command, env={**os.environ, key: value})
    while run.poll() is None:
        look(seen)
        time.sleep(1)
    took = read(path)
    for place, seconds in seen.values():
        took[place] += seconds
    if path:
        with open(path, "w", encoding="utf-8") as file:
            for (name, kind), seconds in sorted(took.items()):
                file.write(f"{name} {kind} {seconds:.1f}\n")
    print("| Crate | Proof | Tests | Edits | All |\n|---|---|---|---|---|")
    for name in sorted({name for name, _ in took}):
        each = [took[name, kind] / 60 for kind in KINDS]
        print(f"| `{name}` | " + " | ".join(f"{minutes:.1f}" for minutes in [*each, sum(each)]) + " |")
    print(f"| all | " + " | ".join(f"{sum(s for (_, k), s in took.items() if k == kind) / 60:.0f}" for kind in KINDS) + f" | {sum(took.values()) / 60:.0f} |")
    print(f"\n{(time.time() - begun) / 60:.0f} minutes by the clock, {os.cpu_count()} processors")
    return run.returncode


sys.exit(main())
