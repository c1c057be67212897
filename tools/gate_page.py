#!/usr/bin/env python3
"""Keeps the table of the gate in docs/benchmarks.md as the file of minutes says that the page names.

    tools/gate_page.py           fails where the table isn't what the file says
    tools/gate_page.py --write   writes the table

The file is one that bench/gate_minutes.py writes: a line `CRATE KIND SECONDS` for each crate and kind of work, and
lines `# ..` with what the run was made on. The table stands between the lines `<!-- gate: FILE -->` and
`<!-- gate: end -->` of the page; while the page has no such lines, nothing is compared. Crates that took less than
LEAST minutes share a row.
"""

from __future__ import annotations

import re
import sys
from collections import Counter
from pathlib import Path

TOP = Path(__file__).resolve().parent.parent
PAGE = TOP / "docs" / "benchmarks.md"
PART = re.compile(r"(<!-- gate: (?!end)(\S+) -->\n)(.*?)(<!-- gate: end -->)", re.S)
KINDS = ("proof", "tests", "edits")
LEAST = 10


def read(path: Path) -> tuple[list[str], dict[str, Counter[str]]]:
    """Returns what the file says of its run, and the minutes of each crate by kind of work."""
    about: list[str] = []
    crates: dict[str, Counter[str]] = {}
    for line in path.read_text(encoding="utf-8").splitlines():
        if line.startswith("#"):
            about.append(line[1:].strip())
        else:
            name, kind, seconds = line.split()
            crates.setdefault(name, Counter())[kind] += float(seconds) / 60
    return about, crates


def row(name: str, minutes: Counter[str], form: str = ".1f") -> str:
    """Returns a row of the table."""
    each = [minutes[kind] for kind in KINDS]
    return f"| {name} | {' | '.join(f'{it:{form}}' for it in [*each, sum(each)])} |\n"


def table(path: Path) -> str:
    """Returns what stands in the page: what the run was made on, and its minutes."""
    about, crates = read(path)
    order = sorted(crates, key=lambda name: -sum(crates[name].values()))
    many = [name for name in order if sum(crates[name].values()) >= LEAST]
    others = sum((crates[name] for name in order if name not in many), Counter())
    rows = [row(f"`{name}`", crates[name]) for name in many]
    rows.append(row(f"{len(order) - len(many)} others", others))
    rows.append(row("all", sum(crates.values(), Counter()), ".0f"))
    head = "| Crate | Proof | Tests | Edits | All |\n|---|---|---|---|---|\n"
    return "".join(f"- {it}\n" for it in about) + "\n" + head + "".join(rows)


def main() -> int:
    page = PAGE.read_text(encoding="utf-8")
    if not PART.search(page):
        print("gate_page: docs/benchmarks.md names no file of minutes")
        return 0
    made = PART.sub(lambda part: part[1] + table(TOP / part[2]) + part[4], page)
    if made == page:
        print("gate_page: docs/benchmarks.md has the minutes of its file")
        return 0
    if sys.argv[1:] == ["--write"]:
        PAGE.write_text(made, encoding="utf-8")
        return 0
    print("gate_page: docs/benchmarks.md hasn't the minutes of its file: tools/gate_page.py --write")
    return 1


if __name__ == "__main__":
    sys.exit(main())
