#!/usr/bin/env python3
"""Compares the tables of refusals and flaws in docs/formats/ with the enums and the numbers of the code.

    tools/refusals.py    fails where a page and the code have other numbers or names

Refusals: each variant of `Why`, `Misfit`, `DocWhy`, `TraceWhy` and `PeakWhy` has to be a row of docs/formats/errors.md,
with the number and the name that the code writes, and each row has to be such a variant. Flaws: the same of `Flaw` and
`PlanFault` in docs/formats/solution.md, and of `PeakFlaw` in docs/formats/peaks.md.
"""

from __future__ import annotations

import re
import sys
from pathlib import Path

TOP = Path(__file__).resolve().parent.parent
CRATES = TOP / "crates"
PAGES = TOP / "docs" / "formats"

# A number and a name, as they are printed.
Pair = tuple[int, str]

# Each enum of refusals: where it is declared, where its numbers and names are, and the two functions that have them.
REFUSALS = [
    ("Why", "vs_reader/src/refused.rt", "vs_reply/src/refusal.rt", "why_number", "why_name"),
    ("DocWhy", "vs_document/src/refused.rt", "vs_reply/src/refusal.rt", "document_number", "document_name"),
    ("TraceWhy", "vs_trace/src/refused.rt", "vs_replay/src/refusing.rt", "trace_number", "trace_name"),
    ("PeakWhy", "vs_peakcheck/src/refused.rt", "vs_reply/src/refusal.rt", "peak_number", "peak_name"),
]

# The variant of `Why` that has names of its own, and the enum of these.
NESTED = ("Misfit", "vs_instance/src/misfit.rt", "vs_reply/src/refusal.rt", "misfit_name")

# The refusal of too many nodes is in no enum: where its number and name are written.
TOO_LARGE = re.compile(r'number\((\d+)_u32\)\?;\s*text\.field\("(TooLarge)"\)')

# Each enum of flaws: where it is declared, and where its numbers and names are written.
FLAWS = [
    ("Flaw", "vs_check/src/flaw.rt", "vs_reply/src/flaws.rt"),
    ("PeakFlaw", "vs_peakcheck/src/flaw.rt", "vs_reply/src/peak_flaws.rt"),
]

# The errors of a plan, which have names of their own behind the number of `Flaw::Plan`.
PLAN_ERRORS = ("PlanFault", "vs_plan/src/plan_fault.rt", "vs_reply/src/flaws.rt")
PLAN = "Plan"


def source(path: str) -> str:
    """Returns the text of a source file."""
    return (CRATES / path).read_text(encoding="utf-8")


def variants(path: str, enum: str) -> list[str]:
    """Returns the names of an enum's variants."""
    body = re.search(rf"pub enum {enum} {{\n(.*?)\n}}", source(path), re.S)
    if not body:
        raise SystemExit(f"refusals: there is no enum {enum} in crates/{path}")
    return re.findall(r"^    (\w+)[,({ ]", body[1], re.M)


def arms(path: str, function: str, enum: str) -> dict[str, str]:
    """Returns what a function answers for each variant, where it is a number or a text."""
    body = re.search(rf"fn {function}\(.*?\n}}\n", source(path), re.S)
    found = re.findall(rf'{enum}::(\w+)(?:\([^)]*\))? => "?(\w+)"?,', body[0]) if body else []
    return dict(found)


def refusals_of_enum(enum: str, declared: str, written: str, number_of: str, name_of: str) -> list[Pair]:
    """Returns the number and the name of each variant that has a name of its own."""
    numbers, names = arms(written, number_of, enum), arms(written, name_of, enum)
    found = []
    for variant in variants(declared, enum):
        if variant not in numbers or (variant not in names and variant != NESTED[0]):
            raise SystemExit(f"refusals: {enum}::{variant} has no number or no name in crates/{written}")
        if variant != NESTED[0]:
            found.append((int(numbers[variant]), names[variant]))
    return found


def errors_of_instances() -> list[Pair]:
    """Returns the number and the name of each error of an instance."""
    nested, declared, written, name_of = NESTED
    enum, _, _, number_of, _ = REFUSALS[0]
    number = int(arms(written, number_of, enum)[nested])
    names = arms(written, name_of, nested)
    return [(number, names[variant]) for variant in variants(declared, nested)]


def refusals_of_code() -> list[Pair]:
    """Returns the number and the name of every refusal that the code can write."""
    found = [pair for row in REFUSALS for pair in refusals_of_enum(*row)] + errors_of_instances()
    large = TOO_LARGE.search(source("vs_reply/src/answer.rt"))
    return found + ([(int(large[1]), large[2])] if large else [])


def flaws_of_enum(enum: str, declared: str, written: str) -> list[Pair]:
    """Returns the number and the name of each flaw, but for errors of a plan."""
    text = source(written)
    found = []
    for variant in variants(declared, enum):
        arm = re.search(rf'{enum}::{variant}\b.*?heading\([^"]*"(\d+)", "(\w+)"\)', text, re.S)
        if arm and arm[2] == variant:
            found.append((int(arm[1]), variant))
        elif variant != PLAN:
            raise SystemExit(f"refusals: {enum}::{variant} has no number in crates/{written}")
    return found


def errors_of_plans() -> list[Pair]:
    """Returns the number 1 with the name of each error of a plan."""
    enum, declared, written = PLAN_ERRORS
    text = source(written)
    number = re.search(rf'Flaw::{PLAN}\(.*?field\("(\d+)"\)', text, re.S)
    if not number:
        raise SystemExit(f"refusals: Flaw::{PLAN} has no number in crates/{written}")
    return [(int(number[1]), name) for name in variants(declared, enum) if f'"{name}"' in text]


def refusals_of_page() -> list[Pair]:
    """Returns the numbers and names in the table of docs/formats/errors.md."""
    text = (PAGES / "errors.md").read_text(encoding="utf-8")
    return [(int(number), name) for number, name in re.findall(r"^\| (\d+) \| (\w+) \|", text, re.M)]


def flaws_of_page(page: str) -> list[Pair]:
    """Returns the numbers and names of the rows of flaws in a page."""
    text = (PAGES / page).read_text(encoding="utf-8")
    return [(int(number), name) for number, name in re.findall(r"^\| `(\d+),(\w+)", text, re.M)]


def differences(page: str, said: list[Pair], found: list[Pair]) -> list[str]:
    """Returns a line for each pair that only the page or only the code has."""
    where = f"docs/formats/{page}"
    only_page = [f"{where} has {number} {name}, the code hasn't" for number, name in sorted(set(said) - set(found))]
    only_code = [f"{where} lacks {number} {name}" for number, name in sorted(set(found) - set(said))]
    return only_page + only_code


def main() -> int:
    compared = [
        ("errors.md", refusals_of_page(), refusals_of_code()),
        ("solution.md", flaws_of_page("solution.md"), errors_of_plans() + flaws_of_enum(*FLAWS[0])),
        ("peaks.md", flaws_of_page("peaks.md"), flaws_of_enum(*FLAWS[1])),
    ]
    wrong = [line for row in compared for line in differences(*row)]
    for line in wrong:
        print(f"refusals: {line}")
    if not wrong:
        count = sum(len(set(found)) for _, _, found in compared)
        print(f"refusals: docs/formats/ has the {count} numbers and names of the code")
    return 1 if wrong else 0


if __name__ == "__main__":
    sys.exit(main())
