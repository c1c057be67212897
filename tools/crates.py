#!/usr/bin/env python3
"""Keeps the groups of crates.txt, and the lists of crates in docs/ that are written from it.

    tools/crates.py            fails where a crate depends on a group that its own may not depend on, and where
                               a list in docs/ isn't what crates.txt and the crates say
    tools/crates.py --write    writes these lists

In crates.txt a comment `# NAME: ... On: NAME, NAME.` opens a group and names the groups, and the toolchain's libraries,
on which its crates may depend.
A crate's line in the table is the first sentence of its root file, up to a colon or `, with` where it is long. The
lists stand between the lines `<!-- crates: NAME -->` and `<!-- crates: end -->` of a page, where NAME is `picture`,
`table` or `edits`.
"""

from __future__ import annotations

import re
import sys
from dataclasses import dataclass, field
from pathlib import Path

TOP = Path(__file__).resolve().parent.parent
GROUP = re.compile(r"# (\w+): (.*?) On: ([\w, ]+)\.$")
CRATE = re.compile(r"(\w+)[^:#]*:([^#]*)")
PART = re.compile(r"(<!-- crates: (\w+) -->\n)(.*?)(<!-- crates: end -->)", re.S)

# The groups whose crates aren't part of the program, and how many words a sentence of the table may have.
UNLISTED = ["examples", "tests"]
LONG = 20
PART_END = re.compile(r":|, with ")


@dataclass
class Crate:
    """A crate, its group, and what it depends on."""

    name: str
    group: str
    needs: list[str]

    def about(self) -> str:
        """Returns the first sentence of the crate's root file."""
        source = TOP / "crates" / self.name / "src"
        root = next(path for path in (source / "lib.rt", source / "main.rt") if path.exists())
        lines = [line[3:].strip() for line in root.read_text(encoding="utf-8").splitlines() if line.startswith("//!")]
        sentence = re.match(r".*?[.;](?= |$)", " ".join(lines))
        return (sentence[0] if sentence else " ".join(lines)).rstrip(".;") + "."

    def in_short(self) -> str:
        """Returns that sentence, where it is long up to its first colon or `, with`."""
        about = self.about()
        return about if len(about.split()) <= LONG else PART_END.split(about)[0].rstrip(".") + "."

    def edits(self) -> int:
        """Returns how many edits the gate has to refuse."""
        return len(list((TOP / "crates" / self.name / "must-fail").glob("*.edit")))


@dataclass
class House:
    """All crates, and the groups with what they are for and on which groups they may depend."""

    crates: dict[str, Crate] = field(default_factory=dict)
    about: dict[str, str] = field(default_factory=dict)
    allowed: dict[str, list[str]] = field(default_factory=dict)

    def of_group(self, group: str) -> list[Crate]:
        return [crate for crate in self.crates.values() if crate.group == group]


def house() -> House:
    """Reads crates.txt."""
    found, group = House(), ""
    for line in (TOP / "crates.txt").read_text(encoding="utf-8").splitlines():
        if opened := GROUP.match(line):
            group = opened[1]
            found.about[group] = opened[2]
            found.allowed[group] = opened[3].split(", ")
        elif crate := CRATE.match(line):
            found.crates[crate[1]] = Crate(crate[1], group, crate[2].split())
    return found


def broken_rules(all_crates: House) -> list[str]:
    """Returns a line for each dependency that the rule of the groups doesn't allow."""
    wrong = [f"{crate.name} is in no group" for crate in all_crates.of_group("")]
    for crate in all_crates.crates.values():
        for name in crate.needs:
            below = all_crates.crates.get(name)
            of = below.group if below else name
            if crate.group and of not in all_crates.allowed[crate.group]:
                wrong.append(f"{crate.name} ({crate.group}) may not depend on {name}")
    return wrong


def picture(all_crates: House) -> str:
    """Returns the groups as a picture, each above those that it depends on."""
    lines = []
    for group in reversed([name for name in all_crates.about if all_crates.of_group(name)]):
        lines.append(f"{group.upper()}: {all_crates.about[group]}")
        line = "   "
        for crate in all_crates.of_group(group):
            if len(line) + len(crate.name) + 2 > 100:
                lines.append(line)
                line = "   "
            line += f" {crate.name} "
        lines += [line.rstrip(), ""]
    return "```\n" + "\n".join(lines).rstrip() + "\n```\n"


def table(all_crates: House) -> str:
    """Returns a row for each crate of the program: what it is."""
    rows = ["| Crate | What it is |", "|---|---|"]
    for crate in all_crates.crates.values():
        if crate.group not in UNLISTED:
            rows.append(f"| `{crate.name}` | {crate.in_short()} |")
    return "\n".join(rows) + "\n"


def edits(all_crates: House) -> str:
    """Returns how many edits each crate has that the gate has to refuse, where it has some, by group."""
    rows = ["| Group | Edits that must fail, by crate |", "|---|---|"]
    for group in all_crates.about:
        having = [f"`{crate.name}` {crate.edits()}" for crate in all_crates.of_group(group) if crate.edits()]
        if having:
            rows.append(f"| {group} | {', '.join(having)} |")
    return "\n".join(rows) + f"\n\nIn all {sum(crate.edits() for crate in all_crates.crates.values())} edits.\n"


LISTS = {"picture": picture, "table": table, "edits": edits}


def written(text: str, all_crates: House) -> str:
    """Returns a page's text with its lists written anew."""
    return PART.sub(lambda part: part[1] + LISTS[part[2]](all_crates) + part[4], text)


def main(words: list[str]) -> int:
    if words not in ([], ["--write"]):
        print(__doc__)
        return 2
    all_crates = house()
    wrong = broken_rules(all_crates)
    for page in sorted((TOP / "docs").glob("*.md")):
        text = page.read_text(encoding="utf-8")
        anew = written(text, all_crates)
        if words and anew != text:
            page.write_text(anew, encoding="utf-8")
        elif anew != text:
            wrong.append(f"docs/{page.name} has another list of crates: tools/crates.py --write")
    for line in wrong:
        print(f"crates: {line}")
    if not wrong:
        print(f"crates: {len(all_crates.crates)} crates keep the rule of their groups, and docs/ lists them")
    return 1 if wrong else 0


sys.exit(main(sys.argv[1:]))
