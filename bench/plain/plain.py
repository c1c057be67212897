#!/usr/bin/env python3
"""Writes the crates as plain Rust, of which `rustc` makes a program in less than a minute. Nothing of it is proved.

    bench/plain/plain.py OUT            writes OUT/main.rs and what it needs: the program that `make quick` builds
    bench/plain/plain.py --tests OUT    writes the crates with their tests, for `rustc --test`
    bench/plain/plain.py --search OUT   writes the search alone, with a `main` of its own, to try and time an algorithm

    rustc --edition 2024 -O OUT/main.rs -o OUT/search
    OUT/search FILE NODES               plans by one worker; with LOG=1 it prints each case on standard error

Which crates there are is read from crates.txt. Contracts, proofs and what is only there for them are left out, and what
the sources use of Rattle's library is imitated by the .rs files beside this one (`Vec`, whose calls answer `Result`, in
prelude.rs, the rest of `std` in standard.rs, and five libraries by their names), so that all else stays as it is.
"""

import os
import re
import shutil
import sys

HERE = os.path.dirname(os.path.abspath(__file__))
TOP = os.path.join(HERE, "..", "..")
# Groups of crates.txt that are part of the program.
GROUPS = ["ground", "audit", "search", "program"]
# Crates of tests that are programs, or whose tests start threads one by one.
BESIDE_TESTS = ["test_meeting", "test_turn"]
# The crates of the search that aren't part of a search by one worker. Of `vs_crew` one file is.
BESIDE_SEARCH = "vs_turn vs_crew vs_cert vs_resume vs_trace vs_replay vs_peak".split()
STAND_INS = ["macros.rs", "prelude.rs", "standard.rs"]
LIBRARIES = ["atomic_table", "csv", "indexmap", "itoa", "strsim"]

CLAUSE = re.compile(r"\b(?:requires|ensures)\b ?\*?(?: \w+)?\s*\{")
GHOST_FIELD = re.compile(r"\bghost \w+: \{")
DEFAULT_MEMBER = re.compile(r"\bghost \w+: \{[^{}]*\} = \{")
GHOST_ITEM = re.compile(r"\bghost \w+ = \{")
PROOF = re.compile(r"\bprove!\(")
LEFT_OUT = [
    (CLAUSE, ""),
    (GHOST_ITEM, r"\s*;"),
    (DEFAULT_MEMBER, r"\s*;"),
    (GHOST_FIELD, r"\s*[,;]?"),
    (PROOF, ";?"),
]
TEST = re.compile(r"#\[test\]\nfn (\w+)\(")


def groups():
    """Returns the crates of each group of crates.txt, in the order in which they stand there."""
    found, group = {}, None
    with open(os.path.join(TOP, "crates.txt"), encoding="utf-8") as file:
        for line in file:
            if opened := re.match(r"# (\w+): .* On: ", line):
                group = found.setdefault(opened[1], [])
            elif crate := re.match(r"(\w+)[^:#]*:", line):
                group.append(crate[1])
    return found


def crates(kind):
    """Returns the crates of the program, of the search alone, or of the tests too."""
    known = groups()
    found = [crate for group in GROUPS for crate in known[group]]
    if kind == "tests":
        return found + [crate for crate in known["tests"] if crate not in BESIDE_TESTS]
    if kind == "program":
        return found
    needed = needs_of([crate for crate in known["search"] if crate not in BESIDE_SEARCH])
    return [crate for crate in found if crate in needed and crate not in BESIDE_SEARCH]


def needs_of(names):
    """Returns crates and all that they depend on."""
    needs = {}
    with open(os.path.join(TOP, "crates.txt"), encoding="utf-8") as file:
        for line in file:
            if crate := re.match(r"(\w+)[^:#]*:([^#]*)", line):
                needs[crate[1]] = crate[2].split()
    found, left = set(), list(names)
    while left:
        name = left.pop()
        if name not in found:
            found.add(name)
            left += needs.get(name, [])
    return found


def end_of(text, start):
    """Returns where the bracket at a place is closed."""
    opens = text[start]
    closes = {"{": "}", "(": ")"}[opens]
    depth = 0
    for place in range(start, len(text)):
        depth += (text[place] == opens) - (text[place] == closes)
        if depth == 0:
            return place + 1
    raise ValueError("a bracket is not closed")


def without(text, pattern, behind):
    """Returns a text without what the pattern begins, to the end of its bracket and of what may stand behind."""
    kept, at = [], 0
    while found := pattern.search(text, at):
        line = text[text.rfind("\n", 0, found.start()) + 1 : found.start()]
        if "//" in line:
            kept.append(text[at : found.end()])
            at = found.end()
            continue
        kept.append(text[at : found.start()])
        at = re.compile(behind).match(text, end_of(text, found.end() - 1)).end()
    return "".join(kept) + text[at:]


def derived(found):
    """Returns a derive without the traits that plain Rust has no derive for."""
    names = [name for name in found[1].split(", ") if name != "Drop"]
    return f"#[derive({', '.join(names)})]" if names else ""


def plain(text, crate, names):
    """Returns a source of a crate as plain Rust in a module of that name; `names` are the crates that there are."""
    text = re.sub(r"ghost use [^;]*;\n", "", text)
    for pattern, behind in LEFT_OUT:
        text = without(text, pattern, behind)
    text = text.replace("#![tactic(auto)]", "")
    text = re.sub(r"^ *#\[(tactic|cycle)\(.*\)\]\n", "", text, flags=re.MULTILINE)
    text = re.sub(r"#\[derive\(([^)]*)\)\]", derived, text)
    text = re.sub(r"\bDrop \+ |: Drop\b(?! for)| \+ Drop\b", "", text)
    text = re.sub(r"\.collect\(((?:\w+\.)*alloc(?:\(\))?)\)", r".collect_in(\1)", text)
    text = re.sub(r"\.to_vec\((?=\w)", ".copy_in(", text)
    text = re.sub(r"(?<![\w:$])crate::", f"crate::{crate}::", text)
    text = re.sub(r"(?<![\w:])std::", "crate::standard::", text)
    text = re.sub(rf"(?<![\w:])(pub(?:\(crate\))? )?use ({'|'.join(names)})\b(?!;)", r"\1use crate::\2", text)
    text = re.sub(rf"(?<![\w:])({'|'.join(names)})::", r"crate::\1::", text)
    text = re.sub(r"^fn main\(", "pub fn main(", text, flags=re.M)
    text = re.sub(TEST, rf"#[test]\nfn \1() {{\n    crate::standard::test::ended(\1_);\n}}\n\nfn \1_(", text)
    text = re.sub(r"^ *#\[tactic\(.*\)\]\n", "", text, flags=re.M)
    # A comment of what is left out would document nothing.
    text = re.sub(r"^( *)//[/!]", r"\1//", text, flags=re.M)
    return f"#[allow(unused_imports)]\nuse crate::prelude::*;\n{text}"


def write(source, to, crate, names):
    with open(source, encoding="utf-8") as file:
        text = plain(file.read(), crate, names)
    os.makedirs(os.path.dirname(to), exist_ok=True)
    with open(to, "w", encoding="utf-8") as file:
        file.write(text)


def write_crate(crate, out, names):
    """Writes the sources of a crate as a module."""
    base = os.path.join(TOP, "crates", crate, "src")
    for folder, _, files in os.walk(base):
        for file in files:
            path = os.path.relpath(os.path.join(folder, file), base).removesuffix(".rt")
            to = "mod" if path in ("lib", "main") else path
            write(os.path.join(folder, file), os.path.join(out, crate, f"{to}.rs"), crate, names)


def main(out, kind):
    found = crates(kind)
    names = [*found, "vs_turn", *LIBRARIES]
    for crate in found:
        write_crate(crate, out, names)
    if kind == "search":
        finding = os.path.join(TOP, "crates", "vs_crew", "src", "finding.rt")
        write(finding, os.path.join(out, "finding.rs"), "vs_crew", names)
    with open(os.path.join(HERE, f"{kind}.rs"), encoding="utf-8") as file:
        text = file.read().replace("// CRATES\n", "".join(f"mod {crate};\n" for crate in sorted(found)))
    with open(os.path.join(out, "main.rs"), "w", encoding="utf-8") as file:
        file.write(text)
    for name in [*STAND_INS, *(f"{library}.rs" for library in LIBRARIES if kind != "search")]:
        shutil.copy(os.path.join(HERE, name), out)


if __name__ == "__main__":
    words = [word for word in sys.argv[1:] if word not in ("--search", "--tests")]
    if len(words) != 1 or len(sys.argv) > 3:
        sys.exit(__doc__)
    main(words[0], sys.argv[1].removeprefix("--") if len(sys.argv) == 3 else "program")
