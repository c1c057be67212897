#!/usr/bin/env python3
"""Proves one library in a copy of its own, so that others can be proved at the same time.

    tools/prove.py NAME    proves the library NAME; those that it depends on have to be proved already

The toolchain lets one command at a time work on a crate and on those below it, and nearly all crates share the lowest
ones. So this makes a folder with links to the crate's files and to the proved libraries below it, proves the crate
there, and takes back what came out. `make -j` calls it for many crates at once.
"""

from __future__ import annotations

import os
import shutil
import subprocess
import sys
import tempfile
from pathlib import Path

TOP = Path(__file__).resolve().parent.parent


def lines() -> dict[str, str]:
    """Returns the line of each crate in crates.txt, without its comment."""
    all_lines = (line.split("#")[0] for line in (TOP / "crates.txt").read_text(encoding="utf-8").splitlines())
    return {line.split(":")[0].split()[0]: line for line in all_lines if ":" in line}


def list_of(names: set[str]) -> str:
    """Returns a crates.txt of these crates alone."""
    return "".join(f"{line}\n" for name, line in lines().items() if name in names)


def needs() -> dict[str, list[str]]:
    """Returns what each crate depends on."""
    return {name: line.split(":")[1].split() for name, line in lines().items()}


def below(name: str, all_needs: dict[str, list[str]]) -> set[str]:
    """Returns the crates that a crate depends on, directly or through others."""
    found: set[str] = set()
    ahead = [name]
    while ahead:
        ahead += [it for it in all_needs[ahead.pop()] if it in all_needs and it not in found and not found.add(it)]
    return found


def link(source: str, copy: str) -> None:
    """Links a file, or copies it where the two places have no links in common."""
    try:
        os.link(source, copy)
    except OSError:
        shutil.copy2(source, copy)


def lend(name: str, place: Path, with_out: bool) -> None:
    """Links a crate's files into the folder, and of what was made of it the library alone unless all is asked for."""
    source = TOP / "crates" / name
    for path in source.iterdir():
        if path.name == "out":
            parts = [path] if with_out else [path / "rlib"]
        else:
            parts = [path]
        for part in (it for it in parts if it.exists()):
            copy = place / "crates" / name / part.relative_to(source)
            if part.is_dir():
                shutil.copytree(part, copy, copy_function=link)
            else:
                link(str(part), str(copy))


def prove(name: str, place: Path) -> int:
    """Proves the crate in the folder, and takes back what came out."""
    lower = below(name, needs())
    (place / "crates.txt").write_text(list_of({name, *lower}), encoding="utf-8")
    shutil.copy2(TOP / "HANDLES", place / "HANDLES")
    for it in lower:
        lend(it, place, with_out=False)
    lend(name, place, with_out=True)
    status = subprocess.run(["rt", "lib", "--jobs", "1"], cwd=place / "crates" / name, check=False).returncode
    made = TOP / "crates" / name / "out"
    shutil.rmtree(made, ignore_errors=True)
    if (place / "crates" / name / "out").exists():
        shutil.move(place / "crates" / name / "out", made)
    return status


def main() -> int:
    with tempfile.TemporaryDirectory(prefix="prove-") as place:
        return prove(sys.argv[1], Path(place))


sys.exit(main())
