#!/usr/bin/env python3
"""Runs the command lines of README.md and of the pages in docs/, and says where a page differs from what they print.

usage: tools/run_pages.py [PROGRAM] [--write]
       tools/run_pages.py --links

PROGRAM is the built mdvsp; where it isn't given, bin/mdvsp, or else what the gate leaves in the folder of mdvsp_main.

- In a block that begins with ```console each line behind `$ ` is run by bash, a line that ends with a backslash together
  with the next, and the lines behind it are all that it has to print, on standard output and standard error together.
  The lines of one page are run one after another in a folder of the page's own, which has what the repository keeps of
  examples/, tools/ and python/, the program as bin/mdvsp, and `mdvsp-plan` on the PATH; `$?` is the status of the line
  before.
- A block whose first line names a file behind the language, as in ```rust crates/x/src/main.rt, has to be that file's text.
- A link to a file of the repository has to lead to one.
- A source that a page names with its crate, as `vs_x/src/y.rt` or `vs_x/specs/Y.antt`, has to be there.

Blocks in other languages (```sh for what isn't run here) are left alone. With --write the pages get what was printed,
and the files' texts; read what changed then. With --links no command is run, and no program is needed. Nothing except
Python's own library is needed.
"""

import difflib
import os
import re
import shutil
import subprocess
import sys
import tempfile
import time

TOP = os.path.dirname(os.path.dirname(os.path.abspath(__file__)))

# What a page's folder has of the repository.
FOLDERS = ["examples", "tools", "python"]

# The command of python/, as an installation makes it.
PLAN_COMMAND = """#!/bin/sh
PYTHONPATH="$(dirname "$0")/../python" exec python3 -m mdvsp "$@"
"""

# Where the built program may be.
PROGRAMS = ["bin/mdvsp", "crates/mdvsp_main/out/mdvsp_main"]

# The seconds that one command may take, and all together.
SECONDS = 40
ALL_SECONDS = 120

FENCE = re.compile(r"( *)```(\S*) *(\S*).*")
LINK = re.compile(r"\]\(([^)#\s]+)(?:#[^)\s]*)?\)")
SOURCE = re.compile(r"`(\w+/(?:src|specs|proofs)/[\w/]+\.(?:rt|antt))`")


def pages():
    """Returns the pages, by their paths from the top."""
    docs = [os.path.relpath(f"{at}/{name}", TOP) for at, _, names in os.walk(f"{TOP}/docs") for name in names]
    return ["README.md", "CONTRIBUTING.md", *sorted(path for path in docs if path.endswith(".md"))]


def kept_files():
    """Returns the files of FOLDERS that the repository keeps; all of them where git can't say."""
    told = subprocess.run(["git", "ls-files", "-z", *FOLDERS], cwd=TOP, capture_output=True, text=True, check=False)
    if told.returncode == 0 and told.stdout:
        return [path for path in told.stdout.split("\0") if path and os.path.isfile(f"{TOP}/{path}")]
    walked = [(at, name) for folder in FOLDERS for at, _, names in os.walk(f"{TOP}/{folder}") for name in names]
    return [os.path.relpath(f"{at}/{name}", TOP) for at, name in walked]


def text_lines(text):
    """Returns the lines of a text, without their ends."""
    return text.removesuffix("\n").split("\n") if text else []


def blocks(lines):
    """Yields each fenced block of a page: its language, the file that it names, and its first line's and end's places."""
    start = None
    for place, line in enumerate(lines):
        fence = FENCE.fullmatch(line.rstrip())
        if start is None and fence:
            start, indent, language, path = place, fence[1], fence[2], fence[3]
        elif start is not None and fence and fence[1] == indent and not fence[2]:
            yield language, path, start + 1, place, indent
            start = None


def commands(lines):
    """Yields each command of a console block: how many lines into it, the command, and what the page says behind it."""
    place = 0
    while place < len(lines):
        first, words = place, []
        if not lines[place].startswith("$ "):
            raise ValueError(place)
        words.append(lines[place][2:])
        while words[-1].endswith("\\") and place + 1 < len(lines):
            place += 1
            words.append(lines[place])
        place += 1
        behind = place
        while place < len(lines) and not lines[place].startswith("$ "):
            place += 1
        yield first, behind, "\n".join(words), lines[behind:place]


class Room:
    """A page's folder, in which its commands are run."""

    def __init__(self, folder, program):
        self.folder = folder
        self.status = 0
        for path in kept_files():
            os.makedirs(os.path.dirname(f"{folder}/{path}"), exist_ok=True)
            shutil.copy(f"{TOP}/{path}", f"{folder}/{path}")
        os.makedirs(f"{folder}/bin")
        shutil.copy(program, f"{folder}/bin/mdvsp")
        with open(f"{folder}/bin/mdvsp-plan", "w", encoding="ascii") as file:
            file.write(PLAN_COMMAND)
        for name in ("mdvsp", "mdvsp-plan"):
            os.chmod(f"{folder}/bin/{name}", 0o755)
        inherited = {name: value for name, value in os.environ.items() if name != "MDVSP"}
        path = f"{folder}/bin{os.pathsep}{os.environ.get('PATH', os.defpath)}"
        self.environment = {**inherited, "PATH": path, "LC_ALL": "C.UTF-8", "PYTHONDONTWRITEBYTECODE": "1"}

    def run(self, command):
        """Returns the lines that a command prints."""
        ran = subprocess.run(
            ["bash", "-c", f"(exit {self.status})\n{command}"],
            cwd=self.folder,
            env=self.environment,
            stdin=subprocess.DEVNULL,
            stdout=subprocess.PIPE,
            stderr=subprocess.STDOUT,
            timeout=SECONDS,
            check=False,
        )
        self.status = ran.returncode
        return text_lines(ran.stdout.decode(errors="replace"))


class Page:
    """A page, what was found wrong with it, and what it has to say in place of that."""

    def __init__(self, path):
        self.path = path
        with open(f"{TOP}/{path}", encoding="utf-8") as file:
            self.lines = text_lines(file.read())
        self.faults = []
        self.counts = {"commands": 0, "files": 0, "links": 0, "sources": 0}
        # what has to stand between two lines, by the first of them
        self.mended = {}

    def tell(self, place, words, said=(), found=()):
        """Notes what is wrong at a line, and how what the page says differs from what was found."""
        told = list(difflib.unified_diff(said, found, "the page says", "what is there", lineterm="", n=1))
        self.faults.append("\n".join([f"{self.path}:{place + 1}: {words}", *(f"    {line}" for line in told)]))

    def look_at_links(self, found):
        """Looks whether the links to files, outside the blocks found, lead somewhere."""
        inside = {place for _, _, first, end, _ in found for place in range(first, end)}
        for place, line in enumerate(self.lines):
            for path in LINK.findall(line):
                if ":" in path or place in inside:
                    continue
                self.counts["links"] += 1
                if not os.path.exists(os.path.join(TOP, os.path.dirname(self.path), path)):
                    self.tell(place, f"there is no {path}")

    def look_at_sources(self):
        """Looks whether the sources that the page names are there."""
        for place, line in enumerate(self.lines):
            for path in SOURCE.findall(line):
                self.counts["sources"] += 1
                if not os.path.isfile(f"{TOP}/crates/{path}"):
                    self.tell(place, f"there is no crates/{path}")

    def look_at_file(self, path, first, end, indent):
        """Looks whether a block is the text of the file that it names."""
        self.counts["files"] += 1
        if not os.path.isfile(f"{TOP}/{path}"):
            self.tell(first - 1, f"there is no {path}")
            return
        with open(f"{TOP}/{path}", encoding="utf-8") as file:
            found = text_lines(file.read())
        said = [line.removeprefix(indent) for line in self.lines[first:end]]
        if said != found:
            self.tell(first - 1, f"isn't the text of {path}", said, found)
            self.mended[first, end] = [indent + line for line in found]

    def run_block(self, room, first, end, indent):
        """Runs the commands of a console block."""
        said = [line.removeprefix(indent) for line in self.lines[first:end]]
        try:
            found = list(commands(said))
        except ValueError as at:
            self.tell(first + at.args[0], "stands in a console block before any command")
            return
        for at, behind, command, told in found:
            self.counts["commands"] += 1
            try:
                printed = room.run(command)
            except subprocess.TimeoutExpired:
                self.tell(first + at, f"takes more than {SECONDS} seconds: {command}")
                continue
            if printed != told:
                self.tell(first + at, f"prints something else: {command}", told, printed)
                self.mended[first + behind, first + behind + len(told)] = [indent + line for line in printed]

    def look_at_places(self):
        """Looks at the links, sources and files' texts of the page."""
        found = list(blocks(self.lines))
        self.look_at_links(found)
        self.look_at_sources()
        for _, path, first, end, indent in found:
            if path:
                self.look_at_file(path, first, end, indent)

    def look(self, program, deadline):
        """Looks at all that the page says."""
        self.look_at_places()
        found = list(blocks(self.lines))
        with tempfile.TemporaryDirectory(prefix="mdvsp-page-") as folder:
            has_commands = any(language == "console" for language, *_ in found)
            room = Room(folder, program) if has_commands else None
            for language, path, first, end, indent in found:
                if language == "console" and not path and time.monotonic() < deadline:
                    self.run_block(room, first, end, indent)
                elif language == "console" and not path:
                    self.tell(first - 1, f"wasn't run: all commands take more than {ALL_SECONDS} seconds")

    def write(self):
        """Gives the page what was found."""
        for (first, end), found in sorted(self.mended.items(), reverse=True):
            self.lines[first:end] = found
        with open(f"{TOP}/{self.path}", "w", encoding="utf-8") as file:
            file.write("\n".join(self.lines) + "\n")


def program_of(words):
    """Returns the path of the built program, or stops."""
    for path in words or [f"{TOP}/{path}" for path in PROGRAMS]:
        if os.access(path, os.X_OK) and os.path.isfile(path):
            return os.path.abspath(path)
    sys.exit(f"run_pages: no program at {' or '.join(words or PROGRAMS)}: `make` builds it, or name another one")


def main():
    words = [word for word in sys.argv[1:] if not word.startswith("--")]
    program = None if "--links" in sys.argv[1:] else program_of(words[:1])
    deadline = time.monotonic() + ALL_SECONDS
    all_pages = [Page(path) for path in pages()]
    for page in all_pages:
        if program:
            page.look(program, deadline)
        else:
            page.look_at_places()
        if page.mended and "--write" in sys.argv[1:]:
            page.write()
    faults = [fault for page in all_pages for fault in page.faults]
    for fault in faults:
        print(f"run_pages: {fault}")
    counts = {what: sum(page.counts[what] for page in all_pages) for what in ("commands", "files", "links", "sources")}
    told = ", ".join(f"{count} {what}" for what, count in counts.items())
    print(f"run_pages: {told} of {len(all_pages)} pages: {len(faults) or 'none'} of them other than the pages say")
    return 1 if faults else 0


sys.exit(main())
