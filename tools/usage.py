#!/usr/bin/env python3
"""Keeps what is written from packaging/commands.txt: the usage, the manual page, and the completions of three shells.

    tools/usage.py            fails where a file isn't what the table says, and where the versions differ: that of the
                              table from CHANGES.md and the Python package, the logic of its toolchain from `rt version`
    tools/usage.py --write    writes these files

Toolchains of several names have one logic, which is all that proofs depend on. Another name is printed and is no fault.
Where `rt` isn't installed, the toolchain isn't compared, and the script says so.
"""

from __future__ import annotations

import re
import shutil
import subprocess
import sys
import textwrap
from dataclasses import dataclass, field
from pathlib import Path
from typing import Iterator, Optional

TOP = Path(__file__).resolve().parent.parent
TABLE = TOP / "packaging" / "commands.txt"
# The columns of what `--help` prints, and where its texts begin.
WIDTH, INDENT = 115, 12
OPTION = re.compile(r"\[(--\w+) [A-Z]\]")
# How many trips the commands take that have another limit than 2,000.
MOST_TRIPS = {"make": 10000}
# What stands for a file among the arguments of a command.
FILE = re.compile(r"\b[A-Z]{2,}\b")


@dataclass
class Entry:
    """A line of the table that isn't indented, with its text in paragraphs."""

    key: str
    value: str
    paragraphs: list[str] = field(default_factory=lambda: [""])

    def add(self, line: str) -> None:
        """Takes an indented line."""
        if line == ".":
            self.paragraphs.append("")
        else:
            self.paragraphs[-1] = f"{self.paragraphs[-1]} {line}".strip()

    @property
    def name(self) -> str:
        return self.value.split()[0]

    @property
    def letter(self) -> str:
        """The letter for an option's value."""
        return self.value.split(" ", 2)[1]

    @property
    def range(self) -> str:
        """What an option's value may be."""
        return self.value.split(" ", 2)[2]

    @property
    def text(self) -> str:
        return self.paragraphs[0]


def entries() -> Iterator[Entry]:
    """Yields the entries of the table."""
    entry: Optional[Entry] = None
    for line in TABLE.read_text(encoding="utf-8").splitlines():
        if line.startswith("#") or not line.strip():
            continue
        if line.startswith(" "):
            assert entry, f"{TABLE}: a text of nothing"
            entry.add(line.strip())
            continue
        if entry:
            yield entry
        key, _, value = line.partition(":")
        entry = Entry(key, value.strip())
    if entry:
        yield entry


class Table:
    """The table: what is there once, and the entries of each kind."""

    def __init__(self) -> None:
        self.all = list(entries())
        self.commands = self.of("command")
        self.options = self.of("option")
        self.own = self.of("own")
        self.statuses = [it.value.split(" ", 1) for it in self.of("status")]
        once = {it.key: it.value for it in self.all}
        self.version, self.toolchain = once["version"], once["toolchain"]
        self.name, self.about, self.usage = once["name"], once["about"], once["usage"]

    def of(self, key: str) -> list[Entry]:
        return [entry for entry in self.all if entry.key == key]

    def words(self) -> list[Entry]:
        """Returns the commands that are words, without `--help` and its like."""
        return [entry for entry in self.commands if not entry.name.startswith("-")]

    def options_of(self, command: Entry) -> list[Entry]:
        names = OPTION.findall(command.value)
        return [option for option in self.options if option.name in names]

    def readers(self) -> list[Entry]:
        """Returns the commands that read files."""
        return [entry for entry in self.words() if FILE.search(entry.value)]

    def about_itself(self) -> list[str]:
        """Returns the words that are answered of the program itself, as `--help`."""
        return next(entry.value for entry in self.commands if entry.name.startswith("-")).split(", ")


def command_lines(command: Entry) -> Iterator[str]:
    """Yields the lines that `--help` has of a command."""
    head = f"  {command.value}"
    lines = textwrap.wrap(command.text, WIDTH - INDENT, break_on_hyphens=False)
    if len(head) < INDENT:
        yield head.ljust(INDENT) + lines.pop(0)
    else:
        yield head
    yield from (" " * INDENT + line for line in lines)


def status_lines(table: Table) -> Iterator[str]:
    """Yields the lines that `--help` has of the statuses."""
    line = ""
    for number, words in table.statuses:
        short = f"{number} {words.split(' | ')[0]}"
        if line and len(f"{line}   {short}") > WIDTH:
            yield line
            line = ""
        line = f"{line}   {short}" if line else f"  {short}"
    yield line


def help_text(table: Table) -> str:
    """Returns what `--help` prints, without its last line end."""
    commands = [line for command in table.commands for line in command_lines(command)]
    own = [line for option in table.own for line in command_lines(option)]
    statuses = list(status_lines(table))
    return "\n".join([usage_line(table), "", "commands:", *commands, *own, "", "exit status:", *statuses])


def usage_line(table: Table) -> str:
    """Returns how the program is called, in a line."""
    return f"usage: {table.usage}"


def command_text(table: Table, command: Entry) -> str:
    """Returns what `COMMAND --help` prints behind its first line: what the command does, and its options."""
    lines = textwrap.wrap(sentence(command.text), WIDTH, break_on_hyphens=False)
    for option in table.options_of(command):
        words = f"{option.name} {option.letter}  {option.text}: {option.range}"
        lines += textwrap.wrap(words, WIDTH, initial_indent="  ", subsequent_indent=" " * INDENT,
                               break_on_hyphens=False)
    return "\n".join(lines)


def rust_text(text: str) -> str:
    """Returns a text as Rust writes it."""
    text = text.replace("\\", "\\\\").replace('"', '\\"')
    return f'"\\\n{text}"' if "\n" in text else f'"{text}"'


def command_source(table: Table, command: Entry) -> str:
    """Returns the source of what the program knows of a command."""
    names = [rust_text(option.name) for option in table.options_of(command)]
    return f"""    Command {{
        name: {rust_text(command.name)},
        files: {len(FILE.findall(command.value))},
        options: &[{", ".join(names)}],
        usage: {rust_text(f"usage: {table.name} {command.value}")},
        about: {rust_text(command_text(table, command))},
    }},
"""


def source(table: Table) -> str:
    """Returns the source of the usage."""
    commands = "".join(command_source(table, command) for command in table.words())
    names = "".join(f"    {rust_text(command.name)},\n" for command in table.words())
    itself = ", ".join(rust_text(word) for word in [*table.about_itself(), "-h"])
    values = "".join(f"    ({rust_text(it.name)}, {rust_text(it.range)}),\n" for it in table.options)
    return f'''//! What the program says of itself. tools/usage.py writes this file from packaging/commands.txt.

use crate::command::Command;

/// The version of the program.
pub const VERSION: &str = "{table.version}";

/// The toolchain whose proof the sources pass.
pub const TOOLCHAIN: &str = "{table.toolchain}";

/// How the program is called, in a line.
pub const USAGE_LINE: &str = {rust_text(usage_line(table))};

/// How the program is called.
pub const USAGE: &str = "\\
{help_text(table)}";

/// The words that are answered of the program itself.
pub const ABOUT: &[&str] = &[{itself}];

/// The names of the commands.
pub const NAMES: &[&str] = &[
{names}];

/// The options of commands, and which values they take.
pub const OPTIONS: &[(&str, &str)] = &[
{values}];

/// The commands.
pub const COMMANDS: &[Command] = &[
{commands}];
'''


def roff(text: str) -> str:
    """Returns a text as the manual page's language has it."""
    text = text.replace("\\", "\\e").replace("-", "\\-")
    return re.sub(r"^([.'])", r"\\&\1", text)


def synopsis(command: Entry) -> str:
    """Returns a command with its arguments for the manual page: names in bold, what stands for a value in italics."""
    words = []
    for word in re.findall(r"\[[^]]*\]|[^\s,]+,?", command.value):
        inner = word.strip("[],")
        shown = " ".join(f"\\fI{it}\\fR" if it.isupper() else f"\\fB{roff(it)}\\fR" for it in inner.split())
        words.append(f"[{shown}]" if word.startswith("[") else shown + ("," if word.endswith(",") else ""))
    return " ".join(words)


def sections(table: Table) -> Iterator[tuple[str, list[str]]]:
    """Yields the sections of the manual page, by their titles."""
    part = "DESCRIPTION"
    for entry in table.all:
        if entry.key == "command":
            part = "COMMANDS"
            yield part, [f".TP\n{synopsis(entry)}", roff(sentence(entry.text))]
        elif entry.key == "page" and entry.value:
            yield entry.value.upper(), paragraphs(entry, ".PP")
        elif entry.key == "page":
            yield part, paragraphs(entry, ".IP" if part == "COMMANDS" else ".PP")
        elif entry.key == "example":
            yield part, [f".PP\n.RS 4\n.EX\n{roff(entry.value)}\n.EE\n.RE"]
        elif entry.key == "option":
            head = f".TP\n\\fB{roff(entry.name)}\\fR \\fI{entry.letter}\\fR"
            yield "OPTIONS", [head, roff(sentence(f"{entry.text}: {entry.range}"))]
        elif entry.key == "own":
            yield "OPTIONS", [f".TP\n\\fB{roff(entry.name)}\\fR", roff(sentence(entry.text))]
        elif entry.key == "status":
            number, words = entry.value.split(" ", 1)
            yield "EXIT STATUS", [f".TP\n\\fB{number}\\fR", roff(sentence(words.split(" | ")[-1]))]


def sentence(text: str) -> str:
    """Returns words as a sentence."""
    return f"{text[0].upper()}{text[1:].rstrip('.')}."


def paragraphs(entry: Entry, macro: str) -> list[str]:
    """Returns the paragraphs of an entry, each behind the macro that begins one."""
    return [f"{macro}\n{roff(paragraph)}" for paragraph in entry.paragraphs]


def manual(table: Table) -> str:
    """Returns the manual page."""
    own = " ".join(f"[\\fB{roff(option.name)}\\fR]" for option in table.own)
    lines = [
        '.\\" tools/usage.py writes this file from packaging/commands.txt.',
        f'.TH {table.name.upper()} 1 "" "{table.name} {table.version}" "User Commands"',
        f".SH NAME\n{table.name} \\- {roff(table.about)}",
        f".SH SYNOPSIS\n\\fB{table.name}\\fR {own} \\fICOMMAND\\fR [\\fIARGUMENTS\\fR] [\\fIFILE\\fR [\\fIFILE\\fR]]",
    ]
    title = ""
    for section, found in sections(table):
        if section != title:
            title = section
            lines.append(f".SH {title}")
        lines += found
    return "\n".join(lines) + "\n"


def short(command: Entry) -> str:
    """Returns the first words of what a command does, for a shell's list."""
    return re.split(r"[;,] ", command.text)[0]


def bash(table: Table) -> str:
    """Returns the completion for bash."""
    words = " ".join([entry.name for entry in [*table.words(), *table.own]] + table.about_itself())
    cases = "".join(
        f"    {entry.name}) words='{' '.join([*(option.name for option in table.options_of(entry)), '--help'])}' ;;\n"
        for entry in table.words()
    )
    return f'''# Completion of {table.name} for bash. tools/usage.py writes this file from packaging/commands.txt.

_{table.name}() {{
  local words=
  COMPREPLY=()
  [ "$COMP_CWORD" -eq 1 ] && words='{words}'
  [ "$COMP_CWORD" -gt 1 ] && case ${{COMP_WORDS[1]}} in
{cases}  esac
  # Where no option is begun, a file may stand.
  [[ "$COMP_CWORD" -gt 1 && ${{COMP_WORDS[COMP_CWORD]}} != -* ]] && return
  # Behind an option stands a number, which is not completed, and no option stands twice.
  case ${{COMP_WORDS[COMP_CWORD - 1]}} in --*) return ;; esac
  local word
  for word in $words; do
    [[ " ${{COMP_WORDS[*]:1:COMP_CWORD-1}} " == *" $word "* ]] || COMPREPLY+=("$word")
  done
  mapfile -t COMPREPLY < <(compgen -W "${{COMPREPLY[*]}}" -- "${{COMP_WORDS[COMP_CWORD]}}")
}}
complete -o default -F _{table.name} {table.name}
'''


def zsh(table: Table) -> str:
    """Returns the completion for zsh."""
    about = {entry.name: short(entry).replace("'", "'\\''") for entry in table.words()}
    commands = "".join(f"    '{name}:{words}'\n" for name, words in about.items())
    cases = ""
    for entry in table.words():
        arguments = [f"'{option.name}[{option.text.split(',')[0]}]:{option.letter}, {option.range}: '"
                     for option in table.options_of(entry)]
        for place, file in enumerate(FILE.findall(entry.value), 1):
            arguments.append(f"'{place}:{file.lower()}:_files'")
        if entry.value.endswith(" N"):
            arguments = [f"'1:trips, 0 to {MOST_TRIPS.get(entry.name, 2000)}: '"]
        cases += f"    {entry.name}) _arguments {' '.join(arguments)} ;;\n" if arguments else ""
    itself = " ".join([*(f"'(- *){word}'" for word in table.about_itself()), *(option.name for option in table.own)])
    return f'''#compdef {table.name}
# Completion of {table.name} for zsh. tools/usage.py writes this file from packaging/commands.txt.

_{table.name}() {{
  local -a commands
  commands=(
{commands}  )
  if (( CURRENT == 2 )); then
    _describe -t commands command commands
    _arguments {itself}
    return
  fi
  local command=$words[2]
  shift words
  (( CURRENT-- ))
  case $command in
{cases}  esac
}}

_{table.name} "$@"
'''


def fish(table: Table) -> str:
    """Returns the completion for fish."""
    lines = [f"# Completion of {table.name} for fish. tools/usage.py writes this file from packaging/commands.txt.", ""]
    lines.append(f"complete -c {table.name} -f")
    for word in table.about_itself():
        lines.append(f"complete -c {table.name} -n __fish_use_subcommand -l {word.removeprefix('--')}")
    for option in table.own:
        name, about = option.name.removeprefix("--"), option.text.split(": ")[1]
        lines.append(f"complete -c {table.name} -n __fish_use_subcommand -l {name} -d '{about}'")
    for entry in table.words():
        about = short(entry).replace("'", "\\'")
        lines.append(f"complete -c {table.name} -n __fish_use_subcommand -a {entry.name} -d '{about}'")
    for option in table.options:
        users = " ".join(entry.name for entry in table.words() if option in table.options_of(entry))
        seen = f"__fish_seen_subcommand_from {users}"
        about = f"{option.text.split(',')[0]}: {option.range}"
        lines.append(f"complete -c {table.name} -n '{seen}' -x -l {option.name.removeprefix('--')} -d '{about}'")
    readers = " ".join(entry.name for entry in table.readers())
    lines.append(f"complete -c {table.name} -n '__fish_seen_subcommand_from {readers}' -F")
    return "\n".join(lines) + "\n"


def written(table: Table) -> dict[str, str]:
    """Returns what is written from the table, by the files' paths."""
    return {
        "crates/mdvsp_main/src/usage.rt": source(table),
        "packaging/mdvsp.1": manual(table),
        "packaging/completions/mdvsp.bash": bash(table),
        "packaging/completions/_mdvsp": zsh(table),
        "packaging/completions/mdvsp.fish": fish(table),
    }


def found_in(path: str, pattern: str) -> str:
    """Returns what a pattern finds first in a file, or nothing."""
    found = re.search(pattern, (TOP / path).read_text(encoding="utf-8"), re.M)
    return found[1] if found else ""


def version_faults(table: Table) -> Iterator[str]:
    """Yields where another version stands than in the table."""
    for path, pattern in (
        ("CHANGES.md", r"^## (\d[\d.]*)"),
        ("python/mdvsp/__init__.py", r'^__version__ = "(.*)"$'),
        ("python/pyproject.toml", r'^version = "(.*)"$'),
    ):
        found = found_in(path, pattern)
        if found != table.version:
            yield f"{path} has version {found or 'none'}, packaging/commands.txt {table.version}"
    if not shutil.which("rt"):
        print("usage: rt isn't here, so the toolchain's name is not compared")
        return
    run = subprocess.run(["rt", "version"], capture_output=True, text=True, check=False)
    here = run.stdout.strip()
    if here.partition(" logic ")[2] != table.toolchain.partition(" logic ")[2]:
        yield f"`rt version` prints {here!r}, packaging/commands.txt has {table.toolchain!r}"
    elif here != table.toolchain:
        print(f"usage: the toolchain here is {here!r}, with the logic of {table.toolchain!r}")


def main() -> int:
    table = Table()
    files = written(table)
    if sys.argv[1:] == ["--write"]:
        for path, text in files.items():
            (TOP / path).parent.mkdir(parents=True, exist_ok=True)
            (TOP / path).write_text(text, encoding="utf-8")
        return 0
    if sys.argv[1:]:
        sys.exit(__doc__)
    faults = list(version_faults(table))
    for path, text in files.items():
        if not (TOP / path).is_file() or (TOP / path).read_text(encoding="utf-8") != text:
            faults.append(f"{path} isn't what packaging/commands.txt says: `tools/usage.py --write` writes it")
    for fault in faults:
        print(f"usage: {fault}")
    print(f"usage: {len(files)} files, {len(faults)} faults")
    return 1 if faults else 0


if __name__ == "__main__":
    sys.exit(main())
