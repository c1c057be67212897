"""Files as planners bring them: their bytes as text, whatever a spreadsheet made of it, and the records in it."""

from __future__ import annotations

import csv
import io
import os
import re
import sys
from typing import List, Optional, Tuple

from .errors import InputError, Unreadable, Unwritable

SEPARATOR = re.compile(r"\ufeff?sep=([,;\t|])\s*")
# A record: its number or its line, and its fields.
Record = Tuple[int, List[str]]


def read_bytes(path: str) -> bytes:
    """Returns the bytes of a file."""
    try:
        with open(path, "rb") as file:
            return file.read()
    except OSError as error:
        raise Unreadable(f"{path}: {error.strerror}") from error


def write_text(path: str, text: str, mark: bool = False) -> None:
    """Writes a text as UTF-8, with a byte order mark where a spreadsheet is to open it."""
    try:
        folder = os.path.dirname(path)
        if folder:
            os.makedirs(folder, exist_ok=True)
        with open(path, "w", encoding="utf-8-sig" if mark else "utf-8", newline="") as file:
            file.write(text)
    except OSError as error:
        raise Unwritable(f"{path}: {error.strerror}") from error


def print_text(text: str, what: str) -> None:
    """Writes a text to standard output."""
    try:
        with open(sys.stdout.fileno(), "wb", closefd=False) as out:
            out.write(text.encode("utf-8"))
    except OSError as error:
        raise Unwritable(f"{what} can't be written: {error.strerror}") from error


def note(text: str) -> None:
    """Says something on standard error."""
    print(text, file=sys.stderr)


def text_of(data: bytes) -> str:
    """Returns the text of a file's bytes, by its byte order mark, else as UTF-8, else as Windows writes it."""
    for mark, name in ((b"\xef\xbb\xbf", "utf-8"), (b"\xff\xfe", "utf-16-le"), (b"\xfe\xff", "utf-16-be")):
        if data.startswith(mark):
            return data[len(mark):].decode(name, "replace")
    if data[1:2] == b"\0":
        return data.decode("utf-16-le", "replace")
    if data[:1] == b"\0":
        return data.decode("utf-16-be", "replace")
    try:
        return data.decode("utf-8")
    except UnicodeDecodeError:
        return data.decode("cp1252", "replace")


def first_word(path: str) -> str:
    """Returns the first word of a file: letters, whatever marks, quotes and blanks stand before them."""
    found = re.match(r"(?:\W*sep=[,;\t|])?\W*([a-z]+)", text_of(read_bytes(path)[:400]))
    return found[1] if found else ""


def trimmed(field: str) -> str:
    """Returns a field without the blanks around it, and without signs that nobody sees."""
    return field.strip().strip("\ufeff\u200b").strip()


def separator_line(line: str) -> Optional[str]:
    """Returns the separator that a first line such as `sep=;` names, or None."""
    named = SEPARATOR.fullmatch(line)
    return named[1] if named else None


def records_of(data: bytes, name: str) -> List[Record]:
    """Returns the records of an instance or a document that aren't blank, each with its number, counted from 1.

    The text may be as a spreadsheet exports it: with another separator, and with fields filled up at the end of a row.
    """
    lines = list(io.StringIO(text_of(data), newline=""))
    sign = separator_line(lines[0]) if lines else None
    if sign:
        lines = lines[1:]
    first = next((line for line in lines if line.strip()), "")
    word = re.match(r"\W*\w+\"?\s*([,;\t|])", first)
    reader = csv.reader(lines, delimiter=sign or (word[1] if word else ","))
    try:
        rows = [filled(fields) for fields in reader]
    except csv.Error as error:
        raise InputError(f"{name}: {error}") from error
    return list(enumerate((fields for fields in rows if fields), 1))


def filled(fields: List[str]) -> List[str]:
    """Returns the fields of a row, trimmed, without the empty ones at its end."""
    fields = [trimmed(field) for field in fields]
    while fields and not fields[-1]:
        fields.pop()
    return fields


def text_of_rows(rows: List[List[object]]) -> str:
    """Returns rows as comma-separated lines, quoted where they have to be."""
    out = io.StringIO()
    csv.writer(out, lineterminator="\n").writerows(rows)
    return out.getvalue()
