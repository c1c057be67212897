"""A sheet as a spreadsheet exports it: headings, the rows below them, and all that is wrong with their fields."""

from __future__ import annotations

import csv
import difflib
import io
import os
import re
from dataclasses import dataclass, field
from fractions import Fraction
from typing import Collection, Dict, List, Mapping, Optional, Set, Tuple, Union

from . import texts
from .drives import PARTS
from .limits import LAST_MINUTE, MAX_MINUTES, MAX_NAME
from .texts import Record, trimmed

NAME = re.compile(rf"[A-Za-z0-9_.:-]{{1,{MAX_NAME}}}")
NUMBER = re.compile(r"([0-9]{1,15})(?:[.,]([0-9]{1,9}))?")
LENGTH = re.compile(r"([0-9]{1,3}):([0-5][0-9]):([0-5][0-9])")
TIME = re.compile(r"([0-9]{1,2}):([0-5][0-9])(?::([0-5][0-9]))?")
ALIASES = {"per_kilometre": "per_km", "per_kilometer": "per_km"}


@dataclass(frozen=True)
class Form:
    """What a kind of sheet has: the columns that it has to have, those that it may have, and one that it may have
    several times. A column may have another in its place."""

    name: str
    wanted: Tuple[str, ...]
    optional: Tuple[str, ...] = ()
    repeated: str = ""
    instead: Mapping[str, str] = field(default_factory=dict)

    @property
    def known(self) -> Tuple[str, ...]:
        return (*self.wanted, *self.optional, *self.instead.values())

    def missing(self, headings: Collection[str]) -> List[str]:
        """Returns the columns that a sheet with these headings lacks."""
        return [it for it in self.wanted if it not in headings and self.instead.get(it) not in headings]


class FaultList:
    """All that is wrong with some sheets, each with the sheet and the line at which it stands."""

    def __init__(self):
        self.found: List[Tuple[int, int, str]] = []
        self.repeated: Dict[Tuple[str, str], Tuple[int, Set[Tuple[int, int]]]] = {}

    def add(self, sheet: Sheet, line: int, text: str) -> None:
        """Keeps a fault at a line, or, with 0, of the sheet as a whole."""
        place = f"{sheet.path}:{line}" if line else sheet.path
        self.found.append((sheet.order, line, f"{place}: {text}"))

    def add_once(self, key: Tuple[str, str], sheet: Sheet, line: int, text: str) -> None:
        """Keeps a fault that many lines may have: its first line, and how many others there are."""
        if key not in self.repeated:
            self.repeated[key] = (len(self.found), set())
            self.add(sheet, line, text)
        self.repeated[key][1].add((sheet.order, line))

    def is_kept(self, key: Tuple[str, str]) -> bool:
        return key in self.repeated

    def lines(self) -> List[str]:
        """Returns the faults in the order of the sheets and lines."""
        further = {place: len(lines) - 1 for place, lines in self.repeated.values()}
        found = [(order, line, text + also(further.get(place, 0)))
                 for place, (order, line, text) in enumerate(self.found)]
        return [text for _, _, text in sorted(found, key=lambda it: it[:2])]


def also(count: int) -> str:
    return f" (and on {count} further line{'s' if count > 1 else ''})" if count else ""


Fields = Dict[str, Union[str, List[str]]]


class Sheet:
    """The rows below the headings of a sheet: of each its line and its fields by heading."""

    def __init__(self, order: int, path: str, form: Form):
        self.order, self.path, self.form = order, path, form
        self.rows: List[Tuple[int, Fields]] = []
        self.columns: Set[str] = set()
        self.whole = False
        self.unread: List[str] = []


# --- Records and headings --------------------------------------------------------------------------------------------


def heading(text: str) -> str:
    """Returns a heading in small letters, with `_` in place of blanks, and without the number behind `group`."""
    word = re.sub(r"[\s_-]+", "_", trimmed(text).lower())
    return "group" if re.fullmatch(r"groups?_?[0-9]*", word) else ALIASES.get(word, word)


def separator_of(line: str, columns: Collection[str]) -> str:
    """Returns the sign between the fields of a sheet: the one by which its headings are found."""

    def known(sign: str) -> int:
        return sum(heading(it.strip('" ')) in columns for it in line.split(sign))

    return max(",;\t", key=known)


def head_line(lines: List[str]) -> str:
    return next((it for it in lines if it.strip(" \t\r\n,;\"")), "")


def headings_in(path: str, columns: Collection[str]) -> Set[str]:
    """Returns which of these columns the first row of a file names."""
    lines = list(io.StringIO(texts.text_of(texts.read_bytes(path)), newline=""))
    sign = texts.separator_line(lines[0]) if lines else None
    head = head_line(lines[1:] if sign else lines)
    cells = head.split(sign or separator_of(head, columns))
    return {heading(it.strip('" \r\n')) for it in cells} & set(columns)


def records_in(sheet: Sheet, text: str, faults: FaultList) -> List[Record]:
    """Returns the records of a sheet that aren't blank, each with its line, as far as quotes are closed."""
    lines = list(io.StringIO(text, newline=""))
    named = texts.separator_line(lines[0]) if lines else None
    begin = 1 if named else 0
    sign = named or separator_of(head_line(lines[begin:]), sheet.form.known)
    rows = csv.reader(lines[begin:], delimiter=sign, skipinitialspace=True, strict=True)
    records: List[Record] = []
    line = begin + 1
    try:
        for fields in rows:
            fields = [trimmed(it) for it in fields]
            if any(fields):
                records.append((line, fields))
            line = begin + rows.line_num + 1
        sheet.whole = True
    except csv.Error:
        faults.add(sheet, line, "a quote is opened and not closed, or text stands behind a closing one; "
                                "the rows from here on aren't read")
    return records


def columns_of(sheet: Sheet, record: Record, faults: FaultList) -> Optional[List[Optional[str]]]:
    """Returns which column stands at each place of a sheet's rows, "" where no heading stands and None where it isn't
    read; or None where the headings have faults."""
    line, fields = record
    form, words = sheet.form, [heading(it) for it in fields]
    if not any(it in form.known for it in words):
        faults.add(sheet, line, f"no headings; the first row has to name the columns: {', '.join(form.wanted)}")
        return None
    missing = form.missing(words)
    double = [it for it in form.known if words.count(it) > 1 and it != form.repeated]
    for name in missing:
        faults.add(sheet, line, f"no column {name}")
    for name in double:
        faults.add(sheet, line, f"the column {name} stands twice")
    both = [pair for pair in form.instead.items() if set(pair) <= set(words)]
    for name, other in both:
        faults.add(sheet, line, f"both {name} and {other}; give one of them")
    sheet.unread = [text for word, text in zip(words, fields) if text and word not in form.known]
    sheet.columns = set(words) & set(form.known)
    return None if missing or double or both else places_of(form, words)


def places_of(form: Form, words: List[str]) -> List[Optional[str]]:
    """Returns the column of each place; one without a heading belongs to a repeated column that stands before it."""
    columns: List[Optional[str]] = []
    for word in words:
        further = not word and columns and columns[-1] == form.repeated and form.repeated
        columns.append(form.repeated if further else word if word in form.known or not word else None)
    return columns


def fields_of(sheet: Sheet, record: Record, columns: List[Optional[str]], faults: FaultList) -> Fields:
    """Returns a row's fields by heading: a text, and for a column that may be repeated a list of texts."""
    line, fields = record
    repeated = sheet.form.repeated
    row: Fields = {name: [] if name == repeated else "" for name in sheet.form.known}
    behind = repeated if repeated and columns[-1] == repeated else ""
    for place, text in enumerate(fields):
        name = columns[place] if place < len(columns) else behind
        if name == "" and text:
            faults.add(sheet, line, f"{shown(text)} stands below no heading, in column {place + 1}")
        elif name and name == repeated:
            row[name].append(text)
        elif name:
            row[name] = text
    return row


def is_workbook(data: bytes) -> bool:
    return data.startswith((b"PK\x03\x04", b"\xd0\xcf\x11\xe0"))


def read_sheet(order: int, path: str, form: Form, faults: FaultList) -> Sheet:
    """Returns a sheet as it stands in a file; a part of it where it has faults."""
    sheet = Sheet(order, path, form)
    data = texts.read_bytes(path)
    if is_workbook(data):
        faults.add(sheet, 1, "this is a workbook; export the sheet as CSV")
        return sheet
    records = records_in(sheet, texts.text_of(data), faults)
    if not records:
        if sheet.whole:
            wanted = ", ".join(form.wanted)
            faults.add(sheet, 1, f"the sheet is empty; its first row has to name the columns: {wanted}")
        sheet.whole = False
        return sheet
    columns = columns_of(sheet, records[0], faults)
    if columns is None:
        sheet.whole = False
        return sheet
    sheet.rows = [(record[0], fields_of(sheet, record, columns, faults)) for record in records[1:]]
    return sheet


def path_in(folder: str, form: Form) -> str:
    return os.path.join(folder, form.name)


# --- Fields ----------------------------------------------------------------------------------------------------------


def shown(text: str) -> str:
    return f"`{text if len(text) <= 40 else text[:37] + '...'}`"


def decimal(text: str) -> Optional[Fraction]:
    """Returns the number that a text with or without decimals writes; None where there is none, or where its three
    digits behind a point or comma may be thousands."""
    found = NUMBER.fullmatch(text)
    if not found or (found[2] and len(found[2]) == 3 and int(found[1])):
        return None
    return Fraction(f"{found[1]}.{found[2] or 0}")


class Row:
    """A row whose fields are judged one by one; each fault is kept with what the row is about."""

    def __init__(self, sheet: Sheet, line: int, about: str, faults: FaultList):
        self.sheet, self.line, self.about, self.faults = sheet, line, about, faults
        self.good = True

    def told(self, text: str) -> str:
        return f"{self.about}: {text}" if self.about else text

    def fault(self, text: str) -> None:
        self.good = False
        self.faults.add(self.sheet, self.line, self.told(text))

    def fault_once(self, kind: str, name: str, text: str) -> None:
        """Keeps a fault of a name, which is reported at the first line that has it."""
        self.good = False
        self.faults.add_once((kind, name), self.sheet, self.line, self.told(text))

    def name(self, kind: str, text: str) -> Optional[str]:
        """Returns a name, or None where the text isn't one."""
        if NAME.fullmatch(text):
            return text
        if not text:
            self.fault(f"no {kind}")
        elif len(text) > MAX_NAME:
            self.fault_once(kind, text, f"the {kind} {shown(text)} has {len(text)} signs; "
                                        f"a name has at most {MAX_NAME}")
        else:
            bad = ", ".join(sorted({"a blank" if it.isspace() else it for it in text if not NAME.fullmatch(it)}))
            self.fault_once(kind, text, f"the {kind} {shown(text)} has {bad}; "
                                        "names have letters a to z, digits and _ . : - alone")
        return None

    def known(self, kind: str, text: str, names: Collection[str], whole: bool) -> Optional[str]:
        """Returns a name that was declared, or None. Where not all that are declared were read, any name will do."""
        name = self.name(kind, text)
        return name if name is None else self.listed(kind, name, names, whole)

    def listed(self, kind: str, text: str, names: Collection[str], whole: bool) -> Optional[str]:
        """Returns a text that was declared, whatever its signs, or None."""
        if text in names:
            return text
        if not text:
            self.fault(f"no {kind}")
        elif whole:
            self.fault_once(kind, text, f"unknown {kind} {text}{near_name(text, names)}")
        return None

    def whole_number(self, what: str, text: str, least: int, most: int, hint: str = "") -> Optional[int]:
        """Returns a whole number within its range, or None."""
        value = decimal(text)
        is_not = "aren't" if what in ("metres", "vehicles") else "isn't"
        if not text:
            self.fault(f"no {what}")
        elif value is None:
            self.fault(f"{what} {shown(text)} {is_not} a number; write digits alone")
        elif value.denominator != 1:
            self.fault(f"{what} {shown(text)} {is_not} whole" + (f"; {hint}" if hint else ""))
        elif not least <= value <= most:
            self.fault(f"{what} {int(value)} {is_not} within {least} and {most}")
        else:
            return int(value)
        return None

    def amount(self, what: str, text: str, most: int) -> Optional[Fraction]:
        """Returns an amount of money, or None."""
        value = decimal(text)
        if not text:
            self.fault(f"no {what}")
        elif value is None:
            self.fault(f"{what} {shown(text)} isn't an amount such as 24 or 24.50")
        elif value > most:
            self.fault(f"{what} {shown(text)} is more than {most}")
        else:
            return value
        return None

    def drive_time(self, text: str) -> Optional[int]:
        """Returns how long a drive takes, in parts of a minute, or None."""
        value, length = decimal(text), LENGTH.fullmatch(text)
        if not text:
            self.fault("no minutes")
            return None
        if length:
            parts = (int(length[1]) * 60 + int(length[2])) * PARTS + int(length[3]) * (PARTS // 60)
        elif value is not None and (value * 100).denominator == 1:
            parts = int(value * PARTS)
        else:
            self.fault(f"minutes {shown(text)} aren't a number such as 12 or 7.5, nor a time such as 0:07:30")
            return None
        if not 0 < parts <= MAX_MINUTES * PARTS:
            self.fault(f"minutes {shown(text)} aren't above 0 and at most {MAX_MINUTES}")
            return None
        return parts

    def time(self, what: str, text: str) -> Optional[int]:
        """Returns a minute of the day, or None."""
        found = TIME.fullmatch(text)
        if not text:
            self.fault(f"no {what}")
        elif not found:
            self.fault(f"{what} {shown(text)} isn't a time such as 8:05 or 24:20; give the column the format [h]:mm")
        elif found[3] and int(found[3]):
            self.fault(f"{what} {shown(text)} has seconds; times are whole minutes")
        elif int(found[1]) * 60 + int(found[2]) > LAST_MINUTE:
            self.fault(f"{what} {shown(text)} is past 47:59")
        else:
            return int(found[1]) * 60 + int(found[2])
        return None


def near_name(name: str, names: Collection[str]) -> str:
    """Returns a question after a name that is nearly this one, or nothing."""
    small = {it.lower(): it for it in names}
    near = [small[name.lower()]] if name.lower() in small else difflib.get_close_matches(name, names, 1)
    return f"; is it {near[0]}?" if near else ""


def declare(row: Row, kind: str, name: Optional[str], declared: Dict[str, int], most: int) -> bool:
    """Declares a name at a row's line, once and as long as there is room; returns whether it did."""
    if name is None:
        return False
    if name in declared:
        row.fault(f"the {kind} {name} stands twice, first on line {declared[name]}")
        return False
    declared[name] = row.line
    if len(declared) == most + 1:
        row.fault(f"the {kind} {name} is one too many; there may be {most}")
    return True
