"""Names in the signs that a timetable's text has, and distances by the crow's flight."""

from __future__ import annotations

import math
import re
import unicodedata
from typing import NamedTuple, Set

from .limits import MAX_NAME

# Letters that are written out, where leaving their marks away would be another letter.
WRITTEN_OUT = {
    "ä": "ae", "ö": "oe", "ü": "ue", "Ä": "Ae", "Ö": "Oe", "Ü": "Ue", "ß": "ss", "æ": "ae", "Æ": "Ae", "ø": "oe",
    "Ø": "Oe", "å": "aa", "Å": "Aa", "œ": "oe", "Œ": "Oe", "ł": "l", "Ł": "L", "đ": "d", "Đ": "D", "ð": "d", "þ": "th",
    "ı": "i", "&": " and ",
}
EARTH_RADIUS = 6_371_000


class Point(NamedTuple):
    """A point on the earth, in degrees."""

    lat: float
    lon: float


def metres_between(first: Point, second: Point) -> float:
    """Returns how far two points are apart, by the crow's flight."""
    lat, other = math.radians(first.lat), math.radians(second.lat)
    half_lat, half_lon = (other - lat) / 2, math.radians(second.lon - first.lon) / 2
    part = math.sin(half_lat) ** 2 + math.cos(lat) * math.cos(other) * math.sin(half_lon) ** 2
    return 2 * EARTH_RADIUS * math.asin(min(1.0, math.sqrt(part)))


def ascii_name(text: str) -> str:
    """Returns a text in letters, digits and signs of `_ . : -`; nothing where none of its letters can be written."""
    written = "".join(WRITTEN_OUT.get(sign, sign) for sign in unicodedata.normalize("NFC", text))
    plain = unicodedata.normalize("NFKD", written).encode("ascii", "ignore").decode()
    return re.sub(r"_+", "_", re.sub(r"[^A-Za-z0-9_.:-]+", "_", plain.replace("'", ""))).strip("_")


class Names:
    """Names of one kind, all different."""

    def __init__(self) -> None:
        self.taken: Set[str] = set()

    def new(self, text: str, fallback: str) -> str:
        """Returns a name for a text; one for the fallback where the text has no letter that can be written."""
        stem = ascii_name(text) or ascii_name(fallback) or "x"
        name, count = stem[:MAX_NAME], 1
        while name in self.taken:
            count += 1
            ending = f"-{count}"
            name = stem[: MAX_NAME - len(ending)] + ending
        self.taken.add(name)
        return name
