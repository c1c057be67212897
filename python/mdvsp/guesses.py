"""What was guessed while a feed became a timetable: how often each kind, and the ten largest."""

from __future__ import annotations

from typing import Dict, List, Tuple

LARGEST = 10


class Guesses:
    """Guesses by kind, each with its size and its words."""

    def __init__(self) -> None:
        self.kinds: Dict[str, List[Tuple[float, str]]] = {}

    def add(self, kind: str, size: float, words: str) -> None:
        self.kinds.setdefault(kind, []).append((size, words))

    def count(self, kind: str) -> int:
        return len(self.kinds.get(kind, []))

    def lines(self) -> List[str]:
        """Returns the kinds with their counts, and below each its ten largest."""
        lines = []
        for kind, found in self.kinds.items():
            largest = sorted(found, key=lambda it: -it[0])[:LARGEST]
            more = ", of which the ten largest" if len(found) > LARGEST else ""
            lines.append(f"{kind}: {len(found)}{more}")
            lines += [f"  {words}" for _, words in largest]
        return lines
