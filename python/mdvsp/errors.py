"""Why a command can't do what it was asked; each class has the status with which `mdvsp-plan` ends then."""

from __future__ import annotations

from typing import List


class PlanError(Exception):
    """Something that a command reports in words, without a trace."""

    status = 3


class InputError(PlanError):
    """A text or a sheet that isn't what it has to be."""


class Faults(InputError):
    """All that is wrong with an input, a line for each."""

    def __init__(self, lines: List[str]):
        super().__init__("\n".join(lines))
        self.lines = lines


class NoPlan(PlanError):
    """Blocks that are no plan, with all that is wrong with them, a line for each."""

    status = 1

    def __init__(self, lines: List[str]):
        super().__init__("\n".join(lines))
        self.lines = lines


class Unreadable(PlanError):
    """A file that can't be read."""

    status = 4


class Unwritable(PlanError):
    """A file that can't be written."""

    status = 5
