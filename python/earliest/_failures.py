"""What calls raise."""
from __future__ import annotations

from typing import Any, Optional

NAMES = {
    1: "NoProblemLine", 2: "SecondProblemLine", 3: "UnknownLine", 4: "FieldCount", 5: "BadNumber", 6: "OutOfRange", 7: "TooManyLines",
    8: "TooFewLines", 9: "BadKind", 13: "OutOfMemory", 16: "NoRoad", 17: "NoSearch", 18: "NoSuchNode", 19: "BeyondHorizon",
    20: "NotAsked", 21: "NoWalks", 22: "NotReached", 23: "LengthsDiffer", 24: "RoomTooSmall", 25: "Busy", 26: "NotWorth", 27: "NoOrder", 31: "BadLine",
    32: "NotAttained", 33: "NotLeast", 35: "NotCanonical",
}
"""The name of each number, as in earliest.h."""

MEANINGS = {
    1: "the problem line `p ..` is missing",
    2: "there is a second problem line",
    3: "lines of this file don't begin with this word",
    4: "the line has too few or too many fields",
    5: "a field is not a number",
    6: "a number is out of its range",
    7: "there are more lines of this sort than were announced",
    8: "there are fewer lines than were announced",
    9: "a kind word is not the one expected here",
    13: "there is not enough memory",
    16: "the road is closed",
    17: "the search is closed",
    18: "this is not a node of the road",
    19: "a departure is not within 0 to the horizon",
    20: "the last query asked for another node alone",
    21: "the search was made without room for walks",
    22: "no walk reaches the node within the horizon",
    23: "lists that belong together have different lengths",
    24: "the room is not that of the result",
    25: "another thread is in a call with this search",
    26: "the road is not worth a preparation or a layout",
    27: "the list is no order of the nodes: one is missing, or there twice",
    31: "a line is not what its place asks",
    32: "a line is not attained",
    33: "a line is not the least arrival",
    35: "a line is not the canonical walk",
}
"""What each number means, in words."""


class Failure(Exception):
    """A call was refused.

    `number` and `name` are those of earliest.h, `value` is what was refused (a number, the name of a node, a line), or None.
    `file` and `line` are None but for an InputFailure. Two failures are equal if all of these are.
    """

    file: Optional[str] = None
    line: Optional[int] = None

    def __init__(self, number: int, why: str = "", value: Any = None):
        self.number, self.name, self.value, self._why = number, NAMES.get(number, "Unknown"), value, why
        super().__init__(self._told())

    def _told(self) -> str:
        return f"{self.number} {self.name}: {self._why or MEANINGS.get(self.number, 'this is no number of a call')}"

    def _parts(self):
        return (self.number, self._why, self.value)

    def __reduce__(self):
        return type(self), self._parts()

    def __eq__(self, other):
        if type(other) is not type(self):
            return NotImplemented
        return repr(self._parts()) == repr(other._parts())

    def __hash__(self):
        return hash((type(self), self.number, self.file, self.line))


class InputFailure(Failure):
    """A text has a fault.

    `file` is a path, or "gr", "tp" or "report" if the text came from memory; `line` counts from 1, and is 0 for a fault of the whole text;
    `number` and `name` as in Failure; `value` is the text of the line, or the arc of lists, or None.
    """

    def __init__(self, file: str, line: int, number: int, value: Any = None):
        self.file, self.line = file, line
        super().__init__(number, "", value)

    def _told(self) -> str:
        shown = "" if self.value is None else f": `{self.value}`" if isinstance(self.value, str) else f": {self.value}"
        return f"{self.file} {self.line}: {super()._told()}{shown[:200]}"

    def _parts(self):
        return (self.file, self.line, self.number, self.value)


class Busy(Failure):
    """A second thread called a search while a first one was in a call with it. Nothing was done; make a search for each thread."""

    def __init__(self, why: str = ""):
        super().__init__(25, why or "another thread is in a call with this search; make one search for each thread")

    def _parts(self):
        return (self._why,)


def test(number: int, why: str = "", value: Any = None) -> None:
    """Raises what a call of the library came to, if it was refused."""
    if number == 13:
        raise MemoryError("13 OutOfMemory")
    if number:
        raise Failure(number, why, value)
