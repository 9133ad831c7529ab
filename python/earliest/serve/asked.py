"""What a request asks for: its parameters, by the table of its route."""
from __future__ import annotations

import math
import re
from typing import Any, Dict, List, NamedTuple

import numpy

from .._failures import Failure
from .._library import HORIZON
from .ground import Ground


class Problem(Exception):
    """A refusal: an HTTP status, a name, a sentence, and how many seconds later the request may be sent again."""

    def __init__(self, status: int, name: str, detail: str, retry: int = 0, value: Any = None):
        super().__init__(detail)
        self.status, self.name, self.detail, self.retry, self.value = status, name, detail, retry, value


class Parameter(NamedTuple):
    """A parameter of a route."""

    name: str
    kind: str
    """One of KINDS."""
    needed: bool
    about: str
    example: str


KINDS = {
    "node": "a node: its number from 1, or its name",
    "nodes": "nodes: numbers or names between commas, or a range as 1-100; the parameter may be repeated",
    "time": "a time from 0 to the horizon",
    "times": "one time for all, or as many times as nodes, between commas",
    "length": "a length of time, at least 1",
    "number": "a decimal number",
    "flag": "true or false",
}


class Asked:
    """The values of a request's parameters, None for one that isn't given."""

    def __init__(self, query: Any, table: List[Parameter], ground: Ground, values: int):
        known = {it.name: it for it in table}
        for name in query:
            if name not in known:
                raise Problem(400, "UnknownParameter", f"there is no parameter {name[:60]!r}; there are {', '.join(known) or 'none'}", value=name[:60])
        self.most, self.ground, self.given = values, ground, {}  # type: int, Ground, Dict[str, Any]
        for it in table:
            texts = query.getall(it.name, [])
            if not texts and it.needed:
                raise Problem(400, "MissingParameter", f"the parameter {it.name} is missing: {it.about}", value=it.name)
            if len(texts) > 1 and it.kind not in ("nodes", "times"):
                raise Problem(400, "BadParameter", f"the parameter {it.name} is given twice", value=it.name)
            self.given[it.name] = getattr(self, "_" + it.kind)(it.name, texts) if texts else None

    def __getattr__(self, name: str) -> Any:
        try:
            return self.given[name]
        except KeyError:
            raise AttributeError(name) from None

    def times_for(self, times: Any, count: int) -> Any:
        """Times for a number of problems: 0 if none are given, one for all, or as many."""
        if times is None:
            return numpy.zeros(count, dtype=numpy.uint64)
        if len(times) == 1:
            return numpy.full(count, times[0], dtype=numpy.uint64)
        if len(times) != count:
            raise Failure(23, f"there are {count} nodes and {len(times)} times", [count, len(times)])
        return times

    def fits(self, count: int) -> None:
        """Refuses a reply that is too large."""
        if count > self.most:
            raise Problem(413, "TooLarge", f"the reply would have {count} numbers, and the limit is {self.most}", value=count)

    def _node(self, name: str, texts: List[str]) -> int:
        return self.ground.number(texts[0])

    def _nodes(self, name: str, texts: List[str]) -> Any:
        found: List[int] = []
        for text in texts:
            for part in [text] if text in self.ground.numbers else text.split(","):
                ends = re.fullmatch(r"([0-9]{1,10})-([0-9]{1,10})", part)
                if ends and part not in self.ground.numbers:
                    first, last = self.ground.number(ends[1]), self.ground.number(ends[2])
                    if first > last:
                        raise Problem(400, "BadParameter", f"the range {part} of {name} is empty", value=part)
                    self.fits(len(found) + last - first + 1)
                    found.extend(range(first, last + 1))
                else:
                    found.append(self.ground.number(part))
        self.fits(len(found))
        return numpy.array(found, dtype=numpy.uint32)

    def _time(self, name: str, texts: List[str]) -> int:
        if not re.fullmatch(r"-?[0-9]{1,40}", texts[0]):
            raise Problem(400, "BadParameter", f"{name} has to be a whole number, not {texts[0][:60]!r}", value=texts[0][:60])
        time = int(texts[0])
        if not 0 <= time <= HORIZON:
            raise Failure(19, f"{name} is a time from 0 to {HORIZON}, not {time}", time)
        return time

    def _times(self, name: str, texts: List[str]) -> Any:
        parts = [part for text in texts for part in text.split(",")]
        self.fits(len(parts))
        return numpy.array([self._time(name, [part]) for part in parts], dtype=numpy.uint64)

    def _length(self, name: str, texts: List[str]) -> int:
        length = self._time(name, texts)
        if length < 1:
            raise Problem(400, "BadParameter", f"{name} has to be at least 1", value=length)
        return length

    def _number(self, name: str, texts: List[str]) -> float:
        try:
            number = float(texts[0])
        except ValueError:
            number = math.nan
        if not math.isfinite(number):
            raise Problem(400, "BadParameter", f"{name} has to be a number, not {texts[0][:60]!r}", value=texts[0][:60])
        return number

    def _flag(self, name: str, texts: List[str]) -> bool:
        if texts[0] not in ("true", "false"):
            raise Problem(400, "BadParameter", f"{name} is true or false, not {texts[0][:60]!r}", value=texts[0][:60])
        return texts[0] == "true"
