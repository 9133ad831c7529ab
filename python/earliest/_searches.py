"""Searches: arrays of the library that serve query after query, for one thread at a time."""
from __future__ import annotations

import ctypes
import threading
from typing import TYPE_CHECKING, Any, List, Optional

from . import _numbers
from ._answers import Answer
from ._failures import Busy, test
from ._library import Handle, library
from ._times import Times, is_one_time

if TYPE_CHECKING:
    from ._engine import Road


class Alone:
    """Lets one thread in. Another one waits, or is refused at once (`Busy`)."""

    def __init__(self, waits: bool):
        self.lock, self.waits = threading.Lock(), waits

    def __enter__(self):
        if not self.lock.acquire(self.waits):
            raise Busy()

    def __exit__(self, *_):
        self.lock.release()


class Search:
    """The arrays of a search on a road, used query after query. It is for one thread at a time: a call by a second thread, while a first
    one is in a call, is refused with `Busy` and does nothing. It has a share of its road, which may be closed before it."""

    def __init__(self, road: Road, walks: bool = True, *, waits: bool = False):
        """A search on a road, with room for walks or without. With `waits` a second thread waits for its turn in place of being refused."""
        self._handle, self._road, self._turn, self._alone, self._walks = Handle(), road, 0, Alone(waits), bool(walks)
        self._closed = False
        with road._core.lock:
            number = library().earliest_search_new(road._core.handle, 1 if walks else 0, self._handle)
        test(number)

    @property
    def road(self) -> Road:
        """The road that it searches on."""
        return self._road

    def __repr__(self):
        if self._closed:
            return "<earliest.Search, closed>"
        return f"<earliest.Search {'with' if self._walks else 'without'} walks on {self._road!r}>"

    def __copy__(self):
        raise TypeError("a search can't be copied: make another one by road.searcher()")

    def __deepcopy__(self, memo):
        return self.__copy__()

    def __reduce__(self):
        raise TypeError("a search can't be pickled: pass its road, and make a search there by road.searcher()")

    def __enter__(self):
        return self

    def __exit__(self, *_):
        self.close()

    def close(self) -> None:
        """Lets the search go; every later call is a Failure (17 NoSearch)."""
        with self._alone:
            library().earliest_search_free(self._handle)
            self._closed = True

    def __del__(self):
        if getattr(self, "_handle", None) is not None and self._handle.at:
            library().earliest_search_free(self._handle)

    def find(self, sources: Any, departures: Any = None, *, joint: bool = False, unit: Optional[str] = None, origin: Any = None,
             masked: bool = False, as_float: bool = False) -> "Answer":
        """The earliest arrivals at all nodes from one source, or with `joint` from the sources of a list as one problem. The answer is good
        until the next query of this search, and a RuntimeError after it. Departures and how times are written as in `Road.arrivals`."""
        times = Times(unit, origin, masked, as_float)
        nodes, when = self._road._starts(sources, departures, times)
        if len(nodes) != 1 and not joint:
            raise ValueError(f"one query has one source, not {len(nodes)}: say joint=True for one problem with all of them, or use road.search for a problem each")
        return self._found(nodes, when, times)

    def _found(self, nodes, when, times: Times) -> "Answer":
        with self._alone:
            number = library().earliest_search_from(self._handle, _numbers.address(nodes), len(nodes), _numbers.address(when), len(when))
            test(number)
            self._turn += 1
            return Answer(self._road, nodes, when, times, Latest(self, self._turn))

    def pair(self, source: Any, departure: Any, target: Any, *, unit: Optional[str] = None, origin: Any = None, as_float: bool = False) -> Any:
        """The earliest arrival at a target from a source that is left at a departure; None if no walk reaches it within the horizon."""
        times = Times(unit, origin, False, as_float)
        if departure is None or not is_one_time(departure):
            raise TypeError(f"a pair has one departure, not {departure!r}")
        start, end = self._road.number(source), self._road.number(target)
        when, found = int(times.departures(departure, 1)[0]), ctypes.c_uint64()
        with self._alone:
            test(library().earliest_search_pair(self._handle, start, when, end))
            self._turn += 1
            test(library().earliest_search_arrival(self._handle, end, found))
        return times.told_one(found.value)

    # What answers ask for, each under the lock and of the query that they are about.

    def _of(self, turn: int):
        if self._turn != turn:
            raise RuntimeError("the search has answered a later query")

    def _arrivals(self, turn: int):
        with self._alone:
            self._of(turn)
            out = _numbers.room((self._road.nodes,))
            test(library().earliest_search_arrivals(self._handle, _numbers.address(out), len(out)))
            return out

    def _arrival(self, turn: int, node: int) -> int:
        found = ctypes.c_uint64()
        with self._alone:
            self._of(turn)
            test(library().earliest_search_arrival(self._handle, node, found))
        return found.value

    def _walk(self, turn: int, node: int) -> Optional[List[int]]:
        room, count = 256, ctypes.c_uint64()
        with self._alone:
            self._of(turn)
            while True:
                out = (ctypes.c_uint32 * room)()
                number = library().earliest_search_walk(self._handle, node, out, room, count)
                if number != 24:
                    break
                room = count.value
        if number == 22:
            return None
        test(number)
        return out[: count.value]


class LatestSearch:
    """The arrays of a search for latest departures on a road, for one thread."""

    def __init__(self, road: Road):
        self.handle, self.nodes = Handle(), road.nodes
        road._core.fill_latest(self.handle)

    def __del__(self):
        if self.handle.at:
            library().earliest_search_free(self.handle)

    def until(self, target: int, by: int, into: Any) -> None:
        """Writes the latest departures of all nodes that are in time at a target into an array of as many times as nodes."""
        nodes, times = ctypes.c_uint32(target), ctypes.c_uint64(by)
        test(library().earliest_search_until(self.handle, ctypes.byref(nodes), 1, ctypes.byref(times), 1))
        test(library().earliest_search_departures(self.handle, _numbers.address(into), self.nodes))

    def pair(self, source: int, target: int, by: int) -> int:
        """The latest departure from a source that is in time at a target, NEVER if none is."""
        found = ctypes.c_uint64()
        test(library().earliest_search_pair_until(self.handle, source, target, by))
        test(library().earliest_search_departure(self.handle, source, found))
        return found.value


class Latest:
    """What a search's query found, until its next one."""

    def __init__(self, search: Search, turn: int):
        self.search, self.turn, self.walks = search, turn, search._walks

    def arrivals(self):
        return self.search._arrivals(self.turn)

    def arrival(self, node: int) -> int:
        return self.search._arrival(self.turn, node)

    def walk(self, node: int) -> Optional[List[int]]:
        return self.search._walk(self.turn, node)
