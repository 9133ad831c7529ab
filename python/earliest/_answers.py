"""What searches found."""
from __future__ import annotations

import threading
from typing import TYPE_CHECKING, Any, Dict, Hashable, List, Optional, Sequence, Tuple

from . import _numbers
from ._failures import Failure
from ._library import NEVER
from ._numbers import numpy
from ._times import PLAIN, Times

if TYPE_CHECKING:
    from ._engine import Road


class Row:
    """One problem of several: its row is there, and its walks are found by another search when one is asked for."""

    def __init__(self, answers: "Answers", at: int):
        self.answers, self.at, self.walks = answers, at, answers._walks

    def arrivals(self):
        return self.answers._raw[self.at]

    def arrival(self, node: int) -> int:
        return int(self.answers._raw[self.at][node - 1])

    def walk(self, node: int) -> Optional[List[int]]:
        return self.answers._walk(self.at, node)


class Answer:
    """What one problem came to: arrivals at all nodes, and walks. Nodes are named by their names if the road has names, else by their numbers."""

    def __init__(self, road: Road, sources, departures, times: Times, found: Any):
        self._road, self._sources, self._departures, self._times, self._found = road, sources, departures, times, found

    @property
    def road(self) -> Road:
        """The road that was searched."""
        return self._road

    @property
    def sources(self) -> List[Hashable]:
        """The nodes that were started from: one, or with `joint` those of the list."""
        return [self._road.name(int(it)) for it in self._sources]

    @property
    def departures(self) -> List[int]:
        """When each source was left, in the road's own times."""
        return [int(it) for it in self._departures]

    @property
    def arrivals(self) -> Any:
        """The earliest arrivals with the shape (nodes,), the first that of node 1: uint64 with NEVER for a node that is not reached within
        the horizon, or as `unit`, `origin`, `masked` and `as_float` of the search say. Without NumPy an array.array("Q")."""
        return self._times.told(self._found.arrivals())

    def arrival(self, node: Any) -> Any:
        """The earliest arrival at a node; None if no walk reaches it within the horizon."""
        return self._times.told_one(self._found.arrival(self._road.number(node)))

    def walk(self, node: Any) -> Optional[List[int]]:
        """The numbers of the arcs of a node's canonical walk, first arc first, [] at a source; None if no walk reaches the node within the
        horizon."""
        return self._found.walk(self._road.number(node))

    def path(self, node: Any) -> Optional[List[Hashable]]:
        """The nodes of a node's walk, from a source to the node itself; None if it is not reached."""
        walk = self.walk(node)
        if walk is None:
            return None
        tails, _ = self._road.ends()
        return [*(self._road.name(int(tails[arc - 1])) for arc in walk), node]

    def edges(self, node: Any) -> Optional[List[Any]]:
        """The arcs of a node's walk as their source calls them (`road.edges`), else their numbers; None if the node is not reached."""
        walk = self.walk(node)
        if walk is None or self._road.edges is None:
            return walk
        return [self._road.edges[arc - 1] for arc in walk]

    def reached(self) -> Dict[Hashable, Any]:
        """The arrival at each node that is reached, by name or number."""
        raw = self._found.arrivals()
        names = self._road.names or range(1, self._road.nodes + 1)
        return {name: self._times.told_one(int(time)) for name, time in zip(names, raw) if time != NEVER}

    def series(self, name: str = "arrival") -> Any:
        """The arrivals as a pandas Series whose index has the names or numbers of the nodes, missing for a node that is not reached: UInt64,
        timedelta64[ns] with `unit`, datetime64[ns] with `origin`, float64 with `as_float`."""
        return series_of(self._road, self._found.arrivals(), self._times, name)

    def __repr__(self):
        shown = ", ".join(f"{source!r} at {time}" for source, time in zip(self.sources[:3], self.departures))
        return f"<earliest.Answer from {shown or 'no source'}{', ..' if len(self._sources) > 3 else ''}>"

    def __reduce__(self):
        kept = Answers(self._road, self._sources[:1], self._departures[:1], [self._found.arrivals()], self._found.walks, self._times)
        kept._starts = [(self._sources, self._departures)]
        return _row_of, (kept,)


def _row_of(answers: "Answers") -> Answer:
    return answers[0]


class Answers(Sequence[Answer]):
    """What several problems came to, in the order of their sources: `answers[i]` is the Answer of source i, counted from 0."""

    def __init__(self, road: Road, sources, departures, raw, walks: bool, times: Times):
        self._road, self._raw, self._walks, self._times = road, raw, walks, times
        self._starts: List[Tuple[Any, Any]] = [(sources[at : at + 1], departures[at : at + 1]) for at in range(len(sources))]
        self._reset()

    def _reset(self):
        if numpy is not None and isinstance(self._raw, numpy.ndarray):
            self._raw.flags.writeable = False
        self._lock, self._search, self._searched = threading.Lock(), None, -1

    @property
    def road(self) -> Road:
        """The road that was searched."""
        return self._road

    @property
    def sources(self) -> List[Hashable]:
        """The source of each problem."""
        return [self._road.name(int(it)) for nodes, _ in self._starts for it in nodes]

    @property
    def departures(self) -> List[int]:
        """When each source was left, in the road's own times."""
        return [int(it) for _, when in self._starts for it in when]

    @property
    def arrivals(self) -> Any:
        """The earliest arrivals with the shape (problems, nodes), as `Road.arrivals` gives them; not to be written to."""
        return self._times.told(self._raw)

    def __len__(self):
        return len(self._starts)

    def __getitem__(self, at):
        if isinstance(at, slice):
            return [self[it] for it in range(*at.indices(len(self)))]
        place = _numbers.whole(at, "the place of an answer")
        if not -len(self) <= place < len(self):
            raise IndexError(f"there are {len(self)} answers, from 0 on, and none at {place}")
        place %= len(self)
        return Answer(self._road, *self._starts[place], self._times, Row(self, place))

    def __getattr__(self, name):
        if name in ("arrival", "walk", "path", "edges", "reached", "series"):
            raise AttributeError(f"a list of sources has an answer for each of them: take one, as found[0].{name}, or pass one node in place of a list")
        raise AttributeError(f"'Answers' object has no attribute {name!r}")

    def _walk(self, at: int, node: int) -> Optional[List[int]]:
        """A walk of one problem, by a search that goes from problem to problem."""
        if not self._walks:
            raise Failure(21)
        with self._lock:
            if self._search is None:
                self._search = self._road.searcher()
            if self._searched != at:
                self._searched = -1
                self._search._found(*self._starts[at], PLAIN)
                self._searched = at
            return self._search._walk(self._search._turn, node)

    def __repr__(self):
        return f"<earliest.Answers of {len(self)} problems on {self._road!r}>"

    def __getstate__(self):
        return {name: value for name, value in self.__dict__.items() if name not in ("_lock", "_search", "_searched")}

    def __setstate__(self, state):
        self.__dict__.update(state)
        self._reset()


def series_of(road: Road, raw, times: Times, name: str):
    """Arrivals at all nodes as a pandas Series by name."""
    try:
        import pandas
    except ImportError as error:
        raise ImportError("a series needs pandas: install it by `pip install pandas` or `apt-get install python3-pandas`") from error
    index = pandas.Index(list(road.names) if road.names is not None else range(1, road.nodes + 1), name="node", tupleize_cols=False)
    told = Times(times.unit, times.origin, False, times.as_float) if times.unit or times.as_float else PLAIN
    values = told.told(raw)
    if times.unit and not times.as_float:
        kind = "datetime64[ns]" if times.origin is not None else "timedelta64[ns]"
        exact = values.astype(kind)
        if ((exact.astype(values.dtype) != values) & (raw != NEVER)).any():
            raise OverflowError("a time is beyond what pandas can hold: ask for as_float=True")
        return pandas.Series(exact, index=index, name=name)
    if times.as_float:
        return pandas.Series(values, index=index, name=name)
    return pandas.Series(pandas.arrays.IntegerArray(raw.copy(), raw == NEVER), index=index, name=name)
