"""Roads, over the calls of include/earliest.h."""
from __future__ import annotations

import array
from typing import Any, Hashable, Iterable, Optional, Sequence, Tuple

from . import _numbers, _texts, _threads
from ._answers import Answers
from ._cores import Core, made_again, of_lists, of_texts
from ._failures import Failure, InputFailure, test
from ._library import HORIZON, Fault, Starts, library
from ._names import Names
from ._numbers import numpy
from ._searches import Search
from ._times import Times, is_one_time


class Road:
    """A road network with its timetables. It never changes, and threads may search on it at the same time.

    Nodes and arcs are numbered from 1. If the road has names, all calls and answers speak of nodes by their names in place of numbers.
    A copy is the road itself. A pickle has the paths of the files that the road was read from, or else the texts or lists it was made of;
    it leaves out the preparation of `prepare`.
    """

    _core: Core
    _names: Optional[Names]
    _edges: Optional[Sequence[Any]]
    _places: Any = None

    def __init__(self, gr: bytes, tp: Optional[bytes] = None, files: Sequence[str] = ("gr", "tp")):
        """The road of the text of a network (.gr) and of that of its timetables (.tp), as bytes. `files` names them in failures."""
        for text, word in ((gr, "gr"), (tp, "tp")):
            if (text is not None or word == "gr") and not isinstance(text, (bytes, bytearray, memoryview)):
                raise TypeError(f"the text {word} has to be bytes, not {type(text).__name__}; Road.read takes paths and files")
        texts = [None if text is None else _texts.unpacked(bytes(text), name) for text, name in zip((gr, tp), files)]
        self._core, self._names, self._edges = of_texts(texts[0], texts[1], files), None, None  # type: ignore[arg-type]

    @classmethod
    def _over(cls, core: Core, names: Optional[Names], edges: Optional[Sequence[Any]], places: Any = None) -> "Road":
        road = cls.__new__(cls)
        road._core, road._names, road._edges, road._places = core, names, edges, places
        return road

    # Ways to make one

    @classmethod
    def read(cls, gr: _texts.Source, tp: Optional[_texts.Source] = None) -> "Road":
        """The road of a network (.gr) and, if there are any, of its timetables (.tp).

        Each is a path, a file that is open for reading, or bytes, packed by gzip or not. A fault is an InputFailure with file and line.
        """
        text, name, path = _texts.text_of(gr, "gr")
        times, of_times, path_of_times = (None, "tp", None) if tp is None else _texts.text_of(tp, "tp")
        return cls._over(of_texts(text, times, (name, of_times), (path, path_of_times)), None, None)

    @classmethod
    def of_arcs(cls, nodes: int, tails: Iterable[int], heads: Iterable[int], weights: Iterable[int], classes: Optional[Iterable[int]] = None,
                tp: Optional[bytes] = None) -> "Road":
        """The road of `nodes` nodes and of arcs with these tails, heads and weights, in this order.

        Each is a list, a NumPy array or a DataFrame's column of whole numbers with one place for each arc: nodes from 1, weights from 0 to
        2^32 - 1 in the unit of time. `classes` has the class of each arc, 0 the plain one; without it all are plain. `tp` is a text of
        timetables that has kinds and assigns no arcs. An InputFailure names the line that a text of the network would have the arc in,
        2 for the first one, and its `value` is the arc.
        """
        nodes = _numbers.whole(nodes, "the number of nodes")
        if not 0 <= nodes < 2**32:
            raise InputFailure("gr", 1, 6, f"{nodes} nodes")
        if tp is not None and not isinstance(tp, (bytes, bytearray, memoryview)):
            raise TypeError(f"tp has to be bytes, not {type(tp).__name__}")
        given = zip((tails, heads, weights, () if classes is None else classes), ("tails", "heads", "weights", "classes"))
        lists = [_numbers.listed("I", values, what) for values, what in given]
        if len({len(it) for it in lists[: 3 if classes is None else 4]}) > 1:
            lengths = tuple(len(it) for it in lists[: 3 if classes is None else 4])
            raise Failure(23, f"tails, heads, weights and classes have different lengths, {lengths}", lengths)
        return cls._over(of_lists(nodes, lists, None if tp is None else bytes(tp)), None, None)

    @classmethod
    def from_networkx(cls, graph: Any, weight: Any = "weight", classes: Any = None, tp: Optional[bytes] = None) -> "Road":
        """The road of a networkx graph, whose nodes keep their names.

        `weight` is the name of the edges' attribute with a whole number from 0 to 2^32 - 1 in the unit of time, or a function of (u, v,
        attributes); an edge without it is refused. `classes` names an attribute, or is a function, for the class of timetables, 0 if the
        attribute is missing; `tp` as in `of_arcs`. An edge of an undirected graph is two arcs, one each way. `road.edges` has (u, v), or
        (u, v, key) of a multigraph, for each arc.
        """
        from . import _graphs

        return _graphs.of_networkx(cls, graph, weight, classes, tp)

    @classmethod
    def from_scipy(cls, matrix: Any, classes: Any = None, tp: Optional[bytes] = None) -> "Road":
        """The road of a sparse square matrix of SciPy: the entry at (i, j) is the weight of an arc from i to j, a stored zero too.

        Nodes are called 0 to n - 1, as the rows are. `classes` is a matrix with an entry at the same places, or None; `tp` as in `of_arcs`.
        `road.edges` has (i, j) for each arc, in the order in which a CSR matrix stores its entries.
        """
        from . import _graphs

        return _graphs.of_scipy(cls, matrix, classes, tp)

    @classmethod
    def from_geopandas(cls, edges: Any, nodes: Any = None, tail: Optional[str] = None, head: Optional[str] = None, weight: str = "weight",
                       classes: Optional[str] = None, both_ways: Any = False, tp: Optional[bytes] = None) -> "Road":
        """The road of a frame of edges of GeoPandas or pandas, one row for each edge.

        `tail` and `head` name columns or levels of the index with the names of nodes, "u" and "v" by default. Without such columns a node is
        an end of a line of the geometry, and its name is the pair of its coordinates. `weight` and `classes` name columns of whole numbers.
        `both_ways` is True, False or the name of a column of truth values: such an edge is an arc each way, the way back right after the
        other. `nodes` is a frame whose index has the names of all nodes, in whose order they are numbered. `road.edges` has the label of
        the row for each arc.
        """
        from . import _graphs

        return _graphs.of_frame(cls, edges, nodes, tail, head, weight, classes, both_ways, tp)

    def named(self, names: Iterable[Hashable]) -> "Road":
        """This road with names for its nodes, one for each in the order of their numbers."""
        named = Names(names)
        if len(named) != self.nodes:
            raise Failure(23, f"there are {len(named)} names, and {self.nodes} nodes", (len(named), self.nodes))
        return self._over(self._core, named, self._edges, self._places)

    def placed(self, path: str, degrees: bool = False) -> "Road":
        """This road with the places of its nodes, for `nearest`: of a coordinates file (.co) or of an importer's NAME.nodes.csv.

        With `degrees` a .co whose first comment tells no unit has millionths of a degree; without it, it is refused. What can't be used
        is a `Refused` of earliest.nearest.
        """
        from ._places import places_of

        return self._over(self._core, self._names, self._edges, places_of(path, self.nodes, degrees))

    @property
    def numbered(self) -> "Road":
        """This road without names: its calls and answers speak of nodes by their numbers from 1."""
        return self._over(self._core, None, self._edges, self._places)

    def prepare(self, order: Any = None, like: Optional["Road"] = None) -> "Road":
        """Prepares this road, in place, for searches of pairs: far pairs take a fraction of the time, with the same arrivals. Returns the road.

        It takes seconds and some 160 MB for 10^6 nodes, other threads wait for the road meanwhile, and it pays from some hundred far pairs
        on. `pairs`, `profile`, `latest` and the `pair` of a `searcher` made afterwards use it; searches to all nodes don't. Roads that
        `named` and `numbered` give share it, and copies, which are the road itself. A pickle leaves it out: call `prepare` in the other process.
        A second call does nothing. A road whose searches wouldn't gain is a Failure (26 NotWorth) and stays as it was, and want of memory a
        MemoryError.

        `order` is an order of the nodes, each once, from the first that is passed over to the last, as a program for nested dissection finds
        it. Any serves, and a good one makes searches quick. None is looked for then, which is most of the time, and one order serves roads
        with other weights and timetables. A list without a node or with one twice is a Failure (27 NoOrder).

        `like` is a prepared road with as many nodes, as one with other weights or timetables on the same arcs. Its order and its upward arcs
        are taken as they are, which is quickest of all; if an arc was added that they don't join, its order alone. One that isn't prepared
        is a Failure (27 NoOrder); `order` beside it is a ValueError.
        """
        if like is None:
            self._core.prepare(None if order is None else self._list(order))
        elif order is None:
            self._core.prepare_like(like._core)
        else:
            raise ValueError("a road is prepared over an order, or like another road, and not both")
        return self

    # What it is

    @property
    def nodes(self) -> int:
        """How many nodes it has."""
        return self._core.nodes

    @property
    def arcs(self) -> int:
        """How many arcs it has."""
        return self._core.arcs

    def lay_out(self, wanted: bool = True) -> "Road":
        """Lays the road out for searches for all nodes, and returns it. Its network is held once more, under numbers by which neighbours are near:
        where nodes are numbered out of order, searches touch less memory and take a fraction of the time. Arrivals and walks are the same.

        `search`, `arrivals` and `departures` do so by themselves for six rows or more for each thread. The library judges by the
        network's size, from 65,536 nodes on, and by how far arcs lead in its numbers; a road that isn't likely to gain stays as it is. It takes
        as long as some searches and about 30 bytes an arc, once, and other threads wait for this road meanwhile; want of memory is a
        MemoryError. With `wanted=False` the road isn't laid out by itself from now on. A pickle leaves the layout out.
        """
        if not wanted:
            self._core.may_lay_out = False
            return self
        number = self._core.lay_out()
        if number != 26:
            test(number)
        return self

    @property
    def laid_out(self) -> bool:
        """Whether it has a layout, by `lay_out` or by a call that made one."""
        return self._core.laid_out

    @property
    def prepared(self) -> bool:
        """Whether it was prepared by `prepare`."""
        return self._core.prepared

    @property
    def names(self) -> Optional[Names]:
        """The names of its nodes, the first that of node 1; None if it has none."""
        return self._names

    @property
    def edges(self) -> Optional[Sequence[Any]]:
        """What the data that the road was made of call each arc, the first being arc 1: edges of networkx, rows of a frame; else None."""
        return self._edges

    def ends(self) -> Tuple[Any, Any]:
        """The tails and the heads of all arcs: two arrays of uint32 with the shape (arcs,), the first place that of arc 1. Nodes are given by
        their numbers. A road of texts reads its text once more when this is first asked for."""
        return self._core.ends()

    def __repr__(self):
        if self._core.closed:
            return "<earliest.Road, closed>"
        again = self._core.again
        made = f" of {again.files[0]}" if again.paths else " of lists" if again.lists else ""
        return f"<earliest.Road{made}: {self.nodes} nodes{' with names' if self._names else ''}, {self.arcs} arcs>"

    def __copy__(self):
        return self

    def __deepcopy__(self, memo):
        return self

    def __reduce__(self):
        return made_again, (type(self), self._core.again.parts, self._names, self._edges, self._places)

    def __enter__(self):
        return self

    def __exit__(self, *_):
        self.close()

    def close(self) -> None:
        """Lets the road go. Searches that were made on it go on; every other call is a Failure (16 NoRoad) from now on."""
        self._core.close()

    # Numbers and names

    def number(self, node: Any) -> int:
        """The number of a node from 1; the node is given by its name if the road has names. What is no node is a Failure (18 NoSuchNode)."""
        if self._names is not None:
            return self._names.number(node)
        number = _numbers.whole(node, "a node")
        if not 1 <= number <= self.nodes:
            raise _no_node(number, self)
        return number

    def name(self, number: int) -> Hashable:
        """The name of the node with this number; the number itself if the road has no names."""
        number = self.numbered.number(number)
        return number if self._names is None else self._names[number - 1]

    def nearest(self, longitude: float, latitude: float, end: bool = False) -> Tuple[Any, float]:
        """The node that is nearest to a place in degrees (or to x and y in metres, if its places are so), and the metres to it.

        It is one to start from, or with `end` one to arrive at, of crossings and stops that have several nodes. The road has its places by
        `placed`; one without is a ValueError. The tree is SciPy's if it is there, and is made by the first call.
        """
        if self._places is None:
            raise ValueError("the road has no places of nodes; road.placed(path) gives it those of a .co or a .nodes.csv")
        number, metres = self._places.nearest(float(longitude), float(latitude), "end" if end else "start")
        return self.name(number), metres

    def _is_one(self, nodes: Any) -> bool:
        """Whether this is one node and no list of them."""
        return isinstance(nodes, str) or (_numbers.is_one(nodes) if self._names is None else self._names.is_name(nodes) or _numbers.is_one(nodes))

    def _list(self, nodes: Any):
        """The numbers of nodes as an array of uint32."""
        if self._is_one(nodes):
            return _numbers.filled("I", self.number(nodes), 1)
        if self._names is not None:
            return self._names.numbers(nodes)
        try:
            found = _numbers.listed("I", nodes, "nodes")
        except OverflowError as error:
            raise _no_node(getattr(error, "outside", None), self) from None
        if len(found) and not (1 <= min(found) and max(found) <= self.nodes if numpy is None else 1 <= int(found.min()) and int(found.max()) <= self.nodes):
            raise _no_node(next(int(it) for it in found if not 1 <= it <= self.nodes), self)
        return found

    def _starts(self, sources: Any, departures: Any, times: Times):
        """Sources and departures as arrays of one length."""
        nodes = self._list(sources)
        when = times.departures(departures, len(nodes))
        return nodes, _same(when, len(nodes), "sources", "departures")

    # Searches

    def searcher(self, walks: bool = True) -> "Search":
        """A search whose arrays serve query after query, for one thread at a time; with room for walks, or without."""
        return Search(self, walks)

    def search(self, sources: Any, departures: Any = None, *, joint: bool = False, walks: bool = True, threads: Optional[int] = None,
               unit: Optional[str] = None, origin: Any = None, masked: bool = False, as_float: bool = False) -> Any:
        """The earliest arrivals at all nodes, from each of some sources.

        `sources` is a list of n nodes, or one node. `departures` is a list of n times, or one time for all, 0 if it is not given. Each
        source is a problem of its own, as in `earliest run`: the result is an `Answers` with n members. One node that is no list gives its
        `Answer`. With `joint` all sources are one problem, in which a node is reached from whichever source gets there first: the result is
        its `Answer`.

        The arrivals of n sources take 8 bytes for each source and node. With `walks` the answers have walks, too; those of a list of sources
        are found by a further search when they are asked for. `threads` is how many threads search, by default as many as there are
        processors. `unit`, `origin`, `masked` and `as_float` say how times are written: see `arrivals`.
        """
        times = Times(unit, origin, masked, as_float)
        nodes, when = self._starts(sources, departures, times)
        if joint or self._is_one(sources):
            found = Search(self, walks, waits=True)
            return found._found(nodes, when, times)
        return Answers(self, nodes, when, _threads.rows(self, nodes, when, None, threads), walks, times)

    def arrivals(self, sources: Any, departures: Any = None, nodes: Any = None, threads: Optional[int] = None, *, unit: Optional[str] = None,
                 origin: Any = None, masked: bool = False, as_float: bool = False, out: Any = None) -> Any:
        """The matrix of earliest arrivals: uint64 with the shape (sources, nodes), NEVER for a node that is not reached within the horizon.

        `sources` is a list of nodes, `departures` a list of as many times, or one time for all, 0 if it is not given. The columns are the
        nodes of the list `nodes`, or all nodes in the order of their numbers. A search for few nodes ends when they are settled: up to 16 of
        them, or up to a 64th of the road's. One node in the place of a list takes its dimension away. The rows are searched by `threads` threads, by default as many as there are processors, straight into NumPy's memory; without NumPy the
        result is a list of array.array("Q").

        `unit` is the unit of the road's times as NumPy writes it, as "s" or "10ms": then departures may be timedelta64, and the result is
        timedelta64 with NaT in place of NEVER. With `origin` too, the moment of time 0, departures may be datetime64, and the result is
        datetime64. `as_float` gives float64 with inf in place of NEVER: seconds if there is a unit, else the road's own times. `masked`
        gives a masked array.

        `out` is an array of uint64 with the result's shape, as `numpy.empty` or `numpy.memmap` make one: the result is written into it, and it
        is what is returned. Memory that is used again saves the system's time to clear new, and a file holds a matrix that memory doesn't.
        Only plain times are written so: `unit`, `masked` and `as_float` beside it are a ValueError. If the call fails,
        any of it may be written.
        """
        times = Times(unit, origin, masked, as_float)
        starts, when = self._starts(sources, departures, times)
        picks = None if nodes is None else self._list(nodes)
        if out is not None:
            _threads.rows(self, starts, when, picks, threads, self._given(out, times, len(starts), self._is_one(sources), picks, nodes))
            return out
        found = _threads.rows(self, starts, when, picks, threads)
        if nodes is not None and self._is_one(nodes):
            found = found[:, 0] if numpy is not None else array.array("Q", [row[0] for row in found])
        found = times.told(found)
        return found[0] if self._is_one(sources) else found

    def pairs(self, sources: Any, targets: Any, departures: Any = None, threads: Optional[int] = None, *, unit: Optional[str] = None,
              origin: Any = None, masked: bool = False, as_float: bool = False) -> Any:
        """The earliest arrivals of n pairs: uint64 with the shape (n,), NEVER for a target that is not reached within the horizon.

        `sources`, `targets` and `departures` are lists of n members; one node or one time in the place of a list serves for all pairs, and
        departures are 0 if they are not given. Each pair is a search of its own that ends at its target. `threads` and how times are
        written as in `arrivals`.
        """
        times = Times(unit, origin, masked, as_float)
        ones = self._is_one(sources), self._is_one(targets), departures is None or is_one_time(departures)
        starts, ends, when = self._spread(self._list(sources), self._list(targets), times.departures(departures, 1 if ones[2] else None), ones)
        found = times.told(_threads.pairs(self, starts, ends, when, threads))
        return found[0] if all(ones) else found

    def profile(self, source: Any, target: Any, departures: Any, threads: Optional[int] = None, *, unit: Optional[str] = None,
                origin: Any = None, masked: bool = False, as_float: bool = False) -> Any:
        """The earliest arrivals at one target from one source for n departures: uint64 with the shape (n,), as `pairs` with one source and
        one target. Less the departures they are the travel time over the day."""
        for node, word in ((source, "source"), (target, "target")):
            if not self._is_one(node):
                raise TypeError(f"a profile has one {word}, not {node!r}")
        if departures is None or is_one_time(departures):
            raise TypeError(f"a profile takes a list of departures, not {departures!r}")
        return self.pairs(source, target, departures, threads, unit=unit, origin=origin, masked=masked, as_float=as_float)

    def latest(self, sources: Any, targets: Any, arrivals: Any, threads: Optional[int] = None, *, unit: Optional[str] = None, origin: Any = None,
               masked: bool = False, as_float: bool = False) -> Any:
        """The latest departures by which n sources are in time at their targets: uint64 with the shape (n,), NEVER if no departure is.

        `sources`, `targets` and `arrivals`, the times by which the targets have to be reached, are lists of n members; one of them in the
        place of a list serves for all. Each is found by a search from its target in the road turned round, which is made when it is first asked
        for, prepared if the road is, and takes as much memory as the road's network once more.
        """
        times = Times(unit, origin, masked, as_float)
        if arrivals is None:
            raise TypeError("latest takes the times by which the targets have to be reached")
        ones = self._is_one(sources), self._is_one(targets), is_one_time(arrivals)
        starts, ends, by = self._spread(self._list(sources), self._list(targets), times.departures(arrivals, None, "a time to arrive by"), ones)
        found = times.told(_threads.latest(self, starts, ends, by, threads))
        return found[0] if all(ones) else found

    def departures(self, targets: Any, arrivals: Any, nodes: Any = None, threads: Optional[int] = None, *, unit: Optional[str] = None,
                   origin: Any = None, masked: bool = False, as_float: bool = False, out: Any = None) -> Any:
        """The matrix of latest departures: uint64 with the shape (targets, nodes), NEVER for a node from which no departure is in time.

        `targets` is a list of nodes, `arrivals` a list of as many times by which they have to be reached, or one time for all. The columns
        are the nodes of the list `nodes`, or all nodes in the order of their numbers. One node in the place of a list takes its dimension
        away. Threads, `out` and how times are written as in `arrivals`; the first search turns the road round, as for `latest`.
        """
        times = Times(unit, origin, masked, as_float)
        if arrivals is None:
            raise TypeError("departures takes the times by which the targets have to be reached")
        ends = self._list(targets)
        by = _same(times.departures(arrivals, len(ends), "a time to arrive by"), len(ends), "targets", "times")
        picks = None if nodes is None else self._list(nodes)
        if out is not None:
            _threads.rows_until(self, ends, by, picks, threads, self._given(out, times, len(ends), self._is_one(targets), picks, nodes))
            return out
        found = _threads.rows_until(self, ends, by, picks, threads)
        if nodes is not None and self._is_one(nodes):
            found = found[:, 0] if numpy is not None else array.array("Q", [row[0] for row in found])
        found = times.told(found)
        return found[0] if self._is_one(targets) else found

    def _given(self, out: Any, times: Times, rows: int, is_one: bool, picks: Any, nodes: Any):
        """The rows of an array that a caller gives for a matrix."""
        if times.unit or times.masked or times.as_float:
            raise ValueError("out takes plain times: leave out unit=, masked= and as_float=")
        columns = self.nodes if picks is None else len(picks)
        shape = () if is_one else (rows,)
        if nodes is None or not self._is_one(nodes):
            shape += (columns,)
        return _numbers.given_room(out, shape, rows, columns)

    @staticmethod
    def _spread(sources, targets, when, ones):
        """Lists of one length: what was given as one value is repeated."""
        lists = [sources, targets, when]
        lengths = {len(it) for it, one in zip(lists, ones) if not one}
        if len(lengths) > 1:
            shown = tuple(len(it) for it in lists)
            raise Failure(23, f"sources, targets and times have different lengths, {shown}", shown)
        count = lengths.pop() if lengths else 1
        return [_numbers.filled(code, int(it[0]), count) if one else it for it, one, code in zip(lists, ones, "IIQ")]

    def check(self, nodes: Any, report: _texts.Source, depart: int = 0, gap: int = 0, joint: bool = False) -> None:
        """Checks a report of searches from these nodes: the first departs at `depart`, each next one later by `gap`, each in a problem of its
        own, or with `joint` all in one. The report is bytes, a path or an open file. One that isn't right is an InputFailure with the
        line of its first fault."""
        depart, gap = _numbers.whole(depart, "depart"), _numbers.whole(gap, "gap")
        for value, what in ((depart, "depart"), (gap, "gap")):
            if not 0 <= value <= HORIZON:
                raise Failure(19, f"{what} is a time from 0 to {HORIZON}, not {value}", value)
        numbers = self._list(nodes)
        text, name, _ = _texts.text_of(report, "report")
        starts, fault = Starts(depart, gap, 1 if joint else 0), Fault()
        with self._core.lock:
            number = library().earliest_check(self._core.handle, _numbers.address(numbers), len(numbers), starts, text, len(text), fault)
        if number and number != 13 and fault.text:
            raise InputFailure(name, fault.line, number, _texts.line_of(text, fault.line))
        if number == 19:
            raise Failure(19, f"the last node departs at {depart + (len(numbers) - 1) * gap}, above {HORIZON}", depart + (len(numbers) - 1) * gap)
        test(number)


def _no_node(number: Any, road: Road) -> Failure:
    return Failure(18, f"{number} is no node of the road, whose nodes are 1 to {road.nodes}", number)


def _same(when, count: int, first: str, second: str):
    """Lists that belong together have one length."""
    if len(when) != count:
        raise Failure(23, f"there are {count} {first} and {len(when)} {second}", (count, len(when)))
    return when
