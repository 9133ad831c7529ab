"""Roads of the graphs of other libraries. None of them is imported here: their objects are asked."""
from __future__ import annotations

from typing import Any, List, Optional

from . import _names, _numbers

MOST = 2**32 - 1


def number_of(value: Any, what: str, where: str, most: int = MOST) -> int:
    """A whole number of an edge, or a sentence that says which edge hasn't got one."""
    try:
        number = _numbers.whole(value, what)
    except TypeError:
        raise TypeError(f"the {what} of {where} has to be a whole number, not {value!r}: choose a unit of time, as tenths of a second, and round to it") from None
    if not 0 <= number <= most:
        raise OverflowError(f"the {what} of {where} has to be within 0 to {most}, not {number}")
    return number


def of_networkx(cls, graph: Any, weight: Any, classes: Any, tp: Optional[bytes]):
    """As Road.from_networkx."""
    if not (hasattr(graph, "is_directed") and hasattr(graph, "is_multigraph")):
        raise TypeError(f"from_networkx takes a graph of networkx, not {type(graph).__name__}")
    names = _names.Names(list(graph.nodes))
    tails: List[int] = []
    heads: List[int] = []
    weights: List[int] = []
    kinds: List[int] = []
    edges: List[Any] = []
    found = graph.edges(keys=True, data=True) if graph.is_multigraph() else graph.edges(data=True)
    for *edge, data in found:
        tail, head = edge[:2]
        where = f"edge {tuple(edge)!r}"
        takes = _attribute(weight, tail, head, data, "weight", where, None)
        kind = 0 if classes is None else _attribute(classes, tail, head, data, "class", where, 0)
        ways = [(tail, head)] if graph.is_directed() else [(tail, head), (head, tail)]
        for one, other in ways:
            tails.append(names.number(one))
            heads.append(names.number(other))
            weights.append(takes)
            kinds.append(kind)
            edges.append((one, other, *edge[2:]))
    road = cls.of_arcs(len(names), tails, heads, weights, None if classes is None else kinds, tp)
    return cls._over(road._core, names, tuple(edges))


def _attribute(asked, tail, head, data, what, where, default):
    """The whole number that an attribute or a function gives for an edge."""
    if callable(asked):
        return number_of(asked(tail, head, data), what, where)
    if asked not in data:
        if default is not None:
            return default
        raise KeyError(f"{where} has no attribute {asked!r}: name the attribute with its time by weight=")
    return number_of(data[asked], what, where)


class _Pairs:
    """Pairs of the numbers of rows and columns, made when they are asked for."""

    def __init__(self, rows, columns):
        self.rows, self.columns = rows, columns

    def __len__(self):
        return len(self.rows)

    def __getitem__(self, at):
        return int(self.rows[at]), int(self.columns[at])


def of_scipy(cls, matrix: Any, classes: Any, tp: Optional[bytes]):
    """As Road.from_scipy."""
    numpy = _numbers.need_numpy("from_scipy")
    rows, columns, weights = _entries(matrix, "the matrix", numpy)
    kinds = None
    if classes is not None:
        of_rows, of_columns, kinds = _entries(classes, "the matrix of classes", numpy)
        if classes.shape != matrix.shape or not (numpy.array_equal(rows, of_rows) and numpy.array_equal(columns, of_columns)):
            raise ValueError("the matrix of classes has to store entries at the places of the matrix, a zero for class 0 too, and no others")
    road = cls.of_arcs(matrix.shape[0], rows.astype(numpy.int64) + 1, columns.astype(numpy.int64) + 1, weights, kinds, tp)
    return cls._over(road._core, _names.Names(range(matrix.shape[0])), _Pairs(rows, columns))


def _entries(matrix, what, numpy):
    """Rows, columns and values of a matrix, in the order of CSR. Entries at one place stay several: adding them up would be another road."""
    if not hasattr(matrix, "tocoo"):
        raise TypeError(f"{what} has to be a sparse one of SciPy, not {type(matrix).__name__}: scipy.sparse.csr_matrix makes one")
    if matrix.ndim != 2 or matrix.shape[0] != matrix.shape[1]:
        raise ValueError(f"{what} has to be square, and has the shape {matrix.shape}")
    if matrix.dtype.kind not in "ui":
        raise TypeError(f"{what} has to be one of whole numbers, not of {matrix.dtype}: choose a unit of time, and round to it")
    entries = matrix.tocoo()
    if matrix.format == "csr":
        return entries.row, entries.col, entries.data
    order = numpy.argsort(entries.row, kind="stable")
    return entries.row[order], entries.col[order], entries.data[order]


def of_frame(cls, edges: Any, nodes: Any, tail: Optional[str], head: Optional[str], weight: str, classes: Optional[str], both_ways: Any, tp: Optional[bytes]):
    """As Road.from_geopandas."""
    if not (hasattr(edges, "columns") and hasattr(edges, "index")):
        raise TypeError(f"from_geopandas takes a frame of GeoPandas or pandas, not {type(edges).__name__}")
    ends = [_ends(edges, name, usual) for name, usual in ((tail, "u"), (head, "v"))]
    if any(it is None for it in ends):
        if tail is not None or head is not None or not hasattr(edges, "geometry"):
            raise KeyError("the frame has no columns of nodes: name them by tail= and head=")
        ends = _ends_of_lines(edges)
    names = _names.Names(list(nodes.index) if nodes is not None else dict.fromkeys(name for pair in zip(*ends) for name in pair))
    for name in (weight, *([classes] if classes is not None else [])):
        if name not in edges.columns:
            raise KeyError(f"the frame has no column {name!r}: name the one with the time of an edge by weight=")
    labels = list(edges.index)
    takes = _whole_column(edges, weight, "weight", labels)
    kinds = [0] * len(labels) if classes is None else _whole_column(edges, classes, "class", labels)
    back = _both_ways(edges, both_ways, labels)
    tails, heads, weights, of_class, called = [], [], [], [], []
    for place, (one, other) in enumerate(zip(*ends)):
        for name in (one, other):
            if name not in names:
                raise KeyError(f"row {labels[place]!r} ends at the node {name!r}, which isn't in the index of nodes")
        first, last = names.number(one), names.number(other)
        for start, end in ([(first, last), (last, first)] if back[place] else [(first, last)]):
            tails.append(start)
            heads.append(end)
            weights.append(takes[place])
            of_class.append(kinds[place])
            called.append(labels[place])
    road = cls.of_arcs(len(names), tails, heads, weights, None if classes is None else of_class, tp)
    return cls._over(road._core, names, tuple(called))


def _ends(edges, name, usual):
    """A column or a level of the index with the names of nodes; None if neither is there."""
    asked = usual if name is None else name
    if asked in edges.columns:
        return edges[asked].tolist()
    if asked in edges.index.names:
        return edges.index.get_level_values(asked).tolist()
    if name is not None:
        raise KeyError(f"the frame has no column {name!r}, and its index no such level")
    return None


def _ends_of_lines(edges):
    """The coordinates of the first and the last point of each line of a frame's geometry."""
    firsts, lasts = [], []
    for label, line in zip(edges.index, edges.geometry):
        if getattr(line, "geom_type", None) != "LineString" or line.is_empty:
            raise TypeError(f"the geometry of row {label!r} has to be a line (LineString), not {getattr(line, 'geom_type', line)}")
        firsts.append(tuple(line.coords[0]))
        lasts.append(tuple(line.coords[-1]))
    return firsts, lasts


def _whole_column(edges, name, what, labels):
    """A column of whole numbers."""
    return [number_of(value, what, f"row {label!r}") for value, label in zip(edges[name].tolist(), labels)]


def _both_ways(edges, both_ways, labels):
    """Whether each edge may be taken both ways."""
    if isinstance(both_ways, bool):
        return [both_ways] * len(labels)
    if both_ways not in edges.columns:
        raise KeyError(f"the frame has no column {both_ways!r}: both_ways= is True, False or the name of a column of truth values")
    found = edges[both_ways].tolist()
    for value, label in zip(found, labels):
        if value is not True and value is not False:
            raise TypeError(f"the column {both_ways!r} has to be one of truth values, and row {label!r} has {value!r}")
    return found
