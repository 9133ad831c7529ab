"""Dijkstra's algorithm of scipy or igraph on plain weights.

    python3 in_python.py scipy|igraph GR SS DEPART OUT

The texts are read and the report is written by NumPy and Python. Times are floating-point numbers, exact
below 2^53. scipy takes no parallel arcs and no weight 0; the road-like networks have none.
"""
import sys
import time

import numpy


def numbers(file, word, width):
    """The numbers of the lines that begin with a word, and those of the problem line."""
    with open(file, "rb") as opened:
        head, _, rest = opened.read().partition(b"\n")
    found = numpy.fromstring(rest.replace(word, b""), dtype=numpy.int64, sep=" ")
    return [int(field) for field in head.split() if field.isdigit()], found.reshape(-1, width)


def by_scipy(nodes, arcs):
    """A search by scipy: the times from a source."""
    from scipy.sparse import csr_matrix
    from scipy.sparse.csgraph import dijkstra

    matrix = csr_matrix((arcs[:, 2].astype(float), (arcs[:, 0] - 1, arcs[:, 1] - 1)), shape=(nodes, nodes))
    return lambda source: dijkstra(matrix, indices=source - 1)


def by_igraph(nodes, arcs):
    """A search by igraph: the times from a source."""
    import igraph

    graph = igraph.Graph(n=nodes, edges=arcs[:, :2] - 1, directed=True)
    weights = arcs[:, 2].tolist()
    find = graph.distances if hasattr(graph, "distances") else graph.shortest_paths
    return lambda source: numpy.array(find(source=source - 1, weights=weights, mode="out")[0])


def main():
    which, gr, ss, departure, out = sys.argv[1:6]
    departure = int(departure)
    begun = time.perf_counter()
    (nodes, _), arcs = numbers(gr, b"a ", 3)
    _, sources = numbers(ss, b"s ", 1)
    read, begun = time.perf_counter() - begun, time.perf_counter()
    search = {"scipy": by_scipy, "igraph": by_igraph}[which](nodes, arcs)
    index, solved, written, total = time.perf_counter() - begun, 0.0, 0.0, 0
    with open(out, "w", encoding="ascii") as file:
        for source in sources[:, 0].tolist():
            begun = time.perf_counter()
            times = search(source)
            solved, begun = solved + time.perf_counter() - begun, time.perf_counter()
            is_reached = numpy.isfinite(times)
            found = numpy.where(is_reached, times, 0).astype(numpy.int64) + departure
            file.write(f"s {source} {departure}\n")
            both = enumerate(zip(found.tolist(), is_reached.tolist()), 1)
            file.write("".join([f"d {node} {when}\n" if there else f"d {node} inf\n" for node, (when, there) in both]))
            total += int(found[is_reached].sum())
            written += time.perf_counter() - begun
    micros = [int(1e6 * it) for it in (read, index, solved, written)]
    print("read_us {} index_us {} solve_us {} write_us {} sum {}".format(*micros, total))


main()
