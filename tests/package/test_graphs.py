"""Roads of graphs of networkx, matrices of SciPy and frames of GeoPandas, beside those libraries' own searches."""
import pickle
import random

import earliest
import plain
from optional import geopandas, needs, networkx, numpy, pandas, shapely
from test_engine import Case, flat

NEVER = plain.NEVER


def reached(lengths):
    return {name: int(it) for name, it in lengths.items()}


@needs("networkx")
class Networkx(Case):
    def graphs(self):
        """Graphs of all four kinds, with names of several kinds and weights from a generator."""
        words = random.Random(5)
        for kind in (networkx.Graph, networkx.DiGraph, networkx.MultiGraph, networkx.MultiDiGraph):
            for name in (lambda at: at, lambda at: f"n{at}", lambda at: (at // 5, at % 5)):
                graph = kind()
                graph.add_nodes_from(name(at) for at in range(25))
                for _ in range(60):
                    graph.add_edge(name(words.randrange(25)), name(words.randrange(25)), weight=words.randrange(50), slow=words.randrange(90))
                yield graph, name(7), name(3)

    def test_beside_dijkstra(self):
        for graph, source, other in self.graphs():
            for weight in ("weight", "slow"):
                road = earliest.Road.from_networkx(graph, weight=weight)
                self.assertEqual((road.nodes, list(road.names), road.arcs), (25, list(graph.nodes), graph.number_of_edges() * (1 if graph.is_directed() else 2)))
                for start in (source, other):
                    found = road.search(start)
                    want = reached(networkx.single_source_dijkstra_path_length(graph, start, weight=weight))
                    self.assertEqual(found.reached(), want)
                    for node in graph:
                        self.assertEqual(found.path(node) is not None, node in want)
                        if node in want:
                            edges, takes = found.edges(node), 0
                            for at, edge in enumerate(edges):
                                self.assertEqual((edge[0], edge[1]), tuple(found.path(node)[at : at + 2]))
                                takes += graph.edges[edge][weight]
                            self.assertEqual(takes, want[node])
                matrix = road.arrivals(list(graph))
                lengths = dict(networkx.all_pairs_dijkstra_path_length(graph, weight=weight))
                self.assertEqual([flat(row) for row in matrix], [[lengths[one].get(node, NEVER) for node in graph] for one in graph])

    def test_weights_by_a_function(self):
        for graph, source, _ in self.graphs():
            if graph.is_multigraph():
                continue
            takes = lambda u, v, data: data["weight"] + 2 * data["slow"]
            want = reached(networkx.single_source_dijkstra_path_length(graph, source, weight=takes))
            self.assertEqual(earliest.Road.from_networkx(graph, weight=takes).search(source).reached(), want)

    def test_classes(self):
        net = plain.network(41)
        graph = networkx.MultiDiGraph()
        graph.add_nodes_from(range(1, 41))
        for tail, head, weight, kind in net.arcs:
            graph.add_edge(tail, head, weight=weight, **({"kind": kind} if kind else {}))
        want = {node: it for node, it in enumerate(net.least([(2, 100)]), 1) if it != NEVER}
        self.assertEqual(earliest.Road.from_networkx(graph, classes="kind", tp=net.kinds_alone()).search(2, 100).reached(), want)
        self.assertEqual(earliest.Road.from_networkx(graph, classes=lambda u, v, data: data.get("kind", 0), tp=net.kinds_alone()).search(2, 100).reached(), want)

    def test_values(self):
        graph = networkx.path_graph(["a", "b", "c"])
        networkx.set_edge_attributes(graph, 5, "weight")
        road = pickle.loads(pickle.dumps(earliest.Road.from_networkx(graph)))
        self.assertEqual((road.search("a").reached(), road.search("c").edges("a"), road.edges), ({"a": 0, "b": 5, "c": 10}, [("c", "b"), ("b", "a")], (("a", "b"), ("b", "a"), ("b", "c"), ("c", "b"))))
        if numpy:
            networkx.set_edge_attributes(graph, numpy.int32(7), "weight")
            self.assertEqual(earliest.Road.from_networkx(graph).search("a").arrival("c"), 14)
        self.assertEqual(earliest.Road.from_networkx(networkx.empty_graph(2)).search(0).reached(), {0: 0})

    def test_refusals(self):
        make = earliest.Road.from_networkx
        graph = networkx.DiGraph([(1, 2)])
        self.told(KeyError, "edge (1, 2) has no attribute 'weight'", lambda: make(graph))
        for value, kind, told in ((1.5, TypeError, "edge (1, 2) has to be a whole number, not 1.5"), ("5", TypeError, "not '5'"), (True, TypeError, "not True"), (None, TypeError, "not None"), (-1, OverflowError, "not -1"), (2**32, OverflowError, "not 4294967296")):
            graph.edges[1, 2]["weight"] = value
            self.told(kind, told, lambda: make(graph))
        for value in (None, 5, "graph", [(1, 2)]):
            self.told(TypeError, "takes a graph of networkx", lambda: make(value))
        with self.assertRaises(earliest.InputFailure):
            make(networkx.DiGraph())


@needs("numpy", "scipy")
class Scipy(Case):
    def matrices(self):
        from scipy import sparse

        words = numpy.random.RandomState(3)
        for density in (0.02, 0.1):
            dense = words.randint(1, 99, (40, 40)) * (words.random_sample((40, 40)) < density)
            yield dense, sparse.csr_matrix(dense)

    def test_beside_scipy(self):
        from scipy.sparse import csgraph

        for dense, matrix in self.matrices():
            want = csgraph.dijkstra(matrix)
            for made in (matrix, matrix.tocsc(), matrix.tocoo(), matrix.tolil(), matrix.astype("uint8"), matrix.astype("int64")):
                road = earliest.Road.from_scipy(made)
                self.assertEqual((road.nodes, road.arcs, list(road.names)), (40, matrix.nnz, list(range(40))))
                found = road.arrivals(range(40), as_float=True)
                self.assertTrue(numpy.array_equal(found, want))
                self.assertEqual(list(road.edges), list(zip(*matrix.nonzero())))
            self.assertEqual(road.search(0).arrival(39), None if want[0, 39] == numpy.inf else int(want[0, 39]))

    def test_entries_that_are_several_or_zero(self):
        from scipy import sparse

        rows, columns, weights = [0, 0, 0, 1], [1, 1, 2, 2], [9, 5, 0, 1]
        entries = sparse.coo_matrix((weights, (rows, columns)), (3, 3))
        road = earliest.Road.from_scipy(entries)
        self.assertEqual((road.arcs, road.search(0).reached()), (4, {0: 0, 1: 5, 2: 0}))
        self.assertEqual(pickle.loads(pickle.dumps(road)).search(0).edges(1), [(0, 1)])

    def test_classes(self):
        from scipy import sparse

        matrix, classes = sparse.csr_matrix([[0, 3], [0, 0]]), sparse.csr_matrix([[0, 1], [0, 0]])
        self.assertEqual(earliest.Road.from_scipy(matrix, classes, b"p tp 1 0\nk 1 every 10 4\n").search(0).reached(), {0: 0, 1: 7})
        self.told(ValueError, "at the places", lambda: earliest.Road.from_scipy(matrix, sparse.csr_matrix([[0, 1], [1, 0]]), b"p tp 1 0\nk 1 every 10 4\n"))

    def test_refusals(self):
        from scipy import sparse

        make = earliest.Road.from_scipy
        self.told(TypeError, "sparse", lambda: make(numpy.eye(3)))
        self.told(ValueError, "square", lambda: make(sparse.csr_matrix((2, 3), dtype=int)))
        self.told(TypeError, "not of float64", lambda: make(sparse.csr_matrix([[0.0, 1.5], [0, 0]])))
        self.told(TypeError, "not of bool", lambda: make(sparse.csr_matrix([[False, True], [False, False]])))
        self.told(OverflowError, "a number is not within", lambda: make(sparse.csr_matrix([[0, -1], [0, 0]])))
        for name in (-1, 40, 0.0):
            self.refused(18, lambda: make(sparse.csr_matrix((40, 40), dtype=int)).search([name]), name)


@needs("numpy", "pandas")
class Frames(Case):
    """Frames of edges: of pandas, and of GeoPandas if it is installed."""

    def frame(self, **more):
        return pandas.DataFrame({"u": ["a", "a", "c", "b", "c"], "v": ["b", "c", "b", "d", "d"], "weight": [7, 2, 3, 1, 9], **more}, index=[10, 11, 12, 13, 14])

    def test_columns(self):
        road = earliest.Road.from_geopandas(self.frame())
        self.assertEqual((list(road.names), road.search("a").reached()), (["a", "b", "c", "d"], {"a": 0, "b": 5, "c": 2, "d": 6}))
        self.assertEqual((road.search("a").edges("d"), list(road.edges)), ([11, 12, 13], [10, 11, 12, 13, 14]))
        other = earliest.Road.from_geopandas(self.frame().rename(columns={"u": "from", "v": "to", "weight": "secs"}), tail="from", head="to", weight="secs")
        self.assertEqual(other.search("a").reached(), road.search("a").reached())
        index = self.frame().assign(key=0).set_index(["u", "v", "key"])
        self.assertEqual((earliest.Road.from_geopandas(index).search("a").reached(), earliest.Road.from_geopandas(index).search("a").edges("b")), (road.search("a").reached(), [("a", "c", 0), ("c", "b", 0)]))

    def test_nodes_in_their_order(self):
        nodes = pandas.DataFrame({"x": [1, 2, 3, 4, 5]}, index=["d", "c", "e", "b", "a"])
        road = earliest.Road.from_geopandas(self.frame(), nodes)
        self.assertEqual((list(road.names), flat(road.arrivals("a"))), (list("dceba"), [6, 2, NEVER, 5, 0]))
        joined = nodes.join(road.search("a").series())
        self.assertEqual(joined["arrival"].isna().tolist(), [False, False, True, False, False])
        self.told(KeyError, "row 10 ends at the node 'a', which isn't in the index", lambda: earliest.Road.from_geopandas(self.frame(), nodes.iloc[:-1]))

    def test_both_ways(self):
        there = earliest.Road.from_geopandas(self.frame(), both_ways=True)
        self.assertEqual((there.arcs, there.search("d").reached(), there.search("d").edges("a")), (10, {"d": 0, "b": 1, "c": 4, "a": 6}, [13, 12, 11]))
        some = earliest.Road.from_geopandas(self.frame(two=[False, False, False, True, False]), both_ways="two")
        self.assertEqual((some.arcs, some.search("d").reached()), (6, {"d": 0, "b": 1}))
        self.told(TypeError, "row 10 has 0", lambda: earliest.Road.from_geopandas(self.frame(two=[0, 1, 0, 1, 0]), both_ways="two"))
        self.told(KeyError, "no column 'x'", lambda: earliest.Road.from_geopandas(self.frame(), both_ways="x"))

    def test_classes(self):
        road = earliest.Road.from_geopandas(self.frame(kind=[0, 0, 0, 1, 0]), classes="kind", tp=b"p tp 1 0\nk 1 every 10 0\n")
        self.assertEqual(road.search("a").reached(), {"a": 0, "b": 5, "c": 2, "d": 11})

    def test_refusals(self):
        make = earliest.Road.from_geopandas
        self.told(KeyError, "no column 'secs'", lambda: make(self.frame(), weight="secs"))
        self.told(KeyError, "no column 'x'", lambda: make(self.frame(), tail="x"))
        self.told(KeyError, "no columns of nodes", lambda: make(self.frame().drop(columns="u")))
        self.told(TypeError, "weight of row 10 has to be a whole number, not 7.0", lambda: make(self.frame().astype({"weight": float})))
        self.told(OverflowError, "weight of row 10", lambda: make(self.frame().assign(weight=-1)))
        self.told(TypeError, "takes a frame", lambda: make([1, 2]))

    @needs("geopandas", "shapely")
    def test_geometry(self):
        """Lines without columns of nodes: a node is an end of a line, called by its coordinates."""
        line = shapely.geometry.LineString
        places = {"a": (0, 0), "b": (1, 0), "c": (0, 1), "d": (1, 1)}
        frame = self.frame()
        lines = geopandas.GeoDataFrame(frame[["weight"]], geometry=[line([places[u], (0.5, 0.3), places[v]]) for u, v in zip(frame.u, frame.v)])
        road = earliest.Road.from_geopandas(lines)
        self.assertEqual(road.search((0.0, 0.0)).reached(), {(0.0, 0.0): 0, (1.0, 0.0): 5, (0.0, 1.0): 2, (1.0, 1.0): 6})
        nodes = geopandas.GeoDataFrame(index=list("dcba"), geometry=[shapely.geometry.Point(places[it]) for it in "dcba"])
        both = lines.assign(u=frame.u, v=frame.v)
        joined = nodes.join(earliest.Road.from_geopandas(both, nodes).search("a").series())
        self.assertEqual((type(joined).__name__, joined["arrival"].tolist(), joined.loc["c"].geometry.coords[0]), ("GeoDataFrame", [6, 2, 5, 0], (0.0, 1.0)))
        lines.loc[12, "geometry"] = shapely.geometry.Point(0, 0)
        self.told(TypeError, "row 12 has to be a line", lambda: earliest.Road.from_geopandas(lines))
