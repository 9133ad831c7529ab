"""The library's calls for C, by ctypes: those that the Python package leaves out, and what they do with numbers and handles that are wrong."""
import ctypes

from earliest._library import Fault, Handle, Starts, library

from reference import HORIZON


class Held:
    """A search that is given back with its last reference."""

    def __init__(self, handle):
        self.handle = handle

    def __del__(self):
        library().earliest_search_free(self.handle)


def lists(nodes, times=None, asked=None):
    """Lists as the calls take them: each with its length."""
    found = []
    for kind, values in ((ctypes.c_uint32, nodes), (ctypes.c_uint64, times), (ctypes.c_uint32, asked)):
        if values is not None:
            found += [(kind * max(1, len(values)))(*values), len(values)]
    return found


def walk_until():
    """The call that the package doesn't use."""
    call = library().earliest_search_walk_until
    call.restype, call.argtypes = ctypes.c_uint32, library().earliest_search_walk.argtypes
    return call


class CCalls:
    """Calls for C with the road of a caller: it has `made`, the road of the package, and the words and results of library.py."""

    def held(self, walks, until=False):
        """A search of the library's own: one that answered other queries before, or a new one."""
        key = "c", walks, until
        if key not in self.searchers or self.words.random() < 0.05:
            handle, calls = Handle(), library()
            if until:
                turned = Handle()
                assert calls.earliest_road_turned(self.made._core.handle, turned) == 0
                assert calls.earliest_search_new_until(turned, walks, handle) == 0
                calls.earliest_road_free(turned)
            else:
                assert calls.earliest_search_new(self.made._core.handle, walks, handle) == 0
            self.searchers[key] = Held(handle)
        return self.searchers[key].handle

    def walked(self, call, search, node, walks, way):
        """A walk of a search into enough room, and into too little."""
        arcs, room = (ctypes.c_uint32 * (4 * self.reference.nodes))(), ctypes.c_uint64(0)
        want = [21, []] if not walks else [22, []] if way is None else [0, way]
        yield self.ask(f"walk({node})", lambda: [call(search, node, arcs, len(arcs), room), arcs[: room.value]], want)
        if walks and way:
            few = self.words.randrange(len(way))
            yield self.ask(f"walk({node}) into {few} places", lambda: [call(search, node, arcs, few, room), room.value], [24, len(way)])

    def asking_by_c(self):
        """Arrivals at some nodes from several sources."""
        calls, search = library(), self.held(self.words.choice([0, 1]))
        starts, asked = [(node, self.time()) for node in self.nodes(3)], self.nodes(6)
        out, count = (ctypes.c_uint64 * max(1, len(asked)))(), len(asked)
        words = lists([node for node, _ in starts], [time for _, time in starts], asked)
        want = [0, 0, [self.least(starts)[0][node - 1] for node in asked]]
        call = lambda: [calls.earliest_search_asking(search, *words), calls.earliest_search_answers(search, out, count), out[:count]]
        yield self.ask(f"asking({starts}, {asked})", call, want)
        yield self.ask("answers with another room", lambda: calls.earliest_search_answers(search, out, count + 1), 24)

    def from_by_c(self):
        """Arrivals and walks from several sources."""
        calls, walks, count = library(), self.words.choice([0, 1]), self.reference.nodes
        search, starts = self.held(walks), [(node, self.time()) for node in self.nodes(3)]
        times, ways = self.least(starts)
        out, words = (ctypes.c_uint64 * count)(), lists([node for node, _ in starts], [time for _, time in starts])
        call = lambda: [calls.earliest_search_from(search, *words), calls.earliest_search_arrivals(search, out, count), list(out)]
        yield self.ask(f"from({starts})", call, [0, 0, times])
        other = self.words.choice([0, count - 1, count + 1])
        yield self.ask(f"arrivals into {other} places", lambda: calls.earliest_search_arrivals(search, out, other), 24)
        node = self.node()
        yield from self.walked(calls.earliest_search_walk, search, node, walks, ways[node - 1])

    def pair_by_c(self):
        """The arrival and the walk of a pair, and what wasn't asked."""
        calls, walks, count = library(), self.words.choice([0, 1]), self.reference.nodes
        search, source, target, time, other = self.held(walks), self.node(), self.node(), self.time(), self.node()
        times, ways = self.least([(source, time)])
        found, out = ctypes.c_uint64(5), (ctypes.c_uint64 * count)()
        call = lambda: [calls.earliest_search_pair(search, source, time, target), calls.earliest_search_arrival(search, target, found), found.value]
        yield self.ask(f"pair({source}, {time}, {target})", call, [0, 0, times[target - 1]])
        found.value = 5
        want = [20, 5] if other != target else [0, times[target - 1]]
        yield self.ask(f"arrival({other}) after a pair to {target}", lambda: [calls.earliest_search_arrival(search, other, found), found.value], want)
        # On a road of one node a pair asks for all nodes.
        yield self.ask("arrivals after a pair", lambda: calls.earliest_search_arrivals(search, out, count), 20 if count > 1 else 0)
        yield from self.walked(calls.earliest_search_walk, search, target, walks, ways[target - 1])

    def until_by_c(self):
        """Latest departures to several targets, or those of a pair, with walks."""
        calls, walks, count = library(), self.words.choice([0, 1, 1]), self.reference.nodes
        search = self.held(walks, until=True)
        if self.words.random() < 0.6:
            targets = [(node, self.time()) for node in self.nodes(3)]
            times, ways = self.least(targets, True)
            out, words = (ctypes.c_uint64 * count)(), lists([node for node, _ in targets], [time for _, time in targets])
            call = lambda: [calls.earliest_search_until(search, *words), calls.earliest_search_departures(search, out, count), list(out)]
            yield self.ask(f"until({targets})", call, [0, 0, times])
            asked = self.nodes(5)
        else:
            source, target, time, found = self.node(), self.node(), self.time(), ctypes.c_uint64()
            times, ways = self.least([(target, time)], True)
            call = lambda: [calls.earliest_search_pair_until(search, source, target, time), calls.earliest_search_departure(search, source, found), found.value]
            yield self.ask(f"pair_until({source}, {target}, {time})", call, [0, 0, times[source - 1]])
            asked = [source]
        for node in asked:
            yield from self.walked(walk_until(), search, node, walks, ways[node - 1])

    def refused_by_c(self):
        """Numbers that are no node or beyond the horizon, lists of two lengths, and searches of the other sort."""
        calls, search, until, count = library(), self.held(self.words.choice([0, 1])), self.held(1, until=True), self.reference.nodes
        bad, beyond = self.words.choice([0, count + 1, 2**32 - 1]), self.words.choice([HORIZON + 1, 2**64 - 1])
        node, time, one = self.node(), self.time(), ctypes.c_uint64()
        for call, words, want in (
            (calls.earliest_search_from, lists([node, bad], [time, time]), 18),
            (calls.earliest_search_from, lists([node, node], [time, beyond]), 19),
            (calls.earliest_search_from, lists([node, node], [time]), 23),
            (calls.earliest_search_asking, lists([node], [time], [node, bad]), 18),
            (calls.earliest_search_asking, lists([node], [beyond], [node]), 19),
            (calls.earliest_search_pair, [bad, time, node], 18),
            (calls.earliest_search_pair, [node, time, bad], 18),
            (calls.earliest_search_pair, [node, beyond, node], 19),
            (calls.earliest_search_arrival, [bad, one], 18),
            (calls.earliest_search_until, lists([node], [time]), 17),
            (calls.earliest_search_departure, [node, one], 17),
        ):
            yield self.ask(f"{call.__name__}{words}", lambda: call(search, *words), want)
        for call, words, want in (
            (calls.earliest_search_until, lists([bad], [time]), 18),
            (calls.earliest_search_until, lists([node], [beyond]), 19),
            (calls.earliest_search_until, lists([node], [time, time]), 23),
            (calls.earliest_search_pair_until, [node, bad, time], 18),
            (calls.earliest_search_pair_until, [node, node, beyond], 19),
            (calls.earliest_search_from, lists([node], [time]), 17),
            (calls.earliest_search_arrival, [node, one], 17),
        ):
            yield self.ask(f"{call.__name__}{words} of a search until", lambda: call(until, *words), want)

    def nothing_by_c(self):
        """Handles that hold nothing."""
        calls, empty, one, node, time = library(), Handle(), ctypes.c_uint64(), lists([1]), lists([], [0])[2:]
        for call, words, want in (
            (calls.earliest_road_nodes, [], 0),
            (calls.earliest_road_arcs, [], 0),
            (calls.earliest_search_new, [1, Handle()], 16),
            (calls.earliest_search_new_until, [1, Handle()], 16),
            (calls.earliest_road_turned, [Handle()], 16),
            (calls.earliest_road_prepared, [Handle()], 16),
            (calls.earliest_road_prepared_by, [*node, Handle()], 16),
            (calls.earliest_check, [*node, Starts(0, 0, 0), b"", 0, Fault()], 16),
            (calls.earliest_search_from, [*node, *time], 17),
            (calls.earliest_search_pair, [1, 0, 1], 17),
            (calls.earliest_search_arrival, [1, one], 17),
            (calls.earliest_search_arrivals, [time[0], 1], 17),
            (calls.earliest_search_answers, [time[0], 1], 17),
            (calls.earliest_search_until, [*node, *time], 17),
            (calls.earliest_search_departure, [1, one], 17),
            (calls.earliest_road_free, [], None),
            (calls.earliest_search_free, [], None),
        ):
            yield self.ask(f"{call.__name__} of nothing", lambda: call(empty, *words), want)
