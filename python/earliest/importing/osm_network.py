"""What a profile takes of OpenStreetMap data: ways, crossings, and arcs between them, in arrays."""
from array import array
from bisect import bisect_left

from . import geography
from .grouping import grouped
from .telling import Refused

try:
    import numpy
except ImportError:
    numpy = None

KNOWN, STOPS, SIGNAL_FORWARD, SIGNAL_BACKWARD, CUT = 1, 2, 4, 8, 16
"""Flags of a node: it has coordinates; its barrier stops; signals in a direction; ways are cut there."""


class Ids:
    """Ids that were named, ascending, each once; `find` gives a place, or -1."""

    def __init__(self, named):
        if numpy is not None:
            self.all = numpy.unique(numpy.frombuffer(named, dtype=numpy.int64)) if len(named) else numpy.zeros(0, dtype=numpy.int64)
            self.fast = self.all.searchsorted
        else:
            self.all = array("q", sorted(set(named)))
            self.fast = None

    def __len__(self):
        return len(self.all)

    def find(self, wanted):
        place = int(self.fast(wanted)) if self.fast else bisect_left(self.all, wanted)
        return place if place < len(self.all) and self.all[place] == wanted else -1

    def places(self, wanted):
        """The place of each of an array of ids, all of which are known to be there."""
        if numpy is not None:
            return array("i", self.fast(numpy.frombuffer(wanted, dtype=numpy.int64)).astype(numpy.int32).tobytes()) if len(wanted) else array("i")
        return array("i", (bisect_left(self.all, it) for it in wanted))


class Restriction:
    __slots__ = ("number", "only", "uturn", "starts", "via_node", "via_ways", "ends")


class Extract:
    """What the profile takes of a file: ways as runs of places of nodes, and restrictions."""

    def __init__(self, source, profile, summary, turns):
        self.profile, self.summary, self.turns = profile, summary, turns
        self.way_ids, self.first, self.refs = array("q"), array("q", [0]), array("q")
        self.forward, self.backward, self.seconds = array("d"), array("d"), {}
        self.restrictions = []
        source.ways_and_relations(self._way, self._relation)
        if not self.way_ids:
            raise Refused(f"{source.path} has no way that the profile {profile.name} takes{summary.reasons()}")
        self.ids = Ids(self.refs)
        self.index = self.ids.places(self.refs)
        self.refs = None
        self.x, self.y = array("i", bytes(4 * len(self.ids))), array("i", bytes(4 * len(self.ids)))
        self.flags, self.repeated = bytearray(len(self.ids)), 0
        self._waiting = (array("q"), array("i"), array("i"))
        source.nodes(self._node)
        self._placed()
        missing = len(self.ids) - sum(1 for flag in self.flags if flag & KNOWN)
        summary.leave("nodes that the file has more than once: the last place holds", count=self.repeated)
        summary.take("ways that the file has more than once, taken as often", len(self.way_ids) - len(Ids(self.way_ids)))
        if missing:
            summary.leave("nodes of ways without coordinates in the file; the ways are cut there", count=missing)

    def _way(self, number, refs, tags):
        judged = self.profile.judge(number, tags, self.summary)
        if judged is None:
            return
        if len(refs) < 2:
            self.summary.leave("ways with fewer than two nodes", number)
            return
        forward, backward, seconds = judged
        if seconds is not None:
            self.seconds[len(self.way_ids)] = seconds
        self.way_ids.append(number)
        self.refs.extend(refs)
        self.first.append(len(self.refs))
        self.forward.append(forward / 3.6)
        self.backward.append(backward / 3.6)

    def _relation(self, number, members, tags):
        kind = tags.get("type", "")
        if kind != "restriction" and not kind.startswith("restriction:"):
            return
        told = None
        if kind != "restriction":
            told = tags.get(kind, tags.get("restriction")) if kind in self.profile.restrictions else None
        for key in self.profile.restrictions:
            told = told or tags.get(key)
        if told is None:
            if any(key.startswith("restriction") and key.endswith(":conditional") for key in tags):
                self.summary.leave("turn restrictions with conditions of time, not looked at", number)
            else:
                self.summary.leave("turn restrictions for others", number)
            return
        if self.profile.excepted & {part.strip() for part in tags.get("except", "").split(";")}:
            self.summary.leave("turn restrictions that except this traveller", number)
            return
        if not told.startswith(("no_", "only_")):
            self.summary.leave("turn restrictions of a kind without a meaning here", f"{number}: {told!r}")
            return
        found = Restriction()
        found.number, found.only, found.uturn = number, told.startswith("only_"), told == "no_u_turn"
        found.starts = [ref for type_, ref, role in members if role == "from" and type_ == "w"]
        found.ends = [ref for type_, ref, role in members if role == "to" and type_ == "w"]
        nodes = [ref for type_, ref, role in members if role == "via" and type_ == "n"]
        found.via_ways = [ref for type_, ref, role in members if role == "via" and type_ == "w"]
        if not found.starts or not found.ends or bool(nodes) == bool(found.via_ways) or len(nodes) > 1:
            self.summary.leave("turn restrictions without a way from, a way to, or one place between them", number)
            return
        if found.only and (len(found.starts) > 1 or len(found.ends) > 1):
            self.summary.leave("turn restrictions of the kind only_ with several ways from or to", number)
            return
        found.via_node = nodes[0] if nodes else None
        self.restrictions.append(found)

    def _node(self, number, x, y, tags):
        if tags and ("barrier" in tags or (self.turns and tags.get("highway") == "traffic_signals")):
            place = self.ids.find(number)
            if place >= 0:
                self._tagged(number, place, tags)
        if x is None:
            return
        ids, xs, ys = self._waiting
        ids.append(number)
        xs.append(x)
        ys.append(y)
        if len(ids) == 1 << 18:
            self._placed()

    def _tagged(self, number, place, tags):
        if "barrier" in tags:
            if self.profile.passes(tags):
                self.summary.take(f"barriers of kind {tags['barrier']} that let pass")
            else:
                self.flags[place] |= STOPS | CUT
                self.summary.leave(f"barriers of kind {tags['barrier']}: nobody passes, and the way ends there", number)
        if tags.get("highway") == "traffic_signals":
            toward = tags.get("traffic_signals:direction", tags.get("direction"))
            self.flags[place] |= {"forward": SIGNAL_FORWARD, "backward": SIGNAL_BACKWARD}.get(toward, SIGNAL_FORWARD | SIGNAL_BACKWARD)

    def _placed(self):
        """Stores the coordinates of the nodes that wait, if a way has them."""
        ids, xs, ys = self._waiting
        if not ids:
            return
        if numpy is not None and len(self.ids):
            wanted = numpy.frombuffer(ids, dtype=numpy.int64)
            places = numpy.minimum(self.ids.all.searchsorted(wanted), len(self.ids) - 1)
            hit = self.ids.all[places] == wanted
            places = places[hit]
            for mine, given in ((self.x, xs), (self.y, ys)):
                numpy.frombuffer(mine, dtype=numpy.int32)[places] = numpy.frombuffer(given, dtype=numpy.int32)[hit]
            flags = numpy.frombuffer(self.flags, dtype=numpy.uint8)
            new = numpy.unique(places)
            self.repeated += len(places) - int(numpy.count_nonzero(flags[new] & KNOWN == 0))
            flags[places] |= KNOWN
            del flags
        else:
            for number, x, y in zip(ids, xs, ys):
                place = self.ids.find(number)
                if place >= 0:
                    self.x[place], self.y[place] = x, y
                    self.repeated += self.flags[place] & KNOWN
                    self.flags[place] |= KNOWN
        self._waiting = (array("q"), array("i"), array("i"))

    def place(self, node):
        return self.x[node] / 1e7, self.y[node] / 1e7


def step_lengths(extract):
    """For each place of the ways' runs the metres from the place before it; 0 for the first of a way."""
    index, first = extract.index, extract.first
    if numpy is not None:
        at = numpy.frombuffer(index, dtype=numpy.int32)
        east = numpy.radians(numpy.frombuffer(extract.x, dtype=numpy.int32)[at] / 1e7)
        north = numpy.radians(numpy.frombuffer(extract.y, dtype=numpy.int32)[at] / 1e7)
        half = numpy.sin(numpy.diff(north) / 2) ** 2 + numpy.cos(north[:-1]) * numpy.cos(north[1:]) * numpy.sin(numpy.diff(east) / 2) ** 2
        found = numpy.concatenate(([0.0], 2 * geography.RADIUS * numpy.arcsin(numpy.minimum(1.0, numpy.sqrt(half)))))
        found[numpy.frombuffer(first, dtype=numpy.int64)[:-1]] = 0.0
        return array("d", found.tobytes())
    found = array("d", bytes(8 * len(index)))
    for way in range(len(first) - 1):
        before = None
        for spot in range(first[way], first[way + 1]):
            here = extract.place(index[spot])
            if before is not None:
                found[spot] = geography.metres(*before, *here)
            before = here
    return found


class Arcs:
    """Directed arcs between crossings: ends, seconds, metres, and the run of places that each follows."""

    def __init__(self):
        self.tail, self.head = array("i"), array("i")
        self.seconds, self.metres = array("d"), array("d")
        self.way, self.start, self.end = array("i"), array("q"), array("q")

    def add(self, tail, head, seconds, metres, way, start, end):
        self.tail.append(tail)
        self.head.append(head)
        self.seconds.append(seconds)
        self.metres.append(metres)
        self.way.append(way)
        self.start.append(start)
        self.end.append(end)

    def __len__(self):
        return len(self.tail)

    def run(self, arc):
        """The places along an arc, in its direction."""
        start, end = self.start[arc], self.end[arc]
        return range(start, end + 1) if start <= end else range(start, end - 1, -1)


class Network:
    """Crossings and arcs between them, cut out of an extract."""

    def __init__(self, extract, summary, keep_nodes):
        self.extract, self.summary = extract, summary
        self.extra = array("i")  # the node that each further dead end at a barrier stands for
        self.arcs, self.way_arcs = Arcs(), array("q", [0])
        self._mark(keep_nodes)
        self._cut()
        if not len(self.arcs):
            raise Refused("no way of the file has two nodes with coordinates")

    @property
    def nodes(self):
        return len(self.extract.ids) + len(self.extra)

    def origin(self, node):
        known = len(self.extract.ids)
        return node if node < known else self.extra[node - known]

    def place(self, node):
        return self.extract.place(self.origin(node))

    def _mark(self, keep_nodes):
        """Where ways are cut: at their ends, where they meet, at barriers that stop, and at the places of restrictions."""
        extract = self.extract
        flags, index, first = extract.flags, extract.index, extract.first
        if keep_nodes:
            for node in range(len(flags)):
                flags[node] |= CUT
            return
        seen = bytearray(len(flags))
        for node in index:
            if seen[node]:
                flags[node] |= CUT
            seen[node] = 1
        for way in range(len(first) - 1):
            flags[index[first[way]]] |= CUT
            flags[index[first[way + 1] - 1]] |= CUT
        for restriction in extract.restrictions:
            place = extract.ids.find(restriction.via_node) if restriction.via_node is not None else -1
            if place >= 0:
                flags[place] |= CUT

    def _end(self, node):
        """The number of an arc's end: at a barrier that stops each end is a node by itself."""
        if self.extract.flags[node] & STOPS:
            self.extra.append(node)
            return len(self.extract.ids) + len(self.extra) - 1
        return node

    def _cut(self):
        extract = self.extract
        flags, index, first = extract.flags, extract.index, extract.first
        lengths = step_lengths(extract)
        wait = extract.profile.turns["traffic signals"] if extract.turns else 0.0
        for way in range(len(first) - 1):
            whole = sum(lengths[spot] for spot in range(first[way] + 1, first[way + 1]) if flags[index[spot - 1]] & flags[index[spot]] & KNOWN) if way in extract.seconds else 0.0
            start, last = None, first[way + 1] - 1
            for spot in range(first[way], last + 1):
                if not flags[index[spot]] & KNOWN:
                    start = None
                    continue
                if start is None:
                    start = spot
                    continue
                if flags[index[spot]] & CUT or spot == last or not flags[index[spot + 1]] & KNOWN:
                    self._piece(way, start, spot, lengths, whole, wait)
                    start = spot
            self.way_arcs.append(len(self.arcs))

    def _piece(self, way, start, end, lengths, whole, wait):
        extract = self.extract
        metres = sum(lengths[start + 1:end + 1])
        tail, head = self._end(extract.index[start]), self._end(extract.index[end])
        for speed, ends, run, signal in ((extract.forward[way], (tail, head), (start, end), SIGNAL_FORWARD), (extract.backward[way], (head, tail), (end, start), SIGNAL_BACKWARD)):
            if speed <= 0:
                continue
            if way in extract.seconds:
                seconds = extract.seconds[way] * metres / whole if whole else extract.seconds[way]
            else:
                seconds = metres / speed
            if wait:
                step = 1 if run[0] < run[1] else -1
                seconds += wait * sum(1 for spot in range(run[0] + step, run[1] + step, step) if extract.flags[extract.index[spot]] & signal)
            self.arcs.add(*ends, seconds, metres, way, *run)

    def largest(self):
        """Keeps the largest part in which every node can be reached from every other."""
        part = strong_parts(self.arcs.tail, self.arcs.head, self.nodes)
        used = bytearray(self.nodes)
        for ends in (self.arcs.tail, self.arcs.head):
            for node in ends:
                used[node] = 1
        sizes = {}
        for node in range(self.nodes):
            if used[node]:
                sizes[part[node]] = sizes.get(part[node], 0) + 1
        most = max(sizes, key=sizes.get)  # of parts of one size that with the lowest node
        kept = array("i", (arc for arc in range(len(self.arcs)) if part[self.arcs.tail[arc]] == most and part[self.arcs.head[arc]] == most))
        self.summary.leave("crossings and ends of ways outside the largest part", count=sum(sizes.values()) - sizes[most])
        self.summary.leave("arcs outside the largest part", count=len(self.arcs) - len(kept))
        arcs, self.arcs, old_first = self.arcs, Arcs(), self.way_arcs
        if not kept:
            raise Refused("no part of the network can be driven in a round; leave out --largest")
        self.way_arcs = array("q", [0])
        spot = 0
        for way in range(len(old_first) - 1):
            while spot < len(kept) and kept[spot] < old_first[way + 1]:
                arc = kept[spot]
                self.arcs.add(arcs.tail[arc], arcs.head[arc], arcs.seconds[arc], arcs.metres[arc], arcs.way[arc], arcs.start[arc], arcs.end[arc])
                spot += 1
            self.way_arcs.append(len(self.arcs))


def strong_parts(tails, heads, nodes):
    """The number of each node's strongly connected part: by scipy if it is there, else by Tarjan's method."""
    try:
        from scipy.sparse import csr_matrix
        from scipy.sparse.csgraph import connected_components
        ends = [numpy.frombuffer(it, dtype=numpy.int32) for it in (tails, heads)]
        matrix = csr_matrix((numpy.ones(len(tails), dtype=numpy.int8), (ends[0], ends[1])), shape=(nodes, nodes))
        return array("i", connected_components(matrix, connection="strong")[1].astype(numpy.int32).tobytes())
    except ImportError:
        pass
    firsts, leaving = grouped(tails, nodes)
    order, low, part = array("q", bytes(8 * nodes)), array("q", bytes(8 * nodes)), array("q", b"\xff" * (8 * nodes))
    spots, stack, count, parts = array("q", firsts), [], 0, 0
    for root in range(nodes):
        if order[root]:
            continue
        path = [root]
        while path:
            node = path[-1]
            if not order[node]:
                count += 1
                order[node] = low[node] = count
                stack.append(node)
            deeper = False
            while spots[node] < firsts[node + 1]:
                head = heads[leaving[spots[node]]]
                if not order[head]:
                    path.append(head)
                    deeper = True
                    break
                spots[node] += 1
                if part[head] < 0:
                    low[node] = min(low[node], low[head])
            if deeper:
                continue
            path.pop()
            if low[node] == order[node]:
                while part[node] < 0:
                    part[stack.pop()] = parts
                parts += 1
    return part
