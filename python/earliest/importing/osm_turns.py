"""Turn restrictions and what turns take: forbidden runs of arcs, chains of arcs joined, crossings split."""
from array import array

from . import geography
from .grouping import grouped


class Turns:
    """Runs of arcs that nobody may drive, of the restrictions of an extract."""

    def __init__(self, network):
        self.network, self.extract, self.arcs = network, network.extract, network.arcs
        self.forbidden = set()
        self.places = {}
        if not self.extract.restrictions:
            return
        members = {number for it in self.extract.restrictions for number in (*it.starts, *it.ends, *it.via_ways)}
        self.way_place = {number: place for place, number in enumerate(self.extract.way_ids) if number in members}
        self.firsts, self.leaving = grouped(self.arcs.tail, network.nodes)
        for restriction in self.extract.restrictions:
            why = self._add(restriction)
            if why:
                network.summary.leave(f"turn restrictions {why}", restriction.number)
            else:
                network.summary.take("turn restrictions")

    def _of_way(self, number):
        place = self.way_place.get(number)
        return range(self.network.way_arcs[place], self.network.way_arcs[place + 1]) if place is not None else None

    def _add(self, restriction):
        """Adds the runs of one restriction; else says why it is left out."""
        members = restriction.starts + restriction.ends + restriction.via_ways
        if any(number not in self.way_place for number in members):
            return "about ways that aren't in the network"
        if restriction.via_ways:
            runs, why = self._by_ways(restriction)
        else:
            runs, why = self._by_node(restriction)
        if why:
            return why
        for run in runs:
            if not restriction.only:
                self.forbidden.add(run)
                continue
            for step in range(len(run) - 1):
                node = self.arcs.head[run[step]]
                for spot in range(self.firsts[node], self.firsts[node + 1]):
                    if self.leaving[spot] != run[step + 1]:
                        self.forbidden.add((*run[:step + 1], self.leaving[spot]))
        return None

    def _by_node(self, restriction):
        node = self.extract.ids.find(restriction.via_node)
        if node < 0:
            return None, "at a node that no way of the network has"
        runs = []
        for start in restriction.starts:
            for end in restriction.ends:
                into = [arc for arc in self._of_way(start) if self.arcs.head[arc] == node]
                out = [arc for arc in self._of_way(end) if self.arcs.tail[arc] == node]
                if restriction.uturn and start == end:
                    runs += [(arc, back) for arc in into for back in out if self._turned(arc, back)]
                    continue
                if not into or not out:
                    continue
                if len(into) > 1 or len(out) > 1:
                    return None, "whose ways go on beyond the crossing, so that it isn't clear which turn is meant"
                runs.append((into[0], out[0]))
        return (runs, None) if runs else (None, "whose turn can't be driven anyway, or whose ways don't meet at the node")

    def _turned(self, arc, back):
        return self.arcs.start[arc] == self.arcs.end[back] and self.arcs.end[arc] == self.arcs.start[back]

    def _ends(self, way):
        """The nodes at which a way may be left or entered."""
        return {self.arcs.tail[arc] for arc in self._of_way(way)} | {self.arcs.head[arc] for arc in self._of_way(way)}

    def _along(self, way, start, end):
        """The arcs along a way from one node to another, or None."""
        found = []
        for step in (1, -1):
            run, at = [], None
            arcs = [arc for arc in self._of_way(way) if (self.arcs.end[arc] > self.arcs.start[arc]) == (step == 1)]
            for arc in sorted(arcs, key=lambda it: step * self.arcs.start[it]):
                if at is None and self.arcs.tail[arc] == start:
                    at = start
                if at is None:
                    continue
                if self.arcs.tail[arc] != at:
                    break
                run.append(arc)
                at = self.arcs.head[arc]
                if at == end:
                    found.append(tuple(run))
                    break
        return min(found, key=len) if found else None

    def _by_ways(self, restriction):
        runs = []
        for start in restriction.starts:
            for end in restriction.ends:
                runs += self._chains(start, restriction.via_ways, end)
        if not runs:
            return None, "whose ways don't join into one that can be driven"
        if len(runs) > 1 and len(restriction.starts) == len(restriction.ends) == 1:
            return None, "whose ways go on beyond the crossings, so that it isn't clear which turn is meant"
        return runs, None

    def _chains(self, start, between, end):
        """The runs of arcs over a way, some ways in their order, and a last way."""
        found = []
        joints = [(way, self._ends(way)) for way in between]
        for into in self._of_way(start):
            fronts = [((into,), self.arcs.head[into])]
            for place, (way, ends) in enumerate(joints):
                following = joints[place + 1][1] if place + 1 < len(joints) else self._ends(end)
                fronts = [(run + along, goal) for run, node in fronts if node in ends for goal in sorted(ends & following - {node}) for along in [self._along(way, node, goal)] if along]
            for run, node in fronts:
                found += [(*run, arc) for arc in self._of_way(end) if self.arcs.tail[arc] == node]
        return found

    def crossings(self):
        """The nodes that a forbidden run turns at."""
        return {self.arcs.head[arc] for run in self.forbidden for arc in run[:-1]}


class Joined:
    """Arcs after chains of nodes of degree two were joined: each is a row of arcs of the network."""

    def __init__(self, network, kept, join):
        self.network = network
        arcs, nodes = network.arcs, network.nodes
        self.rows, self.first = array("i"), array("q", [0])
        self.of_arc = array("i", b"\xff" * (4 * len(arcs)))
        firsts, leaving = grouped(arcs.tail, nodes)
        in_firsts, entering = grouped(arcs.head, nodes)
        self.passed = bytearray(nodes)
        if join:
            for node in range(nodes):
                outs = [arcs.head[leaving[spot]] for spot in range(firsts[node], firsts[node + 1])]
                ins = [arcs.tail[entering[spot]] for spot in range(in_firsts[node], in_firsts[node + 1])]
                both = set(outs) | set(ins)
                if node not in both and len(both) == 2 and len(outs) == len(ins) and len(outs) <= 2 and len(set(outs)) == len(outs) and len(set(ins)) == len(ins) and node not in kept:
                    self.passed[node] = 1
        for arc in range(len(arcs)):
            if not self.passed[arcs.tail[arc]]:
                self._follow(arc, firsts, leaving)
        for arc in range(len(arcs)):
            node = arcs.tail[arc]
            if self.of_arc[arc] < 0:  # a ring in which every node was passed keeps one
                self.passed[node] = 0
                for spot in range(firsts[node], firsts[node + 1]):
                    self._follow(leaving[spot], firsts, leaving)

    def _follow(self, arc, firsts, leaving):
        arcs = self.network.arcs
        while True:
            self.of_arc[arc] = len(self.first) - 1
            self.rows.append(arc)
            head, back = arcs.head[arc], arcs.tail[arc]
            if not self.passed[head]:
                break
            following = [leaving[spot] for spot in range(firsts[head], firsts[head + 1]) if arcs.head[leaving[spot]] != back]
            arc = following[0]
        self.first.append(len(self.rows))

    def __len__(self):
        return len(self.first) - 1

    def row(self, joined):
        return self.rows[self.first[joined]:self.first[joined + 1]]

    def tail(self, joined):
        return self.network.arcs.tail[self.rows[self.first[joined]]]

    def head(self, joined):
        return self.network.arcs.head[self.rows[self.first[joined + 1] - 1]]

    def places(self, joined):
        """The places along an arc, each node once."""
        arcs, index = self.network.arcs, self.network.extract.index
        found = []
        for arc in self.row(joined):
            for spot in arcs.run(arc):
                if not found or found[-1] != index[spot]:
                    found.append(index[spot])
        return found


class Costs:
    """What turns take, by their angle at a crossing of at least three roads; turning round takes its time everywhere."""

    def __init__(self, joined, profile):
        self.joined, self.turns = joined, profile.turns
        self.bearings = {}
        beside = {}
        for arc in range(len(joined)):
            beside.setdefault(joined.tail(arc), set()).add(self._pair(arc, False)[-1])
            beside.setdefault(joined.head(arc), set()).add(self._pair(arc, True)[0])
        self.crossings = {node for node, others in beside.items() if len(others) > 2}

    def _pair(self, arc, last):
        """The first two places along an arc, or the last two."""
        joined, network = self.joined, self.joined.network
        arcs, index = network.arcs, network.extract.index
        piece = joined.rows[joined.first[arc + 1] - 1 if last else joined.first[arc]]
        start, end = arcs.start[piece], arcs.end[piece]
        step = 1 if start < end else -1
        pair = (index[end - step], index[end]) if last else (index[start], index[start + step])
        if pair[0] == pair[1]:  # a way that names a node twice in a row
            places = self.joined.places(arc)
            pair = (places[-2:] if last else places[:2]) if len(places) > 1 else pair
        return pair

    def _bearing(self, arc, last):
        """The direction in which an arc ends, or begins."""
        found = self.bearings.get((arc, last))
        if found is None:
            place, (here, there) = self.joined.network.extract.place, self._pair(arc, last)
            found = self.bearings[arc, last] = geography.bearing(*place(here), *place(there))
        return found

    def of(self, into, out):
        joined, arcs = self.joined, self.joined.network.arcs
        last, first = joined.rows[joined.first[into + 1] - 1], joined.rows[joined.first[out]]
        if arcs.start[last] == arcs.end[first] and arcs.end[last] == arcs.start[first]:
            return self.turns["u-turn"]
        if arcs.tail[first] not in self.crossings:
            return 0.0
        angle = (self._bearing(out, False) - self._bearing(into, True) + 180.0) % 360.0 - 180.0
        if abs(angle) <= self.turns["straight up to"]:
            return self.turns["straight"]
        seconds = self.turns["right"] if angle > 0 else self.turns["left"]
        return max(seconds, self.turns["sharp"]) if abs(angle) >= self.turns["sharp from"] else seconds


class Split:
    """The network with the crossings split that remember how they were entered: a state is a run of arcs that begins a forbidden one."""

    def __init__(self, joined, forbidden, costs):
        self.joined, self.costs = joined, costs
        self.forbidden = {tuple(joined.of_arc[arc] for arc in run) for run in forbidden}
        self.longest = max((len(run) for run in self.forbidden), default=0)
        number, base = array("i", bytes(4 * joined.network.nodes)), array("i")
        for arc in range(len(joined)):
            number[joined.tail(arc)] = number[joined.head(arc)] = 1
        for node in range(len(number)):
            if number[node]:
                base.append(node)
                number[node] = len(base)
        self.base = base
        tails = array("i", (number[joined.tail(arc)] for arc in range(len(joined))))
        self.heads = array("i", (number[joined.head(arc)] for arc in range(len(joined))))
        self.firsts, self.leaving = grouped(tails, len(base) + 1)
        states = {run[:length] for run in self.forbidden for length in range(1, len(run))}
        if costs:
            states |= {(arc,) for arc in range(len(joined)) if any(costs.of(arc, out) for out in self._out(self.heads[arc]))}
        self.states = sorted(states)
        self.state_number = {state: len(base) + place for place, state in enumerate(self.states, 1)}
        crossings = sorted({self.heads[state[-1]] for state in self.states})
        self.end_number = {node: len(base) + len(self.states) + place for place, node in enumerate(crossings, 1)}
        self.nodes = len(base) + len(self.states) + len(crossings)

    def _out(self, node):
        return self.leaving[self.firsts[node]:self.firsts[node + 1]]

    def _onward(self, state, arc):
        """The node that an arc leads to after a run of arcs; None if the turn is forbidden."""
        if not state:
            return self.state_number.get((arc,)) or self.heads[arc]
        run = (*state, arc)[-max(self.longest, 1):]
        for length in range(2, len(run) + 1):
            if run[-length:] in self.forbidden:
                return None
        for length in range(len(run), 0, -1):
            if run[-length:] in self.state_number:
                return self.state_number[run[-length:]]
        return self.heads[arc]

    def arcs(self):
        """(tail, head, arc or None, seconds of the turn); those without an arc lead to the node to end at."""
        for node in range(1, len(self.base) + 1):
            for arc in self._out(node):
                yield node, self._onward((), arc), arc, 0.0
        for place, state in enumerate(self.states, 1):
            for arc in self._out(self.heads[state[-1]]):
                onward = self._onward(state, arc)
                if onward is not None:
                    yield len(self.base) + place, onward, arc, self.costs.of(state[-1], arc) if self.costs else 0.0
        for node, end in self.end_number.items():
            yield node, end, None, 0.0
        for place, state in enumerate(self.states, 1):
            yield len(self.base) + place, self.end_number[self.heads[state[-1]]], None, 0.0

    def count(self):
        """How many arcs there are."""
        turns = sum(1 for state in self.states for arc in self._out(self.heads[state[-1]]) if self._onward(state, arc) is not None)
        return len(self.joined) + turns + len(self.end_number) + len(self.states)

    def described(self):
        """For each node its crossing and its use: both, start, turn or end."""
        for place, node in enumerate(self.base, 1):
            yield node, "start" if place in self.end_number else "both"
        for state in self.states:
            yield self.base[self.heads[state[-1]] - 1], "turn"
        for node in self.end_number:
            yield self.base[node - 1], "end"
