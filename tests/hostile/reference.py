"""Arrivals, latest departures, canonical walks and reports in plain Python, as docs/guide/travel-times.md, docs/guide/formats.md and
docs/design/paths.md say. Nothing of the engine is used: an arrival is the formula of its kind, a latest departure is found among all
departures by halving, least arrivals by Dijkstra's search, and walks level by level over tight arcs.

A kind is a word with its numbers: ("every", P, O), or ("speeds", P, [(T, X), ..]) with its steps.
"""
import heapq

HORIZON = 2**48 - 1


def by_every(weight, left, period, offset):
    return left + (offset - left) % period + weight


def by_closed(weight, left, begin, end):
    return (end if begin <= left < end else left) + weight


def by_rush(weight, left, begin, end, extra):
    if left < begin:
        return left + weight
    return left + weight + extra if left < end else max(left + weight, end + weight + extra)


def by_speeds(weight, left, period, steps):
    """The first time by which the speeds from `left` on sum to 1000 * weight: whole periods are left out, and what is missing is looked for
    among the steps of one period."""
    if weight == 0:
        return left
    spans = [(begin, end, speed) for (begin, speed), end in zip(steps, [time for time, _ in steps[1:]] + [period])]
    whole = sum(speed * (end - begin) for begin, end, speed in spans)
    turn, at = divmod(left, period)
    due = 1000 * weight + sum(speed * (min(end, at) - begin) for begin, end, speed in spans if begin < at)
    turns = (due - 1) // whole
    due -= turns * whole
    for begin, end, speed in spans:
        if speed * (end - begin) >= due:
            return (turn + turns) * period + begin - -due // speed
        due -= speed * (end - begin)
    raise AssertionError("the sum of a period is reached in it")


def by_trips(weight, left, period, steps):
    turn, at = divmod(left, period) if period else (0, left)
    for time, extra in steps:
        if time >= at:
            return turn * period + time + extra + weight
    return (turn + 1) * period + steps[0][0] + steps[0][1] + weight if period else None


def by_points(weight, left, period, steps):
    at = left % period if period else left
    around = list(steps)
    if period:
        around = [(steps[-1][0] - period, steps[-1][1]), *steps, (steps[0][0] + period, steps[0][1])]
    elif at < steps[0][0]:
        return left + weight + steps[0][1]
    for (time, value), (later, other) in zip(around, around[1:]):
        if time <= at < later:
            return left + weight + (value * (later - at) + other * (at - time)) // (later - time)
    return left + weight + steps[-1][1]


def by_plain(weight, left):
    return left + weight


FORMULAS = {"plain": by_plain, "every": by_every, "closed": by_closed, "rush": by_rush, "speeds": by_speeds, "trips": by_trips, "points": by_points}


def arrive(kind, weight, left):
    """When an arc arrives that is left at a time; None if it doesn't within the horizon."""
    at = FORMULAS[kind[0]](weight, left, *kind[1:])
    return at if at is not None and at <= HORIZON else None


def leave(kind, weight, by):
    """The latest departure with which an arc arrives by a time; None if there is none. Who leaves later never arrives earlier."""
    def is_late(left):
        at = arrive(kind, weight, left)
        return at is None or at > by

    good, bad, step = by if kind[0] == "speeds" else by - weight, by + 1, 1
    while good >= 0 and is_late(good):
        good, bad, step = good - step, good, 2 * step
    if good < 0:
        if bad <= 0 or is_late(0):
            return None
        good = 0
    while bad - good > 1:
        middle = (good + bad) // 2
        good, bad = (good, middle) if is_late(middle) else (middle, bad)
    return good


class Road:
    """A network with its travel times: `arcs` has (tail, head, weight) for each arc, `classes` the class of each, and `kinds` the kinds of
    the classes from 1 on."""

    def __init__(self, nodes, arcs, kinds=(), classes=None):
        self.nodes, self.arcs, self.kinds = nodes, arcs, [("plain",), *kinds]
        self.classes = list(classes) if classes else [0] * len(arcs)
        self.leaving, self.entering, self.known = {}, {}, {}
        for number, (tail, head, _) in enumerate(arcs, 1):
            self.leaving.setdefault(tail, []).append(number)
            self.entering.setdefault(head, []).append(number)

    def over(self, number, time, turned=False):
        """The arrival by an arc that is left at a time; turned, the latest departure that arrives by it. None if there is none."""
        kind, weight = self.classes[number - 1], self.arcs[number - 1][2]
        key = kind, weight, time, turned
        if key not in self.known:
            self.known[key] = (leave if turned else arrive)(self.kinds[kind], weight, time)
        return self.known[key]

    def ways(self, node, turned=False):
        """The arcs that continue from a node, each with the node it leads to; turned, those that lead to it, with their tails."""
        numbers, end = (self.entering, 0) if turned else (self.leaving, 1)
        return [(number, self.arcs[number - 1][end]) for number in numbers.get(node, ())]

    def search(self, starts, turned=False):
        """The least arrival at each node from starts (node, time), or turned the latest departure: a list in which place 0 is unused, None
        for a node that has none."""
        found, sign = [None] * (self.nodes + 1), -1 if turned else 1
        waiting = [(sign * time, node) for node, time in starts]
        heapq.heapify(waiting)
        while waiting:
            key, node = heapq.heappop(waiting)
            if found[node] is None:
                found[node] = sign * key
                for number, other in self.ways(node, turned):
                    if found[other] is None:
                        time = self.over(number, sign * key, turned)
                        if time is not None:
                            heapq.heappush(waiting, (sign * time, other))
        return found

    def links(self, starts, times, turned=False):
        """The level of each node that tight arcs lead to from a start at its own time, and its link: (the lowest arc from the level below, the
        node that it leads from), None for a start."""
        levels = {node: 0 for node, time in starts if times[node] == time}
        links = dict.fromkeys(levels)
        layer, level = list(levels), 0
        while layer:
            level, found = level + 1, {}
            for node in layer:
                for number, other in self.ways(node, turned):
                    if other not in levels and self.over(number, times[node], turned) == times[other] is not None:
                        found[other] = min(found.get(other, (number, node)), (number, node))
            levels.update(dict.fromkeys(found, level))
            links.update(found)
            layer = list(found)
        return levels, links

    def runs(self, starts, walk, node, turned=False):
        """The times at which a walk of arcs brings one to a node from the starts; turned, those at which one leaves the node by it."""
        if not all(1 <= number <= len(self.arcs) for number in walk):
            return set()
        near, far = (1, 0) if turned else (0, 1)
        way = walk[::-1] if turned else walk
        ends = [self.arcs[number - 1] for number in way]
        if [arc[near] for arc in ends[1:]] != [arc[far] for arc in ends[:-1]] or (ends and ends[-1][far] != node):
            return set()
        found = {time for start, time in starts if start == (ends[0][near] if ends else node)}
        for number in way:
            found = {self.over(number, time, turned) for time in found} - {None}
        return found


def walk_of(links, node, turned=False):
    """The canonical walk of a node, in the order in which it is driven."""
    walk = []
    while links[node]:
        number, node = links[node]
        walk.append(number)
    return walk if turned else walk[::-1]


def lines_of(road, starts, heads, asked, turned, walks):
    """The lines of one problem: its first lines, then those of the asked nodes."""
    times = road.search(starts, turned)
    links = road.links(starts, times, turned)[1] if walks else None
    lines = list(heads)
    for node in asked:
        lines.append(f"d {node} {('none' if turned else 'inf') if times[node] is None else times[node]}")
        if walks and times[node] is not None:
            walk = walk_of(links, node, turned)
            assert times[node] in road.runs(starts, walk, node, turned), "the reference's own walk is wrong"
            lines.append(" ".join(map(str, ["w", node, len(walk), *walk])))
    return lines


def report_of_run(road, problems, turned=False, walks=False, nodes=None):
    """The report of `run` on problems, each a list of starts (node, time), of all nodes or of chosen ones."""
    asked = range(1, road.nodes + 1) if nodes is None else nodes
    lines = []
    for starts in problems:
        lines += lines_of(road, starts, [f"{'t' if turned else 's'} {node} {time}" for node, time in starts], asked, turned, walks)
    return "".join(line + "\n" for line in lines).encode()


def report_of_pairs(road, pairs, turned=False, walks=False):
    """The report of `pairs` on triples (source, target, time)."""
    lines = []
    for source, target, time in pairs:
        near, far = (target, source) if turned else (source, target)
        lines += lines_of(road, [(near, time)], [f"{'t' if turned else 'q'} {source} {target} {time}"], [far], turned, walks)
    return "".join(line + "\n" for line in lines).encode()
