"""What the tests compare with: earliest arrivals by a plain Dijkstra over travel times as the formats' page has them, and random networks."""
import heapq
import os
import random

HERE = os.path.dirname(os.path.abspath(__file__))
ROOT = os.path.normpath(os.path.join(HERE, "..", ".."))
EXAMPLES = os.path.join(ROOT, "examples")
HORIZON = 2**48 - 1
NEVER = 2**64 - 1

FOUR = b"p sp 4 5\na 1 2 7\na 1 3 2\na 3 2 3\na 2 4 1\na 3 4 9\n"
"""The example four-nodes: from 1 at 0 its nodes are reached at 0, 5, 2 and 6, the last over arcs 2, 3 and 4."""


def arrive(kind, weight, departure):
    """When an arc of this kind arrives that is left at a time; None if it never does."""
    word, *rest = kind
    if word == "every":
        period, offset = rest
        return departure + (offset - departure) % period + weight
    if word == "closed" and rest[0] <= departure < rest[1]:
        return rest[1] + weight
    if word == "rush" and rest[0] <= departure:
        begin, end, extra = rest
        if departure < end:
            return departure + weight + extra
        return max(departure + weight, end + weight + extra)
    if word == "speeds":
        period, steps = rest
        done, time = 0, departure
        while done < 1000 * weight:
            done += [speed for begin, speed in steps if begin <= time % period][-1]
            time += 1
        return time
    if word == "trips":
        period, steps = rest
        for time in range(departure, departure + (period or 0) + 1):
            for begin, more in steps:
                if begin == (time % period if period else time):
                    return time + weight + more
        return None
    return departure + weight


class Network:
    """Arcs (tail, head, weight, class) and kinds of class, class 0 plain."""

    def __init__(self, nodes, arcs, kinds=()):
        self.nodes, self.arcs, self.kinds = nodes, arcs, [("plain",), *kinds]
        self.leaving = {}
        for number, (tail, *_) in enumerate(arcs, 1):
            self.leaving.setdefault(tail, []).append(number)

    def gr(self):
        return (f"p sp {self.nodes} {len(self.arcs)}\n" + "".join(f"a {u} {v} {w}\n" for u, v, w, _ in self.arcs)).encode()

    def kinds_text(self):
        lines = []
        for number, (word, *rest) in enumerate(self.kinds[1:], 1):
            if word in ("speeds", "trips"):
                lines += [f"k {number} {word} {rest[0]} {len(rest[1])}", *(f"v {time} {value}" for time, value in rest[1])]
            else:
                lines.append(" ".join(map(str, ("k", number, word, *rest))))
        return lines

    def tp(self):
        timed = [f"t {number} {kind}" for number, (*_, kind) in enumerate(self.arcs, 1) if kind]
        return "\n".join([f"p tp {len(self.kinds) - 1} {len(timed)}", *self.kinds_text(), *timed, ""]).encode()

    def kinds_alone(self):
        return "\n".join([f"p tp {len(self.kinds) - 1} 0", *self.kinds_text(), ""]).encode()

    def least(self, starts):
        """The least arrival at each node from (source, departure) pairs: a list of arrivals, NEVER if there is none."""
        found, waiting = {}, []
        for source, departure in starts:
            if departure < found.get(source, NEVER):
                found[source] = departure
                heapq.heappush(waiting, (departure, source))
        while waiting:
            time, node = heapq.heappop(waiting)
            if time > found[node]:
                continue
            for number in self.leaving.get(node, []):
                _, head, weight, kind = self.arcs[number - 1]
                arrival = arrive(self.kinds[kind], weight, time)
                if arrival is not None and arrival <= HORIZON and arrival < found.get(head, NEVER):
                    found[head] = arrival
                    heapq.heappush(waiting, (arrival, head))
        return [found.get(node, NEVER) for node in range(1, self.nodes + 1)]

    def walked(self, source, departure, walk):
        """The node at which a walk of arcs from a source ends, and when; None if its arcs don't join."""
        node, time = source, departure
        for number in walk:
            tail, head, weight, kind = self.arcs[number - 1]
            if tail != node:
                return None
            node, time = head, arrive(self.kinds[kind], weight, time)
        return node, time


KINDS = [("every", 60, 7), ("closed", 100, 300), ("rush", 200, 400, 90), ("speeds", 500, [(0, 1000), (150, 400), (320, 800)]), ("trips", 90, [(5, 3), (50, 10)])]
DAY = 500 * 9  # A time after which the periods of all kinds above begin anew.


def network(seed, nodes=40, arcs=120, kinds=KINDS):
    """A random network with timetables, of which some nodes aren't reached."""
    words = random.Random(seed)
    made = [(words.randint(1, nodes), words.randint(1, nodes), words.randint(0, 60), words.randint(0, len(kinds))) for _ in range(arcs)]
    return Network(nodes, made, kinds)


def path_of(count, weight=1):
    """A path of `count` arcs from node 1, numbered in its order."""
    return Network(count + 1, [(node, node + 1, weight, 0) for node in range(1, count + 1)])


def grid(side, seed=1, part=1.0):
    """The lists of a grid of streets both ways, or of a part of them: nodes, tails, heads and weights."""
    words = random.Random(seed)
    tails, heads, weights = [], [], []
    for node in range(1, side * side + 1):
        for other in ([node + 1] if node % side else []) + ([node + side] if node + side <= side * side else []):
            if part == 1.0 or words.random() < part:
                tails += [node, other]
                heads += [other, node]
                weights += [words.randint(1, 900), words.randint(1, 900)]
    return side * side, tails, heads, weights


def shuffled(nodes, tails, heads, weights, seed=1):
    """The same lists with the nodes numbered at random."""
    numbers = list(range(1, nodes + 1))
    random.Random(seed).shuffle(numbers)
    return nodes, [numbers[it - 1] for it in tails], [numbers[it - 1] for it in heads], weights


def peak():
    """The most memory that this process has had so far, in KB. (The figure of getrusage begins with the parent's.)"""
    with open("/proc/self/status", encoding="ascii") as file:
        return next(int(line.split()[1]) for line in file if line.startswith("VmHWM"))


def read_example(name):
    with open(os.path.join(EXAMPLES, name), "rb") as file:
        return file.read()
