"""The commuter network of examples/ and the ferry's feed: the files equal those that the scripts make, and
the reports those of a separate plain search, with speeds summed second by second."""
import heapq
import os
import subprocess
import sys
import tempfile

import commuter
import travel_times

HERE = os.path.dirname(os.path.abspath(__file__))
EXAMPLES = os.path.join(HERE, "..", "..", "examples")

MORNING, GAP = 27600, 1800


class Search:
    """The least arrivals from one source, and canonical walks."""

    def __init__(self, network, source, departure):
        self.arcs, self.kinds, self.class_of = network
        self.source, self.leaving = source, {}
        for number, (tail, *_) in enumerate(self.arcs, 1):
            self.leaving.setdefault(tail, []).append(number)
        self.least, waiting = {source: departure}, [(departure, source)]
        while waiting:
            time, node = heapq.heappop(waiting)
            for number in self.leaving.get(node, []) if time == self.least[node] else []:
                head, arrival = self.arcs[number - 1][1], self.arrival(number, time)
                if arrival is not None and arrival < self.least.get(head, arrival + 1):
                    self.least[head] = arrival
                    heapq.heappush(waiting, (arrival, head))

    def arrival(self, number, time):
        """The arrival by an arc left at a time."""
        return travel_times.arrive(self.kinds[self.class_of[number] - 1], self.arcs[number - 1][2], time)

    def tight(self, node):
        """The arcs from a node that arrive at the least arrival of their head."""
        return [number for number in self.leaving.get(node, []) if self.arrival(number, self.least[node]) == self.least[self.arcs[number - 1][1]]]

    def walk(self, target):
        """The canonical walk: the fewest tight arcs and, from its end on, the lowest numbers."""
        level, ring, last = {self.source: 0}, [self.source], {}
        for node in ring:
            for number in self.tight(node):
                head = self.arcs[number - 1][1]
                if head not in level:
                    level[head] = level[node] + 1
                    ring.append(head)
                if level[head] == level[node] + 1:
                    last[head] = min(number, last.get(head, number))
        arcs = []
        while target != self.source:
            arcs.append(last[target])
            target = self.arcs[last[target] - 1][0]
        return arcs[::-1]


def network(texts):
    """Arcs, kinds and the classes of the arcs."""
    arcs = [tuple(map(int, line.split()[1:])) for line in texts["commuter.gr"].split("\n") if line.startswith("a ")]
    table, fault = travel_times.read(texts["commuter.tp"], len(arcs))
    assert fault is None
    return arcs, table.kinds, dict(table.entries)


def reports(texts):
    """The reports by their names."""
    town, home, office = network(texts), commuter.node(*commuter.HOME), commuter.node(*commuter.OFFICE)
    least = Search(town, home, MORNING).least
    yield "commuter.report", f"s {home} {MORNING}\n" + "".join(f"d {node} {least[node]}\n" for node in range(1, commuter.WIDE * commuter.HIGH + 1))
    lines = []
    for departure in (MORNING, MORNING + GAP):
        search = Search(town, home, departure)
        walk = search.walk(office)
        lines.append(f"q {home} {office} {departure}\nd {office} {search.least[office]}\nw {office} {len(walk)} {' '.join(map(str, walk))}\n")
    yield "commuter.walks.report", "".join(lines)


def stored(folder, name):
    """A file of the examples."""
    with open(os.path.join(folder, name), encoding="utf-8", newline="") as file:
        return file.read()


def results(program):
    """Names, results, and expected results."""
    texts = dict(commuter.texts())
    found = [(f"commuter.py makes {name}", stored(EXAMPLES, name), text) for name, text in texts.items()]
    found += [(f"a plain search gives {name}", stored(EXAMPLES, name), text) for name, text in reports(texts)]
    with tempfile.TemporaryDirectory() as folder:
        environment = {**os.environ, "PYTHONPATH": os.path.join(HERE, "..", "..", "python")}
        words = [sys.executable, "-m", "earliest", "gtfs", "gtfs", "20261123", os.path.join(folder, "monday"), "--unit", "seconds"]
        subprocess.run(words, cwd=EXAMPLES, env=environment, stdout=subprocess.DEVNULL, check=True)
        found += [(f"the importer makes monday{end}", stored(folder, "monday" + end), stored(os.path.join(EXAMPLES, "gtfs"), "monday" + end)) for end in (".gr", ".tp", ".nodes.csv")]
    return found


if __name__ == "__main__":
    for name, text in reports(dict(commuter.texts())):
        with open(os.path.join(sys.argv[1], name), "w", encoding="ascii", newline="\n") as file:
            file.write(text)
