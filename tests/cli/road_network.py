"""A road-like network of 10^5 nodes, runs of it that may differ only in their `c` lines, and the expected
report by a separate plain search (Dijkstra's algorithm with a heap)."""
import heapq
import os
import random
import subprocess
import tempfile

SIDE = 317
SOURCES = (SIDE * SIDE // 2, 1)
DEPARTURE = 1800
RUNS = ("--workers 1 --heaps 2 --seed 1", "--workers 2 --heaps 8 --seed 7", "--workers 4 --heaps 2 --seed 18446744073709551615")


def network():
    """Arcs, kinds of timetable by number, and the kind of each arc with one: streets both ways between
    neighbours of a grid."""
    words = random.Random(20261122)
    arcs = []
    for node in range(1, SIDE * SIDE + 1):
        for other in ([node + 1] if node % SIDE else []) + ([node + SIDE] if node + SIDE <= SIDE * SIDE else []):
            if words.random() < 0.65:
                arcs += [(node, other, words.randint(1, 900)), (other, node, words.randint(1, 900))]
    kinds = {1: ("every", 600, 7), 2: ("closed", 2000, 7000), 3: ("rush", 3000, 8000, 900), 4: ("plain",)}
    timed = {number: words.randint(1, len(kinds)) for number in range(3, len(arcs) + 1, 3)}
    return arcs, kinds, timed


def write(folder, arcs, kinds, timed):
    """Writes net.gr, net.ss and net.tp."""
    with open(os.path.join(folder, "net.gr"), "w", encoding="ascii") as file:
        file.write(f"p sp {SIDE * SIDE} {len(arcs)}\n" + "".join("a %d %d %d\n" % arc for arc in arcs))
    with open(os.path.join(folder, "net.ss"), "w", encoding="ascii") as file:
        file.write(f"p aux sp ss {len(SOURCES)}\n" + "".join(f"s {source}\n" for source in SOURCES))
    with open(os.path.join(folder, "net.tp"), "w", encoding="ascii") as file:
        file.write(f"p tp {len(kinds)} {len(timed)}\n")
        file.write("".join(f"k {number} {' '.join(map(str, kind))}\n" for number, kind in kinds.items()))
        file.write("".join("t %d %d\n" % pair for pair in timed.items()))


def arrive(kind, weight, departure):
    """The arrival by an arc of this kind, left at the departure."""
    word, *rest = kind
    if word == "every":
        return departure + (rest[1] - departure) % rest[0] + weight
    if word == "closed" and rest[0] <= departure < rest[1]:
        return rest[1] + weight
    if word == "rush" and rest[0] <= departure:
        delayed = departure if departure < rest[1] else rest[1]
        return max(departure + weight, delayed + weight + rest[2])
    return departure + weight


def expected(arcs, kinds, timed):
    """The lines of the report."""
    leaving = {}
    for number, (tail, head, weight) in enumerate(arcs, 1):
        leaving.setdefault(tail, []).append((head, weight, kinds[timed.get(number, 4)]))
    for source in SOURCES:
        least, waiting = {source: DEPARTURE}, [(DEPARTURE, source)]
        while waiting:
            time, node = heapq.heappop(waiting)
            if time > least[node]:
                continue
            for head, weight, kind in leaving.get(node, []):
                arrival = arrive(kind, weight, time)
                if arrival < least.get(head, arrival + 1):
                    least[head] = arrival
                    heapq.heappush(waiting, (arrival, head))
        yield f"s {source} {DEPARTURE}"
        yield from (f"d {node} {least.get(node, 'inf')}" for node in range(1, SIDE * SIDE + 1))


def results(program):
    """For each run its words, its result and the expected one: status, number of `c` lines, and whether
    the others are right."""
    arcs, kinds, timed = network()
    lines = "\n".join(expected(arcs, kinds, timed)).encode().split(b"\n")
    with tempfile.TemporaryDirectory(prefix="earliest-") as folder:
        write(folder, arcs, kinds, timed)
        for words in RUNS:
            run = subprocess.run([program, "run", "net.gr", "net.ss", "--tp", "net.tp", "--depart", str(DEPARTURE), "--stats", *words.split()], cwd=folder, capture_output=True, timeout=100)
            given = run.stdout.splitlines()
            others = [line for line in given if not line.startswith(b"c")]
            yield "10^5 nodes " + words, (run.returncode, len(given) - len(others), others == lines), (0, 8, True)
