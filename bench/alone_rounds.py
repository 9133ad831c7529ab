"""Searches of one thread in turns: the proved program of bench/alone and searches in plain Rust, from a
network's middle node.

    python3 bench/alone_rounds.py ROUNDS HAND PROGRAM NETWORK

NETWORK.gr and NETWORK.tp are its files, HAND is the program of bench/hand, PROGRAM that of bench/alone. In
each round each program is run once, in another order, and searches several times; the fastest search of a run
counts. A table is printed for the network without timetables and one with them: the least, the median and the
greatest of the rounds in microseconds, and, relative to the binary heap in plain Rust, the ratio of the least
times, the median of the rounds' ratios and their spread. If two searches find different arrivals, it ends
with an error.
"""
import random
import re
import statistics
import subprocess
import sys

SEARCHES = 5
BY_HAND = ("heap", "radix", "buckets")
OURS = {"false": "earliest", "true": "earliest, walks"}


def said(words):
    """What a program prints."""
    return subprocess.run(words, capture_output=True, text=True, check=True).stdout


def middle_of(graph):
    """The node with the middle number of a graph."""
    with open(graph, encoding="ascii") as lines:
        return next(int(line.split()[2]) // 2 for line in lines if line.startswith("p "))


def by_hand(hand, method, network, timetable, sources):
    """The fastest search of a method in plain Rust, and the sum of the arrivals."""
    found = said([hand, "run", method, f"{network}.gr", sources, timetable, "0", "1", "/dev/null"])
    total = int(re.search(r"sum (\d+)", found)[1])
    return {method: (int(re.search(r"least_us (\d+)", found)[1]), total % 2**64)}


def walks_by_hand(hand, network, timetable, node):
    """The fastest search for walks in plain Rust, which checks its own answers."""
    found = said([hand, "walks", f"{network}.gr", timetable, str(node), str(SEARCHES)])
    return {"walks, by hand": (int(re.search(r"windows, walks +least +(\d+)", found)[1]), None)}


def ours(program, network, timetable, node):
    """Our fastest search without walks and with them, and the sum of the arrivals."""
    took = {}
    for walks, micros, source, total in re.findall(r"walks (\w+) search_us (\d+) source (\d+) sum (\d+)", said([program, f"{network}.gr", timetable])):
        if int(source) == node:
            took.setdefault(OURS[walks], []).append((int(micros), int(total) * SEARCHES % 2**64))
    return {name: min(searches) for name, searches in took.items()}


def rounds_of(count, hand, program, network, timetable, node):
    """For each program the fastest search of each round."""
    sources = f"{network}.middle.ss"
    with open(sources, "w", encoding="ascii") as file:
        file.write(f"p aux sp ss {SEARCHES}\n" + f"s {node}\n" * SEARCHES)
    turns = [lambda method=method: by_hand(hand, method, network, timetable, sources) for method in BY_HAND]
    turns += [lambda: walks_by_hand(hand, network, timetable, node), lambda: ours(program, network, timetable, node)]
    took, sums = {}, set()
    for _ in range(count):
        random.shuffle(turns)
        for turn in turns:
            for name, (micros, total) in turn().items():
                took.setdefault(name, []).append(micros)
                sums.add(total)
    if len(sums - {None}) != 1:
        sys.exit(f"{network} {timetable}: the sums of the arrivals differ: {sums}")
    return took


def main():
    count, hand, program, network = int(sys.argv[1]), *sys.argv[2:5]
    plain = f"{network}.plain.tp"
    with open(plain, "w", encoding="ascii") as file:
        file.write("p tp 0 0\n")
    node = middle_of(f"{network}.gr")
    for name, timetable in (("plain arcs", plain), ("timetables", f"{network}.tp")):
        took = rounds_of(count, hand, program, network, timetable, node)
        base = took["heap"]
        print(f"{network}, {name}, from node {node}, {count} rounds")
        for method in (*BY_HAND, "walks, by hand", *OURS.values()):
            micros = took[method]
            ratios = sorted(one / other for one, other in zip(micros, base))
            times = f"least {min(micros):8}  middle {statistics.median_low(micros):8}  greatest {max(micros):8}"
            beside = f"{min(micros) / min(base):.2f}  rounds {statistics.median(ratios):.2f} ({ratios[0]:.2f} to {ratios[-1]:.2f})"
            print(f"  {method:16} {times}  beside the heap {beside}", flush=True)


main()
