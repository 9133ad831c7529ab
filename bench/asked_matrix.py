"""A matrix of asked nodes from Python beside a program in plain Rust: python3 bench/asked_matrix.py [--nodes N] [--rounds R] [--scratch FOLDER]

Makes a road-like network of about N nodes, takes 1,000 sources and 1,000 nodes among the 5,000 nodes nearest to one, and searches them in turns by
`road.arrivals` with one thread and with four, and by `bench/hand asked`, whose searches end when all asked nodes are settled. It prints medians of
the searches alone, in seconds, and their ratios, and ends with an error if the sums of the arrivals differ. Run it on a machine that does nothing
else.
"""
import argparse
import os
import statistics
import subprocess
import sys
import time

sys.dont_write_bytecode = True
import programs
from measure import told
from workspace import SCRATCH

sys.path.insert(0, os.path.join(programs.ROOT, "python"))
NODES, NEAR = 1_000, 5_000


def listed(path):
    with open(path, encoding="ascii") as file:
        return [int(line.split()[1]) for line in file if line.startswith("s ")]


def main():
    words = argparse.ArgumentParser(description=__doc__.split("\n")[0])
    words.add_argument("--nodes", type=int, default=1_000_000)
    words.add_argument("--rounds", type=int, default=3)
    words.add_argument("--scratch", default=SCRATCH)
    options = words.parse_args()
    import earliest

    built = programs.Programs(options.scratch)
    network = programs.Network(built, options.nodes)
    network.make_asked(built, NODES, NODES, NEAR)
    sources, nodes = listed(network.near), listed(network.asked)
    road = earliest.Road.read(network.gr)
    names = {threads: f"package, {threads} thread{'s' if threads > 1 else ''}" for threads in (1, 4)}
    times, sums = {"in plain Rust, 1 thread": [], **{name: [] for name in names.values()}}, set()
    for _ in range(options.rounds):
        words = [built.hand, "asked", network.gr, network.near, "-", network.asked, str(programs.DEPART), built.at("out.report")]
        seconds, total = told(subprocess.run(words, capture_output=True, text=True, check=True).stdout)
        times["in plain Rust, 1 thread"].append(seconds)
        sums.add(total)
        for threads, name in names.items():
            begun = time.perf_counter()
            matrix = road.arrivals(sources, programs.DEPART, nodes=nodes, threads=threads)
            times[name].append(time.perf_counter() - begun)
            sums.add(int(matrix.sum()))
    if len(sums) != 1:
        sys.exit(f"the arrivals differ: their sums are {sorted(sums)}")
    print(f"{road.nodes} nodes, {len(sources)} sources, {len(nodes)} nodes, rounds: {options.rounds}")
    base = statistics.median(times["in plain Rust, 1 thread"])
    for name, seconds in times.items():
        middle = statistics.median(seconds)
        print(f"{name}: {min(seconds):.3f}, {middle:.3f}, {max(seconds):.3f} s, {middle / base:.2f} of plain Rust")


if __name__ == "__main__":
    main()
