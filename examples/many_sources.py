"""Earliest arrivals from many nodes by all processors, and the way to the last one: python3 examples/many_sources.py [GR [TP]]"""
import os
import sys

import earliest

HERE = os.path.dirname(os.path.abspath(__file__))


def main():
    files = sys.argv[1:] or [os.path.join(HERE, "road.gr"), os.path.join(HERE, "road.tp")]
    road = earliest.Road.read(*files)
    print(f"{road.nodes} nodes, {road.arcs} arcs")

    # A row for each source: an array of NumPy if it is installed.
    sources = range(1, 5)
    matrix = road.arrivals(sources, departures=1000)
    for source, row in zip(sources, matrix):
        time, node = max((time, node) for node, time in enumerate(row, 1) if time != earliest.NEVER)
        print(f"from {source}: node {node} is reached last, at {time}")
    print("to it from 4:", *road.search(4, departures=1000).walk(node))


if __name__ == "__main__":
    main()
