#!/usr/bin/env python3
"""Compares the built checker with the slow one on random reports: PROGRAM SEED COUNT. PROGRAM is the
timing program that bench/time_check.sh builds. Prints the first report on which they differ, and the
number of each verdict."""
import os
import random
import re
import subprocess
import sys
import tempfile

import slow_check

NAMES = {"k": "Ok(())", "b": "BadLine", "a": "NotAttained", "c": "NotCanonical", "l": "NotLeast"}
NEVER = 10**9


def least(n, arcs):
    times = {v: NEVER for v in range(1, n + 1)}
    times[1] = 0
    for _ in range(n + 1):
        for u, v, w in arcs:
            times[v] = min(times[v], times[u] + w)
    return times


def some_walk(arcs, node):
    if random.random() < 0.1:
        return [random.randint(0, len(arcs) + 1) for _ in range(random.randint(0, 3))]
    walk, at = [], node
    for _ in range(random.randint(0, 4)):
        into = [e for e, (u, v, w) in enumerate(arcs, 1) if v == at]
        if not into:
            break
        walk.insert(0, random.choice(into))
        at = arcs[walk[0] - 1][0]
        if at == 1 and random.random() < 0.6:
            break
    return walk


def canonical_walk(arcs, times, departures, node):
    tight = [e for e, (u, v, w) in enumerate(arcs, 1) if times[u] < NEVER and times[u] + w == times[v]]
    level = {1: 0} if times[1] in departures else {}
    for depth in range(1, len(times) + 1):
        for e in tight:
            u, v, w = arcs[e - 1]
            if level.get(u) == depth - 1 and v not in level:
                level[v] = depth
    if node not in level:
        return None
    walk = []
    while level[node] > 0:
        e = min(e for e in tight if arcs[e - 1][1] == node and level.get(arcs[e - 1][0]) == level[node] - 1)
        walk.insert(0, e)
        node = arcs[e - 1][0]
    return walk


def some_report(n, arcs, departures):
    times = least(n, arcs)
    for v in times:
        chance = random.random()
        if chance < 0.12:
            times[v] = random.randint(0, 6)
        elif chance < 0.16:
            times[v] = NEVER
        elif chance < 0.2 and times[v] < NEVER:
            times[v] += 1
    lines = [f"s 1 {d}" for d in departures]
    for v in times:
        if times[v] >= NEVER:
            lines.append(f"d {v} inf")
            if random.random() < 0.02:
                lines.append(f"w {v} 0")
            continue
        lines.append(f"d {v} {times[v]}")
        if random.random() < 0.5:
            walk = canonical_walk(arcs, times, departures, v) if random.random() < 0.75 else None
            if walk is None:
                walk = some_walk(arcs, v)
            count = len(walk) + (random.random() < 0.02)
            lines.append(" ".join(str(x) for x in ["w", v, count, *walk]))
    if random.random() < 0.03:
        lines.pop(random.randrange(len(lines)))
    if random.random() < 0.1:
        lines.insert(random.randrange(len(lines) + 1), random.choice(["", "c x", "  ", "\t c"]))
    return ("\n".join(lines) + "\n").encode()


def main():
    program, seed, count = sys.argv[1], int(sys.argv[2]), int(sys.argv[3])
    random.seed(seed)
    seen = {}
    with tempfile.TemporaryDirectory() as folder:
        graph, file = os.path.join(folder, "graph"), os.path.join(folder, "report")
        for _ in range(count):
            n, m = random.randint(1, 5), random.randint(0, 9)
            arcs = [(random.randint(1, n), random.randint(1, n), random.choice([0, 0, 1, 1, 2, 3])) for _ in range(m)]
            departures = range(random.randint(1, 4))
            report = some_report(n, arcs, departures)
            with open(graph, "w") as f:
                f.write(f"p sp {n} {m}\n" + "".join(f"a {u} {v} {w}\n" for u, v, w in arcs))
            with open(file, "wb") as f:
                f.write(report)
            letter, line = slow_check.check(n, arcs, [[(1, d) for d in departures]], report)
            wanted = NAMES[letter] if letter == "k" else f"Err({NAMES[letter]}({line}))"
            out = subprocess.run([program, graph, file, str(len(departures))], capture_output=True, text=True).stdout
            found = re.search(r"verdict Some\((.*)\) us", out)
            if not found or found.group(1) != wanted:
                print("they differ:", wanted, out, arcs, list(departures), report.decode())
                sys.exit(1)
            seen[NAMES[letter]] = seen.get(NAMES[letter], 0) + 1
    print(seen)


if __name__ == "__main__":
    main()
