"""A matrix from Python beside the program's own run: python3 bench/matrix.py [--nodes N] [--sources S] [--threads T] [--rounds R] [--program PATH]

Makes a grid of about N nodes, searches S sources by the package (`road.arrivals`, T threads) and by the program (`run --at-once T` into the null
device), in turns: with all lines, with those of one node more than a 64th, for which it still searches all nodes (`--nodes`), and without sources,
whose time is that of reading. It prints the median of each in seconds, the package's time beside the searches alone, and whether arrivals differ
between the two. Run it on a machine that does nothing else.
"""
import argparse
import os
import random
import statistics
import subprocess
import sys
import tempfile
import time

HERE = os.path.dirname(os.path.abspath(__file__))
ROOT = os.path.normpath(os.path.join(HERE, ".."))
sys.path.insert(0, os.path.join(ROOT, "python"))


def written(folder, side, sources):
    """Writes a grid of streets both ways, a file of sources and one of none."""
    words = random.Random(side)
    arcs = []
    for node in range(1, side * side + 1):
        for other in ([node + 1] if node % side else []) + ([node + side] if node + side <= side * side else []):
            arcs.append(f"a {node} {other} {words.randint(1, 9999)}\na {other} {node} {words.randint(1, 9999)}\n")
    chosen = [words.randint(1, side * side) for _ in range(sources)]
    for name, text in (("net.gr", f"p sp {side * side} {2 * len(arcs)}\n" + "".join(arcs)), ("many.ss", f"p aux sp ss {sources}\n" + "".join(f"s {it}\n" for it in chosen)), ("none.ss", "p aux sp ss 0\n"), ("nodes.ss", f"p aux sp ss {side * side // 64 + 1}\n" + "".join(f"s {it}\n" for it in range(1, side * side // 64 + 2)))):
        with open(os.path.join(folder, name), "w", encoding="ascii") as file:
            file.write(text)
    return chosen


def took(call):
    begun = time.perf_counter()
    found = call()
    return time.perf_counter() - begun, found


def main():
    words = argparse.ArgumentParser(description=__doc__.split("\n")[0])
    for name, value in (("nodes", 10**6), ("sources", 64), ("threads", 4), ("rounds", 15)):
        words.add_argument("--" + name, type=int, default=value)
    words.add_argument("--program", default=os.path.join(ROOT, "bin", "earliest"))
    asked = words.parse_args()
    asked.program = os.path.abspath(asked.program)
    import earliest
    from earliest import report

    with tempfile.TemporaryDirectory() as room:
        chosen = written(room, round(asked.nodes**0.5), asked.sources)
        reading, road = took(lambda: earliest.Road.read(os.path.join(room, "net.gr")))
        run = lambda sources, out, *more: subprocess.run([asked.program, "run", "net.gr", sources, "--at-once", str(asked.threads), *more], cwd=room, stdout=out, check=True)
        times = {"package": [], "program, with reading and writing": [], "program, with reading and few lines": [], "program, reading": []}
        for _ in range(asked.rounds):
            seconds, matrix = took(lambda: road.arrivals(chosen, threads=asked.threads))
            times["package"].append(seconds)
            times["program, with reading and writing"].append(took(lambda: run("many.ss", subprocess.DEVNULL))[0])
            times["program, with reading and few lines"].append(took(lambda: run("many.ss", subprocess.DEVNULL, "--nodes", "nodes.ss"))[0])
            times["program, reading"].append(took(lambda: run("none.ss", subprocess.DEVNULL))[0])
        # The first sources' rows beside the program's report of them.
        with open(os.path.join(room, "few.ss"), "w", encoding="ascii") as file:
            few = chosen[:2]
            file.write(f"p aux sp ss {len(few)}\n" + "".join(f"s {it}\n" for it in few))
        with open(os.path.join(room, "report"), "wb") as out:
            run("few.ss", out)
        told = report.read(os.path.join(room, "report"))
        same = all(bytes(one) == bytes(other) for one, other in zip(told.arrivals, matrix))
    print(f"{road.nodes} nodes, {road.arcs} arcs, {asked.sources} sources, {asked.threads} threads, rounds: {asked.rounds}")
    print(f"package, reading: {reading:.3f}")
    middle = {name: statistics.median(seconds) for name, seconds in times.items()}
    for name, seconds in middle.items():
        print(f"{name}: {seconds:.3f}")
    print(f"package, beside the program's searches: {middle['package'] / (middle['program, with reading and few lines'] - middle['program, reading']):.2f}")
    if not same:
        sys.exit("the package and the program give different arrivals")


if __name__ == "__main__":
    main()
