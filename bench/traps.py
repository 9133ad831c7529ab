"""Networks on which several workers gain little.

    python3 bench/traps.py [--settings N] [--rounds N] [--scratch FOLDER]

Late rings (late_ring.py) are run with many settings of workers, heaps, seeds, turns and batches; a path of
10^6 nodes, stars of as many and a road-like network of 1,000 nodes with four workers. Each is a whole run, in
turns with one worker's; the reports are compared. It writes bench/results/traps.csv, which the page shows,
and traps_rounds.csv with each round.
"""
import argparse
import os
import random
import statistics
import subprocess
import sys

sys.dont_write_bytecode = True
import late_ring
import measure
import page
import programs
import workspace

FIELDS = ("network", "settings", "one", "middle", "worst", "ratio", "setting")


def settings(count):
    """This many settings: first fixed ones, then random ones with a fixed seed."""
    found = [["--workers", str(workers)] for workers in (2, 3, 4, 8, 16)]
    found += [["--workers", "4", "--turns", turns] for turns in ("0", "1", "40")]
    found += [["--workers", "4", "--heaps", "8"], ["--workers", "4", "--batch", "1"]]
    draw = random.Random(1)
    while len(found) < count:
        words = ["--workers", str(draw.randint(2, 16)), "--heaps", str(draw.randint(2, 8)), "--seed", str(draw.randint(1, 999))]
        words += ["--batch", draw.choice(("1", "32"))]
        turns = draw.choice(("0", "1", "7", "1000", None, None))
        found.append(words + (["--turns", turns] if turns else []))
    return found[:count]


def star(base, leaves, before=0):
    """A path of arcs to a node with arcs of many weights to all others."""
    middle = before + 1
    with open(f"{base}.gr", "w", encoding="ascii") as file:
        file.write(f"p sp {middle + leaves} {before + leaves}\n")
        file.writelines(f"a {node} {node + 1} {node % 100 + 1}\n" for node in range(1, middle))
        file.writelines(f"a {middle} {middle + leaf} {leaf * 7919 % 1000 + 1}\n" for leaf in range(1, leaves + 1))


def stars(base, middles, leaves):
    """Arcs to `middles` nodes, each with arcs of many weights to `leaves` others."""
    with open(f"{base}.gr", "w", encoding="ascii") as file:
        file.write(f"p sp {1 + middles + middles * leaves} {middles + middles * leaves}\n")
        file.writelines(f"a 1 {1 + middle} {middle % 97 + 1}\n" for middle in range(1, middles + 1))
        leaf = 1 + middles
        for middle in range(1, middles + 1):
            file.writelines(f"a {1 + middle} {leaf + at} {at * 7919 % 1000 + 1}\n" for at in range(1, leaves + 1))
            leaf += leaves


def path(base, nodes):
    with open(f"{base}.gr", "w", encoding="ascii") as file:
        file.write(f"p sp {nodes} {nodes - 1}\n")
        file.writelines(f"a {node} {node + 1} {node % 100 + 1}\n" for node in range(1, nodes))


def ring(base, before, nodes):
    with open(f"{base}.gr", "w", encoding="ascii") as file:
        file.writelines(f"{line}\n" for line in late_ring.lines(before, nodes))


def compared(name, base, given, rounds, by):
    """The network with these settings compared with one worker: a row of the table, and the rows of all
    rounds."""
    with open(f"{base}.ss", "w", encoding="ascii") as file:
        file.write("p aux sp ss 1\ns 1\n")
    front, out = [programs.EARLIEST, "run", f"{base}.gr", f"{base}.ss"], f"{base}.report"
    jobs = [measure.Job(name, 0, " ".join(words), int(words[1]), 1, [*front, *words], out, True) for words in (["--workers", "1"], *given)]
    rows, times = measure.Turns(jobs, rounds, by).run(), {}
    for row in rows:
        times.setdefault(row[2], []).append(row[6])
    took = {words: measure.spread(found).middle for words, found in times.items()}
    one = took.pop("--workers 1")
    worst, middle = max(took, key=took.get), statistics.median(took.values())
    row = name, len(given), f"{one:.4f}", f"{middle:.4f}", f"{took[worst]:.4f}", f"{took[worst] / one:.2f}", worst
    print(*row, flush=True)
    return row, rows


def measured(scratch, count, rounds):
    """Measures all networks, and writes the table and all rounds."""
    base, four, found = os.path.join(scratch, "trap"), [["--workers", "4"]], []
    generate, by = (programs.rust(name, scratch) for name in ("generate", "measure"))
    for before in (100, 50_000):
        ring(base, before, 80_000)
        found.append(compared(f"a path of {before:,} nodes, then a ring of 80,000", base, settings(count), rounds, by))
    path(base, 1_000_000)
    found.append(compared("a path of 1,000,000 nodes", base, four, rounds, by))
    for before, name in ((0, "a star of 1,000,000 arcs"), (1, "a star that one arc leads to"), (1_000, "a star that a path of 1,000 arcs leads to")):
        star(base, 1_000_000, before)
        found.append(compared(name, base, four, rounds, by))
    stars(base, 1_000, 1_000)
    found.append(compared("1,000 stars of 1,000 arcs", base, four, rounds, by))
    subprocess.run([generate, "2500", base], check=True)
    found.append(compared("a road-like network of 1,000 nodes", base, four, 20 * rounds, by))
    measure.written("traps", [row for row, _ in found], FIELDS)
    measure.written("traps_rounds", [row for _, rows in found for row in rows])


def main():
    words = argparse.ArgumentParser(description=__doc__.split("\n")[0])
    words.add_argument("--settings", type=int, default=60)
    words.add_argument("--rounds", type=int, default=3)
    words.add_argument("--scratch", default=workspace.SCRATCH)
    options = words.parse_args()
    os.makedirs(options.scratch, exist_ok=True)
    measured(options.scratch, options.settings, options.rounds)
    page.main()


if __name__ == "__main__":
    main()
