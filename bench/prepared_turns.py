"""Times searches of pairs over a prepared road beside a program in plain C++, in turns.

    python3 bench/prepared_turns.py [SCRATCH [GRAPH]]

Without a graph it makes a road-like grid of 10^6 nodes, whose cuts are larger than those of any real network, and a country of towns and
motorways. Pairs are by Dijkstra rank, the target being the 2^r-th node that a search from the source settles, and far ones at random. Both
programs are built, run in turns on the same files, and have to reach all targets at the same times; ours searches without the preparation,
too, and a binary heap in plain Rust stops at the target. The far ones are also searched by the Python package with traffic patterns, when most roads
are slow. It prints the least, the middle and the greatest of the rounds, in microseconds a pair; then those of a preparation and of one for
other weights of the same arcs, in microseconds, of many far pairs by one thread and by four, and of the memory that a preparation takes, at
the peak and while pairs are searched, in bytes a node. `make bench` writes the same as tables and pictures of the page.
"""
import os
import random
import re
import statistics
import subprocess
import sys
import time

sys.dont_write_bytecode = True
import programs
import python_search
import workspace

FIELDS = ("network", "nodes", "pairs", "program", "least", "middle", "greatest")
RANKS, FAR, PEAK, COUNT, TURNS = (9, 10, 11, 12, 13, 14, 16, 18), "far", "far, in the morning", 300, 2
MANY, MANY_THREADS = 10_000, (1, 4)
PREPARED, AGAIN, MEMORY, KEPT = "preparation", "for other weights", "memory, bytes a node", "memory while searching"
CPP, LED, PLAIN, HEAP = "in plain C++", "earliest", "earliest, unprepared", programs.BASE
GRID, COUNTRY = "road-like grid", "country"


def pairs_of(hand, graph, scratch):
    """Files of pairs: by rank, and far ones."""
    with open(graph, encoding="ascii") as file:
        nodes = int(next(line for line in file if line.startswith("p")).split()[2])
    files = {}
    for rank in RANKS:
        if 2**rank <= nodes:
            files[f"2^{rank}"] = os.path.join(scratch, f"rank{rank}.p2p")
            subprocess.run([hand, "make_pairs", graph, files[f"2^{rank}"], str(COUNT), str(2**rank)], check=True)
    files[FAR] = far_pairs(nodes, COUNT, scratch)
    return nodes, files


def far_pairs(nodes, count, scratch):
    """A file of pairs at random."""
    name, words = os.path.join(scratch, f"far{count}.p2p"), random.Random(7)
    with open(name, "w", encoding="ascii") as file:
        file.write(f"p aux sp p2p {count}\n")
        file.writelines(f"q {words.randint(1, nodes)} {words.randint(1, nodes)}\n" for _ in range(count))
    return name


def timed(program, graph, pairs):
    """The microseconds of the preparation, those a pair of each round, led and not, and the sums of the arrivals."""
    said = subprocess.run([program, graph, pairs], capture_output=True, text=True, check=True).stdout
    found = re.findall(r"(\d+) pairs in (\d+) us, led (true|false), sum (\d+)", said)
    prepared = re.search(r"prepared \d+ nodes in (\d+) us", said)
    if not prepared:
        sys.exit(f"{program} prepared nothing: {said}")
    led, plain = ([int(micros) / max(1, int(count)) for count, micros, it, _ in found if it == word] for word in ("true", "false"))
    return int(prepared[1]), led, plain, {int(total) for *_, total in found}


def by_heap(hand, graph, pairs, tp="-", departure=0):
    """The microseconds a pair of a binary heap in plain Rust that stops at the target."""
    said = subprocess.run([hand, "pairs", graph, pairs, tp, str(departure), os.devnull], capture_output=True, text=True, check=True).stdout
    with open(pairs, encoding="ascii") as file:
        return int(re.search(r"solve_us (\d+)", said)[1]) / sum(line.startswith("q") for line in file)


def took(measure, words):
    """The seconds and the peak of memory, in bytes, of a run of our program, by `measure.rs`."""
    said = subprocess.run([measure, os.devnull, programs.EARLIEST, *words], capture_output=True, text=True, check=True).stdout
    micros, kib, status = map(int, said.split()[:3])
    if status:
        sys.exit(f"earliest {' '.join(words)}: status {status}")
    return micros / 1e6, kib * 1024


def held(words):
    """The memory of our program, in bytes, when it has run for most of its time: the middle of what the system says then."""
    seen, page = [], os.sysconf("SC_PAGE_SIZE")
    with subprocess.Popen([programs.EARLIEST, *words], stdout=subprocess.DEVNULL) as run:
        while run.poll() is None:
            try:
                with open(f"/proc/{run.pid}/statm", encoding="ascii") as file:
                    seen.append(int(file.read().split()[1]) * page)
            except (OSError, IndexError):
                break
            time.sleep(0.005)
    # At the end memory is given back.
    late = seen[len(seen) // 2:len(seen) * 9 // 10]
    return statistics.median(late) if late else 0


def by_threads(measure, nodes, graph, scratch):
    """The microseconds a pair of many far pairs by one thread and by several, and the bytes a node that a preparation takes more, at the peak and
    while pairs are searched."""
    many, few, rows = far_pairs(nodes, MANY, scratch), far_pairs(nodes, 1, scratch), {}
    for count in MANY_THREADS:
        words = ["--prepare", "yes", "--at-once", str(count)]
        pairs = [(took(measure, ["pairs", graph, many, *words])[0] - took(measure, ["pairs", graph, few, *words])[0]) * 1e6 / MANY for _ in range(3)]
        rows[f"{MANY:,} far, threads: {count}"] = pairs
    peaks = [[took(measure, ["pairs", graph, few, "--prepare", it, "--at-once", "1"])[1] for it in ("yes", "no")] for _ in range(3)]
    kept = [[held(["pairs", graph, name, "--prepare", it, "--at-once", "1"]) for it, name in (("yes", many), ("no", far_pairs(nodes, COUNT, scratch)))] for _ in range(3)]
    return {**rows, MEMORY: [(led - plain) / nodes for led, plain in peaks], KEPT: [(led - plain) / nodes for led, plain in kept]}


def measured(cpp, ours, hand, name_of, graph, scratch):
    """A row of times for each file of pairs and program, and those of the preparations, of a network of this name."""
    nodes, files = pairs_of(hand, graph, scratch)
    rows, prepared = [], {CPP: [], LED: []}
    for name, pairs in files.items():
        times, sums = {CPP: [], LED: [], PLAIN: [], HEAP: []}, set()
        for _ in range(TURNS):
            times[HEAP].append(by_heap(hand, graph, pairs))
            for program, it in ((CPP, cpp), (LED, ours)):
                micros, led, plain, totals = timed(it, graph, pairs)
                prepared[program].append(micros)
                times[program] += led
                times[PLAIN] += plain
                sums |= totals
        if len(sums) != 1:
            sys.exit(f"the arrivals of {name} differ: their sums are {sorted(sums)}")
        rows += [(name_of, nodes, name, program, *spread(some)) for program, some in times.items()]
        print(f"prepared: {name_of}, pairs {name}, done", flush=True)
    rows += [(name_of, nodes, PEAK, program, *spread(some)) for program, some in in_the_morning(hand, graph, files[FAR]).items()]
    rows += [(name_of, nodes, PREPARED, program, *spread(some)) for program, some in prepared.items()]
    found = {AGAIN: for_other_weights(graph), **by_threads(os.path.join(os.path.dirname(hand), "measure"), nodes, graph, scratch)}
    return rows + [(name_of, nodes, name, LED, *spread(some)) for name, some in found.items() if some]


def for_other_weights(graph):
    """The microseconds of preparations by the Python package for other weights of the same arcs; none without it."""
    if not python_search.is_there():
        return []
    sys.path.insert(0, python_search.PACKAGE)
    import earliest

    first, some = earliest.Road.read(graph).prepare(), []
    with open(graph, encoding="ascii") as file:
        text = re.sub(r"(?m)^(a \d+ \d+ )(\d+)$", lambda it: f"{it[1]}{2 * int(it[2]) + 1}", file.read()).encode()
    for _ in range(3):
        road, begun = earliest.Road(text), time.perf_counter()
        road.prepare(like=first)
        some.append((time.perf_counter() - begun) * 1e6)
    return some


def in_the_morning(hand, graph, pairs):
    """The microseconds a pair of some rounds by the Python package and by a heap, with traffic patterns that begin when most roads are slow; none
    without the package."""
    patterns = graph.removesuffix(".gr") + ".patterns.tp"
    if not python_search.is_there() or not os.path.exists(patterns):
        return {}
    sys.path.insert(0, python_search.PACKAGE)
    import earliest

    with open(pairs, encoding="ascii") as file:
        asked = [tuple(map(int, line.split()[1:])) for line in file if line.startswith("q")]
    road, times, sums = earliest.Road.read(graph, tp=patterns), {PLAIN: [], LED: []}, set()
    for program, some in times.items():
        if program == LED:
            road.prepare()
        search = road.searcher(walks=False)
        for _ in range(3):
            begun = time.perf_counter()
            sums.add(sum(search.pair(source, programs.DEPART, target) or 0 for source, target in asked))
            some.append((time.perf_counter() - begun) * 1e6 / len(asked))
    if len(sums) != 1:
        sys.exit(f"the arrivals of {pairs} in the morning differ: their sums are {sorted(sums)}")
    return {**times, HEAP: [by_heap(hand, graph, pairs, patterns, programs.DEPART)]}


def country(scratch, nodes):
    """The graph of a country of about this many nodes; None if its maker can't be built."""
    maker, base = os.path.join(scratch, "country"), os.path.join(scratch, f"country{nodes}")
    if not programs.compiled([*programs.CPP, os.path.join(programs.HERE, "prepared", "country.cpp"), "-o", maker]):
        return None
    subprocess.run([maker, str(nodes), "1", base], check=True, stderr=subprocess.DEVNULL)
    return base + ".gr"


def spread(some):
    return [f"{it:.1f}" for it in (min(some), statistics.median(some), max(some))]


def built(scratch, graph, pairs, tell=None):
    """The program in plain C++ and ours; None for one that can't be built."""
    cpp = os.path.join(scratch, "prepared_hand")
    if not programs.compiled([*programs.CPP, os.path.join(programs.HERE, "prepared", "hand.cpp"), "-o", cpp]):
        cpp = None
    return cpp, workspace.built("prepared", scratch, [graph, pairs], *([tell] if tell else []))


def main():
    words = sys.argv[1:]
    scratch = words[0] if words else workspace.SCRATCH
    made = programs.Programs(scratch)
    graphs = {"given": words[1]} if len(words) > 1 else {GRID: programs.Network(made, 1_000_000).gr, COUNTRY: country(scratch, 1_000_000)}
    first = next(iter(graphs.values()))
    _, files = pairs_of(made.hand, first, scratch)
    cpp, ours = built(scratch, first, files["2^10"])
    if None in (cpp, ours, *graphs.values()):
        sys.exit("a program isn't built: g++ and the toolchain `rt` are needed")
    for name, graph in graphs.items():
        for row in measured(cpp, ours, made.hand, name, graph, scratch):
            print(" ".join(f"{it:>12}" for it in row))


if __name__ == "__main__":
    main()
