"""Searches from Python by the package, compared with the engine's own.

    python3 bench/python_search.py GR SS [THREADS [laid]]

As a module it measures. As a program it is measured: with THREADS it searches from all sources on one road by
this many threads, with `laid` after the road was laid out; without, from the first source only, five times. It prints
microseconds, without reading and without the layout, those of the layout, and the sum of the arrivals.
"""
import os
import re
import statistics
import subprocess
import sys
import time

HERE = os.path.dirname(os.path.abspath(__file__))
PACKAGE = os.path.join(HERE, "..", "python")
FIELDS = ("nodes", "what", "seconds", "ratio", "to")
TIMES = 5
ALL = re.compile(r"wall_us (\d+) layout_us (\d+) sum (\d+)\n")


def is_there():
    return os.path.exists(os.path.join(PACKAGE, "earliest", "libearliest.so"))


def road_of(gr, ss):
    """The road of a text, and the sources."""
    sys.path.insert(0, PACKAGE)
    import earliest

    with open(ss, encoding="ascii") as file:
        sources = [int(line.split()[1]) for line in file if line.startswith("s")]
    return earliest.Road.read(gr), sources, earliest.NEVER


def search_all(gr, ss, threads, laid):
    """Searches from all sources by threads, each with one search; before that the road is laid out, if it is to be."""
    import threading
    from concurrent.futures import ThreadPoolExecutor

    road, sources, never = road_of(gr, ss)
    own = threading.local()
    begun = time.perf_counter()
    road.lay_out(laid)
    layout = time.perf_counter() - begun

    def total(source):
        if not hasattr(own, "search"):
            own.search = road.searcher(walks=False)
        return sum_of(own.search.find([source]).arrivals, never)

    with ThreadPoolExecutor(threads) as pool:
        begun = time.perf_counter()
        found = list(pool.map(total, sources))
        took = time.perf_counter() - begun
    print(f"wall_us {int(1e6 * took)} layout_us {int(1e6 * layout)} sum {sum(found)}")


def search_one(gr, ss):
    """Searches from one source with new arrays each time, as often as the engine's program."""
    road, sources, never = road_of(gr, ss)
    for _ in range(TIMES):
        begun = time.perf_counter()
        arrivals = road.search(sources[0], walks=False).arrivals
        took = time.perf_counter() - begun
        print(f"us {int(1e6 * took)} sum {sum_of(arrivals, never)}")


def sum_of(arrivals, never):
    """The sum of all arrivals, which NumPy computes fast; without it only of the first and the last."""
    if hasattr(arrivals, "dtype"):
        return int(arrivals[arrivals != never].sum())
    return sum(it for it in (arrivals[0], arrivals[-1]) if it != never)


def printed(words, name):
    """All numbers after a name in a program's output."""
    said = subprocess.run(words, capture_output=True, text=True, check=True).stdout
    return [int(it) for it in re.findall(rf"\b{name} (\d+)", said)]


def measured(network, programs, rounds):
    """Rows of the table: 64 sources by 1, 2 and 4 threads, and one search compared with the engine's own."""
    from programs import python_with

    python = [python_with("sys") or sys.executable, os.path.abspath(__file__), network.gr]
    many, one, engine, sums = {1: [], 2: [], 4: []}, [], [], set()
    for _ in range(rounds):
        for threads, found in many.items():
            said = subprocess.run([*python, network.many, str(threads)], capture_output=True, text=True, check=True).stdout
            took, _, total = ALL.fullmatch(said).groups()
            found.append(int(took) / 1e6)
            sums.add(total)
        one += printed([*python, network.one], "us")
        if programs.several:
            words = [programs.several, network.gr, network.none, "0", "0", "2", str(TIMES), "32", "65536"]
            engine += printed(words, "walks false us")
    if len(sums) != 1:
        sys.exit("Python's searches give different arrivals")
    middle = {threads: statistics.median(found) for threads, found in many.items()}
    rows = []
    for threads, took in middle.items():
        rows.append((network.nodes, f"64 sources, threads: {threads}", f"{took:.4f}", f"{took / middle[1]:.2f}", "one thread of Python"))
    single = statistics.median(one) / 1e6
    ratio = f"{single / statistics.median(engine) * 1e6:.2f}" if engine else ""
    rows.append((network.nodes, "one search", f"{single:.4f}", ratio, "the engine called from Rattle" if engine else ""))
    return rows + laid_out(network, programs, python, rounds)


def laid_out(network, programs, python, rounds):
    """Rows for the network numbered at random: 64 sources by 4 threads, on the road as it is and on its layout."""
    gr, _, many = network.scatter(programs)["at random"]
    plain, laid, layouts, sums = [], [], [], set()
    for _ in range(rounds):
        for words, found in ((["4"], plain), (["4", "laid"], laid)):
            said = subprocess.run([*python[:-1], gr, many, *words], capture_output=True, text=True, check=True).stdout
            took, layout, total = ALL.fullmatch(said).groups()
            found.append(int(took) / 1e6)
            sums.add(total)
            if found is laid:
                layouts.append(int(layout) / 1e6)
    if len(sums) != 1:
        sys.exit("Python's searches on a layout give other arrivals")
    as_it_is, on_layout = statistics.median(plain), statistics.median(laid)
    return [
        (network.nodes, "64 sources, numbered at random, threads: 4", f"{as_it_is:.4f}", "1.00", "the road as it is"),
        (network.nodes, "the same, laid out", f"{on_layout:.4f}", f"{on_layout / as_it_is:.2f}", "the road as it is"),
        (network.nodes, "the layout itself, by one thread", f"{statistics.median(layouts):.4f}", "", ""),
    ]


if __name__ == "__main__":
    if len(sys.argv) > 3:
        search_all(sys.argv[1], sys.argv[2], int(sys.argv[3]), sys.argv[4:] == ["laid"])
    else:
        search_one(sys.argv[1], sys.argv[2])
