"""Pairs over a prepared road, and many sources on a network whose nodes are numbered at random: the same bytes as
without, in less time."""
import itertools
import os
import random
import subprocess
import tempfile
import time

import travel_times

SHAPES = ("path", "star", "clique", "ring of cliques")


def ran(program, words, folder):
    """Status and standard output."""
    run = subprocess.run([program, *words.split()], cwd=folder, stdin=subprocess.DEVNULL, capture_output=True, timeout=300)
    return run.returncode, run.stdout


def write(folder, name, lines):
    with open(os.path.join(folder, name), "w", encoding="ascii") as file:
        file.writelines(lines)


def graph(nodes, arcs):
    """The lines of a graph."""
    yield f"p sp {nodes} {len(arcs)}\n"
    for tail, head, weight in arcs:
        yield f"a {tail} {head} {weight}\n"


def pairs(words, nodes, count):
    """The lines of pairs at random."""
    yield f"p aux sp p2p {count}\n"
    for _ in range(count):
        yield f"q {words.randint(1, nodes)} {words.randint(1, nodes)}\n"


def both_ways(ends, words):
    """Arcs in both directions, with weights at random, some of them 0."""
    return [arc for low, high in ends for arc in ((low, high, words.randint(0, 9)), (high, low, words.randint(0, 9)))]


def shape(kind, nodes, words):
    """The arcs of a network of a shape."""
    if kind == "path":
        return both_ways([(node, node + 1) for node in range(1, nodes)], words)
    if kind == "star":
        return both_ways([(1, node) for node in range(2, nodes + 1)], words)
    if kind == "clique":
        return both_ways([(low, high) for high in range(2, 60) for low in range(1, high)], words)
    rings = [(base + low, base + high) for base in range(0, nodes - 10, 10) for high in range(2, 11) for low in range(1, high)]
    return both_ways(rings + [(base, base + 1) for base in range(10, nodes - 10, 10)], words)


def grid(side, words):
    """A grid with streets both ways, a third of which is missing, as in bench/generate.rs."""
    streets = []
    for row in range(side):
        for column in range(side):
            node = row * side + column + 1
            streets += [(node, node + 1)] if column + 1 < side else []
            streets += [(node, node + side)] if row + 1 < side else []
    streets = [street for street in streets if words.random() < 0.64]
    return [(tail, head, weight * 7 + 1) for tail, head, weight in both_ways(streets, words)]


def streets(side, longest, words):
    """A grid of crossings whose streets have up to `longest` nodes inside, some of them one-way, parallel or loops."""
    arcs, last = [], side * side

    def join(low, high):
        arcs.extend(both_ways([(low, high)], words)[words.random() < 0.05:])
        if words.random() < 0.05:
            arcs.append((low, words.choice((low, high)), words.randint(0, 9)))

    for node in range(1, side * side + 1):
        for end in ([node + 1] if node % side else []) + ([node + side] if node + side <= side * side else []):
            inside = range(last + 1, last + 1 + words.randint(0, longest))
            last += len(inside)
            for low, high in zip([node, *inside], [*inside, end]):
                join(low, high)
    return last, arcs


def along_streets(program, folder):
    """Nodes inside streets are followed at once, and far targets are led by bounds: the same bytes as without."""
    words = random.Random(12)
    for longest in (0, 3, 40):
        nodes, arcs = streets(16, longest, words)
        text = travel_times.some_text(words, len(arcs))
        while travel_times.read(text, len(arcs))[0] is None:
            text = travel_times.some_text(words, len(arcs))
        write(folder, "gr", graph(nodes, arcs))
        write(folder, "tp", [text])
        write(folder, "p2p", pairs(words, nodes, 100))
        for options in ("", "--walks", "--tp tp --walks", "--arrive 9000 --tp tp --walks", "--depart 7 --gap 3 --at-once 3"):
            without, over = (ran(program, f"pairs gr p2p {options} --prepare {word}", folder) for word in ("no", "yes"))
            yield f"prepared streets of {longest}, {options}", (over[0], over == without, len(over[1]) > 500), (0, True, True)


def random_road(words, folder):
    """Writes a small random network and travel times of all kinds that fit it. Returns the number of nodes."""
    while True:
        nodes, size = words.randint(1, 40), words.randint(0, 120)
        text = travel_times.some_text(words, max(size, 1))
        if travel_times.read(text, size)[0] is not None:
            break
    write(folder, "gr", graph(nodes, [(words.randint(1, nodes), words.randint(1, nodes), words.randint(0, 9)) for _ in range(size)]))
    write(folder, "tp", [text])
    return nodes


def at_random(program, folder, count=25):
    """Random networks with all kinds of travel times: each option of `pairs` with a preparation and without."""
    words = random.Random(20261129)
    for done in range(1, count + 1):
        nodes = random_road(words, folder)
        write(folder, "p2p", pairs(words, nodes, 40))
        for options in ("", "--walks", "--arrive 60 --walks", "--depart 7 --gap 3 --at-once 3"):
            without, over = (ran(program, f"pairs gr p2p --tp tp {options} --prepare {word}", folder) for word in ("no", "yes"))
            yield f"prepared road {done}, {options}", (over[0], over == without), (0, True)


def of_shapes(program, folder):
    """Networks on which a preparation is large or of no use."""
    words = random.Random(5)
    for kind in SHAPES:
        nodes = 2_000
        write(folder, "gr", graph(nodes, shape(kind, nodes, words)))
        write(folder, "p2p", pairs(words, nodes, 60))
        without, over = (ran(program, f"pairs gr p2p --walks --prepare {word}", folder) for word in ("no", "yes"))
        yield f"prepared {kind}", (over[0], over == without), (0, True)


def processor_seconds(program, words, folder):
    """Standard output, and the processor time of a run."""
    before = os.times()
    status, out = ran(program, words, folder)
    after = os.times()
    return status, out, after.children_user + after.children_system - before.children_user - before.children_system


def in_less_time(program, folder):
    """Many far pairs: by default the program prepares, which takes less processor time than not to; a star with
    10^5 leaves is prepared in a moment, too."""
    words = random.Random(6)
    side = 300
    write(folder, "gr", graph(side * side, grid(side, words)))
    write(folder, "p2p", pairs(words, side * side, 1_500))
    for options in ("", " --arrive 2000000"):
        runs = [processor_seconds(program, f"pairs gr p2p{options}{choice}", folder) for choice in ("", " --prepare no")]
        yield f"far pairs by default,{options}", (runs[0][:2] == runs[1][:2], runs[0][0], runs[0][2] < runs[1][2] / 2), (True, 0, True)
    leaves = 100_000
    write(folder, "gr", graph(leaves + 1, [(1, node, 1) for node in range(2, leaves + 2)] + [(node, 1, 1) for node in range(2, leaves + 2)]))
    write(folder, "p2p", pairs(words, leaves, 10))
    begun = time.monotonic()
    status, _ = ran(program, "pairs gr p2p --prepare yes", folder)
    yield "a star is prepared in seconds", (status, time.monotonic() - begun < 10), (0, True)


def near_pairs(program, folder):
    """Near pairs on a prepared road take about the processor time of a search without: what 640,000 more pairs add, which is more than what the
    preparation's own time varies by. Were each led by bounds, it would be twice as much, and several times as much if all labels of the layout
    were put back after each."""
    words = random.Random(8)
    side, near, reports, least = 700, 4, {}, {}
    write(folder, "gr", graph(side * side, grid(side, words)))
    asked = []
    for _ in range(8_000):
        row, column = words.randint(0, side - near - 1), words.randint(0, side - near - 1)
        asked.append(f"q {row * side + column + 1} {(row + words.randint(1, near)) * side + column + words.randint(1, near) + 1}\n")
    write(folder, "all", [f"p aux sp p2p {len(asked)}\n", *asked])
    told = ran(program, "pairs gr all --prepare no", folder)[1].split(b"\n")[1::2]
    # The search for a target that can't be reached goes everywhere.
    asked = [line for line, said in zip(asked, told) if not said.endswith(b"inf")][:4_001]
    for name, lines in (("one", asked[:1]), ("all", 160 * asked[1:])):
        write(folder, name, [f"p aux sp p2p {len(lines)}\n", *lines])
    for _ in range(5):
        # A busy machine only adds time.
        for word, name in itertools.product(("yes", "no"), ("one", "all")):
            status, out, took = processor_seconds(program, f"pairs gr {name} --prepare {word} --at-once 1", folder)
            reports.setdefault((word, name), set()).add((status, out))
            least[word, name] = min(took, least.get((word, name), took))
        added = {word: least[word, "all"] - least[word, "one"] for word in ("yes", "no")}
        if added["yes"] <= 1.5 * added["no"]:
            break
    yield "near pairs on a prepared road: the same report", (len(asked), len(reports["yes", "all"]), reports["yes", "all"] == reports["no", "all"]), (4_001, 1, True)
    yield "near pairs on a prepared road: about the same time", added["yes"] <= 1.5 * added["no"] or least, True


def numbered_at_random(program, folder):
    """A grid whose nodes are numbered at random, with enough of them for arcs to be placed in parts: it has the arrivals of the grid numbered
    row by row, and what is searched on a layout has the bytes of single searches."""
    words = random.Random(9)
    side = 370
    count = side * side
    numbers = list(range(1, count + 1))
    words.shuffle(numbers)
    rows = grid(side, words)
    sources = [words.randint(1, count) for _ in range(12)]
    write(folder, "rows", graph(count, rows))
    write(folder, "gr", graph(count, [(numbers[tail - 1], numbers[head - 1], weight) for tail, head, weight in rows]))
    write(folder, "first", ["p aux sp ss 1\n", f"s {sources[0]}\n"])
    status, out = ran(program, "run rows first", folder)
    told = dict(line.split()[1:3] for line in out.decode().splitlines() if line.startswith("d"))
    told = {str(numbers[int(node) - 1]): time for node, time in told.items()}
    sources = [numbers[node - 1] for node in sources]
    write(folder, "ss", [f"p aux sp ss {len(sources)}\n"] + [f"s {node}\n" for node in sources])
    write(folder, "nodes", ["p aux sp ss 50\n"] + [f"s {node}\n" for node in words.sample(range(1, count + 1), 50)])
    for options in ("", "--walks --nodes nodes"):
        single = b""
        for node in sources:
            write(folder, "one", [f"p aux sp ss 1\ns {node}\n"])
            single += ran(program, f"run gr one {options}", folder)[1]
            if node == sources[0] and not options:
                here = dict(line.split()[1:3] for line in single.decode().splitlines() if line.startswith("d"))
                yield "numbered at random: the arrivals of the grid in rows", (status, here == told, len(here)), (0, True, count)
        for at_once in (1, 4):
            status, out = ran(program, f"run gr ss {options} --at-once {at_once}", folder)
            yield f"numbered at random, {options} --at-once {at_once}", (status, out == single, len(out) > 1000), (0, True, True)


def results(program):
    """All of these: name, result, expected result."""
    program = os.path.abspath(program)
    found = []
    for part in (at_random, along_streets, of_shapes, in_less_time, near_pairs, numbered_at_random):
        with tempfile.TemporaryDirectory() as folder:
            found += list(part(program, folder))
    return found
