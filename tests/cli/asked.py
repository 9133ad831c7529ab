"""Chosen nodes: the lines that they have in the report of all nodes, and a search that ends with the last of them."""
import os
import random
import tempfile

from prepared import graph, grid, processor_seconds, ran, random_road, write

SIDE = 400


def sources(nodes):
    """The lines of a file of sources or of chosen nodes."""
    return [f"p aux sp ss {len(nodes)}\n"] + [f"s {node}\n" for node in nodes]


def chosen(report, nodes):
    """The report of chosen nodes, from that of all nodes."""
    out, lines = b"", {}

    def of_problem():
        return b"".join(lines.get(str(node).encode(), b"") for node in nodes)

    for line in report.splitlines(keepends=True):
        word, rest = line.split(b" ", 1)
        if word in (b"s", b"t"):
            if lines:
                out += of_problem()
                lines = {}
            out += line
        else:
            node = rest.split(b" ", 1)[0].strip()
            lines[node] = lines.get(node, b"") + line
    return out + of_problem()


def at_random(program, folder, count=40):
    """Random networks with all kinds of travel times, and up to nine nodes, some of them again or out of reach."""
    words = random.Random(20261130)
    for done in range(1, count + 1):
        nodes = random_road(words, folder)
        write(folder, "ss", sources([words.randint(1, nodes) for _ in range(words.randint(1, 6))]))
        some = [words.randint(1, nodes) for _ in range(words.randint(1, 9))]
        write(folder, "nodes", sources(some))
        for options in ("", "--walks --depart 7 --gap 3", "--arrive 60 --walks", "--walks --at-once 3"):
            whole, few = (ran(program, f"run gr ss --tp tp {options}{more}", folder) for more in ("", " --nodes nodes"))
            yield f"chosen nodes {done}, {options}", few, (0, chosen(whole[1], some))
        whole, few = (ran(program, f"run gr ss --joint --walks --tp tp{more}", folder) for more in ("", " --nodes nodes"))
        starts = sum(line.startswith(b"s ") for line in whole[1].splitlines())
        head = b"".join(whole[1].splitlines(keepends=True)[:starts])
        yield f"chosen nodes {done}, --joint", few, (0, head + chosen(whole[1][len(head):], some))


def in_less_time(program, folder):
    """Nodes near the sources take less than a third of the processor time that the farthest ones take, and the bytes
    are those of several workers."""
    words = random.Random(8)
    write(folder, "gr", graph(SIDE * SIDE, grid(SIDE, words)))

    def around(count, part):
        return [(SIDE // 2 + words.randint(-part, part)) * SIDE + SIDE // 2 + words.randint(-part, part) for _ in range(count)]

    write(folder, "ss", sources(around(80, 5)))
    write(folder, "one", sources(around(1, 5)))
    write(folder, "near", sources(around(50, 9)))
    write(folder, "far", sources([1, SIDE, SIDE * SIDE, *around(50, 9)]))
    for options in ("", " --walks"):
        near, far = (processor_seconds(program, f"run gr ss --at-once 1 --nodes {name}{options}", folder) for name in ("near", "far"))
        yield f"near nodes{options}", (near[0], far[0], near[2] < far[2] / 3), (0, 0, True)
    for name in ("near", "far"):
        for options in (" --workers 2", " --workers 4", " --at-once 4"):
            alone, others = (ran(program, f"run gr one --walks --nodes {name}{more}", folder) for more in (" --workers 1", options))
            yield f"{name} nodes{options}", (others, len(others[1]) > 1000), (alone, True)


def results(program):
    """All of these: name, result, expected result."""
    program = os.path.abspath(program)
    found = []
    for part in (at_random, in_less_time):
        with tempfile.TemporaryDirectory() as folder:
            found += part(program, folder)
    return found
