"""Networks of real size whose answers follow a formula: the program must answer them within seconds."""
import os
import subprocess
import tempfile

NODES = 1_000_000
MOST_NODES = 67_108_864
STAR_NODES = 2_000_000
STAR_ARCS = 7_000_000
CLASSES = 65_535
STEPS = 65_536
STEPPED_CLASSES = 16
MANY = 100_000
FAR_NODES = 5_000_000
WALKED = 5_500
# A thread keeps no longer text of reports that are made ahead.
KEPT = 67_108_864


def write(folder, name, parts):
    """Writes a file, part by part."""
    with open(os.path.join(folder, name), "w", encoding="ascii") as file:
        file.writelines(parts)


def write_path(folder):
    """A path over all nodes, each arc taking 1; its source, and the pair of its ends."""
    arcs = "".join(f"a {node} {node + 1} 1\n" for node in range(1, NODES))
    write(folder, "path.gr", [f"p sp {NODES} {NODES - 1}\n", arcs])
    write(folder, "path.ss", ["p aux sp ss 1\ns 1\n"])
    write(folder, "path.p2p", [f"p aux sp p2p 1\nq 1 {NODES}\n"])


def path_report():
    """The arrival at node V is V - 1."""
    return "s 1 0\n" + "".join(f"d {node} {node - 1}\n" for node in range(1, NODES + 1))


def path_pair_report():
    """The walk has all arcs."""
    arcs = " ".join(map(str, range(1, NODES)))
    return f"q 1 {NODES} 0\nd {NODES} {NODES - 1}\nw {NODES} {NODES - 1} {arcs}\n"


def write_star(folder):
    """From node 1 an arc to each other node, each left at a different second, and as many slow arcs
    between neighbours."""
    near = "".join(f"a 1 {node} {node}\n" for node in range(2, STAR_NODES + 1))
    slow = "".join(f"a {2 + at % (STAR_NODES - 2)} {3 + at % (STAR_NODES - 2)} 4294967295\n" for at in range(STAR_ARCS - STAR_NODES + 1))
    write(folder, "star.gr", [f"p sp {STAR_NODES} {STAR_ARCS}\n", near, slow])
    write(folder, "star.ss", ["p aux sp ss 1\ns 1\n"])
    kinds = "".join(f"k {number} every 65536 {number - 1}\n" for number in range(1, CLASSES + 1))
    classes = "".join(f"t {node - 1} {(node - 2) % CLASSES + 1}\n" for node in range(2, STAR_NODES + 1))
    write(folder, "star.tp", [f"p tp {CLASSES} {STAR_NODES - 1}\n", kinds, classes])


def star_report():
    """The arc to node V leaves at (V - 2) mod 65,535 and takes V."""
    return "s 1 0\nd 1 0\n" + "".join(f"d {node} {(node - 2) % CLASSES + node}\n" for node in range(2, STAR_NODES + 1))


def write_most(folder):
    """The most nodes of a file, with an arc from the first to the last and one from there to the second;
    and one node more."""
    write(folder, "most.gr", [f"p sp {MOST_NODES} 2\na 1 {MOST_NODES} 5\na {MOST_NODES} 2 7\n"])
    write(folder, "most.p2p", ["p aux sp p2p 1\nq 1 2\n"])
    write(folder, "over.gr", [f"p sp {MOST_NODES + 1} 0\n"])


def write_far(folder):
    """More nodes than 2^22, most without arcs: from the last to the first and to the one in the middle."""
    write(folder, "far.gr", [f"p sp {FAR_NODES} 2\na {FAR_NODES} 1 5\na 1 {FAR_NODES // 2} 7\n"])
    write(folder, "far.ss", [f"p aux sp ss 1\ns {FAR_NODES}\n"])


def far_report():
    """Three nodes are reached, with the walks of 0, 1 and 2 arcs."""
    reached = {1: "d 1 5\nw 1 1 1\n", FAR_NODES // 2: f"d {FAR_NODES // 2} 12\nw {FAR_NODES // 2} 2 1 2\n", FAR_NODES: f"d {FAR_NODES} 0\nw {FAR_NODES} 0\n"}
    return f"s {FAR_NODES} 0\n" + "".join(reached.get(node) or f"d {node} inf\n" for node in range(1, FAR_NODES + 1))


def write_sources(folder):
    """A node without arcs with the most sources of a file; four nodes with many sources and many pairs."""
    write(folder, "one.gr", ["p sp 1 0\n"])
    write(folder, "million.ss", ["p aux sp ss 1000000\n", "s 1\n" * 1_000_000])
    write(folder, "million.p2p", ["p aux sp p2p 1000000\n", "q 1 1\n" * 1_000_000])
    write(folder, "many.ss", [f"p aux sp ss {MANY}\n", "s 1\ns 4\n" * (MANY // 2)])
    write(folder, "many.p2p", [f"p aux sp p2p {MANY}\n", "q 1 4\nq 4 1\n" * (MANY // 2)])


def many_report():
    """The arrivals from nodes 1 and 4 of four-nodes.gr, repeated."""
    return "s 1 0\nd 1 0\nd 2 5\nd 3 2\nd 4 6\ns 4 0\nd 1 inf\nd 2 inf\nd 3 inf\nd 4 0\n" * (MANY // 2)


def many_pair_report():
    """Node 4 is reached from node 1 at 6, node 1 from node 4 never."""
    return "q 1 4 0\nd 4 6\nq 4 1 0\nd 1 inf\n" * (MANY // 2)


def write_steps(folder):
    """A class for each of several arcs of a path, each with the most steps, a million in all: a trip at each
    tenth second, which takes 3 seconds more in each class than in the one before."""
    arcs = [f"a {node} {node + 1} 1\n" for node in range(1, STEPPED_CLASSES + 1)]
    write(folder, "steps.gr", [f"p sp {STEPPED_CLASSES + 1} {STEPPED_CLASSES}\n", *arcs])
    kinds = [[f"k {at} trips {10 * STEPS} {STEPS}\n", *[f"v {10 * step} {3 * at}\n" for step in range(STEPS)]] for at in range(1, STEPPED_CLASSES + 1)]
    classes = [f"t {at} {at}\n" for at in range(1, STEPPED_CLASSES + 1)]
    write(folder, "steps.tp", [f"p tp {STEPPED_CLASSES} {STEPPED_CLASSES}\n", *[line for kind in kinds for line in kind], *classes])


def steps_report(departure):
    """Each arc waits for the next tenth second and takes 1 and three times its number."""
    lines, now = [f"s 1 {departure}\nd 1 {departure}\n"], departure
    for at in range(1, STEPPED_CLASSES + 1):
        now = -(-now // 10) * 10 + 1 + 3 * at
        lines.append(f"d {at + 1} {now}\n")
    return "".join(lines)


def write_walked(folder):
    """A path from node 1, twice."""
    write(folder, "walked.gr", [f"p sp {WALKED} {WALKED - 1}\n", *[f"a {node} {node + 1} 1\n" for node in range(1, WALKED)]])
    write(folder, "walked.ss", ["p aux sp ss 2\ns 1\ns 1\n"])


def walked_report():
    """The walk to node V has the arcs 1 to V - 1. The text is longer than a thread keeps."""
    lines, walk = ["s 1 0\n"], ""
    for node in range(1, WALKED + 1):
        lines.append(f"d {node} {node - 1}\nw {node} {node - 1}{walk}\n")
        walk += f" {node}"
    text = "".join(lines)
    if len(text) <= KEPT:
        raise ValueError("the report is too short")
    return text


def results(program, examples):
    """For each call its words, its result and the expected one."""
    with tempfile.TemporaryDirectory(prefix="earliest-") as folder:
        def ran(words, wanted, status=0, said=b""):
            run = subprocess.run([program, *words.split()], cwd=folder, stdin=subprocess.DEVNULL, capture_output=True, timeout=100)
            was = (run.returncode, len(run.stdout), run.stdout == wanted.encode(), run.stderr)
            return f"large: {words}", was, (status, len(wanted), True, said)

        write_path(folder)
        yield ran("run path.gr path.ss", path_report())
        yield ran("run path.gr path.ss --workers 16 --heaps 8", path_report())
        yield ran("pairs path.gr path.p2p --walks", path_pair_report())
        yield ran("rank path.gr path.ss --workers 16 --heaps 8", f"s 1 0\nr {NODES} 0 0\n")
        write(folder, "path.report", [path_report()])
        yield ran("check path.gr path.ss path.report", "ok\n")
        write_star(folder)
        yield ran("run star.gr star.ss --tp star.tp", star_report())
        write(folder, "star.report", [star_report()])
        yield ran("check star.gr star.ss star.report --tp star.tp", "ok\n")
        write_most(folder)
        yield ran("pairs most.gr most.p2p", "q 1 2 0\nd 2 12\n")
        yield ran("pairs over.gr most.p2p", "", 1, b"earliest: gr 1: 6 OutOfRange\n")
        write_far(folder)
        far = far_report()
        yield ran("run far.gr far.ss --walks", far)
        yield ran("run far.gr far.ss --walks --workers 4", far)
        yield ran("run far.gr far.ss --workers 4", "".join(line for line in far.splitlines(True) if not line.startswith("w")))
        write(folder, "far.report", [far])
        yield ran("check far.gr far.ss far.report", "ok\n")
        write_walked(folder)
        yield ran("run walked.gr walked.ss --walks --at-once 2", 2 * walked_report())
        write_sources(folder)
        yield ran("run one.gr million.ss --joint", "s 1 0\n" * 1_000_000 + "d 1 0\n")
        four_nodes = os.path.join(examples, "four-nodes.gr")
        yield ran(f"run {four_nodes} many.ss --workers 1", many_report())
        yield ran(f"run {four_nodes} many.ss", many_report())
        yield ran("pairs one.gr million.p2p", "q 1 1 0\nd 1 0\n" * 1_000_000)
        yield ran(f"pairs {four_nodes} many.p2p", many_pair_report())
        write(folder, "many.report", [many_report()])
        yield ran(f"check {four_nodes} many.ss many.report", "ok\n")
        write_steps(folder)
        write(folder, "first.ss", ["p aux sp ss 1\ns 1\n"])
        for departure in (0, 7, 10 * STEPS - 9, 10 * STEPS * 1000 + 4):
            yield ran(f"run steps.gr first.ss --tp steps.tp --depart {departure}", steps_report(departure))
