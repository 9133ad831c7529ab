"""Sizes that take minutes, outside the gate: python3 tests/cli/nightly.py PROGRAM [NODES]

A path of NODES nodes (42,000 if no number is given), whose report with walks is longer than 4 GB: each byte
of it, and its verdict by `check`, which reads it from a pipe. Many long reports at once, under a limit of memory. Paths of 10,000,000 nodes,
in order and numbered at random: each arrival, and the processor time by default and by workers beside one thread. The most arcs of a file,
and one more. It takes about 6 GB of memory.
"""
import os
import random
import subprocess
import sys
import tempfile

sys.dont_write_bytecode = True
import memory
from large import write

LONG = 10_000_000


def path_files(folder, nodes, places):
    """A path over the nodes in the order of the places, each arc taking 1, and its first node as source."""
    arcs = (f"a {places[at]} {places[at + 1]} 1\n" for at in range(nodes - 1))
    write(folder, "path.gr", [f"p sp {nodes} {nodes - 1}\n", *arcs])
    write(folder, "path.ss", [f"p aux sp ss 1\ns {places[0]}\n"])


def long_walks(program, folder, nodes):
    """The walk to node V has the arcs 1 to V - 1: each is a beginning of the longest."""
    path_files(folder, nodes, range(1, nodes + 1))
    longest = b"".join(b" %d" % arc for arc in range(1, nodes))
    ends, at = [0], 0
    for arc in range(1, nodes):
        at += 1 + len(str(arc))
        ends.append(at)
    size, ill = 0, None
    with subprocess.Popen([program, "run", "path.gr", "path.ss", "--walks"], cwd=folder, stdout=subprocess.PIPE) as run:
        is_headed = run.stdout.readline() == b"s 1 0\n"
        for node in range(1, nodes + 1):
            want = b"d %d %d\nw %d %d" % (node, node - 1, node, node - 1) + longest[: ends[node - 1]] + b"\n"
            size += len(want)
            if run.stdout.read(len(want)) != want and ill is None:
                ill = node
        rest = run.stdout.read(1)
    yield f"a report of {size} bytes", (run.returncode, is_headed, ill, rest), (0, True, None, b"")
    with subprocess.Popen([program, "run", "path.gr", "path.ss", "--walks"], cwd=folder, stdout=subprocess.PIPE) as run:
        verdict = subprocess.run([program, "check", "path.gr", "path.ss", "-"], cwd=folder, stdin=run.stdout, capture_output=True)
        run.stdout.close()
    yield "its verdict", (run.returncode, verdict.returncode, verdict.stdout, verdict.stderr), (0, 0, b"ok\n", b"")


def at_once(program, folder):
    """Reports of 22 MB, sixteen searched at once: of what is made ahead some 300 MB are kept, and all would be 5,600."""
    path_files(folder, 3000, range(1, 3001))
    write(folder, "path.ss", ["p aux sp ss 256\n", *[f"s {node}\n" for node in range(1, 257)]])
    status, _, most = memory.measured([program, *"run path.gr path.ss --walks --at-once 16".split()], folder, stdout=subprocess.DEVNULL)
    yield "256 reports of 22 MB, 16 at once", (status, most <= 640 * 1024 or most), (0, True)


def most_arcs(program, folder):
    """The most arcs of a file, all alike: the walk has the first. One more is refused."""
    write(folder, "most.ss", ["p aux sp ss 1\ns 1\n"])
    for more, want in ((0, (0, b"s 1 0\nd 1 0\nw 1 0\nd 2 5\nw 2 1 1\n", b"")), (1, (1, b"", b"earliest: gr 1: 6 OutOfRange\n"))):
        with open(os.path.join(folder, "most.gr"), "wb") as file:
            file.write(b"p sp 2 %d\n" % (2**28 + more))
            for _ in range(256 * (1 - more)):
                file.write(b"a 1 2 5\n" * 2**20)
        run = subprocess.run([program, "run", "most.gr", "most.ss", "--walks"], cwd=folder, capture_output=True)
        yield f"2^28 and {more} arcs", (run.returncode, run.stdout, run.stderr), want
    os.remove(os.path.join(folder, "most.gr"))


def long_paths(program, folder):
    """The arrival at the node that is the path's V-th is V - 1."""
    scattered = list(range(1, LONG + 1))
    random.Random(27).shuffle(scattered)
    for name, places in (("in order", range(1, LONG + 1)), ("at random", scattered)):
        path_files(folder, LONG, places)
        arrivals = [0] * (LONG + 1)
        for at, node in enumerate(places):
            arrivals[node] = at
        want = f"s {places[0]} 0\n" + "".join(f"d {node} {arrivals[node]}\n" for node in range(1, LONG + 1))
        took = {}
        for words in ("", " --workers 1", " --workers 4"):
            before = os.times()
            run = subprocess.run([program, *f"run path.gr path.ss{words}".split()], cwd=folder, stdin=subprocess.DEVNULL, capture_output=True)
            took[words] = os.times().children_user - before.children_user
            yield f"a path of {LONG} nodes {name}{words}", (run.returncode, run.stderr, run.stdout == want.encode()), (0, b"", True)
        yield f"a path of {LONG} nodes {name}: by default and by workers beside one thread", max(took.values()) <= 3 * took[" --workers 1"] or took, True


def main(words):
    program, nodes, failed = os.path.abspath(words[0]), int(words[1]) if words[1:] else 42_000, 0
    with tempfile.TemporaryDirectory(prefix="nightly-") as folder:
        for results in (long_walks(program, folder, nodes), at_once(program, folder), long_paths(program, folder), most_arcs(program, folder)):
            for name, was, want in results:
                failed += was != want
                print("ok" if was == want else f"failed: {was} and not {want}:", name, flush=True)
    return 1 if failed else 0


if __name__ == "__main__":
    sys.exit(main(sys.argv[1:]))
