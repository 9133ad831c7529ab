"""Nothing is done twice: the processor's instructions for one more problem, and for each node of a larger network, which valgrind counts and no
clock decides, are at most half as many again as they were when this was written. A file that is read twice, or a problem that is searched
twice, takes twice as many of its share."""
import os
import random
import re
import shutil
import subprocess
import tempfile

NODES, MORE = 5000, 20
# Instructions a node for one more problem on a path, as they were counted.
COUNTED = (
    ("pairs path.gr {}.p2p --prepare no --at-once 1", 270),
    ("pairs path.gr {}.p2p --prepare no --at-once 2", 271),
    ("pairs path.gr {}.p2p --prepare yes --at-once 1", 219),
    ("pairs path.gr {}.p2p --prepare no --at-once 1 --arrive 9999", 301),
    # A search for some nodes goes by windows of time, and on a path there is one node in each.
    ("run path.gr {}.ss --nodes last.ss --at-once 1", 208),
    ("run path.gr {}.ss --nodes last.ss --at-once 2", 209),
    ("run path.gr {}.ss --at-once 1", 423),
    ("run path.gr {}.ss --at-once 2", 431),
    ("run path.gr {}.ss --stats --at-once 1", 2282),
    ("check path.gr {}.ss {}.report", 592),
    ("rank path.gr {}.ss", 673),
)

# Instructions a node that a grid has more than a smaller one, as they were counted. Reading alone is a search that ends with its source.
SIDES = 60, 180
GROWING = (
    ("run {}.gr one.ss --nodes one.ss", 1345),
    ("run {}.gr one.ss --nodes one.ss --tp {}.tp", 1998),
    ("run {}.gr one.ss --workers 1", 1877),
    ("run {}.gr one.ss --workers 1 --tp {}.tp", 2758),
    ("run {}.gr one.ss --workers 1 --arrive 99999", 2029),
    ("run {}.gr one.ss --workers 1 --walks -o /dev/null", 3562),
    ("run {}.gr one.ss --workers 4 --stats", 2120),
    ("check {}.gr one.ss {}.report", 1746),
    ("check {}.gr one.ss {}.walks", 11455),
    ("rank {}.gr one.ss", 3025),
    ("pairs {}.gr one.p2p --prepare yes --at-once 1", 49388),
)

# The same of a grid that is laid out beside one that isn't.
LAID_OUT = 256
FOR_LAYOUT = 590


def write(folder, name, text):
    with open(os.path.join(folder, name), "w", encoding="ascii") as file:
        file.write(text)


def instructions(words, folder):
    """How many instructions a run takes that ends well."""
    counted = ["valgrind", "--tool=cachegrind", "--cache-sim=no", "--cachegrind-out-file=/dev/null", *words]
    run = subprocess.run(counted, cwd=folder, stdin=subprocess.DEVNULL, stdout=subprocess.DEVNULL, stderr=subprocess.PIPE, text=True, check=True)
    return int(re.search(r"I\s+refs:\s+([\d,]+)", run.stderr)[1].replace(",", ""))


def write_grid(side, numbers, name, folder):
    """A grid with weights at random, whose nodes have these numbers; returns how many pairs of neighbours it has."""
    words, nodes = random.Random(side), side * side
    pairs = [(at, at + step) for at in range(nodes) for step in ([1] if at % side < side - 1 else []) + ([side] if at < nodes - side else [])]
    arcs = "".join(f"a {numbers[tail]} {numbers[head]} {words.randint(1, 99)}\n" for pair in pairs for tail, head in (pair, pair[::-1]))
    write(folder, f"{name}.gr", f"p sp {nodes} {2 * len(pairs)}\n{arcs}")
    return len(pairs)


def write_inputs(program, side, folder):
    """A grid, timetables for it, and its reports without and with walks."""
    words = random.Random(side)
    pairs = write_grid(side, range(1, side * side + 1), side, folder)
    classes = "".join(f"t {arc} {words.randint(1, 3)}\n" for arc in range(1, 2 * pairs, 2))
    steps = "".join(f"k {kind} speeds 1000 3\nv 0 1000\nv 300 {200 * kind}\nv 600 1000\n" for kind in (1, 2, 3))
    write(folder, f"{side}.tp", f"p tp 3 {pairs}\n{steps}{classes}")
    for name, option in (("report", ()), ("walks", ("--walks",))):
        subprocess.run([program, "run", f"{side}.gr", "one.ss", *option, "-o", f"{side}.{name}"], cwd=folder, check=True)


def growing(program, folder):
    """What a node of a larger network takes."""
    write(folder, "one.ss", "p aux sp ss 1\ns 1\n")
    write(folder, "one.p2p", "p aux sp p2p 1\nq 1 2\n")
    for side in SIDES:
        write_inputs(program, side, folder)
    for words, most in GROWING:
        small, large = (instructions([program, *words.format(side, side).split()], folder) for side in SIDES)
        each = (large - small) / (SIDES[1] ** 2 - SIDES[0] ** 2)
        yield f"instructions a node more: {words}", 0 < each <= 1.5 * most or each, True


def laid_out(program, folder):
    """What a node of a grid takes more if numbers are at random: it is laid out, and three problems are written under its numbers."""
    write(folder, "three.ss", "p aux sp ss 3\ns 1\ns 2\ns 3\n")
    numbers = list(range(1, LAID_OUT**2 + 1))
    write_grid(LAID_OUT, numbers, "rows", folder)
    random.Random(1).shuffle(numbers)
    write_grid(LAID_OUT, numbers, "random", folder)
    rows, scattered = (instructions([program, "run", f"{name}.gr", "three.ss", "--at-once", "1", "--workers", "1"], folder) for name in ("rows", "random"))
    each = (scattered - rows) / LAID_OUT**2
    yield "instructions a node more, if numbers are at random", 0 < each <= 1.5 * FOR_LAYOUT or each, True


def results(program):
    """For each command its words, whether its instructions are as few as that, and the expected result."""
    if not shutil.which("valgrind"):
        print("left out: how many instructions a problem takes, since valgrind isn't there")
        return
    with tempfile.TemporaryDirectory() as folder:
        yield from growing(program, folder)
        yield from laid_out(program, folder)
    with tempfile.TemporaryDirectory() as folder:
        write(folder, "path.gr", f"p sp {NODES} {NODES - 1}\n" + "".join(f"a {node} {node + 1} 1\n" for node in range(1, NODES)))
        write(folder, "last.ss", f"p aux sp ss 1\ns {NODES}\n")
        for count in (1, 1 + MORE):
            write(folder, f"{count}.ss", f"p aux sp ss {count}\n" + "s 1\n" * count)
            write(folder, f"{count}.p2p", f"p aux sp p2p {count}\n" + f"q 1 {NODES}\n" * count)
            subprocess.run([program, "run", "path.gr", f"{count}.ss", "-o", f"{count}.report"], cwd=folder, check=True)
        for words, most in COUNTED:
            one, many = (instructions([program, *words.format(count, count).split()], folder) for count in (1, 1 + MORE))
            each = (many - one) / (MORE * NODES)
            yield f"instructions a node: {words}", 0 < each <= 1.5 * most or each, True
