"""What a run takes: memory beside the size of its text, calls of read and write, what is made ahead of a
slow reader, and how processor time grows with a size. Times are compared between two sizes in one run, with
a margin of three, so no clock of a machine decides."""
import contextlib
import glob
import os
import random
import re
import resource
import statistics
import subprocess
import tempfile
import time
from concurrent.futures import ThreadPoolExecutor

import memory

HERE = os.path.dirname(os.path.abspath(__file__))
NODES, ARCS = 300_000, 1_200_000
WAIT = 4.0
MEGABYTE = 2**20


def write(folder, name, parts):
    with open(os.path.join(folder, name), "w", encoding="ascii") as file:
        file.writelines(parts)


def write_path(folder, name, nodes, weight=1, backwards=False):
    """A path over all nodes, from the first to the last or the other way."""
    arcs = (f"a {node + 1} {node} {weight}\n" if backwards else f"a {node} {node + 1} {weight}\n" for node in range(1, nodes))
    write(folder, name, [f"p sp {nodes} {nodes - 1}\n", *arcs])


def limited(megabytes):
    """What a child calls to get four processors at most, and this much memory; None is no limit."""
    def limit():
        os.sched_setaffinity(0, sorted(os.sched_getaffinity(0))[:4])
        if megabytes is not None:
            resource.setrlimit(resource.RLIMIT_DATA, (megabytes * MEGABYTE, megabytes * MEGABYTE))

    return limit


def ran(program, words, folder, megabytes=None):
    """A run with its report thrown away: status, standard error, processor seconds, calls of read, calls of
    write and bytes written."""
    with subprocess.Popen([program, *words.split()], cwd=folder, stdin=subprocess.DEVNULL, stdout=subprocess.DEVNULL, stderr=subprocess.PIPE, preexec_fn=limited(megabytes)) as run:
        said = run.stderr.read()
        os.waitid(os.P_PID, run.pid, os.WEXITED | os.WNOWAIT)
        with open(f"/proc/{run.pid}/io", encoding="ascii") as file:
            counts = dict(line.split(": ") for line in file)
        _, status, usage = os.wait4(run.pid, 0)
        run.returncode = os.waitstatus_to_exitcode(status)
        return run.returncode, said, usage.ru_utime + usage.ru_stime, int(counts["syscr"]), int(counts["syscw"]), int(counts["wchar"])


def seconds(program, words, folder):
    """The least processor time of three runs that end well."""
    least = 1e9
    for _ in range(3):
        status, said, took = ran(program, words, folder)[:3]
        if status != 0:
            raise RuntimeError(f"{words}: {status} {said}")
        least = min(least, took)
    return least


def seconds_beside(program, words, folder, count):
    """The processor time of a run that ends well while others of the same words run, as many as this in all: threads of one core, and all
    that share memory, make one another slower."""
    with ThreadPoolExecutor(count) as pool:
        return statistics.median(pool.map(lambda _: seconds(program, words, folder), range(count)))


def grows(name, small, large, most):
    """Whether the processor time grows at most by this factor."""
    return name, large <= most * max(small, 0.01) or (small, large), True


def network(program, folder):
    """A random network of 23 MB: it is read and solved in four times the memory of its text, and by few
    calls of the system."""
    rng = random.Random(26)
    arcs = [f"a {rng.randint(1, NODES)} {rng.randint(1, NODES)} {rng.randint(1, 1000)}\n" for _ in range(ARCS)]
    write(folder, "net.gr", [f"p sp {NODES} {ARCS}\n", *arcs])
    write(folder, "one.ss", ["p aux sp ss 1\ns 1\n"])
    size = os.path.getsize(os.path.join(folder, "net.gr"))
    for words in ("run net.gr one.ss", "run net.gr one.ss --workers 1"):
        status, said, _, reads, writes, written = ran(program, words, folder, 4 * size // MEGABYTE + 8)
        yield f"resources: {words} in four times the memory of its text", (status, said), (0, b"")
        yield f"resources: {words}, calls of read a megabyte", reads <= 24 * size // MEGABYTE or reads, True
        yield f"resources: {words}, calls of write a megabyte", writes <= 24 * written // MEGABYTE + 8 or writes, True
    with open(os.path.join(HERE, "..", "..", "docs", "guide", "many-sources.md"), encoding="utf-8") as page:
        told = int(re.search(r"memory is (\d+) bytes an arc", page.read())[1])
    text, most = "".join(arcs), []
    for times in (2, 4):
        write(folder, "times.gr", [f"p sp {NODES} {times * ARCS}\n", *[text] * times])
        most.append(peak(program, "run times.gr one.ss --workers 1", folder))
    an_arc = 1024 * (most[1] - most[0]) / (2 * ARCS)
    yield "resources: bytes an arc as the page tells them", told / 1.25 <= an_arc <= 1.25 * told or an_arc, True


def directions(program, folder):
    """The same network turned round, with own times, and for ten nodes: in four times the memory of its text, and in
    time like that of a plain run."""
    size = os.path.getsize(os.path.join(folder, "net.gr"))
    write(folder, "one.at", ["p aux sp at 1\nt 5000\n"])
    write(folder, "ten.ss", ["p aux sp ss 10\n", *[f"s {node}\n" for node in range(7, 17)]])
    plain = seconds(program, "run net.gr one.ss --workers 1", folder)
    for options in ("--arrive 5000", "--arrives one.at", "--departs one.at", "--nodes ten.ss"):
        words = f"run net.gr one.ss --workers 1 {options}"
        status, said = ran(program, words, folder, 4 * size // MEGABYTE + 8)[:2]
        yield f"resources: {words} in four times the memory of its text", (status, said), (0, b"")
        yield grows(f"resources: {words} beside a plain run", plain, seconds(program, words, folder), 3)


def processor_time(pid):
    """The processor seconds that a process has taken so far."""
    with open(f"/proc/{pid}/stat", encoding="ascii") as file:
        fields = file.read().rpartition(")")[2].split()
    return (int(fields[11]) + int(fields[12])) / os.sysconf("SC_CLK_TCK")


def slow_reader(program, folder):
    """Hundreds of reports, and a reader that stops after the first byte: few reports are made ahead, and then no thread waits busily."""
    write(folder, "many.ss", ["p aux sp ss 400\n", *[f"s {at}\n" for at in range(1, 401)]])
    words = "run net.gr many.ss --at-once 4"
    with subprocess.Popen([program, *words.split()], cwd=folder, stdin=subprocess.DEVNULL, stdout=subprocess.PIPE) as run:
        run.stdout.read(1)
        time.sleep(WAIT)
        for _ in range(8):
            before = processor_time(run.pid)
            time.sleep(1)
            idle = processor_time(run.pid) - before
            if idle <= 0.1:
                break
        with open(f"/proc/{run.pid}/status", encoding="ascii") as file:
            fields = dict(line.split(":", 1) for line in file)
        is_waiting = run.poll() is None
        run.kill()
    peak = int(fields["VmHWM"].split()[0]) // 1024
    yield f"resources: {words}, megabytes ahead of a slow reader", (is_waiting, peak <= 240 or peak), (True, True)
    yield f"resources: {words}, processor time while nothing is read", idle <= 0.1 or idle, True


def after_a_fault(program, folder):
    """An output that fails at once ends every thread: thousands of reports into a full device take far less time than writing them."""
    write_path(folder, "short.gr", 5000)
    write(folder, "thousands.ss", ["p aux sp ss 4000\n", *[f"s {at}\n" for at in range(1, 4001)]])
    words = "run short.gr thousands.ss --at-once 4"
    whole, cut = seconds(program, words, folder), min(ran(program, f"{words} -o /dev/full", folder)[2] for _ in range(3))
    yield "resources: 4,000 reports into a full device beside all of them", 3 * cut <= whole or (whole, cut), True


def long_walks(program, folder):
    """A path of 1,000 nodes from each of them, with walks: half a gigabyte of report in 64 MB for each thread."""
    write_path(folder, "walks.gr", 1000)
    write(folder, "walks.ss", ["p aux sp ss 1000\n", *[f"s {node}\n" for node in range(1, 1001)]])
    for at_once in (4, 16):
        status, said, _, _, _, written = ran(program, f"run walks.gr walks.ss --walks --at-once {at_once}", folder, 64 * at_once)
        yield f"resources: walks of a path from each node, {at_once} at once", (status, said, written > 400 * MEGABYTE), (0, b"", True)
    # Reports of 22 MB, of which a part has eight: they are written from their answers, since their texts are too long to be kept.
    write_path(folder, "walks.gr", 3000)
    write(folder, "walks.ss", ["p aux sp ss 64\n", *[f"s {node}\n" for node in range(1, 65)]])
    words = "run walks.gr walks.ss --walks --at-once 2"
    most = peak(program, words, folder) // 1024
    yield f"resources: {words}, megabytes of long reports", most <= 128 or most, True


def shared_walks(program, folder):
    """Walks on a path, each of which is written from the one before, take far less time than as many bytes of walks that share nothing
    with the one before: those of two paths that leave node 1, whose nodes have even numbers and odd ones."""
    write_path(folder, "together.gr", 7071)
    write(folder, "apart.gr", ["p sp 10001 10000\n", *[f"a {max(node - 2, 1)} {node} 1\n" for node in range(2, 10_002)]])
    together, apart = (seconds(program, f"run {name}.gr one.ss --walks", folder) for name in ("together", "apart"))
    yield "resources: walks of a path are written from the one before", 2 * together <= apart or (together, apart), True


def alone(program, folder):
    """One worker without statistics is the search of one thread, which takes far less time than a worker whose turns are counted."""
    write(folder, "eight.ss", ["p aux sp ss 8\n", *[f"s {at}\n" for at in range(1, 9)]])
    one, counted = (seconds(program, f"run net.gr eight.ss --workers 1 {words}", folder) for words in ("--at-once 1", "--stats --turns 1000000000"))
    yield "resources: one worker without statistics is the search of one thread", 1.5 * one <= counted or (one, counted), True


def thread_seconds(program, words, folder, is_slowed=lambda is_first: False):
    """The seconds of each thread of a run that ends well in its own code, not in the system, as they were last seen. The run has one
    processor, so that a thread that waits for others takes next to nothing: it yields the processor to them. Those that are slowed get it
    when no other of the run wants it."""
    def limit():
        os.sched_setaffinity(0, sorted(os.sched_getaffinity(0))[:1])

    seen = {}
    with subprocess.Popen([program, *words.split()], cwd=folder, stdin=subprocess.DEVNULL, stdout=subprocess.DEVNULL, preexec_fn=limit) as run:
        while run.poll() is None:
            for task in glob.glob(f"/proc/{run.pid}/task/*/stat"):
                with contextlib.suppress(OSError), open(task, encoding="ascii") as file:
                    front, _, rest = file.read().rpartition(")")
                    number = int(front.split()[0])
                    if number not in seen and is_slowed(number == run.pid):
                        os.setpriority(os.PRIO_PROCESS, number, 19)
                    seen[number] = int(rest.split()[11]) / os.sysconf("SC_CLK_TCK")
            time.sleep(0.005)
    if run.returncode:
        raise RuntimeError(f"{words}: {run.returncode}")
    return sorted(seen.values(), reverse=True)


def made_once(program, folder):
    """Reports made ahead by several threads beside those of as many runs by one: none is made twice, and no thread waits for what another
    makes: each makes its share, the one that sends them too."""
    write(folder, "many-ahead.ss", ["p aux sp ss 800\n", *[f"s {at}\n" for at in range(1, 801)]])
    write_path(folder, "middle.gr", 20_000)
    for at_once in (2, 4, 16):
        one = seconds_beside(program, "run middle.gr many-ahead.ss --at-once 1", folder, at_once)
        words = f"run middle.gr many-ahead.ss --at-once {at_once}"
        many = seconds(program, words, folder)
        for _ in range(4):
            # A busy machine only adds time. Reports that are made twice take twice the time in each run.
            if many > 1.7 * one:
                many = min(many, seconds(program, words, folder))
        yield grows(f"resources: {words}, all threads beside as many runs", one, many, 1.7)
        if at_once > 4:
            continue  # The share of one of sixteen is too short for the system's clock.
        for _ in range(5):
            # Those that read the network have nothing to share here.
            shares = thread_seconds(program, words, folder)[:at_once]
            are_even = len(shares) == at_once and shares[-1] * 3 * at_once >= sum(shares)
            if are_even:
                break
        yield f"resources: {words}, each thread makes its share", are_even or shares, True
    # If the other of two threads is slowed, the one that sends the reports makes nearly all, and once.
    def slowed(at_once):
        return sum(thread_seconds(program, f"run middle.gr many-ahead.ss --at-once {at_once}", folder, lambda is_first: not is_first))

    by_one, by_two = (min(slowed(at_once) for _ in range(3)) for at_once in (1, 2))
    for _ in range(6):
        # Here, too, a busy machine only adds time.
        if by_two > 1.5 * by_one:
            by_two = min(by_two, slowed(2))
    yield grows("resources: run middle.gr many-ahead.ss --at-once 2, made by the one that sends them beside one", by_one, by_two, 1.5)


def near_problems(program, folder):
    """Problems whose searches reach few nodes of a long path: each puts back only the labels that it changed, on the arrays of the one
    before."""
    nodes, many = 500_000, 5000
    write_path(folder, "long.gr", nodes)
    write(folder, "near.ss", ["p aux sp ss 20\n", *[f"s {node}\n" for node in range(20, 40)]])
    for name, count in (("one", 1), ("many", many)):
        write(folder, f"{name}.p2p", [f"p aux sp p2p {count}\n", *[f"q {1 + 4 * at} {51 + 4 * at}\n" for at in range(count)]])
        write(folder, f"{name}-near.ss", [f"p aux sp ss {count}\n", *["s 1\n"] * count])
    for words in ("pairs long.gr {}.p2p --at-once 1", "pairs long.gr {}.p2p --at-once 4", "pairs long.gr {}.p2p --at-once 1 --walks", "pairs long.gr {}.p2p --at-once 1 --arrive 100", "run long.gr {}-near.ss --nodes near.ss --at-once 1", "run long.gr {}-near.ss --nodes near.ss --at-once 4 --walks"):
        one, all_of_them = (seconds(program, words.format(name), folder) for name in ("one", "many"))
        yield grows(f"resources: {words.format('many')} beside one problem", one, all_of_them, 3)


def long_lines(program, folder):
    """A line of 8 MB and one of 64 MB: a comment, blanks between two fields."""
    for name, front, back in (("a comment", "c ", "\np sp 1 0\n"), ("blanks", "p sp 1 ", "0\n")):
        for megabytes in (8, 64):
            write(folder, f"line{megabytes}.gr", [front, " " * (megabytes * MEGABYTE), back])
        small, large = (seconds(program, f"run line{megabytes}.gr one.ss", folder) for megabytes in (8, 64))
        yield grows(f"resources: a line of 64 MB beside one of 8 MB, {name}", small, large, 24)


def many_steps(program, folder):
    """A class of 16 steps and one of 65,536, asked at each arc of a path, forward and turned round: the step is found by halves."""
    nodes = 300_000
    write_path(folder, "steps.gr", nodes)
    for steps in (16, 65_536):
        kind = [f"v {at * 65_536 // steps * 100} 1000\n" for at in range(steps)]
        classes = [f"t {arc} 1\n" for arc in range(1, nodes)]
        write(folder, f"steps{steps}.tp", [f"p tp 1 {nodes - 1}\nk 1 speeds 6553600 {steps}\n", *kind, *classes])
    write(folder, "end.ss", [f"p aux sp ss 1\ns {nodes}\n"])
    for words in ("run steps.gr one.ss --depart 6000000", "run steps.gr end.ss --arrive 6000000"):
        few, many = (seconds(program, f"{words} --tp steps{steps}.tp --workers 1", folder) for steps in (16, 65_536))
        yield grows(f"resources: {words}: arcs of a class of 65,536 steps beside one of 16", few, many, 3)


def hard_shapes(program, folder):
    """Paths and stars, on which several workers have nothing to share: by default, beside one thread."""
    nodes = 500_000
    write_path(folder, "zero.gr", nodes, 0, True)
    write(folder, "last.ss", [f"p aux sp ss 1\ns {nodes}\n"])
    write(folder, "star.gr", [f"p sp {nodes} {nodes - 1}\n", *[f"a 1 {node} {node}\n" for node in range(2, nodes + 1)]])
    for words in ("run zero.gr last.ss", "run star.gr one.ss"):
        alone, default = seconds(program, f"{words} --workers 1", folder), seconds(program, words, folder)
        yield grows(f"resources: {words} by default beside one thread", alone, default, 3)


def long_waits(program, folder):
    """A star whose arcs open one after another, and a search for its first and its last leaf, which looks at those that wait whenever its window
    moves on. Then nodes whose labels fall again and again if they are taken in the order of arcs, in a network whose mean weight puts all of
    them into one window. Then a path without time while many nodes wait: no step of it may look at all of them."""
    leaves = 60_000
    write(folder, "waits.gr", [f"p sp {leaves + 1} {leaves}\n", *[f"a 1 {node} 1\n" for node in range(2, leaves + 2)]])
    kinds = [f"k {kind} every 4294967296 {100 * kind}\n" for kind in range(1, leaves + 1)]
    write(folder, "waits.tp", [f"p tp {leaves} {leaves}\n", *kinds, *[f"t {arc} {arc}\n" for arc in range(1, leaves + 1)]])
    write(folder, "ends.ss", ["p aux sp ss 2\n", "s 2\n", f"s {leaves + 1}\n"])
    everything, ends = (seconds(program, f"run waits.gr one.ss --tp waits.tp {words}", folder) for words in ("", "--nodes ends.ss"))
    yield grows("resources: two leaves of a star whose arcs open one after another, beside all", everything, ends, 3)
    ring = 20_000
    arcs = [f"a 1 {node} {2 * node}\n" for node in range(2, ring + 2)] + [f"a {node} {node + 1} 1\n" for node in range(2, ring + 1)]
    slow = [f"a {ring + 1} {ring + 1} 4000000000\n"] * len(arcs)
    write(folder, "falling.gr", [f"p sp {ring + 1} {2 * len(arcs)}\n", *arcs, *slow])
    write(folder, "end.ss", ["p aux sp ss 1\n", f"s {ring + 1}\n"])
    everything, end = (seconds(program, f"run falling.gr one.ss {words}", folder) for words in ("", "--nodes end.ss"))
    yield grows("resources: a node behind others whose labels fall again and again, beside all", everything, end, 30)
    path = 100_000
    arcs = [f"a 1 {node} {1_000_000 + node}\n" for node in range(2, path + 2)] + [f"a 1 {path + 2} 0\n"]
    arcs += [f"a {node} {node + 1} 0\n" for node in range(path + 2, 2 * path + 1)]
    write(folder, "beside.gr", [f"p sp {2 * path + 1} {len(arcs)}\n", *arcs])
    write(folder, "far.ss", ["p aux sp ss 1\n", f"s {2 * path + 1}\n"])
    everything, last = (seconds(program, f"run beside.gr one.ss {words}", folder) for words in ("", "--nodes far.ss"))
    yield grows("resources: the end of a path beside a star that waits, beside all", everything, last, 3)


def left_to_one(program, folder):
    """A path without time, and then a ring whose labels fall again and again in the order of its arcs: two workers leave it to one thread, so
    that they scan few entries."""
    path, ring = 100, 20_000
    arcs = [f"a {node} {node + 1} 0\n" for node in range(1, path + 1)]
    arcs += [f"a {path + 1} {path + 1 + step} {2 * step}\n" for step in range(ring - 1, 0, -1)]
    arcs += [f"a {node} {node + 1} 1\n" for node in range(path + 2, path + ring)]
    write(folder, "ring.gr", [f"p sp {path + ring} {len(arcs)}\n", *arcs])
    words = "run ring.gr one.ss --stats --workers 2 --heaps 2 --turns 1000000000"
    for _ in range(5):
        said = subprocess.run([program, *words.split()], cwd=folder, stdin=subprocess.DEVNULL, capture_output=True, text=True, timeout=100).stdout
        scanned = int(re.search(r"c scanned (\d+)", said)[1])
        if scanned <= 4 * (path + ring):
            break
    yield "resources: two workers leave a late ring", 0 < scanned <= 4 * (path + ring) or scanned, True


def peak(program, words, folder):
    """The greatest memory of a run that ends well, in KiB."""
    status, _, most = memory.measured([program, *words.split()], folder, stdout=subprocess.DEVNULL)
    if status:
        raise RuntimeError(f"{words}: {status}")
    return most


def write_grids(folder, side):
    """Grids of this many nodes a side, one numbered row by row and one at random."""
    rng, numbers = random.Random(9), list(range(side * side))
    pairs = [(at, at + step) for at in numbers for step in ([1] if at % side < side - 1 else []) + ([side] if at < side * (side - 1) else [])]
    for name in ("rows", "random"):
        if name == "random":
            rng.shuffle(numbers)
        arcs = (f"a {numbers[tail] + 1} {numbers[head] + 1} {1 + at % 97}\n" for at, pair in enumerate(pairs) for tail, head in (pair, pair[::-1]))
        write(folder, f"{name}.gr", [f"p sp {side * side} {2 * len(pairs)}\n", *arcs])


def layouts(program, folder):
    """A grid numbered at random is laid out anew for sixteen problems, and not for one, nor for few nodes; numbered row by row it never is.
    The copy shows in the memory."""
    write_grids(folder, 400)
    write(folder, "sixteen.ss", ["p aux sp ss 16\n", *[f"s {1000 * at}\n" for at in range(1, 17)]])
    for name, is_laid_out in (("rows", False), ("random", True)):
        one, many = (peak(program, f"run {name}.gr {sources}.ss --at-once 1", folder) for sources in ("one", "sixteen"))
        yield f"resources: a grid numbered {name}: laid out for sixteen problems", (many > 1.2 * one) == is_laid_out or (one, many), True
    # The copy takes 28 bytes an arc and some 20 a node; an array of arcs that stays takes 12 or 16 an arc more.
    arcs, told = 4 * 400 * 399, 34
    rows, scattered = (min(peak(program, f"run {name}.gr sixteen.ss --at-once 1", folder) for _ in range(3)) for name in ("rows", "random"))
    an_arc = 1024 * (scattered - rows) / arcs
    yield "resources: bytes an arc that a layout takes", told / 1.25 <= an_arc <= 1.25 * told or an_arc, True
    # Three problems for each thread are enough, two aren't.
    for at_once, is_laid_out in ((5, True), (6, False), (16, False)):
        rows, scattered = (min(peak(program, f"run {name}.gr sixteen.ss --at-once {at_once}", folder) for _ in range(3)) for name in ("rows", "random"))
        yield f"resources: a grid numbered at random, sixteen problems, {at_once} at once: laid out", (scattered > 1.25 * rows) == is_laid_out or (rows, scattered), True
    # For two nodes of each report none is made.
    write(folder, "two.ss", ["p aux sp ss 2\n", "s 1\n", "s 2\n"])
    rows, scattered = (min(peak(program, f"run {name}.gr sixteen.ss --at-once 1 --nodes two.ss", folder) for _ in range(3)) for name in ("rows", "random"))
    yield "resources: a grid numbered at random, two nodes of sixteen problems: not laid out", scattered <= 1.25 * rows or (rows, scattered), True
    # A network of this size is worth four workers, which search it as it is.
    write_grids(folder, 450)
    rows, scattered = (min(peak(program, f"run {name}.gr sixteen.ss --at-once 1", folder) for _ in range(3)) for name in ("rows", "random"))
    yield "resources: a larger grid numbered at random, sixteen problems one after another: laid out for one thread alone", (scattered > 1.25 * rows) == (len(os.sched_getaffinity(0)) < 4) or (rows, scattered), True


def used_layouts(program, folder):
    """What 32 problems add on a grid of 10^6 nodes numbered at random, for two searching threads, is little more than if it is numbered row by
    row. Were the layout made and not used, it would be two to three times as much."""
    side, rng, added = 1_000, random.Random(10), []
    numbers = list(range(1, side * side + 1))
    write(folder, "first.ss", ["p aux sp ss 1\n", "s 5\n"])
    write(folder, "32.ss", ["p aux sp ss 32\n", *[f"s {30_000 * at}\n" for at in range(1, 33)]])
    # Too many nodes for a search that ends with them, and few lines to write.
    write(folder, "some.ss", [f"p aux sp ss {side * side // 64 + 1}\n", *[f"s {at}\n" for at in range(1, side * side // 64 + 2)]])
    for name in ("rows", "random"):
        if name == "random":
            rng.shuffle(numbers)
        with open(os.path.join(folder, "large.gr"), "w", encoding="ascii") as file:
            file.write(f"p sp {side * side} {4 * side * (side - 1)}\n")
            for at in range(side * side):
                for other in ([at + 1] if (at + 1) % side else []) + ([at + side] if at + side < side * side else []):
                    weight = 1 + (at * 7 + other) % 97
                    file.write(f"a {numbers[at]} {numbers[other]} {weight}\na {numbers[other]} {numbers[at]} {weight}\n")
        one, many = (min(ran(program, f"run large.gr {sources}.ss --at-once 2 --nodes some.ss", folder)[2] for _ in range(2)) for sources in ("first", "32"))
        added.append(many - one)
    yield "resources: 32 problems on a grid numbered at random: about the time of one in rows", added[1] <= 1.8 * added[0] or added, True


def preparations(program, folder):
    """Pairs on a grid of 40,000 nodes: hundreds of them are worth a preparation if one thread searches them, forty aren't, nor hundreds that
    eight threads share. The upward arcs show in the memory."""
    side, rng = 200, random.Random(11)
    nodes = side * side
    pairs = [(at, at + step) for at in range(nodes) for step in ([1] if at % side < side - 1 else []) + ([side] if at < side * (side - 1) else [])]
    arcs = (f"a {tail + 1} {head + 1} {1 + at % 97}\n" for at, pair in enumerate(pairs) for tail, head in (pair, pair[::-1]))
    write(folder, "prepared.gr", [f"p sp {nodes} {2 * len(pairs)}\n", *arcs])
    for count in (40, 400):
        write(folder, f"{count}.p2p", [f"p aux sp p2p {count}\n", *[f"q {rng.randint(1, nodes)} {rng.randint(1, nodes)}\n" for _ in range(count)]])
    for count, at_once, is_prepared in ((40, 1, False), (400, 1, True), (400, 8, False)):
        words = f"pairs prepared.gr {count}.p2p --at-once {at_once}"
        chosen, without = (peak(program, f"{words}{option}", folder) for option in ("", " --prepare no"))
        yield f"resources: {words}: prepared", (chosen > 1.3 * without) == is_prepared or (chosen, without), True
        yield f"resources: {words}: no more than three times the memory of a search without", chosen <= 3 * without or (chosen, without), True


def memory_of_preparations(program, folder):
    """A preparation of a grid of 250,000 nodes: the network is renumbered and the other copy dropped, so it takes some 290 bytes a node more than a
    search without, most of them upward arcs. With the other copy it would take 140 more."""
    side = 500
    nodes = side * side
    pairs = [(at, at + step) for at in range(nodes) for step in ([1] if at % side < side - 1 else []) + ([side] if at < side * (side - 1) else [])]
    arcs = (f"a {tail + 1} {head + 1} {1 + at % 97}\n" for at, pair in enumerate(pairs) for tail, head in (pair, pair[::-1]))
    write(folder, "kept.gr", [f"p sp {nodes} {2 * len(pairs)}\n", *arcs])
    write(folder, "far.p2p", ["p aux sp p2p 1\n", f"q 1 {nodes}\n"])
    prepared, without = (min(peak(program, f"pairs kept.gr far.p2p --prepare {word} --at-once 1", folder) for _ in range(2)) for word in ("yes", "no"))
    more = 1024 * (prepared - without) / nodes
    yield "resources: bytes a node that a preparation takes", more <= 350 or more, True


def results(program):
    """Each measure with whether it holds, or its figures, and True."""
    with tempfile.TemporaryDirectory(prefix="resources-") as folder:
        for part in (network, directions, slow_reader, after_a_fault, made_once, long_walks, shared_walks, alone, near_problems, long_lines, many_steps, hard_shapes, long_waits, left_to_one, layouts, used_layouts, preparations, memory_of_preparations):
            yield from part(program, folder)
