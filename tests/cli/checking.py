"""The check of large reports: the verdict is the same on one processor and on several, several threads read it
if there are several processors, thousands of small problems take the memory of one, and a report without walks is
checked without an index of the network."""
import os
import subprocess
import tempfile
import threading
import time

import memory

# A ring with enough nodes for several threads to read a report, and few enough for a quick check.
NODES = 200_000
PROBLEMS = 10_000
# How much more memory thousands of problems may take than one, in KiB.
MORE = 2_048
# A network with many arcs for each node, and how much less memory a check takes than the run, which makes an index, in KiB.
HUBS, HOPS, LESS = 20_000, 20, 1_024


def write(folder, name, text):
    with open(os.path.join(folder, name), "w", encoding="ascii") as file:
        file.write(text)


def ring(nodes):
    arcs = "".join(f"a {node} {node % nodes + 1} 1\n" for node in range(1, nodes + 1))
    return f"p sp {nodes} {nodes}\n{arcs}"


def hubs():
    arcs = "".join(f"a {node} {(node + hop) % HUBS + 1} 1\n" for node in range(1, HUBS + 1) for hop in range(HOPS))
    return f"p sp {HUBS} {HUBS * HOPS}\n{arcs}"


def sources(count):
    return f"p aux sp ss {count}\n" + "s 1\n" * count


def checked(program, folder, words, processors):
    """The status of a check on these processors, what it printed, and the most memory that it took."""
    return memory.measured([program, "check", *words], folder, processors)


def most_threads(program, folder, report, processors):
    """The most threads seen while a check read its report, which comes through a pipe."""
    pipe = os.path.join(folder, "pipe")
    os.mkfifo(pipe)
    run = subprocess.Popen([program, "check", "ring.gr", "one.ss", "pipe"], cwd=folder, stdin=subprocess.DEVNULL, stdout=subprocess.DEVNULL, stderr=subprocess.DEVNULL, preexec_fn=lambda: os.sched_setaffinity(0, processors))
    begun = threading.Event()

    def give():
        with open(pipe, "wb") as file:
            file.write(report[:100_000])
            file.flush()
            begun.set()
            # The files before the report were read by now.
            time.sleep(0.5)
            for at in range(100_000, len(report), 1_000_000):
                file.write(report[at:at + 1_000_000])

    giving = threading.Thread(target=give)
    giving.start()
    begun.wait()
    time.sleep(0.4)
    most = 0
    while run.poll() is None:
        try:
            most = max(most, len(os.listdir(f"/proc/{run.pid}/task")))
        except OSError:
            break
    giving.join()
    os.remove(pipe)
    return run.wait(timeout=100), most


def changed(report):
    """The report, and reports that are wrong or written in another way somewhere."""
    lines = report.split(b"\n")
    yield "right", report
    for at in (2, 2_700, len(lines) // 2, len(lines) - 3):
        yield f"missing {at}", b"\n".join(lines[:at] + lines[at + 1:])
        yield f"blanks {at}", b"\n".join(lines[:at] + [lines[at].replace(b" ", b"  ")] + lines[at + 1:])
        yield f"late {at}", b"\n".join(lines[:at] + [lines[at] + b"0"] + lines[at + 1:])
        yield f"cut {at}", b"\n".join(lines[:at])


def results(program):
    """Each check with its outcome, and the expected one."""
    here = sorted(os.sched_getaffinity(0))
    with tempfile.TemporaryDirectory(prefix="checking-") as folder:
        write(folder, "ring.gr", ring(NODES))
        write(folder, "one.ss", sources(1))
        report = subprocess.run([program, "run", "ring.gr", "one.ss"], cwd=folder, stdin=subprocess.DEVNULL, capture_output=True, check=True).stdout
        for name, text in changed(report):
            with open(os.path.join(folder, "report"), "wb") as file:
                file.write(text)
            words = ["ring.gr", "one.ss", "report"]
            several, one = checked(program, folder, words, here), checked(program, folder, words, here[:1])
            yield f"check of a report, {name}, by several processors", several[:2], one[:2]
        # The report is read often, so that threads are seen.
        status, most = most_threads(program, folder, report * 8, here[:1])
        yield "threads of a check on one processor", (status, most), (5, 1)
        if here[1:]:
            status, most = most_threads(program, folder, report, here)
            yield "threads of a check on several processors", (status, most > 1), (0, True)
        write(folder, "small.gr", ring(50))
        outcomes = []
        for count in (1, PROBLEMS):
            write(folder, "small.ss", sources(count))
            with open(os.path.join(folder, "small.report"), "wb") as file:
                subprocess.run([program, "run", "small.gr", "small.ss"], cwd=folder, stdin=subprocess.DEVNULL, stdout=file, check=True)
            outcomes.append(checked(program, folder, ["small.gr", "small.ss", "small.report"], here[:1]))
        (status, _, one), (_, said, many) = outcomes
        yield "memory of a check of many problems", (status, said, many - one <= MORE), (0, "ok\n", True)
        write(folder, "hubs.gr", hubs())
        run = memory.measured([program, "run", "hubs.gr", "one.ss", "-o", "hubs.report"], folder, here[:1])
        check = checked(program, folder, ["hubs.gr", "one.ss", "hubs.report"], here[:1])
        yield "memory of a check without walks", (*check[:2], check[2] + LESS <= run[2] or (check[2], run[2])), (0, "ok\n", True)
