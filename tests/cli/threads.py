"""The number of threads of a run: as many problems are searched at once as asked for, by default one for
each processor. As many workers run as asked for, but at most one for each processor, and no two or three
on few nodes. With statistics all run."""
import os
import random
import subprocess
import tempfile
import threading
import time

NODES, ARCS = 300_000, 900_000
# A run takes long enough for hundreds of samples, and is repeated if that many threads weren't seen.
TRIES = 3


def write(folder, problems):
    """A random network and its sources."""
    words = random.Random(25)
    arcs = [f"a {words.randint(1, NODES)} {words.randint(1, NODES)} {words.randint(1, 1000)}\n" for _ in range(ARCS)]
    with open(os.path.join(folder, "net.gr"), "w", encoding="ascii") as file:
        file.writelines([f"p sp {NODES} {ARCS}\n", *arcs])
    with open(os.path.join(folder, "net.ss"), "w", encoding="ascii") as file:
        file.writelines([f"p aux sp ss {problems}\n", *[f"s {1 + at}\n" for at in range(problems)]])
    with open(os.path.join(folder, "net.tp"), "w", encoding="ascii") as file:
        file.writelines([f"p tp 1 {2 * ARCS}\nk 1 plain\n", *[f"t {arc} 1\n" for arc in range(1, ARCS + 1)] * 2])


def seen(program, words, folder, processors):
    """The status of a run on this many processors, and the most threads seen while it wrote its report.
    (While the network is read before, as many threads as processors read it.)"""
    def limit():
        os.sched_setaffinity(0, processors)

    path = os.path.join(folder, "report")
    with open(path, "wb") as report, subprocess.Popen([program, *words.split()], cwd=folder, stdin=subprocess.DEVNULL, stdout=report, preexec_fn=limit) as run:
        most = 0
        while run.poll() is None:
            try:
                if os.path.getsize(path) > 0:
                    most = max(most, len(os.listdir(f"/proc/{run.pid}/task")))
            except OSError:
                break
            time.sleep(0.001)
        return run.wait(timeout=100), most


def tasks(run):
    """The threads of a process that still runs."""
    try:
        return set(os.listdir(f"/proc/{run.pid}/task"))
    except OSError:
        return set()


def reading(program, folder, processors, name, words):
    """A run that gets one of its files through a pipe, on this many processors: its status, the most threads seen while all but the first and
    the last lines come, which read them, and the most seen after these, which make the network."""
    pipe = os.path.join(folder, "pipe")
    os.mkfifo(pipe)
    with open(os.path.join(folder, name), "rb") as file:
        text = file.read()
    front, begun, come, last = text[: text.rindex(b"\n", 0, len(text) - 1000) + 1], threading.Event(), threading.Event(), threading.Event()

    def give():
        try:
            with open(pipe, "wb") as file:
                for at in range(0, len(front), 2**20):
                    file.write(front[at : at + 2**20])
                    begun.set()
                file.flush()
                come.set()
                last.wait()
                file.write(text[len(front) :])
        except BrokenPipeError:
            pass  # The run ended, and its status says how.

    with subprocess.Popen([program, *words.split()], cwd=folder, stdin=subprocess.DEVNULL, stdout=subprocess.DEVNULL, preexec_fn=lambda: os.sched_setaffinity(0, processors)) as run:
        giving = threading.Thread(target=give)
        giving.start()
        most = [0, 0]
        while run.poll() is None and (not come.is_set() or len(tasks(run)) > 1):
            most[0] = max(most[0], len(tasks(run)) if begun.is_set() else 0)
        last.set()
        while run.poll() is None:
            most[1] = max(most[1], len(tasks(run)))
        giving.join()
    os.remove(pipe)
    return run.returncode, *most


def kept(program, folder):
    """A run whose report is read somewhat more slowly than three threads make it: its status, and how many threads were seen in all. A
    thread that has to wait for a moment stays; if it left, another one would be started for it."""
    seen_so_far = set()
    with subprocess.Popen([program, *"run net.gr net.ss --at-once 3".split()], cwd=folder, stdin=subprocess.DEVNULL, stdout=subprocess.PIPE) as run:
        run.stdout.read(1)
        while run.stdout.read(2**18):
            time.sleep(0.002)
            seen_so_far |= tasks(run)
    return run.returncode, len(seen_so_far)


def results(program):
    """Each run with its status and number of threads, and the expected ones."""
    here = sorted(os.sched_getaffinity(0))
    four = 4 if here[3:] else 1
    with tempfile.TemporaryDirectory(prefix="threads-") as folder:
        write(folder, 12)
        with open(os.path.join(folder, "one.ss"), "w", encoding="ascii") as file:
            file.write("p aux sp ss 1\ns 1\n")
        # One thread reads on one processor, and several on four; two make the network in any case.
        for name, words in (("net.gr", "run pipe one.ss --workers 1"), ("net.tp", "run net.gr one.ss --tp pipe --workers 1")):
            for processors in (here[:1], here) if here[3:] else (here[:1],):
                for _ in range(TRIES):
                    status, read, made = reading(program, folder, processors, name, words)
                    was = status, read == 1 if processors == here[:1] else read > 2, made >= 2
                    if was == (0, True, True):
                        break
                yield f"threads that read {name} and make a network on {len(processors)} processors", (*was, read, made), (0, True, True, read, made)
        write(folder, 30)
        status, count = kept(program, folder)
        yield "threads of a report that is read slowly", (status, count <= 9 or count), (0, True)
        write(folder, 12)
        for words, processors, wanted in (
            # One problem after another, each by one worker for each processor if there are four.
            ("--at-once 1", here, min(len(here), 16) if here[3:] else 1),
            # The thread that sends the reports makes some too.
            ("--at-once 3", here, 3),
            ("--at-once 5", here[:1], 5),
            ("", here[:1], 1),
            ("", here[:2], 2 if here[1:] else 1),
            ("--workers 1", here, 1),
            ("--workers 4", here, four),
            ("--workers 16 --at-once 1", here[:4], four),
            ("--workers 4 --at-once 1", here[:1], 1),
            # More than the processors aren't worth starting, nor two or three on so few nodes, unless they
            # are counted.
            ("--workers 2 --at-once 1", here, 1),
            ("--stats --workers 2", here[:1], 2),
            ("--stats --workers 3", here, 3),
            # With statistics several problems are searched at once, too, each by one worker.
            ("--stats --at-once 3", here, 3),
            ("--stats --at-once 5 --workers 1", here[:1], 5),
            ("--stats --at-once 5 --workers 2", here[:1], 2),
        ):
            for _ in range(TRIES):
                was = seen(program, f"run net.gr net.ss {words}", folder, processors)
                if was == (0, wanted):
                    break
            yield f"threads of run {words} on {len(processors)} processors", was, (0, wanted)
