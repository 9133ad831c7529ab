"""The programs of the bench: how they are built, and the words with which they are run."""
import os
import random
import shutil
import subprocess
import sys

import workspace
from measure import Job

HERE = os.path.dirname(os.path.abspath(__file__))
ROOT = os.path.dirname(HERE)
EARLIEST = os.path.join(ROOT, "bin", "earliest")
RUST = ["rustc", "--edition", "2024", "-C", "opt-level=3", "-C", "target-cpu=x86-64-v2", "-C", "codegen-units=1", "-C", "panic=abort"]
CPP = ["g++", "-O3", "-march=x86-64-v2", "-std=c++17", "-DNDEBUG"]
DEPART = 2_520_000
ALONE = {"heap": "binary heap, by hand", "radix": "radix heap, by hand", "buckets": "buckets, by hand"}
SEVERAL = {"multiqueue": "MultiQueue of single entries, by hand", "multiqueue_of_buckets": "MultiQueue of buckets, by hand"}
BASE = ALONE["heap"]


def compiled(words):
    """Whether a compiler made its program. If it failed, its output is shown."""
    if shutil.which(words[0]) is None:
        return False
    ran = subprocess.run(words, stdout=subprocess.PIPE, stderr=subprocess.STDOUT, text=True)
    return ran.returncode == 0


def rust(name, scratch):
    """Compiles bench/NAME.rs. Returns the program."""
    program = os.path.join(scratch, name.replace("/main", ""))
    if not compiled([*RUST, os.path.join(HERE, f"{name}.rs"), "-o", program]):
        sys.exit(f"bench/{name}.rs isn't compiled: rustc is needed")
    return program


def python_with(module):
    """A Python with a module and NumPy; None if no Python on the path has them."""
    for python in filter(shutil.which, (sys.executable, "/usr/bin/python3", "python3")):
        found = subprocess.run([python, "-c", f"import numpy, {module}"], stdout=subprocess.DEVNULL, stderr=subprocess.DEVNULL)
        if found.returncode == 0:
            return python
    return None


class Programs:
    """The programs built in a scratch folder, and the names of those left out, with the reason."""

    def __init__(self, scratch):
        self.scratch, self.left_out, self.peers = scratch, [], {}
        os.makedirs(scratch, exist_ok=True)
        self.generate, self.hand, self.measure = (rust(name, scratch) for name in ("generate", "hand/main", "measure"))
        for name, package in (("LEMON", "liblemon-dev"), ("Boost", "libboost-graph-dev")):
            if compiled([*CPP, os.path.join(HERE, "peers", f"{name.lower()}.cpp"), "-o", self.at(name)]):
                self.peers[name] = [self.at(name)]
            else:
                self.left_out.append(f"{name} (g++ and the package {package} are needed)")
        for name in ("scipy", "igraph"):
            python = python_with(name)
            if python:
                self.peers[name] = [python, "-W", "ignore", os.path.join(HERE, "peers", "in_python.py"), name]
            else:
                self.left_out.append(f"{name} (the packages python3-{name} and python3-numpy are needed)")
        self.several = self.pairs = None

    def at(self, name):
        return os.path.join(self.scratch, name)

    def build_timing(self, network):
        """The proved timing programs: the engine alone, without reading and writing."""
        tell = lambda text: print(text[-2000:], file=sys.stderr)
        words = [network.gr, network.tp("plain"), "0", "0", "2", "1", "32", "65536"]
        self.several = workspace.built("several", self.scratch, words, tell)
        self.pairs = workspace.built("pairs", self.scratch, [network.gr, network.pairs], tell)
        if self.several is None or self.pairs is None:
            self.left_out.append("the engine without reading and writing (the toolchain `rt` is needed)")


class Network:
    """A road-like network of about this many nodes, its timetables, sources and pairs, in files of the
    scratch folder."""

    def __init__(self, programs, nodes):
        self.nodes, self.base = nodes, programs.at(f"road{nodes}")
        self.gr, self.one, self.many = f"{self.base}.gr", f"{self.base}.one.ss", f"{self.base}.many.ss"
        self.pairs, self.none = f"{self.base}.p2p", programs.at("none.tp")
        subprocess.run([programs.generate, str(nodes * 5 // 2), self.base, "patterns"], check=True)
        with open(f"{self.base}.ss", encoding="ascii") as file:
            sources = file.readlines()[1:65]
        for name, lines in ((self.one, ["s 1\n"]), (self.many, sources), (self.none, None)):
            with open(name, "w", encoding="ascii") as file:
                file.writelines(["p tp 0 0\n"] if lines is None else [f"p aux sp ss {len(lines)}\n", *lines])

    def make_pairs(self, programs, count, reach):
        subprocess.run([programs.hand, "make_pairs", self.gr, self.pairs, str(count), str(reach)], check=True)

    def make_asked(self, programs, sources, asked, near):
        """Sources and asked nodes among the `near` nodes nearest to one."""
        self.near, self.asked = f"{self.base}.near.ss", f"{self.base}.asked.ss"
        counts = [str(it) for it in (sources, asked, near)]
        subprocess.run([programs.hand, "make_asked", self.gr, self.near, self.asked, *counts], check=True)

    def scatter(self, programs):
        """The same network and sources with nodes numbered at random: pairs of the two networks and of each
        network's sources, one and many."""
        found = {"as made": (self.gr, self.one, self.many)}
        texts = [f"{self.base}.scattered.{it}" for it in ("gr", "one.ss", "many.ss")]
        for sources, out in ((self.one, texts[1]), (self.many, texts[2])):
            subprocess.run([programs.hand, "scatter", self.gr, sources, texts[0], out], check=True)
        return {**found, "at random": tuple(texts)}

    def make_points(self, steps=96, day=8_640_000):
        """Functions through points for the arcs that have traffic patterns, as many points as these have steps. None falls as quickly as
        time passes, so a later departure arrives no earlier."""
        words = random.Random(20261128)
        with open(self.tp("patterns"), encoding="ascii") as file, open(self.tp("points"), "w", encoding="ascii") as out:
            for line in file:
                if line.startswith("k "):
                    out.write(f"k {line.split()[1]} points {day} {steps}\n")
                    out.writelines(f"v {day // steps * at} {words.randrange(3_000)}\n" for at in range(steps))
                elif not line.startswith("v "):
                    out.write(line)

    def tp(self, kind):
        return {"plain": self.none, "timetables": f"{self.base}.tp", "patterns": f"{self.base}.patterns.tp", "points": f"{self.base}.points.tp"}[kind]

    def words(self, kind):
        """The words for timetables, for our program and for those in plain Rust."""
        return ([], "-") if kind == "plain" else (["--tp", self.tp(kind)], self.tp(kind))


def whole(programs, network, kind, threads):
    """Whole runs from one source (read, solve, write), and the engine alone."""
    ours, tp = network.words(kind)
    out, at = programs.at("out.report"), (kind, network.nodes)
    by_hand = lambda method, count: [programs.hand, "run", method, network.gr, network.one, tp, str(DEPART), str(count), out]
    jobs = [Job(*at, name, 1, 1, by_hand(method, 1), out) for method, name in ALONE.items()]
    for count in threads:
        words = [EARLIEST, "run", network.gr, network.one, *ours, "--depart", str(DEPART), "--workers", str(count)]
        jobs.append(Job(*at, "earliest", count, 1, words, out, True))
        jobs += [Job(*at, name, count, 1, by_hand(method, count), out) for method, name in SEVERAL.items()]
        if programs.several:
            # If one worker is asked for, the program searches with the engine of one thread, which is 0 here.
            workers = str(count if count > 1 else 0)
            words = [programs.several, network.gr, network.tp(kind), str(DEPART), workers, "2", "1", "32", "65536"]
            jobs.append(Job(*at, "earliest, solving alone", count, 1, words))
    if kind == "plain":
        for name, front in programs.peers.items():
            if network.nodes <= 1_000_000 or name in ("LEMON", "Boost"):
                jobs.append(Job(*at, name, 1, 1, [*front, network.gr, network.one, str(DEPART), out], out))
    return jobs


def plain_and_patterns(programs, network):
    """Searches on one network with plain weights and with traffic patterns, side by side."""
    jobs = []
    for kind in ("plain", "patterns"):
        found = whole(programs, network, kind, (1, 4))
        jobs += [job for job in found if job.program == BASE or job.program.startswith("earliest,")]
    return jobs


def by_one(count):
    """This many problems at once, each by one thread. (If one is searched at a time, the program chooses
    several threads on large networks.)"""
    return ["--at-once", str(count), "--workers", "1"]


def many(programs, network, threads):
    """64 sources with timetables, this many at once."""
    ours, tp = network.words("timetables")
    out, at, jobs = programs.at("out.report"), ("timetables", network.nodes), []
    for count in threads:
        words = [EARLIEST, "run", network.gr, network.many, *ours, "--depart", str(DEPART), *by_one(count)]
        jobs.append(Job(*at, "earliest", count, 64, words, out, True))
        for method, name in ALONE.items():
            if method != "radix":
                words = [programs.hand, "several", method, network.gr, network.many, tp, str(DEPART), str(count), out]
                jobs.append(Job(*at, name, count, 64, words, out))
    return jobs


def pairs(programs, network, count):
    """Pairs on plain weights: whole runs by one thread and by several, and the engine alone."""
    out, at = programs.at("out.report"), ("plain", network.nodes)
    jobs = [Job(*at, BASE, 1, count, [programs.hand, "pairs", network.gr, network.pairs, "-", "0", out], out)]
    for threads in (1, 4):
        words = [EARLIEST, "pairs", network.gr, network.pairs, *by_one(threads)]
        jobs.append(Job(*at, "earliest", threads, count, words, out, True))
    if programs.pairs:
        jobs.append(Job(*at, "earliest, solving alone", 1, count, [programs.pairs, network.gr, network.pairs]))
    return jobs


def asked(programs, network, sources):
    """Some nodes from each source near to them: searches that end when all of them are settled."""
    out, at, jobs = programs.at("out.report"), ("plain", network.nodes), []
    words = [programs.hand, "asked", network.gr, network.near, "-", network.asked, str(DEPART), out]
    jobs.append(Job(*at, BASE, 1, sources, words, out))
    for threads in (1, 4):
        words = [EARLIEST, "run", network.gr, network.near, "--nodes", network.asked, "--depart", str(DEPART), *by_one(threads)]
        jobs.append(Job(*at, "earliest", threads, sources, words, out, True))
    return jobs


def directions(programs, network):
    """16 sources by one thread, and none, forward and turned round, with each sort of travel times; in plain Rust forward alone."""
    out, jobs = programs.at("out.report"), []
    nobody, some = f"{network.base}.nobody.ss", f"{network.base}.some.ss"
    with open(network.many, encoding="ascii") as file:
        sources = file.readlines()[1:17]
    for name, lines in ((nobody, []), (some, sources)):
        with open(name, "w", encoding="ascii") as file:
            file.writelines([f"p aux sp ss {len(lines)}\n", *lines])
    network.make_points()
    for kind in ("plain", "timetables", "patterns", "points"):
        ours, tp = network.words(kind)
        for turned, asks in ((False, "--depart"), (True, "--arrive")):
            for count, file in ((0, nobody), (16, some)):
                words = [EARLIEST, "run", network.gr, file, *ours, asks, str(DEPART), *by_one(1)]
                jobs.append(Job(f"{kind}, {'latest departures' if turned else 'arrivals'}", network.nodes, "earliest", 1, count, words, out, True))
        if kind != "points":
            words = [programs.hand, "several", "heap", network.gr, some, tp, str(DEPART), "1", out]
            jobs.append(Job(f"{kind}, arrivals", network.nodes, BASE, 1, 16, words, out))
    return jobs


def scattered(programs, network, texts, problems):
    """One source, or 64, on the same network numbered as it was made and at random."""
    out, jobs = programs.at("out.report"), []
    for name, (gr, one, many) in texts.items():
        sources = one if problems == 1 else many
        by_hand = [programs.hand, "several", "heap", gr, sources, "-", str(DEPART), "4" if problems > 1 else "1", out]
        jobs.append(Job(name, network.nodes, BASE, 4 if problems > 1 else 1, problems, by_hand, out))
        for threads in (1,) if problems == 1 else (1, 4):
            words = [EARLIEST, "run", gr, sources, "--depart", str(DEPART), *by_one(threads)]
            jobs.append(Job(name, network.nodes, "earliest", threads, problems, words, out, True))
    return jobs


def checks_of_many(programs, network, report, kind):
    """Checking a report of 64 problems, beside the run that made it."""
    ours, tp = network.words(kind)
    at, depart = ("64 problems", network.nodes), ["--depart", str(DEPART)]
    jobs = [Job(*at, "search again and compare, by hand", 1, 0, [programs.hand, "check", network.gr, network.many, tp, str(DEPART), report])]
    for threads in (1, 4):
        words = [EARLIEST, "run", network.gr, network.many, *ours, *depart, *by_one(threads), "-o", programs.at("out.report")]
        jobs.append(Job(*at, "earliest run", threads, 0, words))
    return [*jobs, Job(*at, "earliest check", 4, 0, [EARLIEST, "check", network.gr, network.many, report, *ours, *depart])]


def checks_of_walks(programs, network, report, kind):
    """Checking a report of one problem with walks. Reading it decides, so the input names its size."""
    at = (f"walks, {os.path.getsize(report) / 1e6:.0f} MB", network.nodes)
    check = [EARLIEST, "check", network.gr, network.one, report, "--depart", str(DEPART)]
    jobs = [Job(*at, "earliest check", len(os.sched_getaffinity(0)), 0, check)]
    if shutil.which("taskset"):
        jobs.append(Job(*at, "earliest check", 1, 0, ["taskset", "--cpu-list", str(min(os.sched_getaffinity(0))), *check]))
    return jobs


def checks(programs, network, report, kind):
    """Checking a report by one processor and by all of them, compared with searching again; with timetables also rank errors."""
    ours, tp = network.words(kind)
    at, depart = (kind, network.nodes), ["--depart", str(DEPART)]
    check = [EARLIEST, "check", network.gr, network.one, report, *ours, *depart]
    jobs = [
        Job(*at, "search again and compare, by hand", 1, 0, [programs.hand, "check", network.gr, network.one, tp, str(DEPART), report]),
        Job(*at, "earliest check", len(os.sched_getaffinity(0)), 0, check),
    ]
    if shutil.which("taskset"):
        jobs.append(Job(*at, "earliest check", 1, 0, ["taskset", "--cpu-list", str(min(os.sched_getaffinity(0))), *check]))
    if kind == "timetables":
        jobs.append(Job(*at, "earliest rank", 1, 0, [EARLIEST, "rank", network.gr, network.one, *ours, *depart]))
    return jobs
