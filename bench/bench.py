"""Measures the program and its peers, and writes bench/results/*.csv, docs/performance.md and its pictures.

    python3 bench/bench.py [--large] [--rounds N] [--nodes N ..] [--no-traps] [--others-stopped] [--scratch FOLDER]

`make bench` builds the program and calls this. With --others-stopped the caller states that all other work of
the machine is stopped; the load average can't show it, since it covers the minutes before. Networks have
10^4, 10^5 and 10^6 nodes, with --large 10^7 too.
"""
import argparse
import os
import platform
import subprocess
import sys
import time

sys.dont_write_bytecode = True
import page
import prepared_turns
import programs
import python_search
import traps
import workspace
from measure import Turns, cleared, written

THREADS = (1, 2, 4)


def first_line(words):
    """The first line that a program prints, or that it is missing."""
    try:
        return subprocess.run(words, capture_output=True, text=True).stdout.split("\n")[0].strip() or "unknown"
    except OSError:
        return "not there"


def field_of(file, name):
    """The value of the first line `name : value` of a file of the system."""
    try:
        with open(file, encoding="ascii", errors="replace") as opened:
            return next((line.split(":", 1)[1].strip() for line in opened if line.startswith(name)), "unknown")
    except OSError:
        return "unknown"


def load():
    return " ".join(f"{it:.2f}" for it in os.getloadavg())


def machine(built, before, stopped):
    """What a reader has to know of the machine and of the run."""
    return [
        ("processor", field_of("/proc/cpuinfo", "model name")), ("processors", len(os.sched_getaffinity(0))),
        ("memory", field_of("/proc/meminfo", "MemTotal")), ("system", f"{platform.system()} {platform.release()}"),
        ("load before", before), ("load after", load()),
        ("other work", page.STOPPED if stopped else "as the loads tell"), ("date", time.strftime("%Y-%m-%d")),
        ("program", first_line([programs.EARLIEST, "--version"])), ("kit", first_line(["rt", "version"])),
        ("rustc", first_line(["rustc", "--version"])), ("g++", first_line(["g++", "--version"])),
        ("left out", "; ".join(built.left_out) or "nothing"),
    ]


class Bench:
    """The parts of the bench and their rows."""

    def __init__(self, options):
        self.options, self.rows = options, {}
        self.built = programs.Programs(options.scratch)
        self.networks = []

    def turns(self, name, jobs, rounds, same=True):
        begun = time.monotonic()
        rows = Turns(jobs, rounds, self.built.measure, same).run()
        self.rows.setdefault(name, []).extend(rows)
        written(name, self.rows[name])
        print(f"{name}: {jobs[0].input}, {jobs[0].nodes} nodes, {rounds} rounds, {time.monotonic() - begun:.0f} s", flush=True)

    def make(self):
        for nodes in self.options.nodes:
            network = programs.Network(self.built, nodes)
            network.make_pairs(self.built, 10_000 if nodes >= 1_000_000 else 1_000, 1_000)
            network.make_asked(self.built, 1_000, 100, 5_000)
            self.networks.append(network)
        self.built.build_timing(self.networks[0])
        tell = lambda text: print(text[-2000:], file=sys.stderr)
        self.prepared_programs = prepared_turns.built(self.options.scratch, self.networks[0].gr, self.networks[0].pairs, tell)

    def of_network(self, network):
        rounds = self.options.rounds if network.nodes <= 1_000_000 else min(3, self.options.rounds)
        for kind in ("plain", "timetables", "patterns"):
            self.turns("whole", programs.whole(self.built, network, kind, THREADS), rounds)
        self.turns("patterns", programs.plain_and_patterns(self.built, network), rounds)
        if network.nodes <= 1_000_000:
            self.turns("problems", programs.many(self.built, network, THREADS), min(3, rounds))
        self.turns("pairs", programs.pairs(self.built, network, 10_000 if network.nodes >= 1_000_000 else 1_000), rounds)
        self.turns("asked", programs.asked(self.built, network, 1_000), rounds)
        if network.nodes <= 1_000_000:
            self.turns("directions", programs.directions(self.built, network), rounds, same=False)
            texts = network.scatter(self.built)
            self.turns("scattered", programs.scattered(self.built, network, texts, 1), rounds)
            self.turns("scattered", programs.scattered(self.built, network, texts, 64), min(3, rounds))
        for kind in ("plain", "timetables"):
            self.check(network, network.one, kind, programs.checks, rounds)
        if network.nodes <= 1_000_000:
            self.check(network, network.many, "timetables", programs.checks_of_many, min(3, rounds))
        if network.nodes <= 100_000:
            self.check(network, network.one, "plain", programs.checks_of_walks, rounds, "--walks")

    def check(self, network, sources, kind, jobs, rounds, *options):
        """Checks of a report of a network's sources, with plain weights or timetables."""
        report = self.built.at("checked.report")
        words, _ = network.words(kind)
        words += options
        with open(report, "wb") as file:
            words = [programs.EARLIEST, "run", network.gr, sources, *words, "--depart", str(programs.DEPART)]
            subprocess.run(words, stdout=file, check=True)
        self.turns("check", jobs(self.built, network, report, kind), rounds, same=False)
        os.remove(report)

    def prepared(self):
        """Pairs over a prepared road, on the largest network up to 10^6 nodes, and on a country of as many."""
        country = prepared_turns.country(self.options.scratch, self.largest().nodes)
        if None in (country, *self.prepared_programs):
            self.built.left_out.append("pairs over a prepared road (g++ and the toolchain `rt` are needed)")
            return
        graphs = {prepared_turns.GRID: self.largest().gr, prepared_turns.COUNTRY: country}
        rows = [row for name, graph in graphs.items() for row in prepared_turns.measured(*self.prepared_programs, self.built.hand, name, graph, self.options.scratch)]
        written("prepared", rows, prepared_turns.FIELDS)

    def largest(self):
        """The largest network of up to 10^6 nodes."""
        return max((it for it in self.networks if it.nodes <= 1_000_000), key=lambda it: it.nodes)

    def python(self):
        """The Python package, if the library is built, on the largest network up to 10^6 nodes."""
        if not python_search.is_there():
            self.built.left_out.append("the Python package (make lib builds it)")
            return
        rows = python_search.measured(self.largest(), self.built, self.options.rounds)
        written("python", rows, python_search.FIELDS)
        print("python: done", flush=True)


    def said(self, name, needs, *words):
        """What a script of the bench prints, its lines `what: figure`, if what it needs is there."""
        python = programs.python_with(needs)
        ran = python and subprocess.run([python, os.path.join(programs.HERE, name + ".py"), *words], capture_output=True, text=True)
        if not ran or ran.returncode:
            self.built.left_out.append(f"bench/{name}.py ({(ran.stderr.strip().splitlines() or ['it failed'])[-1] if ran else 'python3-' + needs + ' is needed'})")
            return
        written(name, [line.split(": ", 1) for line in ran.stdout.splitlines() if ": " in line], ("what", "figure"))
        print(f"{name}: done", flush=True)


def main():
    words = argparse.ArgumentParser(description=__doc__.split("\n")[0])
    words.add_argument("--large", action="store_true")
    words.add_argument("--rounds", type=int, default=5)
    words.add_argument("--nodes", type=int, nargs="+", default=[10_000, 100_000, 1_000_000])
    words.add_argument("--no-traps", action="store_true")
    words.add_argument("--others-stopped", action="store_true")
    words.add_argument("--scratch", default=workspace.SCRATCH)
    options = words.parse_args()
    options.nodes += [10_000_000] if options.large else []
    if not os.access(programs.EARLIEST, os.X_OK):
        sys.exit("bin/earliest isn't there: run make first")
    before, begun = load(), time.monotonic()
    bench = Bench(options)
    bench.make()
    cleared()
    for network in bench.networks:
        bench.of_network(network)
    bench.prepared()
    bench.python()
    bench.said("matrix", "numpy")
    bench.said("asked_matrix", "numpy", "--scratch", options.scratch)
    bench.said("serve", "aiohttp", "--page", "--soak", "100000")
    if not options.no_traps:
        traps.measured(options.scratch, 60, min(3, options.rounds))
    written("machine", machine(bench.built, before, options.others_stopped), ("name", "value"))
    page.main()
    print(f"docs/performance.md is written, after {time.monotonic() - begun:.0f} s")


if __name__ == "__main__":
    main()
