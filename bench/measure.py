"""Runs programs in turns, compares their answers, and writes the times as rows."""
import csv
import filecmp
import glob
import os
import re
import statistics
import subprocess
import sys
from typing import NamedTuple, Optional

RESULTS = os.path.join(os.path.dirname(os.path.abspath(__file__)), "results")
FIELDS = ("input", "nodes", "program", "threads", "problems", "round", "seconds", "solve_seconds", "peak_kib")


class Job(NamedTuple):
    """A program on an input. A report goes to standard output, or to a file among the words; some print
    their own times."""
    input: str
    nodes: int
    program: str
    threads: int
    problems: int
    words: list
    report: Optional[str] = None
    to_stdout: bool = False


def ran(job, by):
    """A run of a program by `measure.rs`: its seconds, its greatest memory in KiB, and what it printed."""
    out = job.report if job.to_stdout else f"{by}.out"
    found = subprocess.run([by, out, *job.words], capture_output=True, text=True, check=True).stdout
    micros, peak, status = (int(it) for it in found.split())
    if status:
        sys.exit(f"ended with status {status}: {' '.join(job.words)}")
    if job.to_stdout:
        return micros / 1e6, peak, ""
    with open(out, encoding="utf-8") as said:
        return micros / 1e6, peak, said.read()


def told(said):
    """The seconds of solving and the sum of the arrivals that a program printed, if it did."""
    found = re.search(r"(?:walks false us|solve_us|pairs in) (\d+)", said)
    total = re.search(r"sum (\d+)", said)
    return int(found[1]) / 1e6 if found else None, int(total[1]) if total else None


class Turns:
    """Rounds of jobs. The first report of an input and the first sum of its arrivals are compared with all
    others of this input."""

    def __init__(self, jobs, rounds, by, same=True):
        self.jobs, self.rounds, self.by, self.same = jobs, rounds, by, same
        self.reports, self.sums, self.rows = {}, {}, []

    def compare(self, job, total):
        if total is not None and total != self.sums.setdefault(job.input, total):
            sys.exit(f"{job.program}: the arrivals sum to {total}, and not to {self.sums[job.input]}")
        if job.report is None:
            return
        first = self.reports.setdefault(job.input, f"{job.report}.{len(self.reports)}.first")
        if not os.path.exists(first):
            os.replace(job.report, first)
        elif not filecmp.cmp(job.report, first, shallow=False):
            sys.exit(f"{job.program} writes another report: {job.report} and {first} differ")

    def run(self):
        for file in {job.report for job in self.jobs if job.report}:
            for left in glob.glob(f"{file}.*.first"):
                os.remove(left)
        for at in range(self.rounds):
            turned = self.jobs[at % len(self.jobs):] + self.jobs[:at % len(self.jobs)]
            for job in turned:
                seconds, peak, said = ran(job, self.by)
                solved, total = told(said)
                if self.same:
                    self.compare(job, total)
                is_whole = job.report is not None or job.problems == 0
                row = (job.input, job.nodes, job.program, job.threads, job.problems, at + 1)
                whole = f"{seconds:.4f}" if is_whole else ""
                self.rows.append((*row, whole, "" if solved is None else f"{solved:.6f}", peak if is_whole else ""))
        for file in [*self.reports.values(), *{job.report for job in self.jobs if job.report}]:
            if os.path.exists(file):
                os.remove(file)
        return self.rows


def written(name, rows, fields=FIELDS):
    """Writes rows as bench/results/NAME.csv."""
    os.makedirs(RESULTS, exist_ok=True)
    with open(os.path.join(RESULTS, f"{name}.csv"), "w", newline="", encoding="ascii") as file:
        table = csv.writer(file, lineterminator="\n")
        table.writerow(fields)
        table.writerows(rows)


def cleared():
    """Deletes what an earlier bench wrote, so that a page never shows two machines or two days."""
    for file in glob.glob(os.path.join(RESULTS, "*.csv")):
        os.remove(file)


def rows_of(name):
    """The rows of bench/results/NAME.csv as dictionaries; none if there is no such file."""
    place = os.path.join(RESULTS, f"{name}.csv")
    if not os.path.exists(place):
        return []
    with open(place, newline="", encoding="ascii") as file:
        return list(csv.DictReader(file))


class Spread(NamedTuple):
    least: float
    middle: float
    greatest: float


def spread(values):
    """The least, median and greatest value; None if there is none."""
    values = [float(it) for it in values if it != ""]
    return Spread(min(values), statistics.median(values), max(values)) if values else None
