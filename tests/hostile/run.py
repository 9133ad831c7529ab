"""Hostile runs of the built program and of the library, for minutes or hours:

    python3 tests/hostile/run.py PROGRAM [--library PATH] [--seconds S | --runs N | --full] [--seed K] [--processes P] [--case I] [--plant N]
        [--keep FOLDER] [KIND ..]

Each KIND makes cases at random from a seed, and compares what comes out with a model in plain Python that knows the pages of docs/ alone:

    networks   random networks asked in random ways; `check` has to accept each report
    files      valid files with random damage: the right answer or the right refusal, with its line
    words      random command lines on good, missing or damaged files
    library    random calls of the Python package and of the library's calls for C, right and wrong ones
    reports    reports changed somewhere: `check` has to say what is wrong with each, and in which line

A KIND ends after N runs or S seconds, in P processes; with `--full` after as many runs as FULL says, and by default after a few, for the gate.
For each failure a line says what is wrong and how to try it again, and its files are kept in a folder. The last line counts kinds: `5 passed, 0
failed`. The status is 1 if anything was wrong.

`--case I` tries the case of this number alone. `--plant N` tests the comparison: one outcome in N is changed before it is compared, and it is
a failure if that isn't noticed.
"""
import argparse
import importlib
import multiprocessing
import os
import random
import shlex
import shutil
import sys
import tempfile
import time
import traceback

sys.dont_write_bytecode = True
HERE = os.path.dirname(os.path.abspath(__file__))
FULL = {"networks": 113_000, "files": 46_000, "words": 19_000, "library": 600_000, "reports": 300_000}
"""The kinds, and how many runs a whole campaign has of each."""
FEW = 1_000
"""How many runs of each kind are tried if nothing is said."""
FORK = multiprocessing.get_context("fork")
MOST_WRONG = 10
"""A process stops after this many failures."""


def arguments(words):
    parser = argparse.ArgumentParser(usage=__doc__)
    parser.add_argument("program")
    parser.add_argument("kinds", nargs="*", metavar="KIND", default=[])
    parser.add_argument("--library", default=os.path.join(HERE, "..", "..", "python", "earliest", "libearliest.so"))
    parser.add_argument("--seconds", type=float)
    parser.add_argument("--runs", type=int)
    parser.add_argument("--full", action="store_true")
    parser.add_argument("--seed", type=int, default=1)
    parser.add_argument("--processes", type=int, default=2)
    parser.add_argument("--case", type=int)
    parser.add_argument("--plant", type=int, default=0)
    parser.add_argument("--keep", help="the folder for the files of failures")
    given = parser.parse_intermixed_args(words)
    for kind in given.kinds:
        if kind not in FULL:
            parser.error(f"{kind} is none of the kinds {', '.join(FULL)}")
    if given.runs is None and given.seconds is None and not given.full:
        given.runs = FEW
    given.program, given.library = os.path.abspath(given.program), os.path.abspath(given.library)
    return given


class Worker:
    """A process that tries every P-th case of a kind from a first one on, and names what is wrong."""

    def __init__(self, kind, given, first, keep, folder):
        self.kind, self.given, self.first, self.keep, self.folder = kind, given, first, keep, folder
        self.case, self.runs, self.wrong, self.noticed = (FORK.Value("q", 0) for _ in range(4))
        self.processors = sorted(os.sched_getaffinity(0))
        self.process = FORK.Process(target=self.work)

    def work(self):
        from trial import Trial

        os.environ["EARLIEST_LIBRARY"] = self.given.library
        os.chdir(self.folder)
        module, trial = importlib.import_module(self.kind), Trial(self.given.program, self.given.plant)
        begun, case = time.monotonic(), self.first
        while not self.is_done(time.monotonic() - begun):
            self.case.value = case
            self.use_processors(case)
            self.tried(module, trial, case)
            if self.given.case is not None:
                break
            case += self.given.processes

    def use_processors(self, case):
        """Every third case of this process has all processors, the others have one."""
        one = self.processors[self.first % len(self.processors)]
        os.sched_setaffinity(0, self.processors if case // self.given.processes % 3 == 0 else [one])

    def is_done(self, seconds):
        """Whether this process has done its share."""
        if self.wrong.value >= MOST_WRONG or (self.given.seconds is not None and seconds >= self.given.seconds):
            return True
        runs = FULL[self.kind] if self.given.full else self.given.runs
        return runs is not None and self.given.case is None and self.runs.value * self.given.processes >= runs

    def tried(self, module, trial, case):
        """Tries one case."""
        try:
            for wrong in module.case(trial, random.Random(f"{self.given.seed} {self.kind} {case}")):
                self.runs.value += 1
                if trial.is_changed:
                    self.noticed.value += bool(wrong)
                    wrong = None if wrong else "a change of the outcome wasn't noticed"
                    trial.is_changed = False
                if wrong:
                    self.tell(trial, case, wrong)
                    if self.wrong.value >= MOST_WRONG:
                        return
        except Exception:
            self.tell(trial, case, traceback.format_exc())

    def tell(self, trial, case, wrong):
        """Prints a failure, and keeps its files."""
        self.wrong.value += 1
        place = self.kept(case)
        asked = shlex.join([os.path.basename(self.given.program), *trial.words])
        if trial.given:
            with open(os.path.join(place, "standard-input"), "wb") as file:
                file.write(trial.given)
            asked += " < standard-input"
        text = f"{wrong}\n  asked: {asked}\n{self.again(case, place)}"
        with open(os.path.join(place, "failure.txt"), "w", encoding="utf-8", errors="backslashreplace") as file:
            file.write(f"{text}  outcome: {trial.was}\n")
        print(f"failed: {self.kind}, case {case}: {text}".encode("utf-8", "backslashreplace").decode(), end="", flush=True)

    def kept(self, case):
        """Keeps the files of a case: the folder."""
        return shutil.copytree(self.folder, os.path.join(self.keep, f"{self.kind}-{case}-{self.runs.value}"), dirs_exist_ok=True)

    def again(self, case, place):
        """How a case is tried again, and the folder of its files."""
        return f"  again: python3 tests/hostile/run.py {self.given.program} --seed {self.given.seed} --case {case} {self.kind}\n  files: {place}\n"

    def ended(self):
        """Waits for the process. A crash of it is a failure, too: the library runs in it."""
        self.process.join()
        if self.process.exitcode:
            self.wrong.value += 1
            how = f"signal {-self.process.exitcode}" if self.process.exitcode < 0 else f"status {self.process.exitcode}"
            case = self.case.value
            print(f"failed: {self.kind}, case {case}: the process of the test ended with {how}\n{self.again(case, self.kept(case))}", end="", flush=True)


def tried(kind, given, keep):
    """Tries a kind. Returns whether nothing was wrong."""
    begun = time.monotonic()
    firsts = range(given.processes) if given.case is None else [given.case]
    with tempfile.TemporaryDirectory(prefix="hostile-", dir="/dev/shm" if os.path.isdir("/dev/shm") else None) as folder:
        workers = [Worker(kind, given, first, keep, os.path.join(folder, str(first))) for first in firsts]
        for worker in workers:
            os.mkdir(worker.folder)
            worker.process.start()
        for worker in workers:
            worker.ended()
    runs, wrong, noticed = (sum(getattr(worker, name).value for worker in workers) for name in ("runs", "wrong", "noticed"))
    seconds = time.monotonic() - begun
    what = importlib.import_module(kind).WHAT
    planted = f", {noticed:,} planted and noticed" if given.plant else ""
    print(f"{kind}: {runs:,} {what}, {wrong:,} wrong{planted} ({seconds:.0f} s, {runs / seconds:,.0f} a second)", flush=True)
    return wrong == 0 and runs > 0 and (noticed > 0 or not given.plant)


def main(words):
    given = arguments(words)
    keep = given.keep or os.path.join(tempfile.gettempdir(), f"hostile-failures-{os.getpid()}")
    passed = [tried(kind, given, os.path.abspath(keep)) for kind in given.kinds or FULL]
    print(f"{sum(passed)} passed, {len(passed) - sum(passed)} failed")
    return 0 if all(passed) else 1


if __name__ == "__main__":
    sys.exit(main(sys.argv[1:]))
