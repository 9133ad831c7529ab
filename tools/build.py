"""Builds the program bin/earliest: proves the libraries that it needs, as many at once as processors and
memory allow, reports progress, and then proves, builds and runs the program once on its built-in run.

Libraries with long chains of others above them decide when everything is done: each of those is checked by
two jobs, and any other by one, since two jobs take a fifth to two thirds more processor time. No more jobs
run than there are processors. A library that must be built alone gets all of them.

A first build keeps the statements of a library and not its proofs, so that what depends on it loads less and
is checked in less time. Statements fit only the builds over which they were proved. So crates/NAME/out/first
says what a library's first build was made of; if that is unchanged, it is built in the same way again, with
the same result. If it or a library below changed, crates/NAME/out keeps what was proved, and the next build
proves only what changed. Two calls of `rt lib` would wait for each other if both needed one library, so one
process builds all of them and holds their folders, as `rt ci` does.
"""
import os
import shutil
import subprocess
import sys
import tempfile
import time
from concurrent.futures import FIRST_COMPLETED, ThreadPoolExecutor, wait

sys.dont_write_bytecode = True
import repository

PROGRAM = "earliest_program"

# The memory of a library's proof, in bytes, without jobs and for each job: more than any was seen to take.
MEMORY, MEMORY_OF_A_JOB = 1_500_000_000, 1_200_000_000

# A chain counts as long from this part of the longest one on: the time to prove a line differs between
# libraries by a factor of two.
LONG = 0.75


class Libraries:
    """The program's libraries while they are built, and the progress that is reported."""

    def __init__(self):
        self.rt, self.rtlib = repository.kit()
        os.chdir(repository.ROOT)
        # The first call sets the handler of a signal, which only this thread may.
        self.rtlib.guarded()
        every = {crate.name: crate for crate in self.rtlib.crates_below(repository.ROOT)}
        self.program = every[PROGRAM]
        self.left = self.program.below()
        self.done = []

    def build(self, crate, jobs):
        """Builds a library by this many jobs. Returns whether it is built."""
        begun = time.monotonic()
        with tempfile.TemporaryFile("w+", errors="replace") as crate.out:
            is_built = self.status_of(crate, ["--jobs", str(jobs)]) == 0
            crate.out.seek(0)
            said = crate.out.read()
        if is_built:
            self.done.append(crate.name)
            print(f"proved {len(self.done)} of {len(self.left)}: {crate.name}, {time.monotonic() - begun:.0f} s", flush=True)
        else:
            print(f"{said}\n{crate.name} is not proved", flush=True)
        return is_built

    def status_of(self, crate, flags):
        """Builds a library unless it is built. Returns the status."""
        out, stamp = os.path.join(crate.folder, "out"), crate.stamp()
        first, kept = os.path.join(out, "first"), os.path.join(out, "rlib", "statements")
        was = self.rtlib.text_of(first)
        if was is None and (crate.has_kept() or os.path.isdir(crate.rlib)) or was not in (None, stamp):
            return crate.build_rlib(flags, anew=False)
        if crate.is_built() and os.path.isfile(kept):
            return 0
        shutil.rmtree(os.path.dirname(kept), ignore_errors=True)
        os.makedirs(os.path.dirname(kept))
        status = crate.call(self.rtlib.RATTLE, "build", *crate.words(flags, keeps=False), "--statements", "-o", crate.rlib)
        if status == 0 and crate.stamp() == stamp:
            for path in (first, kept, os.path.join(out, "rlib", "stamp")):
                with open(path, "w", encoding="utf-8") as file:
                    file.write(stamp)
        return status

    def chains(self):
        """The lines of each library and of the longest chain of others above it."""
        lines = {crate.name: crate.count(rb"\n") for crate in self.left}
        chain = dict(lines)
        for crate in reversed(self.left):
            for below in crate.below():
                chain[below.name] = max(chain[below.name], lines[below.name] + chain[crate.name])
        return chain

    def build_all(self):
        """Builds all, those with the longest chain of others above them first. Returns whether all are
        built."""
        held = self.rtlib.lock(self.left)
        chain = self.chains()
        left = sorted(self.left, key=lambda crate: -chain[crate.name])
        processors, memory = self.rt.processors(), 0.85 * self.rt.free()
        built, running = set(), {}
        with ThreadPoolExecutor(max_workers=len(left) or 1) as pool:
            while left or running:
                ready = [crate for crate in left if all(below.name in built for below in crate.below())]
                for crate in ready:
                    free = processors - sum(jobs for _, jobs in running.values())
                    longest = max(chain[it.name] for it in [*left, *(it for it, _ in running.values())])
                    wanted = 2 if chain[crate.name] >= LONG * longest else 1
                    jobs = processors if len(ready) == 1 and not running else min(wanted, free)
                    taken = sum(MEMORY + MEMORY_OF_A_JOB * jobs for _, jobs in running.values())
                    if jobs == 0 or running and taken + MEMORY + MEMORY_OF_A_JOB * jobs > memory:
                        break
                    left.remove(crate)
                    running[pool.submit(self.build, crate, jobs)] = crate, jobs
                if not running:
                    break
                for ended in wait(running, return_when=FIRST_COMPLETED).done:
                    crate, _ = running.pop(ended)
                    if ended.result():
                        built.add(crate.name)
        for folder in held:
            os.close(folder)
        return len(built) == len(self.left)

    def run_program(self):
        """Proves, builds and runs the program, by all processors. Returns its status."""
        jobs = str(self.rt.processors())
        return subprocess.run(["rt", "run", "--jobs", jobs], cwd=self.program.folder, stdout=subprocess.PIPE).returncode


def main():
    begun = time.monotonic()
    libraries = Libraries()
    print(f"{len(libraries.left)} libraries are proved first; the first time this takes minutes", flush=True)
    if not libraries.build_all():
        return 1
    status = libraries.run_program()
    if status:
        return status
    os.makedirs(os.path.join(repository.ROOT, "bin"), exist_ok=True)
    # The program may be running; a renamed file replaces it all the same.
    part = os.path.join(repository.ROOT, "bin", "earliest.part")
    shutil.copy(os.path.join(libraries.program.folder, "out", PROGRAM), part)
    os.replace(part, os.path.join(repository.ROOT, "bin", "earliest"))
    print(f"bin/earliest is built, after {time.monotonic() - begun:.0f} s")
    return 0


if __name__ == "__main__":
    sys.exit(main())
