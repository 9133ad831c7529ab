"""Tests the built program: python3 tests/cli/run.py PROGRAM

A case fails if the status, the standard output or the standard error differs in any byte.
"""
import os
import re
import resource
import shlex
import subprocess
import sys
import tempfile
from concurrent.futures import ThreadPoolExecutor

sys.dont_write_bytecode = True
import asked
import at_once
import checking
import commuter_network
import documents
import explained
import instructions
import large
import latest
import opening
import outputs
import people
import prepared
import progress
import resources
import road_network
import scripts
import terminal
import threads
import travel_times

HERE = os.path.dirname(os.path.abspath(__file__))
EXAMPLES = os.path.join(HERE, "..", "..", "examples")


def wanted(text):
    """The bytes that a column means: none, those of a file of examples/ or tests/, or the text."""
    if text == "-":
        return b""
    for folder in (EXAMPLES, HERE):
        path = os.path.join(folder, text)
        if os.path.isfile(path):
            with open(path, "rb") as file:
                return file.read()
    return text.replace("\\n", "\n").encode()


def cases():
    """The cases of the table: words, status, standard output, standard error."""
    with open(os.path.join(HERE, "cases.txt"), encoding="utf-8") as table:
        for line in table:
            if line.strip() and not line.startswith("#"):
                status, out, err, words = [column.strip() for column in line.rstrip("\n").split("|")]
                yield shlex.split(words), int(status), wanted(out), wanted(err)


def ran(program, words, out=subprocess.PIPE):
    """Status, standard output and standard error of the program on these words."""
    run = subprocess.run([program, *words], cwd=EXAMPLES, stdin=subprocess.DEVNULL, stdout=out, stderr=subprocess.PIPE, timeout=60)
    return run.returncode, run.stdout, run.stderr


def into_devices(program):
    """The program with an output that can't be written: a full device, for which a line says so, and a
    broken pipe, for which none does."""
    for words in ("run four-nodes.gr four-nodes.ss", "pairs four-nodes.gr four-nodes.p2p", "rank four-nodes.gr four-nodes.ss"):
        with open("/dev/full", "wb") as full:
            yield f"into a full device: {words}", ran(program, words.split(), full), b"earliest: 12 WriteFailed after 0 bytes\n"
        reader, writer = os.pipe()
        os.close(reader)
        try:
            yield f"into a closed pipe: {words}", ran(program, words.split(), writer), b""
        finally:
            os.close(writer)


def no_text(program):
    """The program with a word that is no UTF-8: the command, a file's name, an option's value."""
    for words in ([b"\xff.gr", "x.ss"], ["run", b"\xff.gr", "four-nodes.ss"], ["run", "four-nodes.gr", "four-nodes.ss", "--seed", b"\xe9"]):
        yield f"words {words}", ran(program, words)


def scarce(program):
    """The program with less memory than its words fill."""
    def limit():
        resource.setrlimit(resource.RLIMIT_DATA, (2**20, 2**20))

    run = subprocess.run([program, "run", *["x" * 100_000] * 15], stdin=subprocess.DEVNULL, capture_output=True, timeout=60, preexec_fn=limit)
    return run.returncode, run.stdout, run.stderr


def little_stack(program):
    """Each command with a stack as small as the guide says: its status, its output and that with the usual stack. With less, a line."""
    with open(os.path.join(HERE, "..", "..", "docs", "guide", "install.md"), encoding="utf-8") as page:
        size = int(re.search(r"`ulimit -s (\d+)`", page.read())[1]) * 1024
    road = "road.gr road.ss --tp road.tp"
    for words in (f"run {road} --walks --at-once 4", f"run {road} --stats --workers 16", f"run {road} --arrive 90000 --walks", "pairs four-nodes.gr four-nodes.p2p --prepare yes --walks", f"rank {road}", "check four-nodes.gr four-nodes.ss four-nodes.report", "run --help", "explain"):
        both = []
        for limit in (lambda: resource.setrlimit(resource.RLIMIT_STACK, (size, size)), None):
            run = subprocess.run([program, *words.split()], cwd=EXAMPLES, stdin=subprocess.DEVNULL, capture_output=True, timeout=60, preexec_fn=limit)
            both.append((run.returncode, b"".join(line for line in run.stdout.splitlines(True) if not line.startswith(b"c ")), run.stderr))
        yield f"a stack of {size} bytes: {words}", both[0], both[1]
    for less in (size // 1024 - 1, 128, 64):
        for words in (f"run {road}", "--version"):
            run = subprocess.run([program, *words.split()], cwd=EXAMPLES, stdin=subprocess.DEVNULL, capture_output=True, timeout=60, preexec_fn=lambda: resource.setrlimit(resource.RLIMIT_STACK, (1024 * less, 1024 * less)))
            line = f"earliest: the stack may have {less} KiB, and {size // 1024} are needed: raise its limit by `ulimit -s {size // 1024}`\n"
            yield f"a stack of {less} KiB: {words}", (run.returncode, run.stdout, run.stderr.decode()), (3, b"", line)


def held(program):
    """The program with a short file that announces the most arcs, and far less memory than these would
    take."""
    def limit():
        resource.setrlimit(resource.RLIMIT_DATA, (2**26, 2**26))

    with tempfile.NamedTemporaryFile("w", suffix=".gr") as file:
        file.write("p sp 4 268435456\na 1 2 7\n")
        file.flush()
        run = subprocess.run([program, "run", file.name, "four-nodes.ss"], cwd=EXAMPLES, stdin=subprocess.DEVNULL, capture_output=True, timeout=60, preexec_fn=limit)
    return run.returncode, run.stdout, run.stderr


def alike(program):
    """Pairs of runs whose outputs must be equal, or different: seeds and numbers of heaps matter for
    statistics and rank errors, and of the heaps only the number."""
    road = "road.gr road.ss --tp road.tp --depart 1000"
    for command, this, that, equal in (
        ("run", "--stats --workers 1 --heaps 8 --seed 1", "--stats --workers 1 --heaps 8 --seed 2", False),
        ("run", "--stats --workers 1 --heaps 8 --seed 2", "--stats --workers 1 --heaps 8 --seed 2", True),
        ("run", "--stats --workers 1 --heaps 2", "--stats --workers 1 --heaps 8", False),
        ("run", "--workers 1 --heaps 8 --seed 1", "--workers 16 --heaps 2 --seed 2 --turns 9", True),
        ("rank", "--workers 1 --heaps 8 --seed 1", "--workers 1 --heaps 8 --seed 2", False),
        ("rank", "--workers 2 --heaps 2", "--workers 1 --heaps 4", True),
        ("rank", "--workers 4 --heaps 2", "--workers 1 --heaps 4", False),
    ):
        first, second = (ran(program, [command, *road.split(), *words.split()]) for words in (this, that))
        was = first[0], second[0], first[1] == second[1], len(first[1]) > 0
        yield f"{command} {road}: {this} beside {that}", was, (0, 0, equal, True)


def all_results(program):
    """Runs all cases. Returns each with its result and the expected one. Tests that wait for clocks run at
    the same time as the others."""
    program = os.path.abspath(program)
    with ThreadPoolExecutor(1) as pool:
        waiting = pool.submit(list, progress.results(program))
        return run_each(program) + waiting.result()


def main():
    results = all_results(sys.argv[1])
    failed = [(name, was) for name, was, want in results if was != want]
    for name, was in failed:
        print("failed:", name, str(was)[:2000])
    print(f"{len(results) - len(failed)} passed, {len(failed)} failed")
    return 1 if failed else 0


def run_each(program):
    """Runs the other cases one after another. Returns each with its result and the expected one."""
    results = [(shlex.join(words), ran(program, words), (status, out, err)) for words, status, out, err in cases()]
    results += [(name, result, (4, None, line)) for name, result, line in into_devices(program)]
    refused = b"error: invalid UTF-8 was detected in one or more arguments\n\nFor more information, try '--help'.\n"
    results += [(name, result, (2, b"", refused)) for name, result in no_text(program)]
    results.append(("words beyond memory", scarce(program), (3, b"", b"earliest: 13 OutOfMemory\n")))
    results += little_stack(program)
    results.append(("memory for what a file announces", held(program), (1, b"", b"earliest: gr 0: 8 TooFewLines\n")))
    results += [(shlex.join(words), ran(program, words), wanted) for words, wanted in opening.cases()]
    results += alike(program)
    results += outputs.results(program)
    results += people.results(program)
    results += explained.results(program)
    results += road_network.results(program)
    results += travel_times.results(program)
    results += latest.results(program)
    results += prepared.results(program)
    results += asked.results(program)
    results += commuter_network.results(program)
    results += at_once.results(program)
    results += threads.results(program)
    results += checking.results(program)
    results += scripts.results(program)
    results += terminal.results(program)
    results += documents.results(program)
    results += resources.results(program)
    results += instructions.results(program)
    return results + list(large.results(program, EXAMPLES))


if __name__ == "__main__":
    sys.exit(main())
