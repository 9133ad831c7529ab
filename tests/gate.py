"""The gate: `rt ci`, which proves every crate and tries the must-fail edits, then the test suites with what
it built. With a program as the only word: only the suites, with that program.

`rt ci` alone judges proofs and edits. Each suite is tests/NAME/run.py, whose last line is `N passed, M
failed`. The last line here adds all of them up. What failed is named once more before it, for whoever sees
the end of a log alone.
"""
import os
import re
import subprocess
import sys
import time

HERE = os.path.dirname(os.path.abspath(__file__))
ROOT = os.path.join(HERE, "..")
PROGRAM = os.path.join(ROOT, "crates", "earliest_program", "out", "earliest_program")
# Debian's Python sees the libraries that its packages install.
PYTHON = "/usr/bin/python3" if os.path.exists("/usr/bin/python3") else sys.executable
COUNTS = re.compile(r"(\d+) passed, (\d+) failed\b.*\n?")
# How rt ci, the suites and unittest begin a line that names what failed.
ILL = re.compile(r"(failed|FAILED|FAIL|ERROR)[: ]")


def counted(name, words, named):
    """Runs a command and shows its output. Returns the numbers of passed and failed tests, and adds the lines
    that name these to a list. A command that fails without reporting them counts as one failure."""
    begun, last = time.monotonic(), ""
    with subprocess.Popen(words, cwd=ROOT, stdout=subprocess.PIPE, text=True, errors="replace") as ran:
        for last in ran.stdout:
            print(last, end="", flush=True)
            if ILL.match(last):
                named.append(f"{name}: {last.rstrip()}")
    found = COUNTS.fullmatch(last)
    passed, failed = (int(found[1]), int(found[2])) if found else (0, 0)
    failed += ran.returncode != 0 and failed == 0
    print(f"{name}: {passed} passed, {failed} failed, {time.monotonic() - begun:.0f} s", flush=True)
    return passed, failed


def suites():
    """The folders of tests/ that have a run.py."""
    return sorted(it for it in os.listdir(HERE) if os.path.isfile(os.path.join(HERE, it, "run.py")))


def proved(named):
    """Runs `rt ci` and builds the library over what it proved. Returns the numbers of passed and failed
    tests, as `counted` does."""
    passed, failed = counted("rt ci", ["rt", "ci"], named)
    if not failed:
        built = subprocess.run([sys.executable, os.path.join(ROOT, "tools", "library.py"), "--over", ROOT])
        failed += built.returncode != 0
    return passed, failed


def main(words):
    named = []
    passed, failed = (0, 0) if words else proved(named)
    program = os.path.abspath(words[0]) if words else PROGRAM
    for name in [] if failed else suites():
        well, ill = counted(f"tests/{name}", [PYTHON, os.path.join(HERE, name, "run.py"), program], named)
        passed, failed = passed + well, failed + ill
    for line in named:
        print(line)
    print(f"{passed} passed, {failed} failed")
    return 1 if failed else 0


if __name__ == "__main__":
    sys.exit(main(sys.argv[1:]))
