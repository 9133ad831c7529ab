"""What faults mean, text by text: the page on each fault, by its number and by its name, and the
explanations after the line of a fault that the first mistakes of people.py don't cover."""
import os
import random
import re
import resource
import subprocess
import tempfile

HERE = os.path.dirname(os.path.abspath(__file__))
EXAMPLES = os.path.join(HERE, "..", "..", "examples")
# The number of faults, each with a page.
FAULTS = 19


def read(*parts):
    with open(os.path.join(*parts), encoding="ascii") as file:
        return file.read()


def ran(program, words, before=None):
    run = subprocess.run([program, *words], cwd=EXAMPLES, stdin=subprocess.DEVNULL, capture_output=True, timeout=60, preexec_fn=before)
    return run.returncode, run.stdout.decode(), run.stderr.decode()


def paged(program):
    """The pages are the parts of texts/explained.txt, each from the line of its fault to the next one's."""
    pages = re.split(r"(?m)^(?=(?:check )?\d+ [A-Z]\w+: )", read(HERE, "texts", "explained.txt"))[1:]
    yield "pages on faults", len(pages), FAULTS
    for page in pages:
        number, name = re.match(r"((?:check )?\d+) (\w+): ", page).groups()
        for word in (number, name, name.lower()):
            yield f"explain {word}", ran(program, ["explain", word]), (0, page, "")


REPORT, WALKS = read(EXAMPLES, "four-nodes.report"), read(EXAMPLES, "canonical-ties.walks.report")
# The files of a checked report, the report, and the output; {} is the report's name.
CHECKED = (
    ("four-nodes.gr", REPORT + "d 5 7\n", "1 BadLine line 6", "d 5 7", "a line of the report isn't the one that has to stand there; line 0: the report ends too early"),
    ("four-nodes.gr", REPORT[:-6], "1 BadLine line 0", None, "a line of the report isn't the one that has to stand there; line 0: the report ends too early"),
    ("four-nodes.gr", REPORT.replace("d 2 5", "d 2 4"), "2 NotAttained line 3", "d 2 4", "a line of the report names a time at which nothing arrives, or a walk that doesn't arrive then"),
    ("four-nodes.gr", REPORT.replace("d 4 6", "d 4 11"), "3 NotLeast line 5", "d 4 11", "a line of the report names a time, or inf, and there is an earlier arrival"),
    ("four-nodes.gr", REPORT.replace("d 4 6", "d 4 inf"), "3 NotLeast line 5", "d 4 inf", "a line of the report names a time, or inf, and there is an earlier arrival"),
    ("canonical-ties.gr", WALKS.replace("w 4 2 2 3", "w 4 2 1 4"), "5 NotCanonical line 9", "w 4 2 1 4", "a walk of the report arrives at its time, but isn't the one of fewest arcs with the lowest last arc"),
)


def checked(program, folder):
    """The faults of a report."""
    name = os.path.join(folder, "report")
    for gr, text, fault, line, meaning in CHECKED:
        with open(name, "w", encoding="ascii") as file:
            file.write(text)
        shown = f"  {name}, line {fault.split()[-1]}: {line}\n" if line else ""
        yield f"explained: a report with {fault}", ran(program, ["check", gr, "four-nodes.ss", name, "--explain"]), (5, "", f"earliest: check {fault}\n{shown}  {meaning}\n")


def scarce(program, folder):
    """Memory that is refused before anything is written."""
    words = random.Random(5)
    arcs = "".join(f"a {words.randint(1, 9999)} {words.randint(1, 9999)} 1\n" for _ in range(300_000))
    name = os.path.join(folder, "large.gr")
    with open(name, "w", encoding="ascii") as file:
        file.write("p sp 9999 300000\n" + arcs)

    def limit():
        resource.setrlimit(resource.RLIMIT_DATA, (2**23, 2**23))

    says = "earliest: 13 OutOfMemory\n  memory was refused: look at `ulimit -a`, or take fewer workers by --workers\n"
    yield "explained: memory that is refused", ran(program, ["run", name, "four-nodes.ss", "--explain"], limit), (3, "", says)
    yield "not explained: memory that is refused", ran(program, ["run", name, "four-nodes.ss"], limit), (3, "", "earliest: 13 OutOfMemory\n")


def results(program):
    """For each of these: name, result, expected result."""
    yield from paged(program)
    with tempfile.TemporaryDirectory(prefix="explained-") as folder:
        yield from checked(program, folder)
        yield from scarce(program, folder)
