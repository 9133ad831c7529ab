"""`--progress`: lines on standard error during a run, at most one a second, and no other difference. A run
takes over a second here because its network comes late from a pipe, or because its report isn't read for a
while."""
import os
import re
import subprocess
import tempfile
import time

HERE = os.path.dirname(os.path.abspath(__file__))
EXAMPLES = os.path.join(HERE, "..", "..", "examples")
# A machine with much other work may begin a program some tenths of a second late.
PAUSE = 2.0
LINE = re.compile(rb"earliest: (\d+) of (\d+) problems, (\d+) s\n")


def read(name):
    with open(os.path.join(EXAMPLES, name), "rb") as file:
        return file.read()


GRAPH = read("four-nodes.gr")
SOURCES = b"p aux sp ss 3\ns 1\ns 2\ns 3\n"
RIGHT = b"s 1 0\nd 1 0\nw 1 0\nd 2 5\nd 3 2\nd 4 6\nw 4 3 2 3 4\ns 2 0\nd 1 inf\nd 2 0\nd 3 inf\nd 4 1\ns 3 0\nd 1 inf\nd 2 3\nd 3 0\nd 4 4\n"
CHECKED = b"earliest: checked: problems 3, nodes 12, walks 2\n"


def late(program, words, folder, pause=PAUSE, errors=subprocess.PIPE):
    """Status, standard output and standard error of a run whose network comes late."""
    with subprocess.Popen([program, *words.split()], cwd=folder, stdin=subprocess.PIPE, stdout=subprocess.PIPE, stderr=errors) as run:
        time.sleep(pause)
        out, said = run.communicate(GRAPH, timeout=60)
        return run.returncode, out, said


def told(said):
    """The numbers of problems done and of all, if all lines have this form; None if they come too often."""
    found = [tuple(map(int, it)) for it in LINE.findall(said)]
    seconds = [it[2] for it in found]
    if LINE.sub(b"", said) or any(b <= a for a, b in zip([0, *seconds], seconds)):
        return None
    return [it[:2] for it in found]


def slow(program):
    """Each command with a network that comes late: its first problems are reported, and all other output
    is the same."""
    with tempfile.TemporaryDirectory(prefix="progress-") as folder:
        for name, text in (("three.ss", SOURCES), ("three.p2p", b"p aux sp p2p 3\nq 1 4\nq 2 4\nq 4 1\n"), ("right", RIGHT), ("wrong", RIGHT.replace(b"d 4 4", b"d 4 5"))):
            with open(os.path.join(folder, name), "wb") as file:
                file.write(text)
        for words, first, after in (
            ("run - three.ss --at-once 1", (1, 3), b""),
            ("run - three.ss --at-once 4", (1, 3), b""),
            ("run - three.ss --stats --workers 1", (1, 3), b""),
            ("run - three.ss --joint", (1, 1), b""),
            ("pairs - three.p2p --workers 2", (1, 3), b""),
            ("rank - three.ss", (1, 3), b""),
            ("check - three.ss right", (1, 3), CHECKED),
            ("check - three.ss wrong", (1, 3), b"earliest: check 2 NotAttained line 17\n"),
            ("run - three.ss -o /dev/full --workers 1 --heaps 2", None, b"earliest: 12 WriteFailed after 0 bytes\n"),
            ("run - three.ss --depart 281474976710655 --gap 1", None, b"earliest: 14 BadOption\n"),
            ("run - nothing.ss", None, b"earliest: ss: 15 OpenFailed\n"),
        ):
            quiet = late(program, words, folder, 0)
            status, out, said = late(program, words + " --progress", folder)
            lines, last = (said[: -len(after)], said[-len(after) :]) if after else (said, b"")
            tells = told(lines)
            yield f"progress: {words}", (status, out, last, tells and tells[0]), (*quiet[:2], after, first) if first else (*quiet[:2], after, [])
        with open("/dev/full", "wb") as full:
            yield "progress into a full device", late(program, "run - three.ss --progress", folder, errors=full)[:2], late(program, "run - three.ss", folder, 0)[:2]
        master, slave = os.openpty()
        was = late(program, "run - three.ss --at-once 1 --progress", folder, errors=slave)
        os.write(slave, b"end\n")
        os.close(slave)
        said = b""
        while not said.endswith(b"end\r\n"):
            said += os.read(master, 4096)
        os.close(master)
        form = re.fullmatch(rb"(\r\x1b\[Kearliest: \d of 3 problems, \d+ s)+\r\x1b\[Kend\r\n", said)
        yield "progress on a terminal", (was[0], was[1], bool(form)), (0, late(program, "run - three.ss", folder, 0)[1], True)


def unread(program):
    """A report that is read with pauses: the lines come with them, and the number done only grows."""
    nodes, problems = 20_000, 40
    with tempfile.TemporaryDirectory(prefix="progress-") as folder:
        with open(os.path.join(folder, "line.gr"), "w", encoding="ascii") as file:
            file.writelines([f"p sp {nodes} {nodes - 1}\n", *[f"a {at} {at + 1} 3\n" for at in range(1, nodes)]])
        with open(os.path.join(folder, "line.ss"), "w", encoding="ascii") as file:
            file.writelines([f"p aux sp ss {problems}\n", *[f"s {1 + at}\n" for at in range(problems)]])
        words = ["run", "line.gr", "line.ss", "--at-once", "1"]
        whole = subprocess.run([program, *words], cwd=folder, stdin=subprocess.DEVNULL, stdout=subprocess.PIPE, check=True, timeout=60).stdout
        with subprocess.Popen([program, *words, "--progress"], cwd=folder, stdin=subprocess.DEVNULL, stdout=subprocess.PIPE, stderr=subprocess.PIPE, bufsize=0) as run:
            out = b""
            for part in range(1, 4):
                time.sleep(PAUSE)
                while len(out) < len(whole) * part // 4:
                    more = run.stdout.read(65536)
                    if not more:
                        break
                    out += more
            out += run.stdout.read()
            said = run.stderr.read()
            run.wait(timeout=60)
        tells = told(said) or []
        grows = all(a[0] < b[0] for a, b in zip(tells, tells[1:])) and all(it[1] == problems for it in tells)
        yield "progress of a report that is read with pauses", (run.returncode, out == whole, len(tells) >= 3, grows), (0, True, True, True)


def prepared(program):
    """A preparation that takes a while has a line at once; nothing else is said of a run that ends within a second."""
    with tempfile.TemporaryDirectory(prefix="progress-") as folder:
        for nodes in (99_999, 100_000):
            with open(os.path.join(folder, "line.gr"), "w", encoding="ascii") as file:
                file.writelines([f"p sp {nodes} {nodes - 1}\n", *[f"a {at} {at + 1} 3\n" for at in range(1, nodes)]])
            with open(os.path.join(folder, "line.p2p"), "w", encoding="ascii") as file:
                file.write(f"p aux sp p2p 1\nq 1 {nodes}\n")
            for word, line in (("yes", b"earliest: preparing a network of %d nodes\n" % nodes if nodes == 100_000 else b""), ("no", b"")):
                run = subprocess.run([program, "pairs", "line.gr", "line.p2p", "--prepare", word, "--progress"], cwd=folder, stdin=subprocess.DEVNULL, capture_output=True, timeout=60)
                said = LINE.sub(b"", run.stderr)
                yield f"progress of a preparation: {word}, {nodes} nodes", (run.returncode, run.stdout, said), (0, b"q 1 %d 0\nd %d %d\n" % (nodes, nodes, 3 * (nodes - 1)), line)


def results(program):
    """All of these: name, result, expected result."""
    program = os.path.abspath(program)
    yield from slow(program)
    yield from unread(program)
    yield from prepared(program)
