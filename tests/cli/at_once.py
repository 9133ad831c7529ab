"""Many problems searched at once: the report of each setting equals, byte for byte, that of one problem
after another. If memory or the output gives out, the output is the first bytes of it, as many as the
program says."""
import os
import random
import resource
import signal
import subprocess
import tempfile

NETWORKS = 40


def network(rng, nodes, arcs):
    lines = [f"p sp {nodes} {arcs}"]
    for _ in range(arcs):
        lines.append(f"a {rng.randint(1, nodes)} {rng.randint(1, nodes)} {rng.choice((0, 1, rng.randint(0, 50), rng.randint(0, 10**6)))}")
    return "\n".join(lines) + "\n"


def starts(rng, nodes, count, pairs):
    word, mark = ("p2p", "q") if pairs else ("ss", "s")
    lines = [f"p aux sp {word} {count}"]
    for _ in range(count):
        lines.append(" ".join([mark, *[str(rng.randint(1, nodes)) for _ in range(1 + pairs)]]))
    return "\n".join(lines) + "\n"


def ran(program, words, room, before=None, out=subprocess.PIPE):
    run = subprocess.run([program, *words], cwd=room, stdin=subprocess.DEVNULL, stdout=out, stderr=subprocess.PIPE, timeout=120, preexec_fn=before)
    return run.returncode, run.stdout, run.stderr


def put(room, name, text):
    with open(os.path.join(room, name), "w", encoding="ascii") as file:
        file.write(text)


def same_bytes(program, room):
    """Random networks with 1 to 200 problems: several settings give the report of one problem after
    another."""
    rng = random.Random(20)
    for at in range(NETWORKS):
        nodes = rng.choice((1, 2, 5, 30, 300))
        pairs = at % 2 == 1
        put(room, "n.gr", network(rng, nodes, rng.randint(0, 3 * nodes)))
        put(room, "n.starts", starts(rng, nodes, rng.randint(1, 200), pairs))
        words = ["pairs" if pairs else "run", "n.gr", "n.starts", "--depart", str(rng.randint(0, 1000)), "--gap", str(rng.randint(0, 9))]
        words += rng.choice(([], ["--walks"])) + rng.choice(([], ["--joint"] if not pairs else []))
        one = ran(program, [*words, "--at-once", "1"], room)
        for many in (2, 3, 16):
            other = ran(program, [*words, "--at-once", str(many)], room)
            yield f"{' '.join(words)} with {many} problems at once (network {at})", (other == one, one[0], len(one[1]) > 0), (True, 0, True)
        yield f"{' '.join(words)} with problems at once by default (network {at})", ran(program, words, room), one


def cut(program, room):
    """Outputs with a limit of bytes: they get the first bytes, as many as the line says."""
    rng = random.Random(21)
    put(room, "n.gr", network(rng, 500, 1500))
    put(room, "n.starts", starts(rng, 500, 60, False))
    words = ["run", "n.gr", "n.starts", "--at-once", "4"]
    whole = ran(program, words, room)[1]
    for most in (0, 1, 7, len(whole) // 60, len(whole) // 2, len(whole) - 1):
        def limit():
            signal.signal(signal.SIGXFSZ, signal.SIG_IGN)
            resource.setrlimit(resource.RLIMIT_FSIZE, (most, most))

        path = os.path.join(room, "out")
        with open(path, "wb") as out:
            status, _, said = ran(program, words, room, limit, out)
        with open(path, "rb") as out:
            front = out.read()
        yield f"an output of {most} bytes, 4 problems at once", (status, said, front == whole[:most]), (4, b"earliest: 12 WriteFailed after %d bytes\n" % most, True)


def scarce(program, room):
    """Less and less memory: the whole report, or its first bytes and the line that memory was refused."""
    rng = random.Random(22)
    put(room, "n.gr", network(rng, 200_000, 300_000))
    put(room, "n.starts", starts(rng, 200_000, 8, False))
    words = ["run", "n.gr", "n.starts", "--at-once", "4"]
    whole = ran(program, words, room)[1]
    for megabytes in (4, 10, 16, 20, 24, 28, 34, 44, 64):
        def limit():
            resource.setrlimit(resource.RLIMIT_DATA, (megabytes << 20, megabytes << 20))

        status, front, said = ran(program, words, room, limit)
        is_right = (status == 0 and front == whole and not said) or (status == 3 and whole.startswith(front) and said == b"earliest: 13 OutOfMemory\n")
        yield f"{megabytes} MB of memory, 4 problems at once", is_right or (status, len(front), said), True


def results(program):
    with tempfile.TemporaryDirectory(prefix="at-once-") as room:
        return [*same_bytes(program, room), *cut(program, room), *scarce(program, room)]
