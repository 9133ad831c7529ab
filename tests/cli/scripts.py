"""Commands of the Python package on the examples: parts of many sources, whose reports one after another are
the report of the whole; the picture of arrivals, which has a dot for each node and a line for each arc of a
walk; and the latest departure, in time by a plain search, while one unit later is late."""
import os
import re
import subprocess
import sys
import tempfile

import commuter_network

HERE = os.path.dirname(os.path.abspath(__file__))
EXAMPLES = os.path.join(HERE, "..", "..", "examples")
PYTHON = os.path.join(HERE, "..", "..", "python")
ROAD = "--tp road.tp".split()


def said(words):
    environment = {**os.environ, "PYTHONPATH": PYTHON}
    return subprocess.run(words, cwd=EXAMPLES, env=environment, stdin=subprocess.DEVNULL, capture_output=True, timeout=120)


def command(name, *words):
    """A command of the Python package."""
    return said([sys.executable, "-m", "earliest", name, *words])


def parts(program, room):
    """Seven parts of a hundred sources."""
    cut = command("parts", "road.ss", "7", room, "--depart", "1000", "--gap", "60")
    with open(os.path.join(room, "parts.txt"), encoding="ascii") as lines:
        named = [line.split() for line in lines]
    reports = [said([program, "run", "road.gr", name, *ROAD, "--depart", depart, "--gap", gap]).stdout for name, depart, gap in named]
    whole = said([program, "run", "road.gr", "road.ss", *ROAD, "--depart", "1000", "--gap", "60"]).stdout
    sources = [report.count(b"\ns ") + report.startswith(b"s ") for report in reports]
    yield "seven parts of a hundred sources", (cut.returncode, cut.stderr, b"".join(reports) == whole, sources), (0, b"", True, [14, 14, 14, 15, 14, 14, 15])
    many = command("parts", "road.ss", "101", room)
    yield "more parts than sources", (many.returncode, many.stderr), (1, b"parts: 100 lines can't be cut into 101 parts\n")
    late, low = f"parts: the last departure is above {2**48 - 1}\n".encode(), b"parts: --depart and --gap are at least 0\n"
    for count, depart, gap, why in ((7, 2**48 - 100, 1, b""), (7, 2**48 - 99, 1, late), (1, 2**48 - 1, 0, b""), (1, 2**48, 0, late), (7, 0, 0, b""), (7, -1, 0, low), (7, 0, -1, low), (0, 0, 0, b"parts: 100 lines can't be cut into 0 parts\n")):
        cut = command("parts", "road.ss", str(count), room, f"--depart={depart}", f"--gap={gap}")
        yield f"{count} parts from {depart} on, {gap} apart", (cut.returncode, cut.stderr), (1 if why else 0, why)


def picture(program, room):
    """The second problem of a report with walks."""
    report, drawn = os.path.join(room, "report"), os.path.join(room, "road.svg")
    with open(report, "wb") as out:
        out.write(said([program, "run", "road.gr", "road.ss", *ROAD, "--depart", "1000", "--walks"]).stdout)
    made = command("isochrones", report, "road.co", "--graph", "road.gr", "--problem", "2", "--out", drawn)
    with open(drawn, encoding="utf-8") as text:
        svg = text.read()
    with open(report, encoding="ascii") as text:
        problem = text.read().split("\ns ")[1]
    arcs = {arc for line in problem.split("\n") if line.startswith("w ") for arc in line.split()[3:]}
    with open(os.path.join(EXAMPLES, "road.gr"), encoding="ascii") as text:
        roads = sum(line.startswith("a ") for line in text)
    paths = [len(re.findall("M", path)) for path in re.findall(r'<path d="([^"]*)"', svg)]
    dots = sum(len(re.findall("<circle", group)) for group in re.findall(r"<g fill=.*?</g>", svg, re.S))
    yield "a picture of arrivals and walks", (made.returncode, made.stderr, dots, paths), (0, b"", 2025, [roads, len(arcs)])


def departure():
    """The latest departures from home to work in the commuter town, also if no departure is in time."""
    texts = {}
    for name in ("commuter.gr", "commuter.tp"):
        with open(os.path.join(EXAMPLES, name), encoding="ascii") as text:
            texts[name] = text.read()
    town = commuter_network.network(texts)
    for wished in (600, 28000, 30600, 86400):
        ran = command("latest", "commuter.gr", "225", "236", str(wished), "--tp", "commuter.tp")
        leave, arrive = (int(it) for it in re.findall(rb"\d+", ran.stdout))
        now, later = (commuter_network.Search(town, 225, leave + more).least[236] for more in (0, 1))
        yield f"the latest departure for {wished}", (ran.returncode, ran.stderr, arrive == now, now <= wished < later), (0, b"", True, True)
    for target, wished, why in (("4", "5", b"earliest: no departure from 1 arrives at 4 by 5\n"), ("9", "5", b"earliest: 18 NoSuchNode")):
        ran = command("latest", "four-nodes.gr", "1", target, wished)
        yield f"no departure to {target} by {wished}", (ran.returncode, ran.stdout, ran.stderr.startswith(why) or ran.stderr), (1, b"", True)


def results(program):
    with tempfile.TemporaryDirectory(prefix="scripts-") as room:
        return [*parts(program, room), *picture(program, room), *departure()]
