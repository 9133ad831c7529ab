"""What the tests of the importers share: running commands in this process, running the engine, writing small inputs, comparing."""
import contextlib
import csv
import heapq
import importlib
import io
import math
import os
import shutil
import subprocess
import sys

HERE = os.path.dirname(os.path.abspath(__file__))
ROOT = os.path.dirname(os.path.dirname(HERE))
PACKAGE = os.path.join(ROOT, "python", "earliest")
program = os.path.join(ROOT, "bin", "earliest")
library = os.path.join(PACKAGE, "libearliest.so")

sys.path.insert(0, os.path.dirname(PACKAGE))


def module(name):
    return importlib.import_module("earliest." + name)


def there(name):
    try:
        importlib.import_module(name)
        return True
    except ImportError:
        return False


class Ran:
    def __init__(self, status, out, err):
        self.status, self.out, self.err = status, out, err


def ran(name, *words):
    """A command in this process."""
    out, err = io.StringIO(), io.StringIO()
    with contextlib.redirect_stdout(out), contextlib.redirect_stderr(err):
        try:
            status = module(name).main([str(word) for word in words])
        except SystemExit as end:
            status = end.code
    return Ran(status, out.getvalue(), err.getvalue())


def good(name, *words):
    found = ran(name, *words)
    if found.status != 0:
        raise AssertionError(f"{name} {words} has status {found.status}: {found.err}")
    return found


def engine(*words):
    return subprocess.run([program, *map(str, words)], stdout=subprocess.PIPE, stderr=subprocess.PIPE, check=False)


def arrivals(room, name, source, departure, tp=None):
    """Arrivals of the engine at all nodes from one, the first for node 1; None if there is none."""
    path = os.path.join(room, "asked.ss")
    with open(path, "w", encoding="ascii") as file:
        file.write(f"p aux sp ss 1\ns {source}\n")
    tp = os.path.join(room, name + ".tp") if tp is None and os.path.exists(os.path.join(room, name + ".tp")) else tp
    told = engine("run", os.path.join(room, name + ".gr"), path, "--depart", departure, *(["--tp", tp] if tp else []))
    if told.returncode != 0:
        raise AssertionError(told.stderr.decode())
    return [None if line.split()[2] == b"inf" else int(line.split()[2]) for line in told.stdout.split(b"\n") if line.startswith(b"d ")]


def table(room, name):
    with open(os.path.join(room, name), encoding="utf-8", newline="") as file:
        return list(csv.DictReader(file))


def text(room, name):
    with open(os.path.join(room, name), encoding="utf-8", newline="") as file:
        return file.read()


def put(room, name, contents):
    """Writes a file, or a folder of the files of a dict and no others."""
    path = os.path.join(room, name)
    if isinstance(contents, dict):
        shutil.rmtree(path, ignore_errors=True)
        os.makedirs(path)
        for inner, it in contents.items():
            put(path, inner, it)
        return path
    os.makedirs(os.path.dirname(path), exist_ok=True)
    with open(path, "wb") as file:
        file.write(contents.encode("utf-8") if isinstance(contents, str) else contents)
    return path


def places(room, name):
    """(start, end): for each id of NAME.nodes.csv the node to start from and the one to end at."""
    start, end = {}, {}
    for row in table(room, name + ".nodes.csv"):
        use = row.get("use", "both")
        if use in ("both", "start"):
            start.setdefault(row["id"], int(row["node"]))
        if use in ("both", "end"):
            end[row["id"]] = int(row["node"])
    return start, end


def arcs(room, name):
    return [tuple(map(int, line.split()[1:])) for line in text(room, name + ".gr").split("\n") if line.startswith("a ")]


def distance(first, second):
    """Metres between two places (longitude, latitude), by the angle between their directions from the Earth's centre."""
    points = []
    for longitude, latitude in (first, second):
        east, north = math.radians(longitude), math.radians(latitude)
        points.append((math.cos(north) * math.cos(east), math.cos(north) * math.sin(east), math.sin(north)))
    (a, b, c), (d, e, f) = points
    cross = math.sqrt((b * f - c * e) ** 2 + (c * d - a * f) ** 2 + (a * e - b * d) ** 2)
    return 6371008.8 * math.atan2(cross, a * d + b * e + c * f)


def least(starts, onward):
    """Dijkstra's method over any states: `onward(state, time)` gives (state, time). Returns the time of each state."""
    found, waiting, count = {}, [], 0
    for state, time in starts:
        heapq.heappush(waiting, (time, count, state))
        count += 1
    while waiting:
        time, _, state = heapq.heappop(waiting)
        if state in found:
            continue
        found[state] = time
        for after, later in onward(state, time):
            if after not in found:
                heapq.heappush(waiting, (later, count, after))
                count += 1
    return found


def summary_has(told, *parts):
    """Whether some line of a summary has all the parts."""
    return any(all(part in line for part in parts) for line in told.out.split("\n"))


def refused(name, room, *words):
    """A refusal as tests compare it: its status is 1 or 2, one line says why, and nothing was written."""
    before = set(os.listdir(room))
    told = ran(name, *words)
    lines = [line for line in told.err.split("\n") if line]
    reason = lines[-1] if lines else ""
    return told.status in (1, 2), "Traceback" not in told.err and (told.status == 2 or len(lines) == 1), sorted(set(os.listdir(room)) - before), reason
