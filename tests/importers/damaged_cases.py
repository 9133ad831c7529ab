"""Inputs with bytes changed, lost, doubled or cut off at random: each is refused by a sentence, or what is written is read by the engine."""
import os
import random
import shutil

from support import ROOT, engine, good, module, put, ran, refused, there

ROUNDS = 40
PIECES = (b"-", b"9", b"99999999999999999999", b"nan", b"inf", b"1e400", b'"', b",", b"\n", b"\x00", b"<a>", b" ", b"-1", b"0")


def damaged(draw, contents):
    contents = bytearray(contents)
    for _ in range(draw.choice([1, 1, 2, 5])):
        if not contents:
            break
        place, kind = draw.randrange(len(contents)), draw.randrange(5)
        if kind == 0:
            contents[place] = draw.choice(b'0123456789-.:,"<>/ \n\x00\xffaZ')
        elif kind == 1:
            del contents[place:place + draw.choice([1, 5, 50])]
        elif kind == 2:
            contents[place:place] = draw.choice(PIECES)
        elif kind == 3:
            contents[place:place + 20] = contents[draw.randrange(len(contents)):][:20]
        elif draw.random() < 0.3:
            del contents[place:]
    return bytes(contents)


def read(*parts):
    with open(os.path.join(*parts), "rb") as file:
        return file.read()


def held(name, *words):
    """A fault of how a command ended, or None."""
    try:
        told = ran(name, *words)
    except Exception as fault:
        return f"{type(fault).__name__}: {fault}"
    if told.status not in (0, 1, 2) or "Traceback" in told.err or (told.status and not told.err):
        return f"status {told.status}: {told.err}"
    return None


def networks(room, name, words):
    """A fault of an import, or of how the engine reads what was written."""
    for end in (".gr", ".tp"):
        if os.path.exists(os.path.join(room, "out" + end)):
            os.remove(os.path.join(room, "out" + end))
    fault = held(name, *words)
    if fault or not os.path.exists(os.path.join(room, "out.gr")):
        return fault
    tp = ["--tp", os.path.join(room, "out.tp")] if os.path.exists(os.path.join(room, "out.tp")) else []
    put(room, "one.ss", "p aux sp ss 1\ns 1\n")
    told = engine("run", os.path.join(room, "out.gr"), os.path.join(room, "one.ss"), *tp)
    return told.stderr.decode() if told.returncode else None


def imports(room):
    """Extracts, feeds, networks with edge data, functions, profiles."""
    examples = os.path.join(ROOT, "examples")
    out = os.path.join(room, "out")
    osm, net, data = read(examples, "osm", "town.osm"), read(examples, "sumo", "town.net.xml"), read(examples, "sumo", "edgedata.xml")
    functions, profile = read(examples, "functions", "four.tpgr"), read(ROOT, "python", "earliest", "importing", "profiles", "car.ini")
    faults = []
    for seed in range(ROUNDS):
        draw = random.Random(seed)
        faults.append(networks(room, "osm", [put(room, "x.osm", damaged(draw, osm)), out, "--reader", "python", *draw.choice([[], ["--turns"], ["--largest"], ["--keep-nodes"]])]))
        if there("osmium"):
            faults.append(networks(room, "osm", [os.path.join(room, "x.osm"), out, "--reader", "pyosmium"]))
        faults.append(networks(room, "osm", [os.path.join(examples, "osm", "town.osm"), out, "--reader", "python", "--profile", put(room, "x.ini", damaged(draw, profile))]))
        faults.append(networks(room, "sumo", [put(room, "x.net.xml", damaged(draw, net)), out]))
        faults.append(networks(room, "sumo", [os.path.join(examples, "sumo", "town.net.xml"), out, "--data", put(room, "d.xml", damaged(draw, data))]))
        faults.append(held("functions", put(room, "x.tpgr", damaged(draw, functions)), out))
        feed = os.path.join(room, "feed")
        shutil.rmtree(feed, ignore_errors=True)
        shutil.copytree(os.path.join(examples, "transit"), feed)
        table = draw.choice(sorted(os.listdir(feed)))
        put(feed, table, damaged(draw, read(feed, table)))
        faults.append(networks(room, "gtfs", [feed, "20261123", out, "--walk", "400", *draw.choice([[], ["--change", "60"]])]))
    yield "damaged inputs", [fault for fault in faults if fault], []
    yield "how many were tried", len(faults), (7 if there("osmium") else 6) * ROUNDS


def limits(room):
    """As many nodes, arcs and classes as there may be are taken, and one more is refused by a sentence: tried with lower limits."""
    examples, writing = os.path.join(ROOT, "examples"), module("importing.writing")
    for name, *words in (
        ("osm", os.path.join(examples, "osm", "town.osm")), ("gtfs", os.path.join(examples, "transit"), "20261123"),
        ("sumo", os.path.join(examples, "sumo", "town.net.xml"), "--data", os.path.join(examples, "sumo", "edgedata.xml")), ("functions", os.path.join(examples, "functions", "four.tpgr")),
    ):
        words.insert(2 if name == "gtfs" else 1, os.path.join(room, name))
        good(name, *words)
        nodes, arcs = next(line.split()[2:] for line in read(room, name + ".gr").decode().splitlines() if line.startswith("p "))
        most = {"MOST_NODES": int(nodes), "MOST_ARCS": int(arcs)}
        if os.path.exists(os.path.join(room, name + ".tp")):
            most["MOST_CLASSES"] = int(next(line.split()[2] for line in read(room, name + ".tp").decode().splitlines() if line.startswith("p ")))
        for limit, count in most.items():
            usual = getattr(writing, limit)
            try:
                setattr(writing, limit, count)
                yield f"{name}: as many as {limit}", ran(name, *words).status, 0
                setattr(writing, limit, count - 1)
                *told, reason = refused(name, room, *words)
                yield f"{name}: one more than {limit}", (*told, f"{count} " in reason and f"{count - 1} is the most" in reason), (True, True, [], True)
            finally:
                setattr(writing, limit, usual)


def reports(room):
    """Reports, tables of nodes, graphs and shapes."""
    examples = os.path.join(ROOT, "examples")
    good("gtfs", os.path.join(examples, "transit"), "20261123", os.path.join(room, "tr"), "--walk", "400", "--from", "CB", "--to", "Village")
    good("osm", os.path.join(examples, "osm", "town.osm"), os.path.join(room, "town"), "--from", "10,50")
    pairs = engine("pairs", os.path.join(room, "tr.gr"), os.path.join(room, "tr.p2p"), "--tp", os.path.join(room, "tr.tp"), "--depart", "2000000", "--walks").stdout
    run = engine("run", os.path.join(room, "town.gr"), os.path.join(room, "town.ss"), "--walks").stdout
    put(room, "good", run)
    faults = []
    for seed in range(ROUNDS):
        draw = random.Random(seed)
        faults.append(held("gtfs", "legs", os.path.join(room, "tr"), put(room, "r", damaged(draw, pairs))))
        ends = (".gr", ".nodes.csv", ".arcs.csv", ".rides.csv", ".trips.csv")
        for end in ends:
            shutil.copy(os.path.join(room, "tr" + end), os.path.join(room, "bad" + end))
        end = draw.choice(ends)
        put(room, "bad" + end, damaged(draw, read(room, "tr" + end)))
        faults.append(held("gtfs", "legs", os.path.join(room, "bad"), put(room, "r", pairs)))
        nodes, graph, shapes = (put(room, "x" + end, damaged(draw, read(room, "town" + end))) for end in (".nodes.csv", ".gr", ".shapes.csv"))
        faults.append(held("isochrones", put(room, "r", damaged(draw, run)), os.path.join(room, "town.nodes.csv"), "--write", draw.choice(["svg", "nodes"]), "--out", os.path.join(room, "map")))
        faults.append(held("isochrones", os.path.join(room, "good"), nodes, "--graph", graph, "--shapes", shapes, "--write", draw.choice(["svg", "nodes", "arcs"]), "--out", os.path.join(room, "map")))
        faults.append(held("nearest", nodes, "10,50"))
        faults.append(held("gtfs", os.path.join(examples, "transit"), "20261123", os.path.join(room, "out"), "--streets", os.path.join(room, "x")))
    yield "damaged reports and tables", [fault for fault in faults if fault], []
    yield "how many were tried", len(faults), 6 * ROUNDS


CASES = (imports, limits, reports)
