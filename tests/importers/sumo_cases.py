"""SUMO: edges, turns, permissions, speeds by intervals, each beside a search over edges that drives by the second."""
import gzip
import os
import random

from support import ROOT, arcs, arrivals, engine, good, least, put, refused, summary_has, table, text, there

HEAD = '<?xml version="1.0" encoding="UTF-8"?>\n<net version="1.16">\n<location netOffset="0.00,0.00" convBoundary="0,0,1,1" origBoundary="0,0,1,1" projParameter="!"/>\n'


def net(edges, turns):
    """A network of edges {id: (length, speed, attributes of its lane)} and turns [(from, to)]."""
    lines = [f'<edge id="{name}" from="x" to="y"><lane id="{name}_0" index="0" speed="{speed}" length="{length}" {more} shape="0,0 {length},0"/></edge>' for name, (length, speed, more) in edges.items()]
    lines += [f'<connection from="{start}" to="{end}" fromLane="0" toLane="0" dir="s" state="M"/>' for start, end in turns]
    return HEAD + "\n".join(lines) + "\n</net>\n"


def data(intervals):
    """Edge data of [(begin, end, {edge: attributes})]."""
    return "<meandata>\n" + "".join(f'<interval begin="{begin}" end="{end}" id="x">' + "".join(f'<edge id="{edge}" {told}/>' for edge, told in edges.items()) + "</interval>\n" for begin, end, edges in intervals) + "</meandata>\n"


def driven(length, start, speed_at, marks):
    """When somebody who begins an edge at a time is at its end: from mark to mark at the speed that holds there."""
    time, left = start, length
    while True:
        after = min((mark for mark in marks if mark > time + 1e-9), default=float("inf"))
        speed = speed_at(time)
        if speed and left <= speed * (after - time) + 1e-9:
            return time + left / speed
        left -= speed * (after - time)
        time = after


def searched(edges, turns, start, departure, speeds=None, period=86400.0, inside=None):
    """The time at the end of each edge: from the start of one, over turns that are allowed. `speeds` is {edge: [(begin, end, speed)]}."""
    speeds, inside = speeds or {}, inside or {}

    def speed_at(edge):
        def of(time):
            at = (time + 1e-9) % period
            return next((speed for begin, end, speed in speeds.get(edge, ()) if begin <= at < end), edges[edge][1])
        return of

    def end_of(edge, time):
        marks = sorted({day * period + mark for day in range(4) for begin, end, _ in speeds.get(edge, ()) for mark in (begin, end)} | {day * period for day in range(1, 5)})
        return driven(edges[edge][0], time, speed_at(edge), marks)

    return least([(start, end_of(start, departure))], lambda edge, time: [(after, end_of(after, time + inside.get((edge, after), 0.0))) for before, after in turns if before == edge])


def ends(room, name):
    start, end = {}, {}
    for row in table(room, name + ".nodes.csv"):
        (start if row["use"] == "start" else end)[row["id"]] = int(row["node"])
    return start, end


def agree(room, name, edges, wanted_of, starts, times, slack=2.5):
    start, end = ends(room, name)
    for edge in starts:
        for time in times:
            got, wanted = arrivals(room, name, start[edge], round(100 * time)), wanted_of(edge, time)
            for other, node in end.items():
                mine = got[node - 1]
                if (mine is None) != (other not in wanted) or (mine is not None and abs(mine - 100 * wanted[other]) > slack + 0.0006 * 100 * (wanted[other] - time)):
                    return f"from {edge} at {time} to {other}: {mine} and {wanted.get(other)}"
    return "all"


EDGES = {"a": (100.0, 10.0, ""), "b": (200.0, 10.0, ""), "c": (50.0, 5.0, 'disallow="bicycle"'), "d": (400.0, 20.0, 'allow="passenger bus"'), "e": (30.0, 10.0, 'allow="bus"'), "f": (80.0, 8.0, 'disallow="all"')}
TURNS = [("a", "b"), ("b", "c"), ("a", "d"), ("d", "c"), ("c", "a"), ("b", "e"), ("e", "c"), ("d", "f")]


def turns_and_permissions(room):
    """Only turns that there are are driven; edges and lanes for others are left out."""
    path = put(room, "town.net.xml", net(EDGES, TURNS))
    told = good("sumo", path, os.path.join(room, "town"), "--from", "a", "--to", "c")
    cars = {edge: it for edge, it in EDGES.items() if edge not in "ef"}
    turns = [(start, end) for start, end in TURNS if start in cars and end in cars]
    yield "turns that are allowed", agree(room, "town", cars, lambda edge, time: searched(cars, turns, edge, time), cars, (0, 17.5)), "all"
    yield "edges for others are told", summary_has(told, "2 edges without a lane that the vehicle may use", "e, f"), True
    yield "connections to them are told", summary_has(told, "3 connections from or to edges that aren't taken"), True
    pair = engine("pairs", os.path.join(room, "town.gr"), os.path.join(room, "town.p2p"))
    yield "from the start of an edge to the end of another", pair.stdout.split()[-1], str(round(100 * searched(cars, turns, "a", 0)["c"])).encode()
    good("sumo", path, os.path.join(room, "bus"), "--vehicle", "bus", "--max-speed", "8")
    buses = {edge: (length, min(speed, 8.0), more) for edge, (length, speed, more) in EDGES.items() if edge != "f"}
    turns = [(start, end) for start, end in TURNS if start in buses and end in buses]
    yield "a bus of 8 m/s", agree(room, "bus", buses, lambda edge, time: searched(buses, turns, edge, time), buses, (0,)), "all"
    with gzip.open(os.path.join(room, "town.net.xml.gz"), "wb") as packed:
        packed.write(net(EDGES, TURNS).encode())
    good("sumo", path + ".gz", os.path.join(room, "packed"))
    yield "a packed network", arcs(room, "packed"), arcs(room, "town")


def lanes_inside(room):
    """Of several connections from an edge to another the quickest counts, over all its lanes inside the junction; a missing lane is reported."""
    inside = "".join(f'<edge id=":J_{number}" function="internal"><lane id=":J_{number}_0" index="0" speed="{speed}" length="{length}"/></edge>' for number, (length, speed) in enumerate([(40, 5), (10, 5), (90, 10), (30, 10)]))
    two = "".join(f'<edge id="{name}"><lane id="{name}_0" index="0" speed="10" length="100"/><lane id="{name}_1" index="1" speed="10" length="100"/></edge>' for name in "ab")
    links = "".join(f'<connection from="a" to="b" fromLane="{lane}" toLane="{lane}" via="{via}"/>' for lane, via in ((0, ":J_0_0"), (1, ":J_1_0"), (0, ":J_2_0")))
    onward = '<connection from=":J_1" to="b" fromLane="0" toLane="1" via=":J_3_0"/>'
    put(room, "town.net.xml", HEAD + inside + two + links + onward + "</net>")
    good("sumo", os.path.join(room, "town.net.xml"), os.path.join(room, "town"))
    yield "the quickest way through a junction", [arc[2] for arc in arcs(room, "town")], [1000, 1000, 500]
    put(room, "town.net.xml", HEAD + two + links + "</net>")
    told = good("sumo", os.path.join(room, "town.net.xml"), os.path.join(room, "town"))
    yield "lanes that are missing are told", (summary_has(told, "3 lanes inside junctions that the file doesn't have", ":J_0_0"), [arc[2] for arc in arcs(room, "town")]), (True, [1000, 1000, 0])


def intervals(room):
    """Speeds by intervals: travel times and speeds, gaps, edges without data, the end of the period, long edges over several intervals."""
    edges = {"a": (300.0, 10.0, ""), "b": (200.0, 10.0, ""), "c": (50.0, 5.0, ""), "d": (2000.0, 20.0, "")}
    turns = [("a", "b"), ("b", "c"), ("a", "d"), ("d", "c"), ("c", "a")]
    put(room, "town.net.xml", net(edges, turns))
    put(room, "one.xml", data([(0, 60, {"a": 'speed="5"', "b": 'traveltime="40"'}), (60, 120, {"a": 'speed="2.5"', "d": 'speed="4"'}), (300, 360, {"b": 'traveltime="1000"', "d": 'speed="0.5"'})]))
    put(room, "two.xml", data([(360, 400, {"a": 'speed="1.234"', "c": 'speed="0"', "x": 'speed="1"', "b": 'entered="3"'})]))
    speeds = {"a": [(0, 60, 5.0), (60, 120, 2.5), (360, 400, 1.234)], "b": [(0, 60, 5.0), (300, 360, 0.2)], "d": [(60, 120, 4.0), (300, 360, 0.5)], "c": [(360, 400, 0.0)]}
    for period in (86400, 400):
        told = good("sumo", os.path.join(room, "town.net.xml"), os.path.join(room, "town"), "--data", os.path.join(room, "one.xml"), "--data", os.path.join(room, "two.xml"), "--period", period)
        yield f"speeds by intervals, period {period}", agree(room, "town", edges, lambda edge, time: searched(edges, turns, edge, time, speeds, float(period)), edges, (0, 10, 59, 61, 200, 299, 350, 399)), "all"
    yield "what data leave out is told", [summary_has(told, part) for part in ("1 intervals in which an edge stands still", "1 values of edge data for edges that aren't taken (x)", "1 values of edge data without traveltime and speed")], [True] * 3
    yield "nobody overtakes", all(first <= second for first, second in zip(_ends(room, "b"), _ends(room, "b")[1:])), True
    good("sumo", os.path.join(room, "town.net.xml"), os.path.join(room, "round"), "--data", os.path.join(room, "one.xml"), "--rounding", 10)
    yield "rounded speeds are near", max(abs(mine - other) / (mine + 1) for mine, other in zip(_ends(room, "b", "round"), _ends(room, "b"))) < 0.2, True


def _ends(room, edge, name="town"):
    start, end = ends(room, name)
    return [arrivals(room, name, start[edge], 100 * time)[end[edge] - 1] for time in range(0, 400, 13)]


def standing_edges(room):
    """An edge that is blocked all day is left out with its turns; one that does in an interval waits."""
    edges = {"a": (100.0, 10.0, ""), "b": (100.0, 10.0, ""), "c": (100.0, 10.0, "")}
    turns = [("a", "b"), ("b", "c"), ("a", "c")]
    put(room, "town.net.xml", net(edges, turns))
    put(room, "data.xml", data([(0, 300, {"b": 'speed="0.00"', "c": 'speed="0"'}), (300, 600, {"b": 'speed="0"'})]))
    told = good("sumo", os.path.join(room, "town.net.xml"), os.path.join(room, "town"), "--data", os.path.join(room, "data.xml"), "--period", 600)
    kept = {edge: edges[edge] for edge in "ac"}
    yield "an edge that stands still for a while", agree(room, "town", kept, lambda edge, time: searched(kept, [("a", "c")], edge, time, {"c": [(0, 300, 0.0)]}, 600.0), kept, (0, 100, 299, 300, 595)), "all"
    yield "one that stands still all day is told", summary_has(told, "1 edges that stand still all day by the edge data (b)"), True
    put(room, "data.xml", data([(0, 600, dict.fromkeys("abc", 'speed="0"'))]))
    *told, reason = refused("sumo", room, os.path.join(room, "town.net.xml"), os.path.join(room, "none"), "--data", os.path.join(room, "data.xml"), "--period", 600)
    yield "refused: all edges stand still", (*told, "nothing is left" in reason), (True, True, [], True)


def kinds_of_data(room):
    """Edge data of any root, as SUMO wrote them over the years; an interval to SUMO's greatest time ends with the period."""
    edges = {"a": (300.0, 10.0, ""), "b": (200.0, 10.0, "")}
    put(room, "town.net.xml", net(edges, [("a", "b")]))
    whole = data([(0, 60, {"a": 'speed="5"'}), (60, 120, {"a": 'speed="2.5"', "b": 'traveltime="100"'})])
    for root in ("meandata", "netstats", "weights", "edgedata", "a"):
        good("sumo", os.path.join(room, "town.net.xml"), os.path.join(room, "town"), "--data", put(room, "data.xml", whole.replace("meandata", root)), "--period", 400)
        yield f"edge data in <{root}>", agree(room, "town", edges, lambda edge, time: searched(edges, [("a", "b")], edge, time, {"a": [(0, 60, 5.0), (60, 120, 2.5)], "b": [(60, 120, 2.0)]}, 400.0), edges, (0, 59, 130, 399)), "all"
    put(room, "ever.xml", data([(60, 9223372036854774.784, {"a": 'speed="2"'})]))
    told = good("sumo", os.path.join(room, "town.net.xml"), os.path.join(room, "town"), "--data", os.path.join(room, "ever.xml"), "--period", 400)
    yield "an interval without an end", agree(room, "town", edges, lambda edge, time: searched(edges, [("a", "b")], edge, time, {"a": [(60, 400, 2.0)]}, 400.0), edges, (0, 50, 61, 390)), "all"
    yield "intervals without an end are told", summary_has(told, "1 intervals without an end"), True


def speeds_of_vehicles(room):
    """Bicycles, buses and the like go at most as fast as in SUMO, and at the speed of an edge's type for them."""
    edges = {"a": (100.0, 30.0, ""), "b": (200.0, 3.0, ""), "c": (50.0, 30.0, "")}
    whole = net(edges, [("a", "b"), ("a", "c")]).replace('<edge id="c"', '<edge id="c" type="path"').replace("<location", '<type id="path"><restriction vClass="bicycle" speed="2.5"/><restriction vClass="bus" speed="8"/></type>\n<location')
    path = put(room, "town.net.xml", whole)
    for vehicle, words, most, limit in (("passenger", [], 1e9, 30.0), ("bicycle", [], 20 / 3.6, 2.5), ("bus", [], 85 / 3.6, 8.0), ("bicycle", ["--max-speed", "4"], 4.0, 2.5), ("bicycle", ["--max-speed", "2"], 2.0, 2.5)):
        told = good("sumo", path, os.path.join(room, "town"), "--vehicle", vehicle, *words)
        driven_at = {edge: (length, min(most, limit if edge == "c" else speed), "") for edge, (length, speed, _) in edges.items()}
        yield f"a {vehicle} {words}", agree(room, "town", driven_at, lambda edge, time: searched(driven_at, [("a", "b"), ("a", "c")], edge, time), driven_at, (0,)), "all"
        yield f"the most of a {vehicle} {words} is told", summary_has(told, f"a {vehicle} goes at most"), vehicle != "passenger" and not words
        yield f"the types of a {vehicle} {words} are told", summary_has(told, "1 edges with a speed for this vehicle by their type"), vehicle != "passenger"


def turns_for_others(room):
    """Connections, and lanes inside junctions, that are closed for the vehicle aren't driven though the edges are open."""
    edges = {edge: (100.0, 10.0, "") for edge in "abcd"}
    inside = '<edge id=":J_0" function="internal"><lane id=":J_0_0" index="0" speed="5" length="10" allow="bus"/></edge>\n'
    whole = net(edges, [("a", "b"), ("a", "c"), ("a", "d")]).replace('to="b" fromLane="0" toLane="0"', 'to="b" fromLane="0" toLane="0" disallow="passenger"').replace('to="c" fromLane="0" toLane="0"', 'to="c" fromLane="0" toLane="0" via=":J_0_0"').replace('<edge id="a"', inside + '<edge id="a"')
    path = put(room, "town.net.xml", whole)
    told = good("sumo", path, os.path.join(room, "town"))
    yield "what is closed for cars", agree(room, "town", edges, lambda edge, time: searched(edges, [("a", "d")], edge, time), edges, (0,)), "all"
    yield "they are told", [summary_has(told, part) for part in ("1 connections that the vehicle may not use (a to b)", "1 connections over lanes inside junctions that the vehicle may not use (a to c)")], [True, True]
    good("sumo", path, os.path.join(room, "town"), "--vehicle", "bus", "--max-speed", "20")
    yield "a bus drives them", agree(room, "town", edges, lambda edge, time: searched(edges, [("a", "b"), ("a", "c"), ("a", "d")], edge, time, inside={("a", "c"): 2.0}), edges, (0,)), "all"


def classes_are_shared(room):
    """Edges with the same pattern of speeds share a class, whatever their lengths and limits."""
    edges = {f"e{number}": (100.0 + number, 10.0 if number % 2 else 20.0, "") for number in range(50)}
    put(room, "town.net.xml", net(edges, []))
    put(room, "data.xml", data([(0, 600, {edge: f'speed="{speed / 4}"' for edge, (_, speed, _) in edges.items()})]))
    told = good("sumo", os.path.join(room, "town.net.xml"), os.path.join(room, "town"), "--data", os.path.join(room, "data.xml"))
    yield "one class for all", summary_has(told, "1 classes of speeds"), True
    yield "edges that lead nowhere are told", summary_has(told, "50 edges that no turn leads out of"), True


def random_networks(room):
    for seed in range(6):
        draw = random.Random(seed)
        edges = {f"e{number}": (float(draw.randint(20, 900)), float(draw.choice([5, 8, 10, 20])), "") for number in range(12)}
        turns = sorted({(draw.choice(list(edges)), draw.choice(list(edges))) for _ in range(24)})
        speeds = {}
        told = []
        for begin in range(0, 600, 120):
            values = {}
            for edge in edges:
                if draw.random() < 0.5:
                    speed = draw.choice([3.0, 4.0, 7.5, 12.0])
                    values[edge] = f'speed="{speed}"'
                    speeds.setdefault(edge, []).append((begin, begin + 120, speed))
            told.append((begin, begin + 120, values))
        put(room, "town.net.xml", net(edges, turns))
        put(room, "data.xml", data(told))
        good("sumo", os.path.join(room, "town.net.xml"), os.path.join(room, "town"), "--data", os.path.join(room, "data.xml"), "--period", 700)
        yield f"random network {seed}", agree(room, "town", edges, lambda edge, time: searched(edges, turns, edge, time, speeds, 700.0), list(edges)[:5], (0, 100, 555, 699), 8), "all"


def example(room):
    """The example: lanes inside the junction, a bus lane, two commands to an answer."""
    folder = os.path.join(ROOT, "examples", "sumo")
    told = good("sumo", os.path.join(folder, "town.net.xml"), os.path.join(room, "town"), "--data", os.path.join(folder, "edgedata.xml"), "--from", "in", "--to", "out", "--to", "back")
    edges = {"in": (200.0, 10.0, ""), "out": (180.0, 20.0, ""), "side": (160.0, 8.0, ""), "back": (320.0, 16.0, "")}
    turns = [("in", "out"), ("in", "side"), ("side", "back")]
    inside = {("in", "out"): 2.0, ("in", "side"): 10 / 5 + 6 / 5}
    speeds = {"in": [(0, 60, 5.0), (60, 120, 2.5)], "out": [(0, 60, 2.0)], "back": [(60, 120, 4.0)]}
    yield "the example", agree(room, "town", edges, lambda edge, time: searched(edges, turns, edge, time, speeds, inside=inside), edges, (0, 30, 50, 100, 400)), "all"
    pairs = engine("pairs", os.path.join(room, "town.gr"), os.path.join(room, "town.p2p"), "--tp", os.path.join(room, "town.tp"))
    yield "the example is answered", (pairs.returncode, pairs.stdout.count(b"d "), b"inf" in pairs.stdout), (0, 2, False)
    yield "lanes for others are told", summary_has(told, "1 connections from or to lanes that the vehicle may not use"), True
    rows = table(room, "town.nodes.csv")
    if there("pyproj"):
        row = next(row for row in rows if row["id"] == "in" and row["use"] == "start")
        yield "degrees", (abs(float(row["longitude"]) - 9.0) < 1e-4, 49.6 < float(row["latitude"]) < 49.7), (True, True)
    else:
        yield "metres without pyproj, and what to install", ("x" in rows[0], summary_has(told, "pip install pyproj")), (True, True)


def hostile(room):
    whole = net(EDGES, TURNS)
    path = put(room, "town.net.xml", whole)
    for name, file, words, part in (
        ("XML cut in the middle", put(room, "cut.net.xml", whole[:len(whole) // 2]), [], "cut off"),
        ("an empty file", put(room, "empty.net.xml", ""), [], "cut off"),
        ("another kind of XML", put(room, "other.net.xml", "<osm/>"), [], "<osm>"),
        ("no edges", put(room, "none.net.xml", HEAD + "</net>"), [], "no edge"),
        ("a speed that is no number", put(room, "speed.net.xml", whole.replace('speed="20.0"', 'speed="quick"')), [], "'quick'"),
        ("a length below 0", put(room, "length.net.xml", whole.replace('length="100.0"', 'length="-5"')), [], "out of range"),
        ("an edge twice", put(room, "twice.net.xml", net({"a": EDGES["a"]}, []).replace("</net>", net({"a": EDGES["a"]}, []).split("/>\n", 1)[1])), [], "twice"),
        ("bytes that aren't gzip", put(room, "x.net.xml.gz", "hello"), [], "x.net.xml.gz"),
        ("a file that isn't there", os.path.join(room, "nowhere.net.xml"), [], "isn't there"),
        ("an edge to start from that isn't there", path, ["--from", "z"], "no such edge"),
        ("data of another kind", path, ["--data", put(room, "d1.xml", "<routes/>")], "no <interval>"),
        ("data of lanes", path, ["--data", put(room, "d7.xml", '<meandata><interval begin="0" end="60"><edge id="a"><lane id="a_0" speed="1"/></edge></interval></meandata>')], "<edgeData>"),
        ("a network as edge data", path, ["--data", path], "no <interval>"),
        ("walkers", path, ["--vehicle", "pedestrian"], "earliest osm --profile foot"),
        ("data without intervals", path, ["--data", put(room, "d2.xml", "<meandata/>")], "no <interval>"),
        ("data of other edges", path, ["--data", put(room, "d3.xml", data([(0, 60, {"q": 'speed="1"'})]))], "no speed of an edge"),
        ("data beyond the period", path, ["--data", put(room, "d4.xml", data([(0, 90000, {"a": 'speed="1"'})]))], "longer --period"),
        ("data from beyond the period on", path, ["--period", "400", "--data", put(room, "d8.xml", data([(400, 9223372036854774.784, {"a": 'speed="1"'})]))], "from 400 to inf, beyond the period of 400"),
        ("intervals that overlap", path, ["--data", put(room, "d5.xml", data([(0, 60, {"a": 'speed="1"'}), (30, 90, {"a": 'speed="2"'})]))], "one id of <interval>"),
        ("an interval that ends before it begins", path, ["--data", put(room, "d6.xml", data([(60, 0, {"a": 'speed="1"'})]))], "begins at"),
        ("a vehicle that nobody knows", put(room, "bus.net.xml", net({"e": EDGES["e"]}, [])), ["--vehicle", "tram"], "no edge that a tram"),
        ("a period of nothing", path, ["--period", "0"], "--period"),
        ("a target without a start", path, ["--to", "a"], "--to needs --from"),
    ):
        *told, reason = refused("sumo", room, file, os.path.join(room, "out"), *words)
        yield f"refused: {name}", (*told, part in reason), (True, True, [], True)
    yield "nothing was written", text(room, "town.net.xml"), whole


CASES = (turns_and_permissions, lanes_inside, intervals, standing_edges, kinds_of_data, speeds_of_vehicles, turns_for_others, classes_are_shared, random_networks, example, hostile)
