"""Nearest nodes, isochrones, and the commands as users call them."""
import json
import math
import os
import random
import re
import subprocess
import sys

from support import PACKAGE, ROOT, distance, engine, good, module, put, ran, refused, table, text, there

import support


def scattered(seed, count, around=None):
    """Places on the Earth: all over it, or around one."""
    draw = random.Random(seed)
    if around:
        return [(around[0] + draw.uniform(-0.05, 0.05), around[1] + draw.uniform(-0.05, 0.05)) for _ in range(count)]
    return [(draw.uniform(-180, 180), math.degrees(math.asin(draw.uniform(-1, 1)))) for _ in range(count)]


def nearest_in_degrees(room):
    """By both trees, beside a look at all nodes: all over the Earth, at the poles and across 180 degrees, in a town, many at one place."""
    Places = module("importing.maps").Places
    for title, points, asked in (
        ("all over the Earth", scattered(1, 700), scattered(2, 60) + [(180, 0), (-180, 0), (0, 90), (50, -90), (179.9999, 10)]),
        ("in a town", scattered(3, 900, (11.3, 44.5)), scattered(4, 60, (11.3, 44.5))),
        ("many at one place", [(8.0, 47.0)] * 9 + [(8.1, 47.0)] * 3, [(8.01, 47.0), (8.09, 47.0), (8.05, 47.0001)]),
    ):
        path = put(room, "x.nodes.csv", "node,id,longitude,latitude\n" + "".join(f"{node},n{node},{x:.7f},{y:.7f}\n" for node, (x, y) in enumerate(points, 1)))
        known = Places.read(path)
        for tree in [False] + [True] * there("scipy"):
            found = [known.nearest(*place, with_scipy=tree) for place in asked]
            wrong = []
            for place, (node, metres) in zip(asked, found):
                least = min(distance(place, (round(x, 7), round(y, 7))) for x, y in points)
                first = min(number for number, (x, y) in enumerate(points, 1) if distance(place, (round(x, 7), round(y, 7))) <= least + 1e-6)
                if abs(metres - least) > 0.001 or node != first:
                    wrong.append((place, node, metres, first, least))
            yield f"nearest {title}, {'scipy' if tree else 'own'} tree", wrong, []


def nearest_command(room):
    """Of the Challenge's coordinates, of an importer's .co and table, west of Greenwich, as sources; `use` of split crossings."""
    co = put(room, "x.co", "c published\np aux sp co 3\nv 1 -73970000 40780000\nv 2 -73960000 40790000\nv 3 -73950000 40780000\n")
    told = ran("nearest", co, "-73.961,40.789", "-73.97,40.78", "--degrees", "--ss", os.path.join(room, "home.ss"))
    yield "nodes with their metres", told.out, f"2 {distance((-73.961, 40.789), (-73.96, 40.79)):.1f}\n1 0.0\n"
    yield "sources", text(room, "home.ss"), "p aux sp ss 2\ns 2\ns 1\n"
    metres = put(room, "m.co", "c coordinate unit: 1/100 metre; made of x\np aux sp co 2\nv 1 0 0\nv 2 30000 40000\n")
    yield "in metres", ran("nearest", metres, "301,400").out, "2 1.0\n"
    split = put(room, "s.nodes.csv", "node,id,longitude,latitude,use\n1,9,8.0,47.0,start\n2,9,8.0,47.0,turn\n3,9,8.0,47.0,end\n4,8,8.1,47.0,both\n")
    yield "a split crossing", (ran("nearest", split, "8.0,47.0").out, ran("nearest", split, "8.0,47.0", "--end").out), ("1 0.0 9\n", "3 0.0 9\n")
    for name, words, part in (
        ("no unit", [put(room, "plain.co", "v 1 5 5\n"), "1,1"], "--degrees"), ("no place", [co, "--degrees", "here"], "'here'"), ("off the Earth", [co, "--degrees", "200,10"], "no place"), ("a file that isn't there", [os.path.join(room, "none.co"), "1,1"], "isn't there"),
        ("no nodes", [put(room, "empty.co", "p aux sp co 0\n"), "1,1", "--degrees"], "no place of a node"), ("a table of another kind", [put(room, "t.csv", "a,b\n1,2\n"), "1,1"], "no columns"), ("a line that is none", [put(room, "l.co", "v 1 x 2\n"), "1,1", "--degrees"], "line 1"),
        ("a coordinate that is none", [put(room, "n.nodes.csv", "node,longitude,latitude\n1,nan,2\n"), "1,1"], "finite"), ("coordinates that are no degrees", [put(room, "far.co", "v 1 999000000 0\n"), "1,1", "--degrees"], "no degrees"), ("nothing asked", [co], "a place is wanted"),
    ):
        *told, reason = refused("nearest", room, *words)
        yield f"refused: {name}", (*told, part in reason), (True, True, [], True)
    yield "a table keeps its network's .tp", _keeps(room, co), True


def _keeps(room, co):
    put(room, "home.tp", "c made of x by python -m earliest\np tp 0 0\n")
    ran("nearest", co, "1,1", "--degrees", "--ss", os.path.join(room, "home.ss"))
    return os.path.exists(os.path.join(room, "home.tp"))


def latest_departures(room):
    """A report of latest departures as nodes, arcs and a picture, beside a plain reading of it; two targets at once count from the later time."""
    points = [(8.0, 47.0), (8.01, 47.0), (8.0, 47.01), (8.01, 47.01)]
    nodes = put(room, "four.nodes.csv", "node,id,longitude,latitude\n" + "".join(f"{node},n{node},{x},{y}\n" for node, (x, y) in enumerate(points, 1)))
    graph = os.path.join(ROOT, "examples", "four-nodes.gr")
    report = put(room, "late", "t 4 6\nd 1 0\nw 1 3 2 3 4\nd 2 5\nw 2 1 4\nd 3 2\nw 3 2 3 4\nd 4 6\nw 4 0\n")
    def written(*words):
        good("isochrones", *words, "--out", os.path.join(room, "drawn"))
        return text(room, "drawn")

    found = json.loads(written(report, nodes, "--write", "nodes"))["features"]
    yield "latest departures of nodes", [(it["properties"]["in_time"], it["properties"]["departure"], it["properties"]["before"]) for it in found], [(True, 0, 6), (True, 5, 1), (True, 2, 4), (True, 6, 0)]
    arcs = json.loads(written(report, nodes, "--graph", graph, "--write", "arcs"))["features"]
    ends, times = [(1, 2), (1, 3), (3, 2), (2, 4), (3, 4)], {1: 0, 2: 5, 3: 2, 4: 6}
    yield "latest departures at the ends of arcs", [(it["properties"]["arc"], it["properties"]["leaves"], it["properties"]["head_leaves"], it["properties"]["on_walk"]) for it in arcs], [
        (number, times[tail], times[head], number in (2, 3, 4)) for number, (tail, head) in enumerate(ends, 1)]
    two = put(room, "two", "t 2 10\nt 3 30\nd 1 29\nd 2 10\nd 3 30\nd 4 none\n")
    found = json.loads(written(two, nodes, "--write", "nodes"))["features"]
    yield "two targets, and a node that is never in time", [(it["properties"]["in_time"], it["properties"]["before"]) for it in found], [(True, 1), (True, 20), (True, 0), (False, None)]
    drawn = written(two, nodes, "--units", "1")
    yield "a picture of latest departures", [it in drawn for it in ("no departure in time", "time before the arrival by 0:00:30", "3 of 4 places are in time")], [True] * 3
    for name, lines, part in (("a departure after the arrival", "t 4 6\nd 1 7\n", "left at 7 in the report, after 6"), ("inf in place of none", "t 4 6\nd 1 inf\n", "a number is wanted"), ("a pair", "t 1 4 6\nd 1 0\n", "not a line of a report")):
        told = ran("isochrones", put(room, "bad", lines), nodes)
        yield f"refused: {name}", (told.status, part in told.err), (1, True)


def town(room):
    """The example town, its report with walks, and what the report says by plain reading."""
    good("osm", os.path.join(ROOT, "examples", "osm", "town.osm"), os.path.join(room, "town"), "--from", "10.0,50.001", "--keep-nodes")
    path = os.path.join(room, "report")
    told = engine("run", os.path.join(room, "town.gr"), os.path.join(room, "town.ss"), "--depart", "2880000", "--walks", "-o", path)
    if told.returncode:
        raise AssertionError(told.stderr)
    arrivals = {}
    for row in text(room, "report").split("\n"):
        fields = row.split()
        if fields[:1] == ["d"]:
            arrivals[int(fields[1])] = None if fields[2] == "inf" else int(fields[2])
    return path, arrivals


def geojson_of_nodes_and_arcs(room):
    report, arrivals = town(room)
    nodes, graph = os.path.join(room, "town.nodes.csv"), os.path.join(room, "town.gr")
    good("isochrones", report, nodes, "--graph", graph, "--write", "nodes", "--out", os.path.join(room, "n.geojson"))
    found = json.loads(text(room, "n.geojson"))["features"]
    rows = [row for row in table(room, "town.nodes.csv")]
    by_id = {}
    for row in rows:
        if row["use"] != "turn":
            by_id.setdefault((row["id"], row["longitude"], row["latitude"]), []).append(arrivals[int(row["node"])])
    wanted = sorted((key[0], float(key[1]), float(key[2]), min((it for it in times if it is not None), default=None)) for key, times in by_id.items())
    yield "a point for each crossing, at its earliest arrival", sorted((it["properties"]["id"], *it["geometry"]["coordinates"], it["properties"]["arrival"]) for it in found), wanted
    yield "in seconds too", [it["properties"]["after_seconds"] == (it["properties"]["arrival"] - 2880000) / 100 for it in found if it["properties"]["reached"]], [True] * sum(it["properties"]["reached"] for it in found)
    told = ran("isochrones", report, nodes, "--graph", graph, "--shapes", os.path.join(room, "town.shapes.csv"), "--write", "arcs", "--out", os.path.join(room, "a.geojson"))
    lines = json.loads(text(room, "a.geojson"))["features"]
    ends = [tuple(map(int, row.split()[1:3])) for row in text(room, "town.gr").split("\n") if row.startswith("a ")]
    at = {int(row["node"]): [float(row["longitude"]), float(row["latitude"])] for row in rows}
    walks = {int(arc) for row in text(room, "report").split("\n") if row.startswith("w ") for arc in row.split()[3:]}
    wanted = {number: (arrivals[tail], arrivals[head], number in walks, at[tail], at[head]) for number, (tail, head) in enumerate(ends, 1) if arrivals[tail] is not None and at[tail] != at[head]}
    yield "arcs with their times", (told.status, {it["properties"]["arc"]: (it["properties"]["leaves"], it["properties"]["head_arrival"], it["properties"]["on_walk"], it["geometry"]["coordinates"][0], it["geometry"]["coordinates"][-1]) for it in lines}), (0, wanted)


def bands(room):
    """Polygons by shapely: each node that is reached lies in the band of its time or of an earlier one; bands don't overlap."""
    report, arrivals = town(room)
    words = (report, os.path.join(room, "town.nodes.csv"), "--graph", os.path.join(room, "town.gr"), "--band", "1000", "--reach", "30", "--write", "bands", "--out", os.path.join(room, "b.geojson"))
    if not there("shapely"):
        *told, reason = refused("isochrones", room, *words)
        yield "without shapely it says what to install", (*told, "pip install shapely" in reason), (True, True, [], True)
        return
    from shapely.geometry import Point, shape
    good("isochrones", *words)
    found = [(it["properties"]["from"], it["properties"]["to"], shape(it["geometry"])) for it in json.loads(text(room, "b.geojson"))["features"]]
    wrong = []
    for row in table(room, "town.nodes.csv"):
        time = arrivals[int(row["node"])]
        inside = [low for low, _, land in found if land.buffer(1e-9).contains(Point(float(row["longitude"]), float(row["latitude"])))]
        if time is not None and (not inside or min(inside) > time - 2880000):
            wrong.append((row["node"], time - 2880000, inside))
    yield "nodes lie in their bands", wrong, []
    yield "bands are valid and apart", (all(land.is_valid for _, _, land in found), max(found[here][2].intersection(found[onto][2]).area for here in range(len(found)) for onto in range(here)) < 1e-12), (True, True)
    last = found[-1][2]
    for _, _, land in found[:-1]:
        last = last.union(land)
    near = 111_195 * math.cos(math.radians(50.001))
    yield "land ends at its reach", abs((last.bounds[0] - 10.0) * near + 30) < 2, True


def boxes_of(svg):
    """The boxes and texts of a legend, as rectangles: a letter is 8 pixels wide."""
    found = []
    for x, y, shown in re.findall(r'<text x="(\d+)" y="(\d+)">([^<]*)</text>', svg):
        found.append((float(x), float(y) - 12, float(x) + 8 * len(shown), float(y) + 3))
    for x, y in re.findall(r'<rect x="(\d+)" y="(\d+)" width="14" height="14"', svg):
        found.append((float(x), float(y), float(x) + 14, float(y) + 14))
    return found


def legends(room):
    """Legends never overlap and stay in the picture, in units that are known and in others; times of any length."""
    for factor in (1, 1000, 10**9, 2**40):
        for told in ("", "c time unit: 1/100 s\n", "c time unit: 1/1 s\n"):
            put(room, "x.gr", told + "p sp 12 11\n" + "".join(f"a {node} {node + 1} 1\n" for node in range(1, 12)))
            put(room, "x.co", "".join(f"v {node} {100 * node} {node % 3}\n" for node in range(1, 13)))
            put(room, "report", f"s 1 {factor}\n" + "".join(f"d {node} {factor * node}\n" for node in range(1, 12)) + "d 12 inf\n")
            for more in ([], ["--band", str(factor)], ["--band", str(max(1, factor // 7))]):
                svg = good("isochrones", os.path.join(room, "report"), os.path.join(room, "x.co"), "--graph", os.path.join(room, "x.gr"), "--out", os.path.join(room, "x.svg"), *more) and text(room, "x.svg")
                boxes, (width, height) = boxes_of(svg), map(float, re.search(r'viewBox="0 0 (\d+) (\d+)"', svg).groups())
                over = [(one, two) for place, one in enumerate(boxes) for two in boxes[:place] if one[0] < two[2] and two[0] < one[2] and one[1] < two[3] and two[1] < one[3]]
                out = [box for box in boxes if box[2] > width or box[3] > height]
                if over or out or len(boxes) < 4:
                    yield f"legend of {factor} {told!r} {more}", (over, out), ([], [])
    shown = re.findall(r'">([^<]*)</text>', svg)
    yield "units are told", any(it.endswith((" h", " s", " min", "more")) for it in shown), True
    yield "the last band has the rest", any("and more" in it for it in shown), True


def pictures(room):
    """The picture of the commuter town: a dot for each node in the colour of its band, grey if it isn't reached; degrees keep the shape."""
    put(room, "report", text(os.path.join(ROOT, "examples"), "commuter.report"))
    svg = good("isochrones", os.path.join(room, "report"), os.path.join(ROOT, "examples", "commuter.co"), "--graph", os.path.join(ROOT, "examples", "commuter.gr"), "--band", "180", "--out", os.path.join(room, "x.svg")) and text(room, "x.svg")
    colours = module("isochrones").COLOURS
    wanted = {}
    for row in text(room, "report").split("\n"):
        if row.startswith("d "):
            band = min((int(row.split()[2]) - 27600) // 180, len(colours) - 1)
            wanted[colours[band]] = wanted.get(colours[band], 0) + 1
    yield "dots by colour", {colour: len(re.findall("<circle", group)) for colour, group in re.findall(r'<g fill="(#\w+)">(.*?)</g>', svg, re.S)}, wanted
    yield "to standard output too", _stdout(room) == svg, True
    put(room, "d.co", "c coordinate unit: 1/1000000 degree\nv 1 10000000 60000000\nv 2 10002000 60000000\nv 3 10000000 60001000\n")
    put(room, "r", "s 1 0\nd 1 0\nd 2 5\nd 3 inf\n")
    svg = good("isochrones", os.path.join(room, "r"), os.path.join(room, "d.co"), "--band", "5", "--out", os.path.join(room, "d.svg")) and text(room, "d.svg")
    dots = {colour: (float(x), float(y)) for colour, x, y in re.findall(r'<g fill="(#\w+)"><circle cx="([\d.]+)" cy="([\d.]+)" r="[\d.]+"/></g>', svg)}
    here, east = dots.pop(colours[0]), dots.pop(colours[1])
    (north,) = dots.values()
    yield "east is on the right, and north above", (east[0] > here[0], east[1] == here[1], north[0] == here[0], north[1] < here[1]), (True,) * 4
    yield "at 60 degrees north a degree of longitude is half as wide", abs((east[0] - here[0]) / (here[1] - north[1]) - 1) < 0.01, True


def roads_in_the_picture(room):
    """Roads that bend beyond all nodes stay in the picture."""
    report, _ = town(room)
    good("osm", os.path.join(ROOT, "examples", "osm", "town.osm"), os.path.join(room, "town"), "--from", "10.0,50.001")
    engine("run", os.path.join(room, "town.gr"), os.path.join(room, "town.ss"), "-o", report)
    good("isochrones", report, os.path.join(room, "town.nodes.csv"), "--graph", os.path.join(room, "town.gr"), "--shapes", os.path.join(room, "town.shapes.csv"), "--out", os.path.join(room, "x.svg"))
    svg = text(room, "x.svg")
    width, height = map(float, re.search(r'viewBox="0 0 (\d+) (\d+)"', svg).groups())
    points = [tuple(map(float, it.split())) for way in re.findall(r'<path d="M([^"]*)"', svg) for it in re.split("[ML]", way)]
    yield "roads stay in the picture", (len(points) > 40, [it for it in points if not (0 <= it[0] <= width and 0 <= it[1] <= height)]), (True, [])


def _stdout(room):
    words = [sys.executable, "-c", f"import sys; sys.path.insert(0, {support.HERE!r}); import support; sys.exit(support.module('isochrones').main(sys.argv[1:]))", os.path.join(room, "report"), os.path.join(ROOT, "examples", "commuter.co"), "--graph", os.path.join(ROOT, "examples", "commuter.gr"), "--band", "180"]
    return subprocess.run(words, stdout=subprocess.PIPE, check=False).stdout.decode()


def hostile(room):
    co = put(room, "x.co", "v 1 1 1\nv 2 2 2\n")
    report = put(room, "r", "s 1 0\nd 1 0\nd 2 inf\n")
    for name, words, part in (
        ("a report that isn't there", [os.path.join(room, "none"), co], "none"), ("a problem that isn't there", [report, co, "--problem", "2"], "no problem 2"), ("a report of pairs", [put(room, "q", "q 1 2 0\nd 2 1\n"), co], "no problem 1"),
        ("no report", [put(room, "t", "s 1 0\nhello\n"), co], "line 2"), ("a number that is none", [put(room, "u", "s 1 x\n"), co], "line 1"), ("GeoJSON of plain numbers", [report, co, "--write", "nodes"], "wants degrees"), ("arcs without a graph", [report, put(room, "d.co", "v 1 1 1\n"), "--degrees", "--write", "arcs"], "--graph"),
        ("a folder to write to that isn't there", [report, co, "--out", os.path.join(room, "no", "x.svg")], "isn't there"), ("shapes of another kind", [report, co, "--shapes", put(room, "s.csv", "arc,points\nx,y\n")], "line 2"), ("an arrival before the departure", [put(room, "early", "s 1 9\nd 1 9\nd 2 5\n"), co], "before the departure"), ("bands below 0", [report, co, "--band", "-1"], "--band"),
    ):
        *told, reason = refused("isochrones", room, *words)
        yield f"refused: {name}", (*told, part in reason), (True, True, [], True)
    yield "one place only", good("isochrones", put(room, "one", "s 1 0\nd 1 0\n"), put(room, "one.co", "v 1 7 7\n"), "--out", os.path.join(room, "one.svg")).status, 0


def as_users_call_them(room):
    """`python -m earliest.osm` and the others, with the library of the engine beside the package."""
    if not os.path.isfile(support.library):
        print(f"{support.library} isn't there: not tested were the commands as `python -m earliest.osm`")
        return
    where = dict(os.environ, PYTHONPATH=os.path.dirname(PACKAGE), EARLIEST_LIBRARY=support.library)
    for name in ("osm", "gtfs", "sumo", "functions", "nearest", "isochrones"):
        told = subprocess.run([sys.executable, "-m", f"earliest.{name}", "--help"], stdout=subprocess.PIPE, stderr=subprocess.PIPE, env=where, check=False)
        yield f"python -m earliest.{name} --help", (told.returncode, told.stdout.decode().startswith(f"usage: earliest {name}"), told.stderr), (0, True, b"")
        told = subprocess.run([sys.executable, "-m", f"earliest.{name}", "nowhere", "x", "y"][: 6 if name in ("gtfs", "isochrones") else 5], stdout=subprocess.PIPE, stderr=subprocess.PIPE, env=where, cwd=room, check=False)
        yield f"python -m earliest.{name} of what isn't there", (told.returncode in (1, 2), told.stdout, b"Traceback" in told.stderr), (True, b"", False)
    told = subprocess.run([sys.executable, "-m", "earliest.osm", os.path.join(ROOT, "examples", "osm", "town.osm"), "town"], stdout=subprocess.PIPE, stderr=subprocess.PIPE, env=where, cwd=room, check=False)
    yield "python -m earliest.osm of the example", (told.returncode, told.stderr, b"written: town" in told.stdout, os.path.exists(os.path.join(room, "town.gr"))), (0, b"", True, True)


CASES = (nearest_in_degrees, nearest_command, geojson_of_nodes_and_arcs, bands, legends, pictures, roads_in_the_picture, latest_departures, hostile, as_users_call_them)
