"""A map of the arrivals of a report: a picture in SVG, or GeoJSON of nodes, of arcs with their times, or of bands as polygons.

    python3 -m earliest.isochrones REPORT CO [--graph GR] [--problem K] [--band T] [--out FILE]
    python3 -m earliest.isochrones report town.nodes.csv --graph town.gr --shapes town.shapes.csv --write arcs --out town.geojson

REPORT is a report of `earliest run`; CO a coordinates file of the 9th DIMACS Challenge (`v NODE X Y`) or the NAME.nodes.csv of an importer.
A colour tells how long after the source's departure a node is reached, in bands of T time units; a node that isn't reached is grey. Of a report
of latest departures (`--arrive`) it tells how long before the target's time a node has to be left. With
--graph the roads are drawn too, and the unit of time is taken from the graph's first comment. If the report has walks, the roads that they
take stand out: they are the tree of shortest paths. --problem K takes the K-th problem of the report (from 1). The map goes to FILE, or to
standard output.

--html FILE writes a page instead that can be mailed: the map with hover and legend, in one file.

Coordinates of a .co are plain numbers unless its first comment, --degrees or --metres says otherwise. GeoJSON wants degrees. Bands want
shapely.
"""
import csv
import json
import math
import os
import statistics
import sys

from .importing import writing
from .importing.maps import Places
from .importing.telling import Refused, ended
from .static_page import page

WIDTH = 900
MARGIN = 24
COLOURS = ["#fde725", "#b5de2b", "#6ece58", "#35b779", "#1f9e89", "#26828e", "#31688e", "#3e4989", "#482878"]
GREY = "#c8c8c8"
LETTER, SWATCH, LINE = 8.0, 19, 20
"""Pixels: the most that a letter of a legend takes on average at 13 px, a box of colour with its gap, and a line of the legend."""
NICE = (1, 2, 5, 10, 15, 30, 60, 120, 180, 300, 600, 900, 1200, 1800, 3600, 7200, 10800, 21600, 43200, 86400)
"""Seconds that a band may have if nobody says how many."""


def fields_of(file):
    """The lines of a text that are neither blank nor comments: the number of each, and its fields."""
    with open(file, encoding="ascii", errors="replace") as text:
        for number, line in enumerate(text, 1):
            fields = line.split()
            if fields and not fields[0].startswith("c"):
                yield number, fields


def numbers(file, number, fields):
    try:
        return [int(field) for field in fields]
    except ValueError:
        raise Refused(f"{file}, line {number}: a number is wanted in {' '.join(fields)!r}") from None


def arcs_of(file):
    """Tail and head of each arc, the first that of arc 1."""
    return [tuple(numbers(file, number, fields[1:3])) for number, fields in fields_of(file) if fields[0] == "a" and len(fields) == 4]


def shapes_of(file):
    """The points along arcs that aren't straight, of a NAME.shapes.csv."""
    found = {}
    with open(file, encoding="utf-8", newline="") as text:
        table = csv.reader(text)
        next(table, None)
        for row in table:
            try:
                values = [float(part) for part in row[1].split()]
                if len(values) < 4 or len(values) % 2 or not all(map(math.isfinite, values)):
                    raise ValueError
                found[int(row[0])] = list(zip(values[::2], values[1::2]))
            except (ValueError, IndexError):
                raise Refused(f"{file}, line {table.line_num}: an arc and its points are wanted") from None
    return found


class Problem:
    """A problem of a report: its sources with their departures, the arrival at each node, and the arcs of all walks. Of latest departures
    (`is_turned`) the sources are the targets with the times by which they have to be reached, and an arrival is a node's departure."""

    def __init__(self):
        self.sources, self.arrivals, self.arcs, self.is_turned = [], {}, set(), False

    @property
    def start(self):
        times = [time for _, time in self.sources]
        return max(times) if self.is_turned else min(times)

    def span(self, times):
        """The time between the start and the first of some arrivals or, turned round, the last of some departures; None if there are none."""
        known = [time for time in times if time is not None]
        if not known:
            return None
        return self.start - max(known) if self.is_turned else min(known) - self.start


def problem_of(file, wanted):
    """One problem of a report, counted from 1. A problem begins with the first `s` or `t` line after a line of another sort."""
    count, before, problem = 0, "", Problem()
    for number, fields in fields_of(file):
        if fields[0] in ("s", "t") and before != fields[0]:
            count += 1
        before = fields[0]
        if count != wanted:
            continue
        if fields[0] in ("s", "t") and len(fields) == 3:
            problem.is_turned = fields[0] == "t"
            problem.sources.append(tuple(numbers(file, number, fields[1:3])))
        elif fields[0] == "d" and len(fields) == 3:
            node = numbers(file, number, fields[1:2])[0]
            problem.arrivals[node] = None if fields[2] == ("none" if problem.is_turned else "inf") else numbers(file, number, fields[2:])[0]
        elif fields[0] == "w":
            problem.arcs.update(numbers(file, number, fields[3:]))
        else:
            raise Refused(f"{file}, line {number}: not a line of a report of `earliest run`: {fields[0]}")
    if not problem.sources:
        raise Refused(f"{file}: there is no problem {wanted}; it has {count}")
    return problem


class Sights:
    """What is drawn: places with the time after the departure at which each is reached, None if it isn't. The nodes of a crossing or stop
    that is split are one place, reached when the first of them is; nodes on board and after a turn aren't places of their own."""

    def __init__(self, problem, known):
        self.known, self.start, self.is_turned = known, problem.start, problem.is_turned
        groups = {}
        for place, node in enumerate(known.nodes):
            if known.uses and known.uses[place] in ("ride", "turn"):
                continue
            key = (known.ids[place], known.points[place]) if known.ids and known.ids[place] else node
            groups.setdefault(key, []).append(place)
        self.rows = []
        for members in groups.values():
            time = problem.span(problem.arrivals.get(known.nodes[place]) for place in members)
            if time is not None and time < 0:
                raise Refused(f"node {known.nodes[members[0]]} is left at {self.start - time} in the report, after {self.start}" if self.is_turned else
                              f"node {known.nodes[members[0]]} is reached at {self.start + time} in the report, before the departure at {self.start}")
            self.rows.append((known.nodes[members[0]], members[0], time))
        self.rows.sort()
        self.longest = max((time for _, _, time in self.rows if time is not None), default=0)

    def band(self, asked, per_second):
        if asked:
            return asked
        if per_second:
            wanted = next((seconds for seconds in NICE if self.longest < seconds * per_second * (len(COLOURS) - 1)), None)
            if wanted:
                return wanted * per_second
        return max(1, -(-(self.longest + 1) // 8))


def span(low, high, per_second):
    """A stretch of time as a legend shows it: from 0 in units that nobody told, else in seconds, minutes or hours."""
    if not per_second:
        return f"from {low}"
    step = high - low
    for name, seconds in (("h", 3600), ("min", 60), ("s", 1)):
        if step % (seconds * per_second) == 0:
            return f"{low // (seconds * per_second)}-{high // (seconds * per_second)} {name}"
    return f"{low / per_second:.2f}-{high / per_second:.2f} s"


class Map:
    """From coordinates to places in the picture, north up. Degrees of longitude are as much shorter as they are at the middle latitude."""

    def __init__(self, known, shapes):
        easts, norths = zip(*known.points, *(point for line in shapes.values() for point in line))
        self.narrow = math.cos(math.radians((min(norths) + max(norths)) / 2)) if known.unit == "degrees" else 1.0
        self.west, self.north = min(easts), max(norths)
        width = (max(easts) - self.west) * self.narrow
        self.scale = (WIDTH - 2 * MARGIN) / max(width, 1e-9 if known.unit == "degrees" else 1)
        height = (self.north - min(norths)) * self.scale
        most = 4 * WIDTH
        if height > most:
            self.scale, height = self.scale * most / height, most
        self.height = height + 2 * MARGIN

    def at(self, place):
        return MARGIN + (place[0] - self.west) * self.narrow * self.scale, MARGIN + (self.north - place[1]) * self.scale


def path(view, lines, colour, width):
    """Lines as one path of the picture."""
    steps = []
    for line in lines:
        points = [view.at(point) for point in line]
        steps.append("M" + "L".join(f"{x:.1f} {y:.1f}" for x, y in points))
    return f'<path d="{"".join(steps)}" stroke="{colour}" stroke-width="{width}" fill="none"/>' if steps else ""


def legend(sights, band, per_second, top):
    """Boxes of colour with their stretches of time, in lines as wide as the picture; and how far down they go."""
    last = min(sights.longest // band, len(COLOURS) - 1)
    entries = []
    for step in range(last + 1):
        more = step == len(COLOURS) - 1 and sights.longest >= (step + 1) * band
        text = span(step * band, (step + 1) * band, per_second)
        entries.append((COLOURS[step], f"{text} and more" if more else text))
    if any(time is None for _, _, time in sights.rows):
        entries.append((GREY, "no departure in time" if sights.is_turned else "not reached"))
    column = max([94.0] + [SWATCH + LETTER * len(text) + 12 for _, text in entries])
    across = max(1, int((WIDTH - 2 * MARGIN) // column))
    lines = []
    for place, (colour, text) in enumerate(entries):
        x, y = MARGIN + column * (place % across), top + LINE * (place // across)
        lines.append(f'<rect x="{x:.0f}" y="{y:.0f}" width="14" height="14" fill="{colour}"/><text x="{x + SWATCH:.0f}" y="{y + 12:.0f}">{text}</text>')
    return lines, top + LINE * -(-len(entries) // across)


def radius_of(view, count, roads):
    """The radius of dots: as large as this many places leave room for, and at most half a usual road."""
    radius = 0.36 * ((WIDTH - 2 * MARGIN) * view.height / max(count, 1)) ** 0.5
    lengths = sorted(length for length in (math.dist(view.at(tail), view.at(head)) for tail, head in roads) if length)
    if lengths:
        radius = min(radius, 0.5 * lengths[len(lengths) // 2])
    return max(1.0, min(9.0, radius))


def draw(problem, known, arcs, shapes, band, per_second=None):
    """The picture."""
    sights = Sights(problem, known)
    band = sights.band(band, per_second)
    view = Map(known, shapes)
    at = dict(zip(known.nodes, known.points))
    radius = radius_of(view, len(sights.rows), [(at[tail], at[head]) for tail, head in arcs or () if tail in at and head in at])
    told, bottom = legend(sights, band, per_second, view.height + 8)
    height = bottom + 26
    lines = [f'<svg xmlns="http://www.w3.org/2000/svg" viewBox="0 0 {WIDTH} {height:.0f}" font-family="sans-serif" font-size="13">',
             f'<rect width="{WIDTH}" height="{height:.0f}" fill="#ffffff"/>']
    if arcs:
        lines.append(path(view, (line_of(number, *ends, at, shapes) for number, ends in enumerate(arcs, 1) if ends[0] in at and ends[1] in at), "#d9d9d9", 1))
    dots = {}
    for _, place, time in sights.rows:
        shade = GREY if time is None else COLOURS[min(time // band, len(COLOURS) - 1)]
        dots.setdefault(shade, []).append(view.at(known.points[place]))
    for shade, places in sorted(dots.items()):
        circles = "".join(f'<circle cx="{x:.1f}" cy="{y:.1f}" r="{radius:.1f}"/>' for x, y in places)
        lines.append(f'<g fill="{shade}">{circles}</g>')
    if arcs and problem.arcs:
        taken = [(number, *arcs[number - 1]) for number in sorted(problem.arcs) if 0 < number <= len(arcs)]
        lines.append(path(view, (line_of(*arc, at, shapes) for arc in taken if arc[1] in at and arc[2] in at), "#222222", 1.2))
    for node, _ in problem.sources:
        if node in at:
            x, y = view.at(at[node])
            lines.append(f'<circle cx="{x:.1f}" cy="{y:.1f}" r="{radius + 4:.1f}" fill="none" stroke="#d62728" stroke-width="3"/>')
    lines += told
    reached = sum(1 for _, _, time in sights.rows if time is not None)
    lines.append(f'<text x="{MARGIN}" y="{bottom + 12:.0f}" fill="#555555">{told_start(sights, per_second)}; {reached} of {len(sights.rows)} places are {"in time" if sights.is_turned else "reached"}</text>')
    lines.append("</svg>")
    return "\n".join(line for line in lines if line) + "\n"


def told_start(sights, per_second):
    """What the colours count from."""
    if per_second:
        return f"{'time before the arrival by' if sights.is_turned else 'departure at'} {clock(sights.start, per_second)}"
    return f"time {'before the arrival by' if sights.is_turned else 'since the departure at'} {sights.start}, in the unit of the network"


def clock(time, per_second):
    seconds = time // per_second
    return f"{seconds // 3600}:{seconds // 60 % 60:02}:{seconds % 60:02}"


def line_of(number, tail, head, at, shapes):
    return shapes.get(number) or [at[tail], at[head]]


def feature(kind, coordinates, **properties):
    return {"type": "Feature", "geometry": {"type": kind, "coordinates": coordinates}, "properties": properties}


def times(prefix, time, per_second):
    """A time as properties: in units, and in seconds if the unit is known."""
    found = {prefix: time}
    if per_second:
        found[prefix + "_seconds"] = None if time is None else time / per_second
    return found


def node_features(problem, known, per_second):
    sights = Sights(problem, known)
    for node, place, time in sights.rows:
        x, y = known.points[place]
        names = ("departure", "before") if sights.is_turned else ("arrival", "after")
        at = None if time is None else sights.start - time if sights.is_turned else sights.start + time
        yield feature("Point", [round(x, 7), round(y, 7)], node=node, **({"id": known.ids[place]} if known.ids else {}),
                      **{"in_time" if sights.is_turned else "reached": time is not None}, **times(names[0], at, per_second), **times(names[1], time, per_second))


def arc_features(problem, known, arcs, shapes, per_second):
    """Arcs that can be left: when at the earliest, and when their head is reached (maybe over others). Of latest departures: when their ends
    have to be left."""
    at = dict(zip(known.nodes, known.points))
    for number, (tail, head) in enumerate(arcs, 1):
        leaves, arrives = problem.arrivals.get(tail), problem.arrivals.get(head)
        if leaves is None or tail not in at or head not in at:
            continue
        line = line_of(number, tail, head, at, shapes)
        if len(line) == 2 and line[0] == line[1]:
            continue
        yield feature("LineString", [[round(x, 7), round(y, 7)] for x, y in line], arc=number, on_walk=number in problem.arcs,
                      **times("leaves", leaves, per_second), **times("head_leaves" if problem.is_turned else "head_arrival", arrives, per_second))


def band_features(problem, known, arcs, shapes, band, reach, per_second):
    """For each band the land within so many metres of what is reached in it, without that of the bands before."""
    try:
        from shapely.geometry import LineString, Point, mapping
        from shapely.ops import transform, unary_union
    except ImportError:
        raise Refused("bands as polygons want shapely; install it by `pip install shapely` or `apt-get install python3-shapely`") from None
    sights = Sights(problem, known)
    band = sights.band(band, per_second)
    middle = (min(y for _, y in known.points) + max(y for _, y in known.points)) / 2
    north = math.radians(1) * 6_371_008.8
    east = north * math.cos(math.radians(middle))
    at = dict(zip(known.nodes, known.points))

    def local(points):
        return [(x * east, y * north) for x, y in points]

    ways = {}
    for number, (tail, head) in enumerate(arcs, 1):
        leaves, arrives = problem.arrivals.get(tail), problem.arrivals.get(head)
        if leaves is None or arrives is None or tail not in at or head not in at:
            continue
        line = local(line_of(number, tail, head, at, shapes))
        if line[0] != line[-1] or len(line) > 2:
            key = min(tuple(line), tuple(reversed(line)))  # the two directions of a road are one line
            far = sights.start - min(leaves, arrives) if sights.is_turned else max(leaves, arrives) - sights.start
            ways[key] = min(ways.get(key, math.inf), far)
    lines = [(time, LineString(line)) for line, time in ways.items()]
    if reach is None:
        reach = max(20.0, statistics.median(line.length for _, line in lines) / 2) if lines else 150.0
    before = None
    for step in range(sights.longest // band + 1):
        low, high = step * band, (step + 1) * band
        parts = [Point(local([known.points[place]])[0]).buffer(reach, 6) for _, place, time in sights.rows if time is not None and low <= time < high]
        parts += [line.buffer(reach, 4) for time, line in lines if low <= time < high]
        if not parts:
            continue
        whole = unary_union(parts)
        ring = whole.difference(before) if before is not None else whole
        before = whole if before is None else before.union(whole)
        if ring.is_empty:
            continue
        shape = mapping(transform(lambda x, y: (x / east, y / north), ring))
        yield {"type": "Feature", "geometry": shape, "properties": {**times("from", low, per_second), **times("to", high, per_second), "colour": COLOURS[min(step, len(COLOURS) - 1)]}}


def written(out, parts):
    """Writes a text to a file, whole or not at all, or to standard output."""
    if out is None or (os.path.exists(out) and not os.path.isfile(out)):
        if out is not None and os.path.isdir(out):
            raise Refused(f"{out} is a folder")
        with (open(out, "w", encoding="utf-8") if out else os.fdopen(os.dup(sys.stdout.fileno()), "w", encoding="utf-8")) as file:
            file.writelines(parts)
        return
    with writing.Outputs(out, network=False) as files:
        files.file("").writelines(parts)


def collection(features):
    yield '{"type": "FeatureCollection", "features": ['
    for place, it in enumerate(features):
        yield (",\n" if place else "\n") + json.dumps(it)
    yield "\n]}\n"


def command(words):
    asked = writing.Words(__doc__, "isochrones")
    asked.add_argument("report")
    asked.add_argument("co", help="a .co, or the NAME.nodes.csv of an importer")
    asked.add_argument("--graph", help="the .gr, for roads and the unit of time")
    asked.add_argument("--shapes", help="the NAME.shapes.csv of an importer: roads as they bend")
    asked.add_argument("--problem", type=int, default=1)
    asked.add_argument("--band", type=int, default=0, help="time units of a colour (default: chosen)")
    asked.add_argument("--units", type=int, metavar="N", help="how many time units a second has (default: as the graph's first comment tells)")
    asked.add_argument("--write", choices=("svg", "nodes", "arcs", "bands"), default="svg", help="a picture, or GeoJSON (default: svg)")
    asked.add_argument("--reach", type=float, metavar="METRES", help="how far from a road or node the land of a band goes (default: half a usual arc)")
    unit = asked.add_mutually_exclusive_group()
    unit.add_argument("--degrees", action="store_const", const="degrees", dest="unit", help="the .co is in millionths of a degree, as those of the 9th DIMACS Challenge")
    unit.add_argument("--metres", action="store_const", const="metres", dest="unit", help="the .co is in metres")
    asked.add_argument("--out")
    asked.add_argument("--html", metavar="FILE", help="write a page with a map, hover and legend, that needs no other file")
    given = asked.parse_args(words)
    if given.band < 0 or (given.units is not None and given.units < 1) or (given.reach is not None and not 0 < given.reach < 1e6):
        asked.error("--band is at least 0, --units at least 1, and --reach above 0")
    problem, known = problem_of(given.report, given.problem), Places.read(given.co, given.unit)
    per_second = given.units or (writing.unit_of(given.graph) if given.graph else None)
    arcs, shapes = arcs_of(given.graph) if given.graph else [], shapes_of(given.shapes) if given.shapes else {}
    if given.html:
        written(given.html, [page(known, arcs, problem, per_second)])
        return 0
    if given.write != "svg" and known.unit != "degrees":
        raise Refused(f"GeoJSON wants degrees, and {given.co} is " + ("in metres" if known.unit == "metres" else "in plain numbers; give --degrees if it is in millionths of a degree"))
    if given.write == "arcs" and not arcs:
        raise Refused("--write arcs wants --graph, and a graph with arcs")
    if given.write == "svg":
        written(given.out, [draw(problem, known, arcs, shapes, given.band, per_second)])
    elif given.write == "nodes":
        written(given.out, collection(node_features(problem, known, per_second)))
    elif given.write == "arcs":
        written(given.out, collection(arc_features(problem, known, arcs, shapes, per_second)))
    else:
        written(given.out, collection(band_features(problem, known, arcs, shapes, given.band, given.reach, per_second)))
    return 0


def main(words=None):
    return ended("isochrones", command, words)


if __name__ == "__main__":
    sys.exit(main(sys.argv[1:]))
