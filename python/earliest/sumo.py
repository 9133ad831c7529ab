"""A network of a SUMO network (.net.xml), with the speeds of edge data by intervals.

    python3 -m earliest.sumo town.net.xml town --data edgedata.xml --from edge1 --to edge9

writes town.gr, town.tp (with --data), town.co, town.nodes.csv and town.arcs.csv, and with --from and --to town.ss and town.p2p. Each edge
has two nodes, one at its start and one at its end: an arc leads along the edge, and one from its end to the start of each edge
that its connections allow to turn to. So a walk keeps to the turns of the network. Who starts on an edge starts at its start, and who goes
to an edge goes to its end.
"""
import math
import sys

from .importing import writing
from .importing.telling import Refused, Summary, ended
from .importing.xml_reading import elements


TOP_SPEEDS = {"bicycle": 20, "moped": 45, "tram": 80, "bus": 85, "coach": 100, "rail_urban": 100, "truck": 130, "trailer": 130, "rail": 160}
"""The most that classes of vehicles go if nobody says otherwise, in km/h, as in SUMO's own defaults of vehicle types. Others keep to the lanes'."""


def number_of(element, key, path, least=0.0):
    text = element.get(key)
    try:
        value = float(text)
    except (TypeError, ValueError):
        raise Refused(f"{path}: a number is wanted for {key} of a <{element.tag}>, not {text!r}") from None
    if not (value >= least and math.isfinite(value)):
        raise Refused(f"{path}: {key} of a <{element.tag}> is {text}, out of range")
    return value


def opened(element, vehicle):
    """Whether `allow` and `disallow` of a lane or connection let a vehicle pass; of both `allow` decides."""
    allow, disallow = element.get("allow"), element.get("disallow")
    if allow is not None:
        return vehicle in allow.split() or allow == "all"
    return disallow is None or (vehicle not in disallow.split() and disallow != "all")


class Lane:
    __slots__ = ("speed", "length", "open", "shape")

    def __init__(self, element, vehicle, path):
        self.speed, self.length = number_of(element, "speed", path), number_of(element, "length", path)
        self.open = opened(element, vehicle)
        self.shape = element.get("shape", "")


class Town:
    """The edges and turns of a network that a class of vehicle may use."""

    def __init__(self, path, vehicle, most, summary):
        self.path, self.most, self.summary = path, most, summary
        self.edges, self.lanes, self.inner = {}, {}, {}  # id: lanes; (edge, lane): Lane; lane id: Lane
        self.turns, self.onward = {}, {}
        self.limits = {}  # type of edge: its speed for the vehicle
        self.projection = None
        connections = []
        for element in elements(path, "net", ("location", "type", "edge", "connection")):
            if element.tag == "location":
                self.projection = element.get("netOffset", "0,0"), element.get("projParameter", "!")
            elif element.tag == "type":
                self.limits.update((element.get("id"), number_of(it, "speed", path)) for it in element.iter("restriction") if it.get("vClass") == vehicle)
            elif element.tag == "edge":
                self._edge(element, vehicle)
            elif opened(element, vehicle):
                connections.append(tuple(element.get(key) for key in ("from", "to", "fromLane", "toLane", "via")))
            else:
                summary.leave("connections that the vehicle may not use", f"{element.get('from')} to {element.get('to')}")
        if not self.edges:
            raise Refused(f"{path} has no edge that a {vehicle} may use{summary.reasons()}")
        for start, end, lane, onto, via in connections:
            self._connection(start, end, lane, onto, via)
        self._inside()

    def _edge(self, element, vehicle):
        number, function = element.get("id"), element.get("function", "normal")
        if number is None:
            raise Refused(f"{self.path}: an <edge> has no id")
        lanes = [(it.get("index", str(place)), it.get("id"), Lane(it, vehicle, self.path)) for place, it in enumerate(element.iter("lane"))]
        limit = self.limits.get(element.get("type"))
        if limit is not None:
            self.summary.take("edges with a speed for this vehicle by their type")
            for _, _, lane in lanes:
                lane.speed = limit
        if function == "internal":
            for index, name, lane in lanes:
                self.inner[name] = (number, index, lane)
            return
        if function not in ("normal", "connector"):
            self.summary.leave(f"edges of the function {function}", number)
            return
        usable = [(index, lane) for index, _, lane in lanes if lane.open and lane.speed > 0]
        if not usable:
            self.summary.leave("edges without a lane that the vehicle may use" if lanes else "edges without lanes", number)
            return
        if number in self.edges:
            raise Refused(f"{self.path}: the edge {number!r} is there twice")
        best = max((lane for _, lane in usable), key=lambda it: it.speed)
        self.edges[number] = (best.length, min(best.speed, self.most), element.get("shape") or best.shape)
        for index, lane in usable:
            self.lanes[number, index] = lane

    def _connection(self, start, end, lane, onto, via):
        if start is None or end is None:
            raise Refused(f"{self.path}: a <connection> has no from or no to")
        if start.startswith(":"):
            self.onward[start, lane, end] = via
            return
        if start not in self.edges or end not in self.edges:
            self.summary.leave("connections from or to edges that aren't taken")
            return
        if (start, lane) not in self.lanes or (end, onto) not in self.lanes:
            self.summary.leave("connections from or to lanes that the vehicle may not use", f"{start} to {end}")
            return
        if via in self.inner and not self.inner[via][2].open:
            self.summary.leave("connections over lanes inside junctions that the vehicle may not use", f"{start} to {end}")
            return
        self.turns.setdefault((start, end), []).append(via)

    def _inside(self):
        """The seconds and metres of each turn: over the lanes inside the junction, by the quickest connection."""
        for (start, end), ways in self.turns.items():
            self.turns[start, end] = min(self._crossed(end, via) for via in ways)

    def _crossed(self, end, via):
        seconds = metres = 0.0
        seen = set()
        while via and via not in seen:
            seen.add(via)
            if via not in self.inner:
                self.summary.leave("lanes inside junctions that the file doesn't have, taken as no way", via)
                break
            edge, index, lane = self.inner[via]
            if lane.speed > 0:
                seconds += lane.length / min(lane.speed, self.most)
            metres += lane.length
            via = self.onward.get((edge, index, end))
        return seconds, metres

    def leave(self, number, why):
        """Leaves out an edge with its turns."""
        self.summary.leave(why, number)
        del self.edges[number]
        self.turns = {ends: it for ends, it in self.turns.items() if number not in ends}

    def places(self):
        """For each edge its two ends, in degrees if the projection is known and pyproj is there, else in metres; and whether in degrees."""
        offset, told = self.projection or ("0,0", "!")
        change = None
        if told not in ("!", "-"):
            try:
                import pyproj
                change = pyproj.Transformer.from_crs(pyproj.CRS.from_proj4(told), "EPSG:4326", always_xy=True).transform
            except ImportError:
                self.summary.note("pyproj isn't there, so coordinates are in metres of the network; `pip install pyproj` or `apt-get install python3-pyproj` gives degrees")
            except Exception as fault:  # pyproj has errors of its own for each way a text may be wrong
                self.summary.note(f"the projection {told!r} can't be used ({fault}), so coordinates are in metres of the network")
        else:
            self.summary.note("the network has no projection, so coordinates are in metres")
        try:
            east, north = (float(part) for part in offset.split(","))
        except ValueError:
            raise Refused(f"{self.path}: netOffset is {offset!r}, and two numbers are wanted") from None
        found = {}
        for number, (_, _, shape) in self.edges.items():
            points = []
            for text in (shape.split()[:1] + shape.split()[-1:]) if shape else ():
                try:
                    x, y = (float(part) for part in text.split(",")[:2])
                except ValueError:
                    raise Refused(f"{self.path}: the shape of edge {number!r} has {text!r}, and x,y is wanted") from None
                points.append(change(x - east, y - north) if change else (x, y))
            found[number] = points if points and all(math.isfinite(part) for point in points for part in point) else [(None, None)] * 2
        return found, change is not None


class Speeds:
    """Speeds by intervals, of edge data with `traveltime` or `speed`."""

    def __init__(self, paths, town, summary):
        self.speeds, self.lanes = {}, False
        for path in paths:
            begin = end = None
            for element in elements(path, None, ("interval",)):
                begin, end = number_of(element, "begin", path), number_of(element, "end", path)
                if end <= begin:
                    raise Refused(f"{path}: an interval begins at {begin:g} and ends at {end:g}")
                if end > writing.MOST_PERIOD:  # SUMO's greatest time
                    summary.take("intervals without an end, taken until the end of the period")
                    end = math.inf
                self._interval(path, element, begin, end, town, summary)
            if begin is None:
                raise Refused(f"{path} has no <interval>")
        if not self.speeds:
            raise Refused(f"{', '.join(paths)} has no speed of an edge of the network{'; values of lanes are not taken, SUMO writes those of edges by <edgeData>' if self.lanes else ''}")

    def _interval(self, path, element, begin, end, town, summary):
        summary.take("intervals of edge data")
        for edge in element.iter("edge"):
            number = edge.get("id")
            if number not in town.edges:
                summary.leave("values of edge data for edges that aren't taken", number)
                continue
            length = town.edges[number][0]
            if edge.get("traveltime") is not None:
                speed = length / max(number_of(edge, "traveltime", path), 0.001)
            elif edge.get("speed") is not None:
                speed = number_of(edge, "speed", path)
            else:
                self.lanes = self.lanes or edge.find("lane") is not None
                summary.leave("values of edge data without traveltime and speed: the edge is free then", number)
                continue
            summary.take("speeds of edges in intervals" if speed > 0 else "intervals in which an edge stands still (speed 0)")
            self.speeds.setdefault(number, []).append((begin, end, speed))

    def standing(self, town, period):
        """The edges that stand still all day."""
        return [number for number in self.speeds if not any(speed for _, speed in self.steps(number, town.edges[number][1], period))]

    def steps(self, number, free, period):
        """(time in seconds, speed) of an edge from 0 on: its data in their intervals, free speed outside them."""
        marks = {0.0: free}
        found = sorted(self.speeds.get(number, ()))
        for place, (begin, end, speed) in enumerate(found):
            if place and begin < found[place - 1][1]:
                raise Refused(f"the edge data have two intervals at {begin:g} for edge {number!r}; give those of one kind (one id of <interval>)")
            if period < end < math.inf or begin >= period:
                raise Refused(f"the edge data have an interval from {begin:g} to {end:g}, beyond the period of {period:g} seconds; give a longer --period")
            marks[begin] = speed
            if end < period:
                marks.setdefault(end, free)
        steps = sorted(marks.items())
        return [step for place, step in enumerate(steps) if not place or step[1] != steps[place - 1][1]]


def pattern(steps, per_second, rounding):
    """Steps in units of time and thousandths of the least speed above 0, and that speed. A weight is the time at the least speed, so the
    thousandths have at least four digits."""
    if rounding:
        grid = math.log1p(rounding / 100)
        steps = [(time, math.exp(round(math.log(speed) / grid) * grid) if speed else 0.0) for time, speed in steps]
    least = max(min(speed for _, speed in steps if speed), max(speed for _, speed in steps) / 1000)
    found = {}
    for time, speed in steps:
        found[int(time * per_second + 0.5)] = max(1, round(1000 * speed / least)) if speed else 0
    rows = sorted(found.items())
    return [row for place, row in enumerate(rows) if not place or row[1] != rows[place - 1][1]], least


class Files:
    """Writes a town: node N is the start of edge N of those in order, and N plus their number its end."""

    def __init__(self, out, path, town, per_second, summary):
        self.out, self.path, self.town, self.per_second, self.summary = out, path, town, per_second, summary
        self.numbers = {edge: place for place, edge in enumerate(sorted(town.edges), 1)}
        self.edges, self.turns = len(self.numbers), len(town.turns)
        writing.limits_kept(2 * self.edges, self.edges + self.turns)
        self.classes, self.class_of = writing.Classes(), {}

    def nodes(self):
        places, degrees = self.town.places()
        rows, ends = self.out.table(".nodes.csv", ("node", "id", *(("longitude", "latitude") if degrees else ("x", "y")), "use")), []
        for place, use in enumerate(("start", "end")):
            for edge, number in self.numbers.items():
                ends.append(places[edge][place])
                rows.writerow((number + place * self.edges, edge, *("" if part is None else f"{part:.7f}" if degrees else f"{part:.2f}" for part in ends[-1]), use))
        writing.write_coordinates(self.out.file(".co"), lambda: ((node, *place) for node, place in enumerate(ends, 1)), degrees, self.path)

    def arcs(self, speeds, period, rounding):
        graph, table = self.out.file(".gr"), self.out.table(".arcs.csv", ("arc", "way", "from", "to", "length"))
        graph.write(writing.unit_comment(self.per_second, self.path) + f"p sp {2 * self.edges} {self.edges + self.turns}\n")
        for edge, number in self.numbers.items():
            length, free, _ = self.town.edges[edge]
            if speeds and edge in speeds.speeds:
                free = self._class(number, speeds.steps(edge, free, period), period, rounding)
            graph.write(f"a {number} {number + self.edges} {writing.weight_of(length / free, self.per_second, f'edge {edge}')}\n")
            table.writerow((number, edge, edge, edge, f"{length:.2f}"))
        for place, ((start, end), (seconds, metres)) in enumerate(sorted(self.town.turns.items()), self.edges + 1):
            graph.write(f"a {self.numbers[start] + self.edges} {self.numbers[end]} {writing.weight_of(seconds, self.per_second, 'a turn')}\n")
            table.writerow((place, "", start, end, f"{metres:.2f}"))

    def _class(self, number, steps, period, rounding):
        """Gives an edge its class of speeds, and returns the speed that its weight is for."""
        steps, base = pattern(steps, self.per_second, rounding)
        if len(steps) == 1:
            return base * steps[0][1] / 1000
        self.class_of[number] = self.classes.number("speeds", int(period * self.per_second), steps)
        return base

    def timetables(self, period, rounding):
        self.classes.checked("round the speeds with --rounding, or take longer intervals")
        self.classes.write(self.out.file(".tp"), lambda: sorted(self.class_of.items()), self.path)
        self.summary.take("classes of speeds", len(self.classes))
        self.summary.note(f"outside the intervals, and where the data have no value, edges are free; the day repeats after {period:g} seconds")
        if rounding:
            self.summary.note(f"speeds are rounded to steps of {rounding:g} per cent")

    def starts(self, starts, goals, vehicle):
        for which, texts in (("--from", starts), ("--to", goals)):
            for edge in texts:
                if edge not in self.numbers:
                    raise Refused(f"{which} {edge}: there is no such edge that a {vehicle} may use")
        writing.write_starts(self.out, [self.numbers[edge] for edge in starts], [self.numbers[edge] + self.edges for edge in goals])

    def tell(self):
        self.summary.take("edges", self.edges)
        self.summary.take("turns", self.turns)
        self.summary.take("nodes", 2 * self.edges)
        self.summary.take("arcs", self.edges + self.turns)
        self.summary.leave("edges that no turn leads out of", count=len(set(self.numbers) - {start for start, _ in self.town.turns}))
        self.summary.note("traffic lights, priority and queues at junctions take no time, but what the edge data have of them; SUMO's router adds 1.5 seconds where one has to yield (--weights.minor-penalty)")


def convert(path, name, data=(), vehicle="passenger", most=None, unit="hundredths", period=86_400, rounding=0.0, starts=(), goals=()):
    """Writes the network of a SUMO network and returns its summary. `most` is in metres per second; None takes that of TOP_SPEEDS."""
    summary = Summary()
    if vehicle == "pedestrian":
        raise Refused("walkers go both ways along an edge and over crossings, which networks of edges and turns don't have; `earliest osm --profile foot` makes a network for them")
    if most is None:
        most = TOP_SPEEDS[vehicle] / 3.6 if vehicle in TOP_SPEEDS else math.inf
        if vehicle in TOP_SPEEDS:
            summary.note(f"a {vehicle} goes at most {TOP_SPEEDS[vehicle]} km/h, as in SUMO; --max-speed says otherwise")
    with writing.Outputs(name) as out:
        town = Town(path, vehicle, most, summary)
        speeds = Speeds(data, town, summary) if data else None
        for edge in speeds.standing(town, period) if speeds else ():
            town.leave(edge, "edges that stand still all day by the edge data")
        files = Files(out, path, town, writing.UNITS[unit], summary)
        files.nodes()
        files.arcs(speeds, period, rounding)
        if speeds:
            files.timetables(period, rounding)
        files.starts(starts, goals, vehicle)
        files.tell()
    summary.notes += out.notes
    return summary, out.names()


def command(words):
    asked = writing.Words(__doc__, "sumo")
    asked.add_argument("net", help="the network: .net.xml or .net.xml.gz")
    asked.add_argument("name", help="NAME of the files that are written")
    asked.add_argument("--data", action="append", default=[], metavar="FILE", help="edge data by intervals (meandata), with `traveltime` or `speed`; may be given several times")
    asked.add_argument("--vehicle", default="passenger", help="the class of vehicle (default: passenger)")
    asked.add_argument("--max-speed", type=float, metavar="M/S", help="the most that the vehicle goes (default: as in SUMO for bicycles, buses, trucks, trains, else no limit)")
    asked.add_argument("--period", type=int, default=86_400, metavar="SECONDS", help="after how many seconds the edge data repeat (default: 86400)")
    asked.add_argument("--rounding", type=float, default=0.0, metavar="PERCENT", help="round speeds to steps of so many per cent, so that more edges share a class (default: 0)")
    writing.add_unit(asked)
    asked.add_argument("--from", dest="starts", metavar="EDGE", action="append", default=[], help="an edge to start from, for NAME.ss; may be given several times")
    asked.add_argument("--to", dest="goals", metavar="EDGE", action="append", default=[], help="an edge to go to, for NAME.p2p with --from")
    given = asked.parse_args(words)
    if given.goals and not given.starts:
        asked.error("--to needs --from")
    if not (given.max_speed is None or given.max_speed > 0) or not 0 <= given.rounding <= 100 or not 1 <= given.period * writing.UNITS[given.unit] <= writing.MOST_PERIOD:
        asked.error("--max-speed is above 0, --rounding 0 to 100, and --period at least 1 and within the format's limit")
    summary, files = convert(given.net, given.name, given.data, given.vehicle, given.max_speed, given.unit, given.period, given.rounding, given.starts, given.goals)
    summary.tell()
    print("written: " + ", ".join(files))
    return 0


def main(words=None):
    return ended("sumo", command, words)


if __name__ == "__main__":
    sys.exit(main(sys.argv[1:]))
