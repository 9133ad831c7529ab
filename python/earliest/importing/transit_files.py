"""The files of a transit network: stops, rides, walks, streets."""
import os
import re
from array import array

from . import geography, writing
from .grouping import grouped
from .kinds import RIDE, STREET, WALK
from .maps import Places
from .telling import Refused
from .timetable import kept_rides

ADVICE = "take fewer days, fewer routes (--routes, --types) or a part of the stops (--box)"
USUAL_LINK = 500
"""Metres within which stops are linked to streets if nobody says how many."""


class Streets:
    """A network of streets, as `earliest osm --profile foot` writes it, to be joined in."""

    def __init__(self, name, per_second):
        self.name = name
        for end in (".gr", ".nodes.csv"):
            if not os.path.isfile(name + end):
                raise Refused(f"{name}{end} isn't there: --streets wants the NAME of a network that `earliest osm` has written")
        if writing.unit_of(name + ".gr") != per_second:
            raise Refused(f"{name}.gr has another unit than --unit; import it again with this one")
        known = Places.read(name + ".nodes.csv")
        if known.unit != "degrees" or known.nodes != list(range(1, len(known.nodes) + 1)):
            raise Refused(f"{name}.nodes.csv isn't a table of all nodes with longitudes and latitudes, as `earliest osm` writes it")
        self.nodes = [(number, *place, use) for number, place, use in zip(known.ids, known.points, known.uses)]
        self.trees = {use: self._tree(use) for use in ("start", "end")}
        self.count = sum(1 for _ in self.arcs())

    def _tree(self, use):
        nodes = [node for node, it in enumerate(self.nodes) if it[3] in ("both", use)]
        if not nodes:
            raise Refused(f"{self.name}.nodes.csv has no node to {use} at")
        return nodes, geography.Tree([geography.on_sphere(*self.nodes[node][1:3]) for node in nodes])

    def nearest(self, place, use):
        """The nearest node to start from or to end at, counted from 0, and its metres."""
        nodes, tree = self.trees[use]
        node = nodes[tree.nearest(geography.on_sphere(*place))[0]]
        return node, geography.metres(*place, *self.nodes[node][1:3])

    def arcs(self):
        with open(self.name + ".gr", encoding="ascii", errors="replace") as text:
            for number, line in enumerate(text, 1):
                if line.startswith("a "):
                    try:
                        tail, head, weight = map(int, line.split()[1:])
                    except ValueError:
                        raise Refused(f"{self.name}.gr, line {number}: an arc is wanted, a U V W") from None
                    if not (1 <= min(tail, head) and max(tail, head) <= len(self.nodes) and 0 <= weight <= writing.MOST_WEIGHT):
                        raise Refused(f"{self.name}.gr, line {number}: an arc between nodes of {self.name}.nodes.csv is wanted")
                    yield tail, head, weight


class Files:
    """Writes a timetable's network. Nodes are numbered so that stops come first, by their ids; then the nodes to end at, those on board,
    and streets. Arcs are rides in the order of their nodes, then boarding, changes and walks, then streets."""

    def __init__(self, out, path, table, trips, lines, asked, summary):
        self.out, self.path, self.table, self.trips, self.lines, self.asked, self.summary = out, path, table, trips, lines, asked, summary
        self.stops, self.per_second = table.stops, writing.UNITS[asked.unit]
        self.used = table.between()
        self.by_id = sorted(self.used, key=lambda stop: self.stops.ids[stop])
        aboard = sorted({node for tail, head, _, _ in table.hops for node in (tail, head) if node[0] == "r"})
        self.order = [table.start(stop) for stop in self.by_id] + [("e", stop) for stop in self.by_id if table.slow(stop)] + aboard
        self.number = {node: place for place, node in enumerate(self.order, 1)}
        self.stop_of = {node: stop for tail, head, here, there in table.hops for node, stop in ((tail, here), (head, there)) if node[0] == "r"}
        self.hops = sorted(range(len(table.hops)), key=lambda hop: (self.number[table.hops[hop][0]], self.number[table.hops[hop][1]]))
        self.firsts, self.rides = grouped(table.rides[0], len(table.hops))
        self.streets = Streets(asked.streets, self.per_second) if asked.streets else None
        self.arc = 0

    def write(self):
        self._classes()
        links = self._links() if self.streets else []
        self.nodes = len(self.order) + (len(self.streets.nodes) if self.streets else 0)
        self.count = len(self.hops) + len(self.table.plain) + len(links) + (self.streets.count if self.streets else 0)
        writing.limits_kept(self.nodes, self.count)
        self._nodes()
        self.graph, self.told = self.out.file(".gr"), self.out.table(".arcs.csv", ("arc", "way", "from", "to", "length", "kind"))
        self.graph.write(writing.unit_comment(self.per_second, self.path) + f"p sp {self.nodes} {self.count}\n")
        self._ride_arcs()
        self._plain_arcs()
        self._street_arcs(links)
        self.classes.write(self.out.file(".tp"), lambda: enumerate(self.ride_class, 1), self.path)
        named = self.out.table(".trips.csv", ("trip", "id", "line", "towards"))
        for place, (trip, route, sign, _) in enumerate(self.trips, 1):
            named.writerow((place, trip, self.lines[route], sign))
        writing.write_starts(self.out, [self._asked(text, "start") for text in self.asked.starts], [self._asked(text, "end") for text in self.asked.goals])
        self._tell(links)

    def _stop(self, node):
        return self.stop_of[node] if node[0] == "r" else node[1]

    def _classes(self):
        """The class and the weight of each ride arc: its departures without those that a later one beats."""
        self.classes, self.ride_class, self.ride_weight, self.beaten = writing.Classes(), array("i"), array("q"), 0
        _, departures, arrivals, _, _ = self.table.rides
        for hop in self.hops:
            rides = {(departures[ride], arrivals[ride]) for ride in self.rides[self.firsts[hop]:self.firsts[hop + 1]]}
            kept = kept_rides(rides)
            self.beaten += len(rides) - len(kept)
            least = min(arrival - departure for departure, arrival in kept)
            self.ride_weight.append(writing.weight_of(least, self.per_second, "a ride"))
            self.ride_class.append(self.classes.number("trips", 0, [(departure * self.per_second, (arrival - departure - least) * self.per_second) for departure, arrival in kept]))
        self.classes.checked(ADVICE)

    def _nodes(self):
        rows = self.out.table(".nodes.csv", ("node", "id", "longitude", "latitude", "use", "name"))
        places = []
        for node in self.order:
            stop = self._stop(node)
            places.append(self.stops.places[stop] or (None, None))
            use = {"s": "start" if self.table.slow(stop) else "both", "e": "end", "r": "ride"}[node[0]]
            rows.writerow((self.number[node], self.stops.ids[stop], *("" if part is None else f"{part:.7f}" for part in places[-1]), use, self.stops.names[stop]))
        for place, (street, longitude, latitude, use) in enumerate(self.streets.nodes if self.streets else (), len(self.order) + 1):
            places.append((longitude, latitude))
            rows.writerow((place, street, f"{longitude:.7f}", f"{latitude:.7f}", use, ""))
        writing.write_coordinates(self.out.file(".co"), lambda: ((place, *it) for place, it in enumerate(places, 1)), True, self.path)
        self.summary.leave("nodes without coordinates, which NAME.co leaves out", count=sum(1 for place in places if place[0] is None))

    def _arc(self, tail, head, weight, way, here, there, length, kind):
        self.arc += 1
        self.graph.write(f"a {tail} {head} {weight}\n")
        self.told.writerow((self.arc, way, here, there, length, kind))

    def _length(self, here, there):
        first, second = self.stops.places[here], self.stops.places[there]
        return f"{geography.metres(*first, *second):.2f}" if first and second else ""

    def _ride_arcs(self):
        told, scale = self.out.file(".rides.csv"), self.per_second
        told.write("arc,departs,arrives,run,trip\n")
        _, departures, arrivals, runs, _ = self.table.rides
        for arc, hop in enumerate(self.hops, 1):
            tail, head, here, there = self.table.hops[hop]
            lines = set()
            for departs, arrives, run in sorted((departures[ride], arrivals[ride], runs[ride]) for ride in self.rides[self.firsts[hop]:self.firsts[hop + 1]]):
                trip = self.table.runs[run][0]
                lines.add(self.lines[self.trips[trip][1]])
                told.write(f"{arc},{departs * scale},{arrives * scale},{run},{trip + 1}\n")
            self._arc(self.number[tail], self.number[head], self.ride_weight[arc - 1], ";".join(sorted(lines)), self.stops.ids[here], self.stops.ids[there], self._length(here, there), RIDE)

    def _plain_arcs(self):
        for tail, head, seconds, kind in self.table.plain:
            here, there = self._stop(tail), self._stop(head)
            self._arc(self.number[tail], self.number[head], writing.weight_of(seconds, self.per_second, "a transfer"), "", self.stops.ids[here], self.stops.ids[there], self._length(here, there), kind)

    def _links(self):
        """Walks between stops and the nearest nodes of the streets: (tail, head, metres, names of both)."""
        links, most, shift = [], self.asked.walk or USUAL_LINK, len(self.order) + 1
        for stop in self.by_id:
            name, place = self.stops.ids[stop], self.stops.places[stop]
            if place is None:
                self.summary.leave("stops without coordinates: nobody walks there", name)
                continue
            (start, metres), (end, _) = self.streets.nearest(place, "start"), self.streets.nearest(place, "end")
            if metres > most:
                self.summary.leave(f"stops farther than {most:g} m from the streets", name)
                continue
            links.append((self.number[self.table.end(stop)], shift + start, metres, (name, self.streets.nodes[start][0])))
            links.append((shift + end, self.number[self.table.start(stop)], metres, (self.streets.nodes[end][0], name)))
        return links

    def _street_arcs(self, links):
        for tail, head, metres, names in links:
            self._arc(tail, head, writing.weight_of(metres / self.asked.pace, self.per_second, "a walk"), "", *names, f"{metres:.2f}", WALK)
        for tail, head, weight in self.streets.arcs() if self.streets else ():
            self._arc(tail + len(self.order), head + len(self.order), weight, "", self.streets.nodes[tail - 1][0], self.streets.nodes[head - 1][0], "", STREET)

    def _asked(self, text, use):
        """The node that a text names: a stop by its id or its name, or with streets a place."""
        found = re.fullmatch(r"(-?\d+(?:\.\d+)?),(-?\d+(?:\.\d+)?)", text)
        if self.streets and found:
            place = float(found.group(1)), float(found.group(2))
            if not (-180 <= place[0] <= 180 and -90 <= place[1] <= 90):
                raise Refused(f"{text} is no place: longitude is -180 to 180, and latitude -90 to 90")
            node, metres = self.streets.nearest(place, use)
            self.summary.note(f"{text}: node {len(self.order) + node + 1} of the streets, {metres:.0f} m away")
            return len(self.order) + node + 1
        stop = _stop_named(text, self.stops, self.used)
        return self.number[self.table.start(stop) if use == "start" else self.table.end(stop)]

    def _tell(self, links):
        table, summary, asked = self.table, self.summary, self.asked
        summary.take("stops", len(self.used))
        summary.take("runs of trips", len(table.runs))
        summary.take("rides from a stop to the next", len(table.rides[0]))
        summary.take("classes of departures", len(self.classes))
        summary.take("chains of runs that are apart because runs of a line meet or overtake", table.split_chains)
        summary.take("walks and transfers between stops", sum(1 for it in table.plain if it[3] == WALK))
        summary.take("walks between stops and streets", len(links))
        summary.take("arcs of streets", self.streets.count if self.streets else 0)
        summary.take("nodes", self.nodes)
        summary.take("arcs", self.count)
        summary.leave("departures from a stop that a later one to the same next stop overtakes: who waits arrives sooner (they stay in NAME.rides.csv)", count=self.beaten)
        summary.leave("stops without a trip on the days asked", count=len(self.stops.ids) - len(self.used))
        summary.note(f"times count from the midnight at which {asked.day} begins, {self.per_second} units a second; a day has 24 hours, also where the clock is changed")
        if table.transfers.ways and not self.streets:
            summary.note(f"walks by coordinates go at {asked.pace:g} m/s, {asked.detour:g} times the beeline, and may follow each other")
        if self.streets:
            summary.note(f"walks to the streets go at {asked.pace:g} m/s")
        if not table.transfers.change:
            summary.note("a change at one stop takes no time; --change sets a least time")
        summary.note(f"trips that begin after {asked.days} day{'s' if asked.days > 1 else ''} aren't in the network; take more with --days")


def _stop_named(text, stops, used):
    """The stop that a text names by its id or its name."""
    found = [stops.number[text]] if text in stops.number else [place for stop in stops.by_name.get(text, ()) for place in stops.of(stop)] or stops.of(text)
    found = sorted(set(found) & used)
    if len(found) == 1:
        return found[0]
    if found:
        raise Refused(f"{text!r} names {len(found)} stops; take one by its id: {', '.join(stops.ids[place] for place in found[:8])}{', ..' if len(found) > 8 else ''}")
    raise Refused(f"no stop {text!r} has a trip on the days asked")
