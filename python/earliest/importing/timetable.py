"""The network of a feed: changes and ways between stops, nodes, rides, chains of runs."""
import math
from array import array

from . import geography
from .kinds import BOARD, CHANGE, LEAVE, WALK


class Transfers:
    """Changes at stops and ways between stops, in seconds."""

    def __init__(self, feed, stops, asked, summary):
        self.stops, self.summary, self.asked = stops, summary, asked
        self.change = {stop: asked.change for stop in range(len(stops.ids))} if asked.change else {}
        self.ways = {}
        stations = {}
        for line, (start, end, kind, least, *special) in feed.rows("transfers.txt"):
            if any(special):
                summary.leave("transfers for some routes or trips only", f"line {line}")
                continue
            if kind in ("4", "5"):
                summary.leave("transfers between trips by staying seated", f"line {line}")
                continue
            if kind not in ("", "0", "1", "2", "3"):
                raise feed.fault("transfers.txt", line, f"transfer_type is {kind!r}, and 0 to 5 is wanted")
            if not start or not end or not stops.of(start) or not stops.of(end):
                summary.leave("transfers between places without stops", f"line {line}")
                continue
            seconds = feed.number("transfers.txt", line, "min_transfer_time", least, -1) if kind == "2" else -1
            if least and kind != "2":
                summary.leave("least times of transfers that aren't of type 2, not looked at", f"line {line}")
            if kind == "2" and seconds < 0:
                summary.leave("transfers with a least time that isn't told", f"line {line}")
                continue
            summary.take("transfers of transfers.txt")
            exact = start in stops.number and end in stops.number
            for here in stops.of(start):
                for there in stops.of(end):
                    if exact or (here, there) not in stations:
                        stations[here, there] = exact
                        self._add(here, there, kind or "0", seconds)
        if asked.stations:
            for members in stops.children.values():
                for here in members:
                    for there in members:
                        if here != there and (here, there) not in stations:
                            self._way(here, there, asked.stations)
        if asked.walk and not asked.streets:
            self._around(stations)

    def _add(self, here, there, kind, seconds):
        if here == there:
            if kind == "3":
                self.change[here] = None
            elif kind == "2":
                self.change[here] = seconds
            return
        if kind == "3":
            self.ways.pop((here, there), None)
        elif kind == "2":
            self.ways[here, there] = float(seconds)
        elif kind == "1":
            self.ways[here, there] = 0.0
        else:
            walked = self.walked(here, there)
            if walked is None:
                self.summary.leave("transfers without a least time between stops without coordinates", f"{self.stops.ids[here]} to {self.stops.ids[there]}")
            else:
                self.ways[here, there] = walked

    def _way(self, here, there, seconds):
        self.ways[here, there] = min(seconds, self.ways.get((here, there), seconds))

    def walked(self, here, there):
        """The seconds of a walk by the coordinates; None without."""
        if self.stops.places[here] is None or self.stops.places[there] is None:
            return None
        return geography.metres(*self.stops.places[here], *self.stops.places[there]) * self.asked.detour / self.asked.pace

    def _around(self, told):
        """Walks between all stops within the radius; the feed's own transfers stay as they are."""
        places = self.stops.places
        cell = self.asked.walk / 111_000.0
        cells = {}
        for stop, place in enumerate(places):
            if place is not None:
                cells.setdefault((math.floor(place[1] / cell), 0), []).append(stop)
        rows = {key[0]: sorted(members, key=lambda stop: places[stop][0]) for key, members in cells.items()}
        for row, members in rows.items():
            for here in members:
                width = cell / max(0.01, math.cos(math.radians(places[here][1]))) * 1.05
                for other in (row - 1, row, row + 1):
                    near = rows.get(other, ())
                    for spot in range(_first_at(near, places, places[here][0] - width), len(near)):
                        there = near[spot]
                        if places[there][0] > places[here][0] + width:
                            break
                        if there != here and (here, there) not in told and geography.metres(*places[here], *places[there]) <= self.asked.walk:
                            self._way(here, there, self.walked(here, there))
        missing = sum(1 for place in places if place is None)
        if missing:
            self.summary.leave("stops without coordinates: nobody walks there", count=missing)


def _first_at(stops, places, longitude):
    low, high = 0, len(stops)
    while low < high:
        middle = (low + high) // 2
        low, high = (middle + 1, high) if places[stops[middle]][0] < longitude else (low, middle)
    return low


class Timetable:
    """The network: nodes, rides between them, and arcs that take the same time always."""

    def __init__(self, trip_names, stops, transfers, summary):
        self.trip_names, self.stops, self.transfers, self.summary = trip_names, stops, transfers, summary
        self.rides = [array("i"), array("q"), array("q"), array("i"), array("i")]  # arc, departure, arrival, run, call
        self.hop_number, self.hops = {}, []  # (tail, head) of each ride arc; keys are nodes or (chain, call)
        self.runs = []  # trip, day
        self.plain = []  # tail, head, seconds, kind
        self.patterns = {}
        self.split_chains = 0

    # A node is ('s', stop), ('e', stop) or ('r', chain, call): to start at, to end at, on board.
    def start(self, stop):
        return "s", stop

    def end(self, stop):
        return ("e", stop) if self.slow(stop) else ("s", stop)

    def slow(self, stop):
        return self.transfers.change.get(stop, 0) != 0

    def add(self, trip, calls, route, shifts):
        """The runs of a trip: `shifts` are (day, seconds to add)."""
        while calls and calls[0][3] & 1:
            calls = calls[1:]
        while calls and calls[-1][3] & 2:
            calls = calls[:-1]
        if len(calls) < 2:
            self.summary.leave("trips that nobody may board and leave", self.trip_names[trip])
            return
        shape = tuple((stop, bans) for stop, _, _, bans in calls)
        aboard = [0 < place < len(calls) - 1 and bool(bans or self.slow(stop)) for place, (stop, bans) in enumerate(shape)]
        if not any(aboard):
            for day, shift in shifts:
                self._ride(self._run(trip, day), calls, shift, [None] * len(calls))
            return
        self.patterns.setdefault((route, shape), (aboard, []))[1].extend((calls, shift, trip, day) for day, shift in shifts)

    def _run(self, trip, day):
        self.runs.append((trip, day))
        return len(self.runs) - 1

    def chains(self):
        """Lays the runs of patterns with nodes of their own: a chain holds runs of which none meets the one before it."""
        number = 0
        for (_, shape), (aboard, runs) in self.patterns.items():
            runs.sort(key=lambda run: (run[0][0][2] + run[1], run[0][-1][1] + run[1]))
            chains, seen = [], set()
            for calls, shift, trip, day in runs:
                times = tuple((arrival + shift, departure + shift) for _, arrival, departure, _ in calls)
                if times in seen:
                    self.summary.leave("runs at the same times as another one of the same line and stops", self.trip_names[trip])
                    continue
                seen.add(times)
                for chain in chains:
                    if follows(chain[0], times, aboard):
                        chain[0] = times
                        break
                else:
                    chain = [times, number]
                    number += 1
                    chains.append(chain)
                nodes = [("r", chain[1], place) if own else None for place, own in enumerate(aboard)]
                self._ride(self._run(trip, day), calls, shift, nodes)
            self.split_chains += len(chains) - 1
            for _, chain in chains:
                for place, (stop, bans) in enumerate(shape):
                    if aboard[place]:
                        if not bans & 1:
                            self.plain.append((self.start(stop), ("r", chain, place), 0.0, BOARD))
                        if not bans & 2:
                            self.plain.append((("r", chain, place), self.end(stop), 0.0, LEAVE))
        self.patterns = None

    def _ride(self, run, calls, shift, own):
        arc_of, rides = self.hop_number, self.rides
        for place in range(len(calls) - 1):
            (here, _, departure, _), (there, arrival, _, _) = calls[place], calls[place + 1]
            if departure + shift < 0:
                continue
            if here in self.stops.outside or there in self.stops.outside:
                continue
            tail, head = own[place] or self.start(here), own[place + 1] or self.end(there)
            arc = arc_of.get((tail, head))
            if arc is None:
                arc = arc_of[tail, head] = len(self.hops)
                self.hops.append((tail, head, here, there))
            for row, value in zip(rides, (arc, departure + shift, arrival + shift, run, place)):
                row.append(value)

    def between(self):
        """The arcs of walks, transfers and changes between stops that have nodes."""
        ends = {node for tail, head, _, _ in self.hops for node in (tail, head)}
        self.plain = [arc for arc in self.plain if all(node in ends for node in arc[:2] if node[0] == "r")]
        used = {node[1] for node in ends | {node for arc in self.plain for node in arc[:2]} if node[0] != "r"}
        for stop in sorted(used):
            if self.slow(stop):
                self.plain.append((self.start(stop), self.end(stop), 0.0, CHANGE))
                if self.transfers.change[stop] is not None:
                    self.plain.append((self.end(stop), self.start(stop), float(self.transfers.change[stop]), CHANGE))
        for (here, there), seconds in sorted(self.transfers.ways.items()):
            if here in used and there in used:
                self.plain.append((self.end(here), self.start(there), seconds, WALK))
            else:
                self.summary.leave("walks and transfers from or to stops without a trip on the days asked", f"{self.stops.ids[here]} to {self.stops.ids[there]}")
        return used


def follows(before, after, aboard):
    """Whether a run may come after another in a chain: nobody on board of it finds the one before still at a stop."""
    last = len(aboard) - 1
    for place in range(last + 1):
        if aboard[place] and not before[place][1] < after[place][0]:
            return False
        if place < last and (aboard[place] or aboard[place + 1]) and not (before[place][1] < after[place][1] and before[place + 1][0] <= after[place + 1][0]):
            return False
    return True


def kept_rides(rides):
    """Of (departure, arrival, ..) those that no later departure beats, and one of each departure."""
    kept, best = [], math.inf
    for ride in sorted(rides, key=lambda it: (-it[0], it[1])):
        if ride[1] <= best and not (kept and kept[-1][0] == ride[0]):
            kept.append(ride)
            best = ride[1]
    kept.reverse()
    return kept
