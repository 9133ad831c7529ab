"""Walks of a report on a network of departures, turned back into legs: line, trip, stops and times."""
import csv
import os
import sys

from . import writing
from .kinds import RIDE, STREET, WALK
from .telling import Refused


def clock(time, per_second):
    """A time as h:mm:ss, with the rest of a second if there is one."""
    seconds, rest = divmod(time, per_second)
    shown = f"{seconds // 3600}:{seconds // 60 % 60:02}:{seconds % 60:02}"
    return shown + (f".{rest * 100 // per_second:02}" if rest else "")


def walks_of(path):
    """(source or None, departure, target, arrival, arcs) of each walk of a report of `run` or `pairs`."""
    sources, before, target, arrival, asked = [], "", None, None, None
    with open(path, encoding="ascii", errors="replace") as text:
        for line, fields in ((number, it.split()) for number, it in enumerate(text, 1)):
            if not fields or fields[0].startswith("c"):
                continue
            try:
                if fields[0] == "s":
                    sources = (sources if before == "s" else []) + [(int(fields[1]), int(fields[2]))]
                    asked = None
                elif fields[0] == "q":
                    sources, asked = [(int(fields[1]), int(fields[3]))], int(fields[2])
                elif fields[0] == "d":
                    target, arrival = int(fields[1]), None if fields[2] == "inf" else int(fields[2])
                    if arrival is None and asked is not None:
                        yield sources, target, None, []
                elif fields[0] == "w":
                    if int(fields[1]) != target or arrival is None or len(fields) != 3 + int(fields[2]):
                        raise ValueError
                    yield sources, target, arrival, [int(field) for field in fields[3:]]
                else:
                    raise ValueError
            except (ValueError, IndexError):
                raise Refused(f"{path}, line {line}: not a line of a report with walks: {' '.join(fields)[:60]}") from None
            before = fields[0]


class Journey:
    """What legs need of a network that `convert` has written, for the arcs of some walks."""

    def __init__(self, name, arcs):
        self.name = name
        for end in (".gr", ".nodes.csv", ".arcs.csv", ".rides.csv", ".trips.csv"):
            if not os.path.isfile(name + end):
                raise Refused(f"{name}{end} isn't there: legs wants the NAME of a network that `earliest gtfs` has written")
        self.per_second = writing.unit_of(name + ".gr") or 1
        self.stop, self.ends, self.kind, self.rides, self.trips = {}, {}, {}, {}, {}
        try:
            self._read(arcs)
        except (KeyError, TypeError, ValueError):
            raise Refused(f"the files of {name} aren't whole, or not those that `earliest gtfs` writes") from None
        if any(node not in self.stop for ends in self.ends.values() for node in ends[:2]) or any(ride[3] not in self.trips for rides in self.rides.values() for ride in rides):
            raise Refused(f"the files of {name} aren't whole: a node or a trip is missing in their tables")
        missing = [arc for arc in arcs if arc not in self.ends or arc not in self.kind or self.kind[arc] == RIDE and arc not in self.rides]
        if missing:
            raise Refused(f"the report has an arc {min(missing)}, which {name} doesn't have")

    def _read(self, arcs):
        for row in self._table(".nodes.csv"):
            self.stop[int(row["node"])] = row["name"] or row["id"]
        with open(self.name + ".gr", encoding="ascii", errors="replace") as text:
            for number, line in enumerate((line for line in text if line.startswith("a ")), 1):
                if number in arcs:
                    tail, head, weight = map(int, line.split()[1:])
                    self.ends[number] = tail, head, weight
        for row in self._table(".arcs.csv"):
            if int(row["arc"]) in arcs:
                self.kind[int(row["arc"])] = row["kind"]
        for row in self._table(".rides.csv"):
            if int(row["arc"]) in arcs:
                self.rides.setdefault(int(row["arc"]), []).append((int(row["departs"]), int(row["arrives"]), int(row["run"]), int(row["trip"])))
        for row in self._table(".trips.csv"):
            self.trips[int(row["trip"])] = row["id"], row["line"], row["towards"]

    def _table(self, end):
        with open(self.name + end, encoding="utf-8", newline="") as file:
            yield from csv.DictReader(file)

    def times(self, arcs, departure):
        """The time after each arc, the first that of the departure; None if a ride is missing."""
        found = [departure]
        for arc in arcs:
            if self.kind[arc] == RIDE:
                arrivals = [ride[1] for ride in self.rides.get(arc, ()) if ride[0] >= found[-1]]
                if not arrivals:
                    return None
                found.append(min(arrivals))
            else:
                found.append(found[-1] + self.ends[arc][2])
        return found

    def latest(self, arcs, arrival):
        """The latest time before each arc, and after the last, that is in time for the arrival."""
        found = [arrival]
        for arc in reversed(arcs):
            if self.kind[arc] == RIDE:
                found.append(max(ride[0] for ride in self.rides[arc] if ride[1] <= found[-1]))
            else:
                found.append(found[-1] - self.ends[arc][2])
        return found[::-1]

    def legs(self, arcs, departure, arrival):
        """(line, trip, towards, from, departs, to, arrives) of each leg; the line of a walk is ''. Who is in time by staying on a trip stays."""
        times = self.times(arcs, departure)
        if times is None or times[-1] != arrival:
            raise Refused(f"the report isn't one of {self.name}: a walk arrives at {arrival} there, and at {times and times[-1]} here")
        latest, spot, now, found = self.latest(arcs, arrival), 0, departure, []
        while spot < len(arcs):
            arc = arcs[spot]
            if self.kind[arc] != RIDE:
                after = now + self.ends[arc][2]
                if self.kind[arc] in (WALK, STREET):
                    here, there = self.ends[arc][:2]
                    if found and found[-1][0] == "" and found[-1][6] == now:
                        found[-1] = ("", "", "", found[-1][3], found[-1][4], self.stop[there], after)
                    else:
                        found.append(("", "", "", self.stop[here], now, self.stop[there], after))
                spot, now = spot + 1, after
                continue
            best = None
            for departs, arrives, run, trip in self.rides[arc]:
                if departs < now or arrives > latest[spot + 1]:
                    continue
                length, last = self._stay(arcs, spot, run, arrives, latest)
                if best is None or (length, -departs) > best[0]:
                    best = (length, -departs), departs, last, trip
            (length, _), departs, last, trip = best
            name, line, towards = self.trips[trip]
            found.append((line, name, towards, self.stop[self.ends[arc][0]], departs, self.stop[self.ends[arcs[spot + length - 1]][1]], last))
            spot, now = spot + length, last
        return found

    def _stay(self, arcs, spot, run, arrives, latest):
        """How many arcs a run serves from here on, each in time."""
        length = 1
        while spot + length < len(arcs) and self.kind[arcs[spot + length]] == RIDE:
            onward = [ride[1] for ride in self.rides[arcs[spot + length]] if ride[2] == run and ride[0] >= arrives and ride[1] <= latest[spot + length + 1]]
            if not onward:
                break
            arrives = min(onward)
            length += 1
        return length, arrives


def legs_command(words):
    asked = writing.Words("Turns the walks of a report into legs: line, trip, stops and times.", "gtfs legs")
    asked.add_argument("name", help="NAME of the network that `earliest gtfs` has written")
    asked.add_argument("report", help="a report of `earliest run --walks` or `earliest pairs --walks`")
    asked.add_argument("--node", type=int, help="only walks to this node")
    asked.add_argument("--csv", action="store_true", help="a table: walk, leg, line, trip, from, departs, to, arrives")
    given = asked.parse_args(words)
    walks = [walk for walk in walks_of(given.report) if given.node in (None, walk[1])]
    if not walks:
        raise Refused(f"{given.report} has no walks: make it with --walks")
    journey = Journey(given.name, {arc for walk in walks for arc in walk[3]})
    out = csv.writer(sys.stdout, lineterminator="\n")
    if given.csv:
        out.writerow(("walk", "leg", "line", "trip", "from", "departs", "to", "arrives"))
    for number, (sources, target, arrival, arcs) in enumerate(walks, 1):
        tail = journey.ends[arcs[0]][0] if arcs else target
        departure = min((time for node, time in sources if node == tail), default=None)
        if arrival is not None and departure is None:
            raise Refused(f"{given.report}: the walk to {target} begins at {tail}, which is no source")
        legs = journey.legs(arcs, departure, arrival) if arcs else []
        if given.csv:
            for place, (line, trip, _, here, departs, there, arrives) in enumerate(legs, 1):
                out.writerow((number, place, line or "walk", trip, here, clock(departs, journey.per_second), there, clock(arrives, journey.per_second)))
            continue
        if arrival is None:
            print(f"to {journey.stop.get(target, target)}: no way there")
            continue
        print(f"from {journey.stop.get(tail, tail)} at {clock(departure, journey.per_second)} to {journey.stop.get(target, target)} at {clock(arrival, journey.per_second)}")
        for line, trip, towards, here, departs, there, arrives in legs:
            ride = f"{line} (trip {trip}{', towards ' + towards if towards else ''})" if line else "walk"
            print(f"  {clock(departs, journey.per_second)} {here} - {clock(arrives, journey.per_second)} {there}: {ride}")
    return 0
