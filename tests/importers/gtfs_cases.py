"""GTFS: one feature a case, each beside a scan over the connections of the feed."""
import csv
import datetime
import io
import os
import random
import zipfile

from support import ROOT, arcs, arrivals, distance, engine, good, least, places, put, refused, summary_has, table, text

DAY = 86400
WEEK = ("monday", "tuesday", "wednesday", "thursday", "friday", "saturday", "sunday")
STOPS = {name: (8.0 + 0.02 * place, 47.0) for place, name in enumerate("ABCDEFGH")}


class Feed:
    """A feed in plain lists: trips {id: (route, service, [(sequence, stop, arrival, departure, pickup, drop)])}, times in seconds or None."""

    def __init__(self, trips, services=None, transfers=(), frequencies=(), stops=None, exceptions=()):
        self.trips, self.transfers, self.frequencies, self.exceptions = trips, list(transfers), list(frequencies), list(exceptions)
        self.services = services if services is not None else {"all": ("1111111", "20260101", "20261231")}
        self.stops = stops or STOPS

    def files(self):
        routes = sorted({route for route, _, _ in self.trips.values()})
        calls = [(trip, clock(arrival), clock(departure), stop, sequence, pickup, drop) for trip, (_, _, rows) in self.trips.items() for sequence, stop, arrival, departure, pickup, drop in rows]
        found = {
            "agency.txt": rows(("agency_id", "agency_name", "agency_url", "agency_timezone"), [("x", "X", "https://x.example", "Europe/Berlin")]),
            "stops.txt": rows(("stop_id", "stop_name", "stop_lat", "stop_lon"), [(stop, f"Stop {stop}", y, x) for stop, (x, y) in self.stops.items()]),
            "routes.txt": rows(("route_id", "route_short_name", "route_type"), [(route, f"line {route}", 3) for route in routes]),
            "trips.txt": rows(("route_id", "service_id", "trip_id"), [(route, service, trip) for trip, (route, service, _) in self.trips.items()]),
            "stop_times.txt": rows(("trip_id", "arrival_time", "departure_time", "stop_id", "stop_sequence", "pickup_type", "drop_off_type"), calls),
            "calendar.txt": rows(("service_id", *WEEK, "start_date", "end_date"), [(service, *days, first, last) for service, (days, first, last) in self.services.items()]),
        }
        if self.exceptions:
            found["calendar_dates.txt"] = rows(("service_id", "date", "exception_type"), self.exceptions)
        if self.transfers:
            found["transfers.txt"] = rows(("from_stop_id", "to_stop_id", "transfer_type", "min_transfer_time"), self.transfers)
        if self.frequencies:
            found["frequencies.txt"] = rows(("trip_id", "start_time", "end_time", "headway_secs", "exact_times"), [(trip, clock(first), clock(last), headway, 1) for trip, first, last, headway in self.frequencies])
        return found

    def runs_on(self, service, date):
        """Whether a service runs on a day."""
        for named, day, kind in self.exceptions:
            if named == service and day == date.strftime("%Y%m%d"):
                return kind == 1
        days, first, last = self.services.get(service, ("0000000", "0", "0"))
        return days[date.weekday()] == "1" and first <= date.strftime("%Y%m%d") <= last

    def connections(self, day, days=1, back=3):
        """(departure, arrival, from, to, run, pickup allowed, drop-off allowed, place in the run) of all runs that reach the days, in seconds from
        the first midnight."""
        first = datetime.date(int(day[:4]), int(day[4:6]), int(day[6:]))
        found = []
        for trip, (_, service, calls) in self.trips.items():
            calls = filled(sorted(calls))
            for number in range(-back, days):
                if not self.runs_on(service, first + datetime.timedelta(days=number)):
                    continue
                starts = [start for named, begin, end, headway in self.frequencies if named == trip for start in range(begin, end, headway)]
                for shift in ([start - calls[0][3] for start in starts] if starts else [0]):
                    for place, ((_, here, _, leaves, pickup, _), (_, onto, arrives, _, _, drop)) in enumerate(zip(calls, calls[1:])):
                        at = DAY * number + shift
                        if leaves + at >= 0:
                            found.append((leaves + at, arrives + at, here, onto, (trip, number, shift), pickup != 1, drop != 1, place))
        return found


def rows(head, lines):
    out = io.StringIO()
    table_ = csv.writer(out, lineterminator="\r\n")
    table_.writerow(head)
    table_.writerows(lines)
    return out.getvalue()


def clock(seconds):
    return "" if seconds is None else f"{seconds // 3600}:{seconds // 60 % 60:02}:{seconds % 60:02}"


def filled(calls):
    """Calls with blank times shared out evenly."""
    calls = [list(call) for call in calls]
    known = [place for place, call in enumerate(calls) if call[2] is not None]
    for before, after in zip(known, known[1:]):
        for place in range(before + 1, after):
            share = calls[before][3] + (place - before) * (calls[after][2] - calls[before][3]) // (after - before)
            calls[place][2] = calls[place][3] = share
    return calls


def scanned(connections, start, departure, change=None, walks=None):
    """The earliest time at each stop: connections are scanned until nothing gets earlier. `change` gives the least time of a change at a stop,
    None if no change is allowed there; `walks` the seconds from stop to stop."""
    change, walks = change or {}, walks or {}
    there, ready, aboard = {}, {}, set()

    def reach(stop, time, first):
        """Somebody is at a stop; `first` if no vehicle was left there just now, so that boarding takes no change."""
        states = least([((stop, first), time)], lambda state, at: [((onto, True), at + seconds) for (here, onto), seconds in walks.items() if here == state[0]])
        changed = False
        for (at, free), when in states.items():
            if when < there.get(at, 1e18):
                there[at] = when
                changed = True
            slow = change.get(at, 0)
            board = when if free else None if slow is None else when + slow
            if board is not None and board < ready.get(at, 1e18):
                ready[at] = board
                changed = True
        return changed

    reach(start, departure, True)
    ordered = sorted(connections, key=lambda it: it[:2])
    again = True
    while again:
        again = False
        for leaves, arrives, here, onto, run, pickup, drop, place in ordered:
            if (run, place) not in aboard:
                if not (pickup and ready.get(here, 1e18) <= leaves):
                    continue
                aboard.add((run, place))
                again = True
            if (run, place + 1) not in aboard:
                aboard.add((run, place + 1))
                again = True
            if drop and reach(onto, arrives, False):
                again = True
    return there


def compared(room, name, feed, day, starts, times, change=None, walks=None, days=1, only=None):
    """Whether the engine's arrivals at all stops are those of a scan."""
    begin, end = places(room, name)
    connections = feed.connections(day, days)
    if only:
        connections = [it for it in connections if only(it)]
    for start in starts:
        if start not in begin:
            continue
        for time in times:
            wanted = scanned(connections, start, time, change, walks)
            got = arrivals(room, name, begin[start], 100 * time)
            for stop, node in end.items():
                mine = got[node - 1]
                other = wanted.get(stop)
                if (mine is None) != (other is None) or (mine is not None and abs(mine - round(100 * other)) > 3):
                    return f"from {start} at {clock(time)} to {stop}: {mine} and {other}"
    return "all"


def imported(room, feed, *words, day="20261123", name="net"):
    put(room, "feed", feed.files())
    return good("gtfs", os.path.join(room, "feed"), day, os.path.join(room, name), *words)


def line(*stops, start, ride=300, dwell=30, bans=None, step=1):
    """The calls of a trip: equal rides, a stay at each stop. `bans` gives (pickup, drop) by place."""
    calls, time = [], start
    for place, stop in enumerate(stops):
        leave = time + (dwell if 0 < place < len(stops) - 1 else 0)
        calls.append((step * (place + 1), stop, time, leave, *((bans or {}).get(place, ("", "")))))
        time = leave + ride
    return calls


TIMES = (0, 6 * 3600, 7 * 3600 + 60, 8 * 3600, 23 * 3600)


def services_of_days(room):
    """Weekdays, dates that are added and taken away, the range of a calendar, days without any trip."""
    trips = {"week": ("1", "week", line("A", "B", "C", start=7 * 3600)), "end": ("1", "end", line("A", "B", "C", start=8 * 3600)), "old": ("2", "old", line("A", "C", start=3600)), "fair": ("3", "fair", line("A", "C", start=9 * 3600))}
    feed = Feed(trips, {"week": ("1111100", "20260101", "20261231"), "end": ("0000011", "20260101", "20261231"), "old": ("1111111", "20250101", "20251231")}, exceptions=[("fair", "20261124", 1), ("week", "20261125", 2), ("end", "20261125", 1)])
    # The first and the last day of the calendars are Thursdays.
    for day in ("20260101", "20261123", "20261124", "20261125", "20261128", "20261231"):
        told = imported(room, feed, day=day)
        yield f"arrivals on {day}", compared(room, "net", feed, day, "ABC", TIMES), "all"
        yield f"trips that don't run on {day} are told", summary_has(told, "trips that don't run"), True
    put(room, "feed", feed.files())
    *told, reason = refused("gtfs", room, os.path.join(room, "feed"), "20270301", os.path.join(room, "none"))
    yield "refused: a day without trips, with the nearest that has one", (*told, "from 20250101 to 20261231" in reason and "nearest day on which one runs is 20261231" in reason), (True, True, [], True)
    for day, near in (("20261125", "20261124"), ("20240101", "20250101"), ("99991231", "20261231")):
        *told, reason = refused("gtfs", room, os.path.join(room, "feed"), day, os.path.join(room, "none"), "--routes", "2" if day < "2026" else "1" if day > "2027" else "3")
        yield f"refused: {day} without trips of a line, with the nearest that has one", (*told, f"runs is {near}" in reason), (True, True, [], True)
    only_dates = Feed({"fair": trips["fair"]}, {}, exceptions=[("fair", "20261124", 1)])
    files = only_dates.files()
    del files["calendar.txt"]
    put(room, "dates", files)
    good("gtfs", os.path.join(room, "dates"), "20261124", os.path.join(room, "dated"))
    yield "dates without a calendar", compared(room, "dated", only_dates, "20261124", "A", TIMES), "all"


def several_days(room):
    """Two days, and trips of the days before that run beyond midnight."""
    trips = {"day": ("1", "all", line("A", "B", "C", start=7 * 3600)), "night": ("2", "all", line("C", "B", "A", start=23 * 3600 + 3000, ride=2400)), "late": ("3", "all", [(1, "A", 25 * 3600, 25 * 3600, "", ""), (2, "D", 26 * 3600, 26 * 3600, "", "")]), "long": ("4", "all", [(1, "A", 20 * 3600, 20 * 3600, "", ""), (2, "E", 50 * 3600, 50 * 3600 + 60, "", ""), (3, "F", 51 * 3600, 51 * 3600, "", "")])}
    feed = Feed(trips)
    told = imported(room, feed)
    yield "trips of the evening before", compared(room, "net", feed, "20261123", "ABCE", (0, 1800, 3600, 7200, 8 * 3600)), "all"
    yield "they are told", summary_has(told, "runs that began on a day before", "4 "), True
    imported(room, feed, "--days", "2", name="two")
    yield "two days", compared(room, "two", feed, "20261123", "ABCE", (0, 3600, 8 * 3600, DAY + 3600, DAY + 8 * 3600), days=2), "all"
    told = imported(room, feed, "--back", "1", name="less")
    yield "trips that go on longer are told", summary_has(told, "go on for more than 1 days"), True


def headways(room):
    """frequencies.txt: runs from the start on, before the end, with a template that begins at any time."""
    feed = Feed({"h": ("1", "all", line("A", "B", "C", "D", start=6 * 3600)), "t": ("2", "all", line("D", "E", start=7 * 3600))}, frequencies=[("h", 7 * 3600, 8 * 3600, 700), ("h", 8 * 3600, 8 * 3600 + 1, 600), ("h", 26 * 3600, 27 * 3600, 1800)])
    imported(room, feed)
    yield "headways", compared(room, "net", feed, "20261123", "ABC", (0, 2 * 3600, 7 * 3600 + 1, 7 * 3600 + 3500, 8 * 3600, 9 * 3600)), "all"


def blanks_and_order(room):
    """Blank times, sequences in any order of rows and with gaps, a byte-order mark, blanks around values, quotes."""
    calls = [(100, "A", 7 * 3600, 7 * 3600, "", ""), (20, "C", None, None, "", ""), (9, "D", 6 * 3600, 6 * 3600 + 60, "", ""), (30, "B", None, None, "", ""), (110, "E", 8 * 3600, 8 * 3600, "", "")]
    feed = Feed({"x": ("1", "all", calls), "only arrival": ("2", "all", [(1, "E", 8 * 3600 + 60, None, "", ""), (2, "F", 9 * 3600, None, "", "")])})
    files = feed.files()
    files["stop_times.txt"] = "\ufeff" + files["stop_times.txt"].replace(",20,", ", 20 ,")
    files["stops.txt"] = "\ufeff" + files["stops.txt"].replace("Stop A", '"Stop ""A"", north"')
    put(room, "feed", files)
    told = good("gtfs", os.path.join(room, "feed"), "20261123", os.path.join(room, "net"))
    feed.trips["only arrival"] = ("2", "all", [(1, "E", 8 * 3600 + 60, 8 * 3600 + 60, "", ""), (2, "F", 9 * 3600, 9 * 3600, "", "")])
    yield "blank times and odd order", compared(room, "net", feed, "20261123", "ABCDE", (0, 6 * 3600, 7 * 3600)), "all"
    yield "blank times are told", summary_has(told, "2 blank times filled in in equal shares"), True
    yield "names keep their commas", {row["id"]: row["name"] for row in table(room, "net.nodes.csv")}["A"], 'Stop "A", north'
    distances = files["stop_times.txt"].strip().split("\r\n")
    along = {"9": 0, "20": 1, "30": 9, "100": 10, "110": 12}
    files["stop_times.txt"] = "\r\n".join([distances[0] + ",shape_dist_traveled"] + [row + f",{along.get(row.split(',')[4].strip(), '')}" for row in distances[1:]]) + "\r\n"
    put(room, "feed", files)
    told = good("gtfs", os.path.join(room, "feed"), "20261123", os.path.join(room, "net"))
    first, last = 6 * 3600 + 60, 7 * 3600
    feed.trips["x"] = ("1", "all", [call if call[2] is not None else (*call[:2], first + (last - first) * along[str(call[0])] // 10, first + (last - first) * along[str(call[0])] // 10, "", "") for call in calls])
    yield "blank times by distance", compared(room, "net", feed, "20261123", "ABCDE", (0, 6 * 3600 + 300, 6 * 3600 + 3000)), "all"


def bans(room):
    """Stops without boarding, stops without alighting, at the ends and between; vehicles that wait there while another comes."""
    for number, banned in enumerate(({1: (1, "")}, {1: ("", 1)}, {1: (1, 1), 2: ("", 1)}, {0: (1, ""), 3: ("", 1)}, {0: (1, ""), 1: (1, "")}, {2: (1, 0)})):
        trips = {"a": ("1", "all", line("A", "B", "C", "D", start=7 * 3600, bans=banned)), "b": ("1", "all", line("A", "B", "C", "D", start=7 * 3600 + 600, bans=banned)), "c": ("2", "all", line("D", "B", "A", start=7 * 3600 + 300)),
                 "slow": ("1", "all", [(1, "A", 8 * 3600, 8 * 3600, *banned.get(0, ("", ""))), (2, "B", 8 * 3600 + 300, 8 * 3600 + 3000, *banned.get(1, ("", ""))), (3, "C", 8 * 3600 + 3300, 8 * 3600 + 3330, *banned.get(2, ("", ""))), (4, "D", 9 * 3600, 9 * 3600, *banned.get(3, ("", "")))]),
                 "quick": ("1", "all", [(1, "A", 8 * 3600 + 600, 8 * 3600 + 600, *banned.get(0, ("", ""))), (2, "B", 8 * 3600 + 900, 8 * 3600 + 4000, *banned.get(1, ("", ""))), (3, "C", 8 * 3600 + 4500, 8 * 3600 + 4530, *banned.get(2, ("", ""))), (4, "D", 9 * 3600 + 1500, 9 * 3600 + 1500, *banned.get(3, ("", "")))])}
        feed = Feed(trips)
        told = imported(room, feed)
        if number == 0:
            yield "runs that meet where nobody may board are apart", summary_has(told, "1 chains of runs that are apart"), True
        yield f"bans {number}", compared(room, "net", feed, "20261123", "ABCD", (0, 7 * 3600 + 200, 7 * 3600 + 700, 8 * 3600, 8 * 3600 + 500, 8 * 3600 + 2000)), "all"


def loops(room):
    """A trip that comes to a stop twice, one that stays at a stop for two calls, with bans and changes."""
    for number, (banned, change) in enumerate((({}, 0), ({2: (1, "")}, 0), ({}, 120), ({1: ("", 1)}, 120))):
        trips = {"round": ("1", "all", line("A", "B", "C", "A", "D", start=7 * 3600, bans=banned)), "later": ("1", "all", line("A", "B", "C", "A", "D", start=7 * 3600 + 100, bans=banned)), "twice": ("2", "all", line("C", "C", "E", start=7 * 3600 + 700))}
        feed = Feed(trips)
        imported(room, feed, *(["--change", change] if change else []))
        yield f"loops {number}", compared(room, "net", feed, "20261123", "ABCD", (0, 7 * 3600 + 60, 7 * 3600 + 400, 7 * 3600 + 800), change=dict.fromkeys(STOPS, change)), "all"


def overtaking(room):
    """Trips of a line that overtake, with and without changes that take time; equal trips; equal departures."""
    trips = {"slow": ("1", "all", line("A", "B", "C", "D", start=7 * 3600, ride=900)), "fast": ("1", "all", line("A", "B", "C", "D", start=7 * 3600 + 300, ride=300)), "same": ("1", "all", line("A", "B", "C", "D", start=7 * 3600 + 300, ride=300)),
             "equal departure": ("1", "all", line("A", "B", "C", "D", start=7 * 3600 + 300, ride=400)), "other": ("2", "all", line("C", "E", start=7 * 3600 + 1100))}
    feed = Feed(trips)
    for change in (0, 60, 600):
        told = imported(room, feed, *(["--change", change] if change else []))
        yield f"overtaking with changes of {change}", compared(room, "net", feed, "20261123", "ABCD", (0, 7 * 3600, 7 * 3600 + 100, 7 * 3600 + 301), change=dict.fromkeys(STOPS, change)), "all"
        yield f"overtaking with changes of {change} is told", summary_has(told, "overtakes") if not change else summary_has(told, "chains of runs that are apart") and summary_has(told, "at the same times as another"), True


def transfers(room):
    """transfers.txt: least times between stops and at a stop, changes that aren't possible, timed ones, stations."""
    trips = {"a": ("1", "all", line("A", "B", start=7 * 3600)), "b": ("2", "all", line("B", "C", start=7 * 3600 + 360)), "b2": ("2", "all", line("B", "C", start=7 * 3600 + 1200)), "d": ("3", "all", line("D", "E", start=7 * 3600 + 500)), "d2": ("3", "all", line("D", "E", start=7 * 3600 + 1500)), "through": ("4", "all", line("A", "B", "F", start=7 * 3600 + 100, dwell=20))}
    for name, entries, change, walks in (
        ("none", [], {}, {}),
        ("a least time at a stop", [("B", "B", 2, 120)], {"B": 120}, {}),
        ("no change at a stop", [("B", "B", 3, "")], {"B": None}, {}),
        ("a least time between stops", [("B", "D", 2, 180)], {}, {("B", "D"): 180}),
        ("a longer one", [("B", "D", 2, 300), ("D", "B", 2, 1)], {}, {("B", "D"): 300, ("D", "B"): 1}),
        ("timed", [("B", "D", 1, "")], {}, {("B", "D"): 0}),
        ("by coordinates", [("B", "D", 0, "")], {}, {("B", "D"): 1.3 * distance(STOPS["B"], STOPS["D"]) / 1.2}),
    ):
        feed = Feed(trips, transfers=entries)
        told = imported(room, feed)
        yield f"transfers: {name}", compared(room, "net", feed, "20261123", "ABD", (0, 7 * 3600, 7 * 3600 + 90), change, walks), "all"
        yield f"transfers told: {name}", summary_has(told, f"{len(entries)} transfers of transfers.txt"), bool(entries)
    feed = Feed(trips, transfers=[("B", "Z", 2, 10), ("B", "D", 2, ""), ("A", "B", 4, "")])
    told = imported(room, feed)
    yield "transfers that are left out are told", [summary_has(told, part) for part in ("places without stops", "least time that isn't told", "staying seated")], [True] * 3
    yield "change at all stops", compared(room, "all", feed, "20261123", "ABD", (0, 7 * 3600), dict.fromkeys(STOPS, 240)) if imported(room, feed, "--change", "240", name="all") else None, "all"


def stations(room):
    """Platforms of a station: --stations, and transfers that name the station."""
    trips = {"a": ("1", "all", line("A", "B", start=7 * 3600)), "c": ("2", "all", line("C", "D", start=7 * 3600 + 400))}
    for words, entries, walks in ((["--stations", "90"], [], {("B", "C"): 90, ("C", "B"): 90}), ([], [("S", "S", 2, 200)], {("B", "C"): 200, ("C", "B"): 200}), ([], [("B", "S", 2, 90)], {("B", "C"): 90})):
        feed = Feed(trips, transfers=entries)
        files = feed.files()
        kept = files["stops.txt"].strip().split("\r\n")
        files["stops.txt"] = "\r\n".join([kept[0] + ",location_type,parent_station"] + [row + (",0,S" if row[0] in "BC" else ",,") for row in kept[1:]] + ["S,Station,47,8,1,"]) + "\r\n"
        put(room, "feed", files)
        good("gtfs", os.path.join(room, "feed"), "20261123", os.path.join(room, "net"), *words)
        change = {"B": 200, "C": 200} if entries and entries[0][0] == "S" else {"B": 90} if entries else {}
        yield f"stations with {words or entries}", compared(room, "net", feed, "20261123", "AC", (0, 7 * 3600), change, walks), "all"


def walking(room):
    """Walks within a radius by the coordinates, at a pace, and over streets that are joined in."""
    stops = {"A": (8.0, 47.0), "B": (8.03, 47.0), "C": (8.033, 47.001), "D": (8.06, 47.0), "E": (8.0301, 47.0), "F": (-0.0001, 47.0)}
    trips = {"a": ("1", "all", line("A", "B", start=7 * 3600)), "c": ("2", "all", line("C", "D", start=7 * 3600 + 700)), "e": ("3", "all", line("E", "F", start=7 * 3600 + 330))}
    feed = Feed(trips, stops=stops)
    for words, radius, pace, detour in ((["--walk", "400"], 400, 1.2, 1.3), (["--walk", "100"], 100, 1.2, 1.3), (["--walk", "400", "--pace", "0.5", "--detour", "1"], 400, 0.5, 1.0)):
        told = imported(room, feed, *words)
        walks = {(here, there): detour * distance(stops[here], stops[there]) / pace for here in stops for there in stops if here != there and distance(stops[here], stops[there]) <= radius}
        yield f"walks with {' '.join(words)}", compared(room, "net", feed, "20261123", "AC", (0, 7 * 3600), {}, walks), "all"
        yield f"walks with {' '.join(words)} are told", summary_has(told, f"{len(walks)} walks and transfers"), True
    barred = Feed(trips, stops=stops, transfers=[("B", "C", 3, ""), ("C", "B", 2, 500)])
    imported(room, barred, "--walk", "400")
    walks = {(here, there): 1.3 * distance(stops[here], stops[there]) / 1.2 for here in stops for there in stops if here != there and distance(stops[here], stops[there]) <= 400 and {here, there} != {"B", "C"}}
    yield "transfers of the feed go before walks", compared(room, "net", barred, "20261123", "ABC", (0, 7 * 3600), {}, {**walks, ("C", "B"): 500}), "all"
    streets = "".join(f'<node id="{number}" lat="{y}" lon="{x}"/>' for number, (x, y) in {1: (8.0301, 47.0001), 2: (8.0331, 47.0011), 3: (8.0301, 47.0011)}.items())
    put(room, "streets.osm", f'<osm version="0.6">{streets}<way id="1"><nd ref="1"/><nd ref="3"/><nd ref="2"/><tag k="highway" v="footway"/></way></osm>')
    good("osm", os.path.join(room, "streets.osm"), os.path.join(room, "streets"), "--profile", "foot", "--keep-nodes")
    told = imported(room, feed, "--streets", os.path.join(room, "streets"), "--walk", "60")
    crossing = {"1": (8.0301, 47.0001), "2": (8.0331, 47.0011), "3": (8.0301, 47.0011)}
    way = (distance(crossing["1"], crossing["3"]) + distance(crossing["3"], crossing["2"])) / (5 / 3.6)
    near = {"B": "1", "E": "1", "C": "2"}
    walks = {(here, there): (distance(stops[here], crossing[near[here]]) + distance(stops[there], crossing[near[there]])) / 1.2 + (way if near[here] != near[there] else 0) for here in near for there in near if here != there}
    begin, end = places(room, "net")
    connections = feed.connections("20261123")
    got = arrivals(room, "net", begin["A"], 0)
    wanted = scanned(connections, "A", 0, {}, walks)
    yield "over streets", all(abs(got[end[stop] - 1] - 100 * wanted[stop]) <= 4 for stop in "ABCDEF"), True
    imported(room, feed, "--streets", os.path.join(room, "streets"), "--walk", "60", "--from", "8.0301,47.0011", "--to", "D", name="door")
    source, goal = map(int, text(room, "door.p2p").split()[-2:])
    path = distance(crossing["3"], crossing["2"]) / (5 / 3.6) + distance(crossing["2"], stops["C"]) / 1.2
    begin, end = places(room, "door")
    wanted = scanned(connections, "C", path)["D"]
    yield "from a place on a street", (source == begin["3"], goal == end["D"], abs(arrivals(room, "door", source, 0)[goal - 1] - 100 * wanted) <= 4), (True, True, True)
    put(room, "split.nodes.csv", "node,id,longitude,latitude,use\n1,x,8.03,47.0001,start\n2,x,8.03,47.0001,end\n3,y,8.033,47.0011,both\n")
    put(room, "split.gr", "c time unit: 1/100 s\np sp 3 2\na 1 3 100\na 3 2 200\n")
    imported(room, feed, "--streets", os.path.join(room, "split"), "--walk", "60", name="split-net")
    rows = table(room, "split-net.nodes.csv")
    used = {row["node"]: (row["id"], row["use"]) for row in rows}
    links = [(used[str(tail)], used[str(head)]) for tail, head, _ in arcs(room, "split-net") if "x" in (used[str(tail)][0], used[str(head)][0]) and {"B"} & {used[str(tail)][0], used[str(head)][0]}]
    yield "stops lead to where streets start, and from where they end", sorted(links), [(("B", "both"), ("x", "start")), (("x", "end"), ("B", "both"))]
    yield "stops far from streets are told", summary_has(told, "3 stops farther than 60 m"), True


def selection(room):
    """--routes, --types and --box; what they leave out is reported."""
    trips = {"a": ("1", "all", line("A", "B", "C", start=7 * 3600)), "b": ("2", "all", line("A", "C", start=7 * 3600, ride=200)), "c": ("3", "all", line("C", "D", start=8 * 3600))}
    feed = Feed(trips)
    told = imported(room, feed, "--routes", "1", "--routes", "line 3")
    yield "routes by id and by name", compared(room, "net", feed, "20261123", "AC", (0,), only=lambda it: it[4][0] != "b"), "all"
    yield "other routes are told", summary_has(told, "1 trips of other routes"), True
    told = imported(room, feed, "--box", "8.01,46,8.05,48")
    yield "a box", compared(room, "net", feed, "20261123", "BC", (0,), only=lambda it: it[2] in "BC" and it[3] in "BC"), "all"
    yield "stops outside are told", summary_has(told, "6 stops outside the box"), True
    imported(room, Feed({"a": ("1", "all", line("A", "B", "C", "D", "E", start=7 * 3600))}), "--box", "8.01,46,8.05,48", "--change", "60")
    yield "a box, and nodes on board outside it", compared(room, "net", Feed({"a": ("1", "all", line("A", "B", "C", "D", "E", start=7 * 3600))}), "20261123", "BC", (0,), dict.fromkeys(STOPS, 60), only=lambda it: it[2] in "BC" and it[3] in "BC"), "all"
    imported(room, feed, "--routes", "1")
    for words, part in ((["--routes", "9"], "no route '9'"), (["--types", "7"], "no route of the route_type 7; it has 3"), (["--box", "0,0,1,1"], "is left")):
        *told, reason = refused("gtfs", room, os.path.join(room, "feed"), "20261123", os.path.join(room, "none"), *words)
        yield f"refused: {words}", (*told, part in reason), (True, True, [], True)


def random_feeds(room):
    """Feeds at random: bans, loops, changes, walks, headways, trips beyond midnight, runs that overtake."""
    for seed in range(14):
        draw = random.Random(seed)
        stops = list(STOPS)[:6]
        trips, entries, frequencies = {}, [], []
        for route in range(4):
            shape = [draw.choice(stops) for _ in range(draw.randint(2, 5))]
            banned = {place: (draw.choice(["", "", 1, 0]), draw.choice(["", "", 1, 0])) for place in range(len(shape))}
            for number in range(draw.randint(1, 5)):
                calls, time = [], draw.choice([6 * 3600, 23 * 3600]) + 60 * draw.randint(0, 90)
                for place, stop in enumerate(shape):
                    leave = time + draw.choice([0, 0, 30, 600])
                    calls.append((place * 3 + 1, stop, time, leave, *banned[place]))
                    time = leave + 60 * draw.randint(0, 25)
                trips[f"{route}-{number}"] = (str(route), "all", calls)
        if draw.random() < 0.5:
            trip = draw.choice(list(trips))
            frequencies = [(trip, 6 * 3600, 7 * 3600, draw.choice([300, 777]))]
        change, walks = {}, {}
        for _ in range(3):
            here, there = draw.choice(stops), draw.choice(stops)
            if (here, there) in walks or here == there and here in change:
                continue
            kind = draw.choice([2, 2, 2, 1]) if here != there else draw.choice([2, 3])
            seconds = 60 * draw.randint(1, 9)
            entries.append((here, there, kind, seconds if kind == 2 else ""))
            if here == there:
                change[here] = None if kind == 3 else seconds
            else:
                walks[here, there] = seconds if kind == 2 else 0
        words = []
        if draw.random() < 0.4:
            words = ["--change", "90"]
            change = {**dict.fromkeys(STOPS, 90), **change}
        feed = Feed(trips, transfers=entries, frequencies=frequencies)
        told = imported(room, feed, *words)
        # No walk leads over stops that no trip serves, and the summary counts such walks.
        known = set(places(room, "net")[1])
        gone = {pair for pair in walks if not set(pair) <= known}
        yield f"walks at stops without trips in the random feed {seed}", summary_has(told, f"{len(gone)} walks and transfers from or to stops without a trip"), bool(gone)
        walks = {pair: seconds for pair, seconds in walks.items() if pair not in gone}
        times = (0, 600, 6 * 3600 + 60 * draw.randint(0, 30), 7 * 3600, 23 * 3600 + 60 * draw.randint(0, 30))
        yield f"random feed {seed}", compared(room, "net", feed, "20261123", stops, times, change, walks), "all"
        for start in stops[:3]:
            if start in places(room, "net")[0]:
                yield f"legs of the random feed {seed} from {start}", legs_hold(room, feed, start, times[2], change, walks), "all"


def seconds_of(shown):
    hours, minutes, rest = shown.split(":")
    return 3600 * int(hours) + 60 * int(minutes) + float(rest)


def legs_hold(room, feed, start, departure, change, walks):
    """Whether the legs of all walks are rides of the feed that join, with changes and walks that take what they take."""
    begin, end = places(room, "net")
    put(room, "from.ss", f"p aux sp ss 1\ns {begin[start]}\n")
    told = engine("run", os.path.join(room, "net.gr"), os.path.join(room, "from.ss"), "--tp", os.path.join(room, "net.tp"), "--depart", 100 * departure, "--walks", "-o", os.path.join(room, "report"))
    if told.returncode:
        return told.stderr
    stop_of = {f"Stop {stop}": stop for stop in feed.stops}
    runs = {}
    for leaves, arrives, here, onto, run, pickup, drop, _ in feed.connections("20261123"):
        runs.setdefault(run[0], {}).setdefault(run, []).append((leaves, arrives, here, onto, pickup, drop))
    arrival = {}
    with open(os.path.join(room, "report"), encoding="ascii") as report:
        for row in report:
            if row.startswith("d ") and "inf" not in row:
                arrival[int(row.split()[1])] = int(row.split()[2])
    for stop, node in end.items():
        if node not in arrival or stop == start:
            continue
        legs = list(csv.DictReader(io.StringIO(good("gtfs", "legs", os.path.join(room, "net"), os.path.join(room, "report"), "--node", node, "--csv").out)))
        at, now, ridden = start, departure, False
        for leg in legs:
            here, onto, leaves, arrives = stop_of[leg["from"]], stop_of[leg["to"]], seconds_of(leg["departs"]), seconds_of(leg["arrives"])
            if here != at or leaves < now - 0.02:
                return f"{stop}: a leg from {here} at {leaves} does not join {at} at {now}: {legs}"
            if leg["line"] == "walk":
                paths = least([(here, 0.0)], lambda state, time: [(there, time + seconds) for (a, there), seconds in walks.items() if a == state])
                if abs(paths.get(onto, 1e9) - (arrives - leaves)) > 0.05:
                    return f"{stop}: a walk from {here} to {onto} takes {arrives - leaves}"
                ridden = False
            else:
                if ridden and (change.get(here, 0) is None or leaves < now + change.get(here, 0)):
                    return f"{stop}: a change at {here} from {now} to {leaves}"
                if not any(_rides(calls, here, onto, leaves, arrives) for calls in runs[leg["trip"]].values()):
                    return f"{stop}: no ride of {leg['trip']} from {here} at {leaves} to {onto} at {arrives}"
                ridden = True
            at, now = onto, arrives
        if at != stop or abs(100 * now - arrival[node]) > 2:
            return f"{stop}: the legs end at {at} at {now}, the report says {arrival[node]}"
    return "all"


def _rides(calls, here, onto, leaves, arrives):
    """Whether one run goes from a stop at a time to a stop at a time, boarded and left at stops that allow it."""
    for first, call in enumerate(calls):
        if call[2] == here and call[0] == leaves and call[4]:
            for last in calls[first:]:
                if last[3] == onto and last[1] == arrives and last[5]:
                    return True
    return False


def legs_of_example(room):
    """The example feed by two commands, and its legs in words; a zip is the same as the folder."""
    feed = os.path.join(ROOT, "examples", "transit")
    words = ["20261123", "--walk", "400", "--from", "CB", "--to", "Village"]
    good("gtfs", feed, words[0], os.path.join(room, "tr"), *words[1:])
    told = engine("pairs", os.path.join(room, "tr.gr"), os.path.join(room, "tr.p2p"), "--tp", os.path.join(room, "tr.tp"), "--depart", 100 * (7 * 3600 + 45 * 60), "--walks")
    put(room, "report", told.stdout)
    yield "the example is answered", (told.returncode, told.stdout.split(b"\n")[1].split()[2]), (0, b"3048000")
    yield "legs in words", good("gtfs", "legs", os.path.join(room, "tr"), os.path.join(room, "report")).out, (
        "from Central Station bus stop at 7:45:00 to Village at 8:28:00\n"
        "  7:45:00 Central Station bus stop - 7:49:00 Central Station platform 2: walk\n"
        "  8:05:00 Central Station platform 2 - 8:28:00 Village: S1 (trip R1-0805, towards Village)\n")
    for folder in ("", "inner/"):
        with zipfile.ZipFile(os.path.join(room, "feed.zip"), "w") as packed:
            for name in os.listdir(feed):
                packed.write(os.path.join(feed, name), folder + name)
        told = good("gtfs", os.path.join(room, "feed.zip"), words[0], os.path.join(room, "zipped"), *words[1:])
        same = [[row for row in text(room, name + end).split("\n") if not row.startswith("c ")] for end in (".gr", ".tp", ".co", ".nodes.csv", ".arcs.csv", ".rides.csv", ".trips.csv", ".p2p") for name in ("tr", "zipped")]
        yield f"a zip {folder}", all(same[place] == same[place + 1] for place in range(0, len(same), 2)), True
    night = arrivals(room, "tr", places(room, "tr")[0]["L"], 0)
    yield "the night bus of the evening before", night[places(room, "tr")[1]["V"] - 1], 100 * 2400
    *told, reason = refused("gtfs", room, "legs", os.path.join(room, "tr"), os.path.join(feed, "stops.txt"))
    yield "refused: legs of what is no report", (*told, "line 1" in reason), (True, True, [], True)


def legs_stay(room):
    """Who is in time by staying on a trip stays, though another leaves earlier or is quicker for a while."""
    for title, others in (
        ("an earlier one to the next stop", {"y": ("2", "all", [(1, "B", 7 * 3600 + 310, 7 * 3600 + 310, "", ""), (2, "C", 7 * 3600 + 700, 7 * 3600 + 700, "", "")])}),
        ("a quicker one for a while", {"y": ("2", "all", [(1, "B", 7 * 3600 + 310, 7 * 3600 + 310, "", ""), (2, "C", 7 * 3600 + 400, 7 * 3600 + 400, "", "")])}),
        ("one that leaves before and ends at the next stop", {"w": ("2", "all", line("A", "B", start=7 * 3600 - 30))}),
        ("equal ones on each hop", {"a": ("2", "all", line("A", "B", start=7 * 3600)), "b": ("3", "all", line("B", "C", start=7 * 3600 + 400)), "c": ("4", "all", line("C", "D", start=7 * 3600 + 800))}),
    ):
        trips = {"x": ("1", "all", line("A", "B", "C", "D", start=7 * 3600, dwell=100)), **others}
        feed = Feed(trips)
        imported(room, feed, "--from", "A", "--to", "D")
        told = engine("pairs", os.path.join(room, "net.gr"), os.path.join(room, "net.p2p"), "--tp", os.path.join(room, "net.tp"), "--depart", 100 * (7 * 3600 - 60), "--walks")
        put(room, "report", told.stdout)
        legs = list(csv.DictReader(io.StringIO(good("gtfs", "legs", os.path.join(room, "net"), os.path.join(room, "report"), "--csv").out)))
        yield f"one leg beside {title}", [(leg["trip"], leg["from"], leg["departs"], leg["to"], leg["arrives"]) for leg in legs], [("x", "Stop A", "7:00:00", "Stop D", "7:18:20")]


def too_many_classes(room):
    """A feed that needs more classes than there are is refused with the number, and nothing is written."""
    count = 65_540
    stops = {str(number): (8 + 1e-5 * (number % 1000), 47 + 1e-5 * (number // 1000)) for number in range(count + 1)}
    calls = [(number + 1, str(number), 60 + 2 * number, 60 + 2 * number, "", "") for number in range(count + 1)]
    put(room, "feed", Feed({"x": ("1", "all", calls)}, stops=stops).files())
    *told, reason = refused("gtfs", room, os.path.join(room, "feed"), "20261123", os.path.join(room, "net"))
    yield "refused: too many classes", (*told, f"{count} different classes" in reason and "65535" in reason and "--routes" in reason), (True, True, [], True)


def seconds_as_unit(room):
    """The feed of examples/gtfs in seconds."""
    good("gtfs", os.path.join(ROOT, "examples", "gtfs"), "20261123", os.path.join(room, "monday"), "--unit", "seconds", "--from", "West Pier", "--to", "Market")
    told = engine("pairs", os.path.join(room, "monday.gr"), os.path.join(room, "monday.p2p"), "--tp", os.path.join(room, "monday.tp"), "--depart", 27800)
    yield "in seconds", told.stdout, b"q 4 3 27800\nd 3 30270\n"
    yield "its arcs", arcs(room, "monday"), [(1, 3, 480), (2, 1, 540), (4, 2, 540)]
    for end in (".gr", ".tp", ".nodes.csv"):
        yield f"examples/gtfs/monday{end} is what the importer writes", text(room, "monday" + end), text(os.path.join(ROOT, "examples", "gtfs"), "monday" + end)


def written_as_floats(room):
    """Whole numbers and codes as spreadsheets and data frames write them, 1.0, mean what they mean without the fraction."""
    trips = {"a": ("1", "week", line("A", "B", "C", "D", start=7 * 3600, bans={1: (1, 0), 2: (0, 1)})), "b": ("1", "week", [(9, "A", 28000, 28000, "", ""), (10, "C", 29000, 29000, "", ""), (11, "E", 30000, 30000, "", "")]), "c": ("2", "fair", line("C", "F", start=28800))}
    feed = Feed(trips, {"week": ("1000000", "20260101", "20261231")}, transfers=[("C", "E", 2, 240), ("B", "B", 2, 120)], frequencies=[("a", 7 * 3600, 8 * 3600, 600)], exceptions=[("fair", "20261123", 1), ("week", "20261116", 2)])
    files = {}
    for name, contents in feed.files().items():
        head, *lines = list(csv.reader(io.StringIO(contents)))
        kept = [place for place, column in enumerate(head) if column in (*WEEK, "exception_type", "stop_sequence", "pickup_type", "drop_off_type", "route_type", "transfer_type", "min_transfer_time", "headway_secs", "exact_times")]
        files[name] = rows(head, [[f"{cell}.0" if place in kept and cell else cell for place, cell in enumerate(row)] for row in lines])
    files["stops.txt"] = "\r\n".join(row + (",location_type" if not place else ",0.0") for place, row in enumerate(files["stops.txt"].split("\r\n")[:-1])) + "\r\nS,Station,47.0,8.0,1.0\r\n"
    put(room, "floats", files)
    good("gtfs", os.path.join(room, "floats"), "20261123", os.path.join(room, "net"), "--types", "3")
    yield "numbers with a fraction of zeros", compared(room, "net", feed, "20261123", "ABCE", TIMES + (28000, 28800), {"B": 120}, {("C", "E"): 240}), "all"
    yield "a station stays a station", "S" in places(room, "net")[0], False


def files_of_a_feed(room):
    """Byte order marks, ends of lines, quoted lines, empty tables; zips that were made on a Mac, with several feeds, with zips inside."""
    feed = Feed({"a": ("1", "all", line("A", "B", "C", start=7 * 3600))}, transfers=[("A", "C", 2, 5000)])
    files = feed.files()
    for name, changed in (
        ("byte order marks", {key: "\ufeff" + it for key, it in files.items()}),
        ("LF", {key: it.replace("\r\n", "\n") for key, it in files.items()}),
        ("CR", {key: it.replace("\r\n", "\r") for key, it in files.items()}),
        ("a quoted name of two lines", {**files, "stops.txt": files["stops.txt"].replace("Stop A", '"Stop\r\nA, or ""B"""')}),
        ("tables that are empty", {**files, "frequencies.txt": "", "calendar_dates.txt": "", "agency.txt": ""}),
    ):
        put(room, "changed", changed)
        told = good("gtfs", os.path.join(room, "changed"), "20261123", os.path.join(room, "net"))
        yield f"a feed with {name}", compared(room, "net", feed, "20261123", "ABC", TIMES, walks={("A", "C"): 5000}), "all"
    yield "empty tables are told", [summary_has(told, f"{name} is empty") for name in ("frequencies.txt", "calendar_dates.txt", "agency.txt")], [True] * 3

    def zipped(title, entries):
        path = os.path.join(room, title + ".zip")
        with zipfile.ZipFile(path, "w") as packed:
            for name, contents in entries:
                packed.writestr(name, contents)
        return path

    path = zipped("mac", [*(("__MACOSX/town/._" + name, "x") for name in files), *(("town/" + name, it) for name, it in files.items())])
    good("gtfs", path, "20261123", os.path.join(room, "net"))
    yield "a zip made on a Mac", compared(room, "net", feed, "20261123", "ABC", TIMES, walks={("A", "C"): 5000}), "all"
    whole = zipped("whole", files.items())
    with open(whole, "rb") as file:
        later = bytearray(file.read())
    place = later.rfind(b"PK\x01\x02")
    later[place + 6] = 200  # the version that the last entry wants
    for name, path, part in (
        ("a zip of a later version", put(room, "later.zip", bytes(later)), "can't be unpacked"),
        ("a zip of two feeds", zipped("two", ((folder + name, it) for folder in ("bus/", "rail/") for name, it in files.items())), "2 feeds; unpack it and give one of the folders: bus, rail"),
        ("a zip of zips", zipped("zips", [("1/google_transit.zip", b"PK")]), "such as 1/google_transit.zip"),
    ):
        *told, reason = refused("gtfs", room, path, "20261123", os.path.join(room, "out"))
        yield f"refused: {name}", (*told, part in reason), (True, True, [], True)
    with zipfile.ZipFile(os.path.join(room, "feed.zip"), "w", zipfile.ZIP_DEFLATED) as packed:
        for name, contents in files.items():
            packed.writestr(name, contents * 100)
    with open(os.path.join(room, "feed.zip"), "rb") as file:
        packed = file.read()
    wrong = []
    for seed in range(60):
        draw, bytes_ = random.Random(seed), bytearray(packed)
        for _ in range(draw.choice((1, 3, 20))):
            bytes_[draw.randrange(len(bytes_))] = draw.randrange(256)
        told = refused("gtfs", room, put(room, "damaged.zip", bytes(bytes_)), "20261123", os.path.join(room, "out"))
        wrong += [(seed, told)] if told[:3] != (True, True, []) else []
    yield "damaged zips are refused", wrong, []


def told_of_tables(room):
    """What is odd in a feed's tables and is taken all the same is in the summary."""
    feed = Feed({"a": ("1", "all", line("A", "B", "C", start=7 * 3600)), "empty": ("1", "all", [])}, transfers=[("A", "B", 0, 300)], exceptions=[("all", "20261123", 2), ("all", "20261123", 1)])
    files = feed.files()
    files["agency.txt"] += "y,Y,https://y.example,Europe/London\r\n"
    files["routes.txt"] += "1,again,3\r\n"
    files["calendar.txt"] += "all,0,0,0,0,0,0,1,20260101,20261231\r\nback,1,1,1,1,1,1,1,20261231,20260101\r\n"
    files["stops.txt"] = files["stops.txt"].replace("stop_lon", "stop_lon,location_type") + "E1,Entrance,47,8,2\r\n"
    calls = files["stop_times.txt"].split("\r\n")
    files["stop_times.txt"] += calls[1].replace("a,", "ghost,", 1) + "\r\n" + calls[2].replace("a,", "ghost,", 1) + "\r\n"
    files["frequencies.txt"] = "trip_id,start_time,end_time,headway_secs\r\nshade,07:00:00,08:00:00,600\r\n"
    put(room, "odd", files)
    told = good("gtfs", os.path.join(room, "odd"), "20261123", os.path.join(room, "net"))
    for part in ("times are those of Europe/Berlin", "1 time zones of agencies beside Europe/Berlin: their times are taken as of Europe/Berlin (Europe/London: Y)", "1 lines of routes.txt for a route that was there before", "1 further lines of calendar.txt for a service",
                 "1 services that calendar_dates.txt both adds and removes on a day asked; the last line holds (all on 20261123)", "1 services that end before they begin (back)", "1 entrances, crossings and boarding areas of stations, not looked at (E1)",
                 "1 trips without calls in stop_times.txt (empty)", "2 calls of a trip that trips.txt doesn't have (ghost, ghost)", "1 headways of a trip that trips.txt doesn't have (shade)", "1 least times of transfers that aren't of type 2"):
        yield f"told: {part}", summary_has(told, part), True
    yield "the first line of a route holds", table(room, "net.trips.csv")[0]["line"], "line 1"
    put(room, "none", {**feed.files(), "stop_times.txt": feed.files()["stop_times.txt"].replace("a,7:", "b,7:")})
    *told, reason = refused("gtfs", room, os.path.join(room, "none"), "20261123", os.path.join(room, "out"))
    yield "refused: no trip with calls, and why", (*told, all(part in reason for part in ("2 trips without calls in stop_times.txt", "3 calls of a trip that trips.txt doesn't have"))), (True, True, [], True)


def hostile(room):
    feed = Feed({"a": ("1", "all", line("A", "B", "C", start=7 * 3600))})
    files = feed.files()
    whole = put(room, "feed", files)

    def without(name):
        return {key: value for key, value in files.items() if key != name}

    with zipfile.ZipFile(os.path.join(room, "pictures.zip"), "w") as packed:
        packed.writestr("holiday.jpg", b"\xff\xd8")
    with zipfile.ZipFile(os.path.join(room, "broken.zip"), "w", zipfile.ZIP_DEFLATED) as packed:
        for name, contents in files.items():
            packed.writestr(name, contents * 50)
    with open(os.path.join(room, "broken.zip"), "r+b") as file:
        file.seek(400)
        file.write(b"\x00" * 60)
    for name, path, words, part in (
        ("a folder that isn't there", os.path.join(room, "nowhere"), [], "isn't there"),
        ("a zip of another kind", os.path.join(room, "pictures.zip"), [], "no GTFS feed"),
        ("a zip that is broken", os.path.join(room, "broken.zip"), [], "broken.zip"),
        ("a file that is no zip", put(room, "text.zip", "hello"), [], "neither a folder nor a zip"),
        ("an empty folder", put(room, "empty", {}), [], "no GTFS feed"),
        ("no stop_times.txt", put(room, "f1", without("stop_times.txt")), [], "stop_times.txt"),
        ("no calendar", put(room, "f2", without("calendar.txt")), [], "neither calendar.txt"),
        ("an empty stop_times.txt", put(room, "f3", {**files, "stop_times.txt": ""}), [], "stop_times.txt is empty"),
        ("no rows", put(room, "f4", {**files, "stop_times.txt": files["stop_times.txt"].split("\r\n")[0]}), [], "no trip"),
        ("a column that is missing", put(room, "f5", {**files, "stop_times.txt": files["stop_times.txt"].replace("stop_sequence", "order")}), [], "no column stop_sequence"),
        ("a time that is none", put(room, "f6", {**files, "stop_times.txt": files["stop_times.txt"].replace("7:05:00", "noon", 1)}), [], "'noon'"),
        ("a sequence that is none", put(room, "f7", {**files, "stop_times.txt": files["stop_times.txt"].replace(",B,2,", ",B,second,")}), [], "'second'"),
        ("a coordinate that is none", put(room, "f8", {**files, "stops.txt": files["stops.txt"].replace("47.0", "north", 1)}), [], "coordinates"),
        ("bytes that aren't UTF-8", put(room, "f9", {**files, "stops.txt": files["stops.txt"].encode() + b"\xff\xfe,x,1,2\r\n"}), [], "UTF-8"),
        ("a stop from which no trip goes", whole, ["--from", "H"], "no stop 'H'"),
        ("a start and no stop of the name", whole, ["--from", "nowhere"], "no stop 'nowhere'"),
        ("a day that is none", whole, ["20261323"], "calendar"),
        ("a date in the calendar that is none", put(room, "f10", {**files, "calendar.txt": files["calendar.txt"].replace("20260101", "2026-1-1")}), [], "2026-1-1"),
        ("a sequence that isn't whole", put(room, "f11", {**files, "stop_times.txt": files["stop_times.txt"].replace(",B,2,", ",B,2.5,")}), [], "'2.5'"),
        ("a sequence beyond 64 bits", put(room, "f12", {**files, "stop_times.txt": files["stop_times.txt"].replace(",B,2,", ",B,99999999999999999999,")}), [], "'99999999999999999999'"),
        *[(f"a place beyond the limits: {place}", put(room, f"f23-{at}", {**files, "stops.txt": files["stops.txt"].replace(",47.0,8.0", f",{place}", 1)}), [], "is no place") for at, place in enumerate(("90.0001,8.0", "-90.0001,8.0", "47.0,180.0001", "47.0,-180.0001"))],
        *[(f"a time beyond the limits: {clock}", put(room, f"f24-{at}", {**files, "stop_times.txt": files["stop_times.txt"].replace("7:05:00", clock, 1)}), [], "is no time") for at, clock in enumerate(("7:60:00", "7:05:60", "100001:00:00"))],
        ("a code of boarding that is none", put(room, "f13", {**files, "stop_times.txt": files["stop_times.txt"].replace(",B,2,", ",B,2,7")}), [], "pickup_type"),
        ("a code of a place that is none", put(room, "f14", {**files, "stops.txt": files["stops.txt"].replace("stop_lon", "stop_lon,location_type").replace("8.02\r", "8.02,7\r")}), [], "location_type is '7'"),
        ("a weekday that is neither 0 nor 1", put(room, "f15", {**files, "calendar.txt": files["calendar.txt"].replace("all,1", "all,yes")}), [], "monday is 'yes'"),
        ("a weekday that is missing", put(room, "f16", {**files, "calendar.txt": files["calendar.txt"].replace("monday", "day1")}), [], "no column monday"),
        ("a kind of headways that is none", put(room, "f17", {**files, "frequencies.txt": "trip_id,start_time,end_time,headway_secs,exact_times\r\na,7:00:00,8:00:00,600,3\r\n"}), [], "exact_times is '3'"),
        ("a headway of 0", put(room, "f18", {**files, "frequencies.txt": "trip_id,start_time,end_time,headway_secs\r\na,7:00:00,8:00:00,0\r\n"}), [], "headway_secs is 0"),
        ("headways without end", put(room, "f19", {**files, "frequencies.txt": "trip_id,start_time,end_time,headway_secs\r\na,0:00:00,90000:00:00,1\r\n"}), [], "more than 2000000 departures by headways"),
        ("semicolons for commas", put(room, "f20", {name: it.replace(",", ";") for name, it in files.items()}), [], "its first line is"),
        ("text in Latin-1", put(room, "f21", {**files, "stops.txt": files["stops.txt"].replace("Stop A", "Zürich").encode("latin-1")}), [], "iconv"),
        ("days before the year 1", whole, ["00010101"], "between the years 1 and 9999"),
        ("days after the year 9999", whole, ["99991231", "--days", "3"], "between the years 1 and 9999"),
        ("more days than there may be", whole, ["--days", "999999999"], "1 to 1000 is wanted"),
        ("streets that aren't there", whole, ["--streets", os.path.join(room, "none")], "isn't there"),
        ("a target without a start", whole, ["--to", "A"], "--to needs --from"),
    ):
        day = words.pop(0) if words and len(words[0]) == 8 and words[0].isdigit() else "20261123"
        *told, reason = refused("gtfs", room, path, day, os.path.join(room, "out"), *words)
        yield f"refused: {name}", (*told, part in reason), (True, True, [], True)
    # At the limits a place is one.
    for place in ("90,8.0", "-90,8.0", "47.0,180", "47.0,-180"):
        good("gtfs", put(room, "poles", {**files, "stops.txt": files["stops.txt"].replace(",47.0,8.0", f",{place}", 1)}), "20261123", os.path.join(room, "pole"))
        latitude, longitude = map(float, place.split(","))
        yield f"taken: a place at the limits, {place}", any((float(row["latitude"]), float(row["longitude"])) == (latitude, longitude) for row in table(room, "pole.nodes.csv")), True
    # A note says that headways are no exact times.
    for exact in ("", "0", "1"):
        often = put(room, "often", {**files, "frequencies.txt": f"trip_id,start_time,end_time,headway_secs,exact_times\r\na,7:00:00,8:00:00,600,{exact}\r\n"})
        told = good("gtfs", often, "20261123", os.path.join(room, "by-headways"))
        yield f"headways with exact_times {exact!r} are told", summary_has(told, "1 headways without exact times"), exact != "1"
    # Left out one by one, with the rest still taken.
    odd = Feed({"good": ("1", "all", line("A", "B", "C", start=7 * 3600)), "back": ("1", "all", [(1, "A", 9000, 9000, "", ""), (2, "B", 8000, 8000, "", "")]), "one": ("1", "all", [(1, "A", 9000, 9000, "", "")]), "blank": ("1", "all", [(1, "A", None, None, "", ""), (2, "B", 9000, 9000, "", "")]),
                "none": ("1", "all", line("A", "Z", start=3600)), "closed": ("1", "all", line("A", "B", start=3600, bans={0: (1, 1), 1: (1, 1)})), "double": ("1", "all", [(1, "A", 9000, 9000, "", ""), (1, "B", 9100, 9100, "", "")])})
    told = imported(room, odd, name="odd")
    yield "trips that can't be are told", [summary_has(told, part) for part in ("1 trips whose times go back (back)", "1 trips with a single call (one)", "1 trips without a time at their first or last call (blank)", "1 trips with a call at a place that isn't a stop of stops.txt (none)", "1 trips that nobody may board and leave (closed)", "1 trips with two calls of one stop_sequence (double)")], [True] * 6
    only = Feed({"good": odd.trips["good"]})
    yield "and the others are taken", compared(room, "odd", only, "20261123", "ABC", (0,)), "all"
    bare = feed.files()
    bare["stops.txt"] = bare["stops.txt"].replace("47.0,8.02", ",")
    put(room, "bare", bare)
    told = good("gtfs", os.path.join(room, "bare"), "20261123", os.path.join(room, "noplace"), "--walk", "100")
    yield "coordinates that are missing are told", (summary_has(told, "1 nodes without coordinates"), summary_has(told, "1 stops without coordinates"), compared(room, "noplace", feed, "20261123", "ABC", (0,))), (True, True, "all")


CASES = (services_of_days, several_days, headways, blanks_and_order, bans, loops, overtaking, transfers, stations, walking, selection, random_feeds, legs_of_example, legs_stay, too_many_classes, seconds_as_unit, written_as_floats, files_of_a_feed, told_of_tables, hostile)
