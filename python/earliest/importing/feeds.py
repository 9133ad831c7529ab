"""GTFS feeds: tables of a folder or a zip, services, trips with their calls."""
import csv
import datetime
import io
import lzma
import math
import os
import re
import zipfile
import zlib
from array import array

from .grouping import grouped
from .telling import Refused

WHOLE = re.compile(r"(-?[0-9]+)(?:\.0*)?")
MOST_DIGITS = 18
"""A whole number, also as spreadsheets and data frames write it, such as 3.0; with more digits it doesn't fit 64 bits."""
WEEKDAYS = ("monday", "tuesday", "wednesday", "thursday", "friday", "saturday", "sunday")
DAY = 86_400

# The fields of GTFS that are read: of each file those without which a feed is refused, then the others.
FIELDS = {
    "agency.txt": ((), ("agency_timezone", "agency_name")),
    "calendar.txt": (("service_id", "start_date", "end_date", *WEEKDAYS), ()),
    "calendar_dates.txt": (("service_id", "date", "exception_type"), ()),
    "frequencies.txt": (("trip_id", "start_time", "end_time", "headway_secs"), ("exact_times",)),
    "routes.txt": (("route_id",), ("route_type", "route_short_name", "route_long_name")),
    "stop_times.txt": (("trip_id", "stop_id", "stop_sequence"), ("arrival_time", "departure_time", "pickup_type", "drop_off_type", "shape_dist_traveled", "continuous_pickup", "continuous_drop_off")),
    "stops.txt": (("stop_id",), ("stop_name", "stop_lat", "stop_lon", "location_type", "parent_station")),
    "transfers.txt": (("from_stop_id", "to_stop_id"), ("transfer_type", "min_transfer_time", "from_route_id", "to_route_id", "from_trip_id", "to_trip_id")),
    "trips.txt": (("trip_id", "route_id", "service_id"), ("trip_headsign", "block_id")),
}
NEEDED = ("stops.txt", "routes.txt", "trips.txt", "stop_times.txt")
# The fields that are codes: a few small numbers. Spreadsheets and data frames write them as 1.0.
CODES = frozenset((*WEEKDAYS, "exception_type", "exact_times", "route_type", "pickup_type", "drop_off_type", "continuous_pickup", "continuous_drop_off", "location_type", "transfer_type"))
CALLED = frozenset(("", "0", "1", "2", "3"))
"""The codes of boarding and leaving."""


class Feed:
    """The tables of a feed, row by row."""

    def __init__(self, path, summary):
        self.path, self.summary, self.folder = path, summary, ""
        self.clock = {"": -1}
        if not os.path.exists(path):
            raise Refused(f"{path} isn't there")
        self.zip = None
        if os.path.isdir(path):
            self.files = {name for name in os.listdir(path) if name.endswith(".txt")}
        else:
            try:
                self.zip = zipfile.ZipFile(path)
            except (zipfile.BadZipFile, OSError):
                raise Refused(f"{path} is neither a folder nor a zip") from None
            except NotImplementedError as fault:
                raise Refused(f"{path} can't be unpacked: {fault}") from None
            names = [name for name in self.zip.namelist() if not name.startswith("__MACOSX/")]
            self._enter([name for name in names if name.rpartition("/")[2] == "stop_times.txt"])
            self.files = {name[len(self.folder):] for name in names if name.startswith(self.folder) and name.endswith(".txt")}
            packed = next((name for name in names if name.endswith(".zip")), None)
            if packed and "stop_times.txt" not in self.files:
                raise Refused(f"{path} is a zip of zips; unpack it and give one of them, such as {packed}")
        for name in NEEDED:
            if name not in self.files:
                raise Refused(f"{path} is no GTFS feed: it has no {name}")
        if not self.files & {"calendar.txt", "calendar_dates.txt"}:
            raise Refused(f"{path} is no GTFS feed: it has neither calendar.txt nor calendar_dates.txt")

    def _enter(self, found):
        """Finds the folder of a zip that has the feed."""
        if not found or "stop_times.txt" in found:
            return
        if len(found) > 1:
            raise Refused(f"{self.path} has {len(found)} feeds; unpack it and give one of the folders: {', '.join(name.rpartition('/')[0] for name in found[:8])}")
        self.folder = found[0][:-len("stop_times.txt")]
        self.summary.note(f"the feed's files are in the folder {self.folder} of the zip")

    def rows(self, name):
        """(line, values of its FIELDS) of each row of a file; a missing optional value is '', and codes are written without a fraction."""
        if name not in self.files:
            return
        wanted, optional = FIELDS[name]
        try:
            binary = self.zip.open(self.folder + name) if self.zip else open(os.path.join(self.path, name), "rb")
            with binary, io.TextIOWrapper(binary, encoding="utf-8-sig", newline="") as text:
                table = csv.reader(text)
                head = [column.strip() for column in next(table, [])]
                if not head and name not in NEEDED:
                    self.summary.note(f"{name} is empty")
                    return
                if not head:
                    raise Refused(f"{self.path}: {name} is empty")
                for column in wanted:
                    if column not in head:
                        raise Refused(f"{self.path}: {name} has no column {column}; its first line is {','.join(head)[:120]!r}, and names between commas are wanted")
                places = [head.index(column) if column in head else -1 for column in (*wanted, *optional)]
                codes = [spot for spot, column in enumerate((*wanted, *optional)) if column in CODES and column in head]
                for row in table:
                    if row:
                        values = [row[place].strip() if 0 <= place < len(row) else "" for place in places]
                        for spot in codes:
                            if "." in values[spot]:
                                values[spot] = _code(values[spot])
                        yield table.line_num, values
        except UnicodeDecodeError:
            raise Refused(f"{self.path}: {name} isn't UTF-8; `iconv -f ISO-8859-1 -t UTF-8` may change it") from None
        except csv.Error as fault:
            raise Refused(f"{self.path}: {name} isn't a table: {fault}") from None
        except (zipfile.BadZipFile, zlib.error, lzma.LZMAError, EOFError, NotImplementedError, RuntimeError) as fault:
            raise Refused(f"{self.path}: {name} can't be unpacked: {fault}") from None

    def fault(self, name, line, sentence):
        return Refused(f"{self.path}: {name}, line {line}: {sentence}")

    def number(self, name, line, column, text, usual=None, least=0):
        """A whole number of a column."""
        if not text and usual is not None:
            return usual
        found = WHOLE.fullmatch(text)
        if not found or len(text) > MOST_DIGITS:
            raise self.fault(name, line, f"{column} is {text[:40]!r}, and a whole number of at most {MOST_DIGITS} digits is wanted")
        value = int(found.group(1))
        if value < least:
            raise self.fault(name, line, f"{column} is {value}, and at least {least} is wanted")
        return value

    def seconds(self, name, line, column, text):
        """A time as 7:05:00 or 25:10:00, in seconds of its day; -1 if it is blank."""
        known = self.clock.get(text)
        if known is not None:
            return known
        found = re.fullmatch(r"(\d+):(\d\d?):(\d\d?)", text)
        if not found:
            raise self.fault(name, line, f"{column} is {text!r}, and a time as 7:05:00 is wanted")
        hours, minutes, rest = map(int, found.groups())
        if minutes > 59 or rest > 59 or hours > 100_000:
            raise self.fault(name, line, f"{column} {text!r} is no time")
        self.clock[text] = 3600 * hours + 60 * minutes + rest
        return self.clock[text]


def _code(text):
    """A code without a fraction of zeros; any other text as it is."""
    found = WHOLE.fullmatch(text)
    return str(int(found.group(1))) if found and len(text) <= MOST_DIGITS else text


def date_of(text):
    """A day as 20261123."""
    if not re.fullmatch(r"[0-9]{8}", text):
        raise ValueError(f"{text!r} is no day: YYYYMMDD is wanted, as 20261123")
    try:
        return datetime.date(int(text[:4]), int(text[4:6]), int(text[6:]))
    except ValueError:
        raise ValueError(f"{text} is no day of the calendar") from None


def _day(feed, name, line, text):
    try:
        date_of(text)
    except ValueError as fault:
        raise feed.fault(name, line, str(fault)) from None


def services(feed, first, days, back):
    """For each service the days that it runs on, from -back to days - 1 counted from the first; and the days that the calendar spans."""
    try:
        asked = {first + datetime.timedelta(days=number): number for number in range(-back, days)}
    except OverflowError:
        raise Refused(f"the days asked, {back} before {first:%Y-%m-%d} and {days} from then on, aren't all between the years 1 and 9999") from None
    names = {date.isoformat().replace("-", ""): (number, WEEKDAYS[date.weekday()]) for date, number in asked.items()}
    runs, spans, weeks, exceptions = {}, [], set(), {}
    for line, row in feed.rows("calendar.txt"):
        service, start, end, week = row[0], row[1], row[2], dict(zip(WEEKDAYS, row[3:]))
        _day(feed, "calendar.txt", line, start)
        _day(feed, "calendar.txt", line, end)
        wrong = next((day for day in WEEKDAYS if week[day] not in ("0", "1")), None)
        if wrong:
            raise feed.fault("calendar.txt", line, f"{wrong} is {week[wrong]!r}, and 0 or 1 is wanted")
        if service in weeks:
            feed.summary.take("further lines of calendar.txt for a service, which add to its days")
        weeks.add(service)
        if end < start:
            feed.summary.leave("services that end before they begin", service)
        spans += [start, end]
        for date, (number, weekday) in names.items():
            if start <= date <= end and week[weekday] == "1":
                runs.setdefault(service, set()).add(number)
    for line, (service, date, kind) in feed.rows("calendar_dates.txt"):
        if kind not in ("1", "2"):
            raise feed.fault("calendar_dates.txt", line, f"exception_type is {kind!r}, and 1 or 2 is wanted")
        _day(feed, "calendar_dates.txt", line, date)
        spans.append(date)
        if date in names:
            number = names[date][0]
            if exceptions.setdefault((service, number), kind) != kind:
                feed.summary.leave("services that calendar_dates.txt both adds and removes on a day asked; the last line holds", f"{service} on {date}")
            (runs.setdefault(service, set()).add if kind == "1" else runs.setdefault(service, set()).discard)(number)
    return {service: sorted(on) for service, on in runs.items() if on}, (min(spans), max(spans)) if spans else None


def nearest_day(feed, wanted, first, span):
    """The day nearest to another on which one of some services runs, as 20261123; None if none does within a year of the calendar's days."""
    middle = min(max(first, date_of(span[0])), date_of(span[1]))
    back, days = min(366, middle.toordinal() - 1), min(367, datetime.date.max.toordinal() - middle.toordinal() + 1)
    runs, _ = services(feed, middle, days, back)
    near = min((abs(middle.toordinal() + day - first.toordinal()), day) for service in wanted if service in runs for day in runs[service]) if wanted & set(runs) else None
    return (middle + datetime.timedelta(days=near[1])).isoformat().replace("-", "") if near else None


class Stops:
    """The stops of a feed: ids, names, coordinates, the stations that they belong to."""

    def __init__(self, feed, box, summary):
        self.ids, self.names, self.places, self.station = [], [], [], []
        self.number, self.children, self.by_name = {}, {}, {}
        self.outside = set()
        for line, (stop, name, latitude, longitude, kind, parent) in feed.rows("stops.txt"):
            if kind == "1":
                self.children.setdefault(stop, [])
                self.by_name.setdefault(name, []).append(stop)
                continue
            if kind in ("2", "3", "4"):
                summary.leave("entrances, crossings and boarding areas of stations, not looked at", stop)
                continue
            if kind not in ("", "0"):
                raise feed.fault("stops.txt", line, f"location_type is {kind!r}, and 0 to 4 is wanted")
            if stop in self.number:
                raise feed.fault("stops.txt", line, f"the stop {stop!r} was there before")
            place = self._place(feed, line, latitude, longitude)
            self.number[stop] = len(self.ids)
            self.ids.append(stop)
            self.names.append(name or stop)
            self.places.append(place)
            self.station.append(parent)
            self.by_name.setdefault(name, []).append(stop)
            if parent:
                self.children.setdefault(parent, []).append(len(self.ids) - 1)
            if box and (place is None or not (box[0] <= place[0] <= box[2] and box[1] <= place[1] <= box[3])):
                self.outside.add(len(self.ids) - 1)
        if not self.ids:
            raise Refused(f"{feed.path}: stops.txt has no stop")
        if box:
            summary.leave("stops outside the box; trips are cut there", count=len(self.outside))

    @staticmethod
    def _place(feed, line, latitude, longitude):
        if not latitude or not longitude:
            return None
        try:
            place = float(longitude), float(latitude)
        except ValueError:
            raise feed.fault("stops.txt", line, f"{longitude!r}, {latitude!r} are no coordinates") from None
        if not (-180 <= place[0] <= 180 and -90 <= place[1] <= 90):
            raise feed.fault("stops.txt", line, f"{longitude}, {latitude} is no place: longitude is -180 to 180, and latitude -90 to 90")
        return None if place == (0.0, 0.0) else place

    def of(self, stop):
        """The stops that an id of transfers.txt names: one, or those of a station."""
        return [self.number[stop]] if stop in self.number else self.children.get(stop, [])


class Calls:
    """The calls of trips that run: by trip, in the order of their sequence, with times filled in."""

    def __init__(self, feed, trips, listed, stops, summary):
        """`trips` numbers those that run, `listed` are all of trips.txt."""
        self.feed, self.trips, self.stops, self.summary = feed, trips, stops, summary
        self.trip, self.sequence, self.stop = array("i"), array("q"), array("i")
        self.arrival, self.departure, self.bans, self.distance = array("i"), array("i"), bytearray(), array("d")
        unknown = set()
        for line, (trip, stop, sequence, arrival, departure, pickup, drop, distance, on, off) in feed.rows("stop_times.txt"):
            number = trips.get(trip)
            if number is None:
                if trip not in listed:
                    summary.leave("calls of a trip that trips.txt doesn't have", trip)
                continue
            if stop not in stops.number:
                unknown.add(number)
                continue
            if pickup not in CALLED or drop not in CALLED:
                raise feed.fault("stop_times.txt", line, f"pickup_type and drop_off_type are {pickup!r} and {drop!r}, and 0 to 3 is wanted")
            if pickup in ("2", "3") or drop in ("2", "3"):
                summary.take("calls on demand (by phone or by telling the driver), taken as regular")
            if on in ("0", "2", "3") or off in ("0", "2", "3"):
                summary.leave("calls after which passengers may board or leave anywhere, taken at stops only", trip)
            self.trip.append(number)
            self.sequence.append(feed.number("stop_times.txt", line, "stop_sequence", sequence))
            self.stop.append(stops.number[stop])
            self.arrival.append(feed.seconds("stop_times.txt", line, "arrival_time", arrival))
            self.departure.append(feed.seconds("stop_times.txt", line, "departure_time", departure))
            self.bans.append((pickup == "1") + 2 * (drop == "1"))
            self.distance.append(_float(distance))
        self.unknown = unknown
        self.firsts, self.places = grouped(self.trip, len(trips))

    def of(self, trip, name):
        """The calls of a trip as (stop, arrival, departure, bans), bit 0 of bans: nobody boards, bit 1: nobody leaves; or None."""
        if trip in self.unknown:
            return self._left("trips with a call at a place that isn't a stop of stops.txt", name)
        rows = sorted(self.places[self.firsts[trip]:self.firsts[trip + 1]], key=lambda row: self.sequence[row])
        if not rows:
            return self._left("trips without calls in stop_times.txt", name)
        if len(rows) < 2:
            return self._left("trips with a single call", name)
        if any(self.sequence[here] == self.sequence[there] for here, there in zip(rows, rows[1:])):
            return self._left("trips with two calls of one stop_sequence", name)
        arrivals = [self.arrival[row] if self.arrival[row] >= 0 else self.departure[row] for row in rows]
        departures = [self.departure[row] if self.departure[row] >= 0 else self.arrival[row] for row in rows]
        if arrivals[0] < 0 or arrivals[-1] < 0:
            return self._left("trips without a time at their first or last call", name)
        self._fill(rows, arrivals, departures)
        if any(arrival > departure for arrival, departure in zip(arrivals, departures)) or any(departure > arrival for departure, arrival in zip(departures, arrivals[1:])):
            return self._left("trips whose times go back", name)
        return [(self.stop[row], arrival, departure, self.bans[row]) for row, arrival, departure in zip(rows, arrivals, departures)]

    def _left(self, why, name):
        self.summary.leave(why, name)
        return None

    def _fill(self, rows, arrivals, departures):
        """Fills blank times between two times: by shape_dist_traveled where it rises all along, else in equal shares."""
        start = 0
        for end in range(1, len(rows)):
            if arrivals[end] < 0:
                continue
            if end > start + 1:
                distances = [self.distance[row] for row in rows[start:end + 1]]
                whole = distances[-1] - distances[0]
                by_distance = whole > 0 and all(here <= there for here, there in zip(distances, distances[1:]))
                for step in range(1, end - start):
                    share = (distances[step] - distances[0]) / whole if by_distance else step / (end - start)
                    arrivals[start + step] = departures[start + step] = departures[start] + int(share * (arrivals[end] - departures[start]))
                self.summary.take("blank times filled in" + (" by the distance along the trip" if by_distance else " in equal shares"), count=end - start - 1)
            start = end


def _float(text):
    try:
        value = float(text)
    except ValueError:
        return math.nan
    return value if math.isfinite(value) else math.nan
