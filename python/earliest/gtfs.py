"""A network of the departures of one day or several of a GTFS feed (a folder or a zip), and legs of the walks on it.

    python3 -m earliest.gtfs feed.zip 20261123 monday --walk 300 --from "Main Square" --to Harbour
    bin/earliest pairs monday.gr monday.p2p --tp monday.tp --depart 2880000 --walks > report
    python3 -m earliest.gtfs legs monday report

The first writes monday.gr, monday.tp, monday.co, monday.nodes.csv (the table of stops), monday.arcs.csv, monday.rides.csv and
monday.trips.csv, and with --from and --to monday.ss and monday.p2p. Times count from the midnight at which the day begins, in
hundredths of a second unless --unit says otherwise, and go beyond 24 hours as the feed's do. The last turns the walks of a report into
lines, trips, stops and times.

An arc leads from a stop to the next one of a trip, with the departures of all trips that do so. Where a change takes time, or where
nobody may board or leave, trips have nodes of their own. Where a change takes time a stop has two nodes, one to start from and one to
end at: the column `use` of NAME.nodes.csv says which is which.
"""
import argparse
import sys

from .importing import writing
from .importing.feeds import DAY, Calls, Feed, Stops, date_of, nearest_day, services
from .importing.legs import legs_command
from .importing.telling import Refused, Summary, ended
from .importing.timetable import Timetable, Transfers
from .importing.transit_files import ADVICE, Files


def chosen(text, other, wanted):
    """Whether a selection has a text or another one; an empty selection has all."""
    return not wanted or text in wanted or other in wanted


def when(feed, asked):
    """For a refusal: the days of a feed's calendar, and the nearest on which a trip that is asked for runs."""
    span, wanted, types = services(feed, asked.first, 1, 0)[1], set(asked.routes or ()), set(asked.types or ())
    if not span:
        return "; its calendar is empty"
    routes = {route for _, (route, kind, short, long) in feed.rows("routes.txt") if chosen(route, short or long or route, wanted) and chosen(kind, None, types)}
    services_of = {service for _, (_, route, service, _, _) in feed.rows("trips.txt") if route in routes}
    near = nearest_day(feed, services_of, asked.first, span)
    if near == asked.day:
        return ""
    return f"; its calendar goes from {span[0]} to {span[1]}, " + (f"and the nearest day on which one runs is {near}" if near else "but none runs then")


def trips_that_run(feed, asked, summary):
    """Trips of the routes that were asked, with their route and the days that they run on."""
    runs, _ = services(feed, asked.first, asked.days, asked.back)
    names, kinds = {}, {}
    for _, (route, kind, short, long) in feed.rows("routes.txt"):
        if route in names:
            summary.leave("lines of routes.txt for a route that was there before; the first one holds", route)
            continue
        names[route], kinds[route] = short or long or route, kind
    wanted, types = set(asked.routes or ()), set(asked.types or ())
    for name in wanted:
        if name not in names and name not in names.values():
            raise Refused(f"{feed.path} has no route {name!r}")
    for kind in sorted(types - set(kinds.values())):
        raise Refused(f"{feed.path} has no route of the route_type {kind}; it has {', '.join(sorted(set(kinds.values())))}")
    numbers, trips, blocks, listed = {}, [], 0, set()
    for line, (trip, route, service, sign, block) in feed.rows("trips.txt"):
        listed.add(trip)
        if service not in runs:
            summary.leave("trips that don't run on the days asked")
            continue
        if route not in names:
            summary.leave("trips of a route that routes.txt doesn't have", trip)
            continue
        if not (chosen(route, names[route], wanted) and chosen(kinds[route], None, types)):
            summary.leave("trips of other routes, as asked")
            continue
        if trip in numbers:
            raise feed.fault("trips.txt", line, f"the trip {trip!r} was there before")
        numbers[trip] = len(trips)
        trips.append((trip, route, sign, runs[service]))
        blocks += bool(block)
    if not trips:
        raise Refused(f"no trip of {feed.path} that is asked for runs on {asked.day}{when(feed, asked)}")
    if blocks:
        summary.note("who stays seated where a vehicle goes on as another trip (block_id) is taken as changing")
    return numbers, trips, names, listed


def clocks_told(feed, summary):
    """Says of which time zone the times are, and which others are lost."""
    zones = {}
    for _, (zone, agency) in feed.rows("agency.txt"):
        zones.setdefault(zone, agency)
    if zones:
        first, *others = zones
        summary.note(f"times are those of {first or 'a time zone that agency.txt leaves out'}")
        for zone in others:
            summary.leave(f"time zones of agencies beside {first}: their times are taken as of {first}", f"{zone}: {zones[zone]}")


def frequencies_of(feed, numbers, listed, summary):
    found, count = {}, 0
    for line, (trip, start, end, headway, exact) in feed.rows("frequencies.txt"):
        if trip not in numbers:
            if trip not in listed:
                summary.leave("headways of a trip that trips.txt doesn't have", trip)
            continue
        first, last = (feed.seconds("frequencies.txt", line, column, text) for column, text in (("start_time", start), ("end_time", end)))
        if first < 0 or last <= first:
            raise feed.fault("frequencies.txt", line, "start_time is not before end_time")
        if exact not in ("", "0", "1"):
            raise feed.fault("frequencies.txt", line, f"exact_times is {exact!r}, and 0 or 1 is wanted")
        headway = feed.number("frequencies.txt", line, "headway_secs", headway, None, 1)
        count += -(-(last - first) // headway)
        if count > MOST_HEADWAYS:
            raise feed.fault("frequencies.txt", line, f"more than {MOST_HEADWAYS} departures by headways are needed here; {ADVICE}")
        if exact != "1":
            summary.take("headways without exact times, taken as departures from their start_time on")
        found.setdefault(numbers[trip], []).append((first, last, headway))
    summary.take("trips by headways", len(found))
    return found


def shifts_of(days, calls, headways):
    """For each run of a trip its day and the seconds to add to its calls."""
    for day in days:
        if headways is None:
            yield day, DAY * day
        else:
            for first, last, headway in headways:
                for start in range(first, last, headway):
                    yield day, DAY * day + start - calls[0][2]


def add_runs(table, number, trip, route, calls, shifts, asked, summary):
    """Adds the runs of a trip that are under way from the first midnight on."""
    shifts = [(day, shift) for day, shift in shifts if calls[-1][1] + shift >= 0]
    summary.take("runs that began on a day before and go on beyond midnight", sum(1 for day, _ in shifts if day < 0))
    if calls[-1][1] >= DAY * (asked.back + 1):
        summary.leave(f"trips that go on for more than {asked.back} days beyond their own: earlier runs of them (more with --back)", trip)
    if shifts:
        table.add(number, calls, route, shifts)
    else:
        summary.leave("trips that don't run on the days asked")


MOST_DAYS, MOST_HEADWAYS = 1_000, 2_000_000
"""Of days asked, and of departures by headways: what a command may take of time and memory."""
USUAL = {"days": 1, "back": 2, "unit": "hundredths", "change": 0, "stations": None, "walk": None, "pace": 1.2, "detour": 1.3, "streets": None, "routes": None, "types": None, "box": None, "starts": (), "goals": ()}
"""What is asked if nobody says otherwise."""


def convert(path, day, name, **options):
    """Writes the network of a feed; returns its summary and the names of the files. `options` are those of USUAL."""
    summary, asked = Summary(), argparse.Namespace(**{**USUAL, **options, "day": day})
    asked.first = date_of(day)
    feed = Feed(path, summary)
    with writing.Outputs(name) as out:
        clocks_told(feed, summary)
        stops = Stops(feed, asked.box, summary)
        numbers, trips, names, listed = trips_that_run(feed, asked, summary)
        headways = frequencies_of(feed, numbers, listed, summary)
        transfers = Transfers(feed, stops, asked, summary)
        calls = Calls(feed, numbers, listed, stops, summary)
        table = Timetable([trip for trip, _, _, _ in trips], stops, transfers, summary)
        for number, (trip, route, _, days) in enumerate(trips):
            found = calls.of(number, trip)
            if found:
                add_runs(table, number, trip, route, found, list(shifts_of(days, found, headways.get(number))), asked, summary)
        calls = None
        table.chains()
        if not table.hops:
            raise Refused(f"no trip of {path} is left that can be boarded and left on {day}{summary.reasons()}{when(feed, asked)}")
        Files(out, path, table, trips, names, asked, summary).write()
        if feed.files & {"pathways.txt"}:
            summary.leave("tables pathways.txt, not looked at")
    summary.notes += out.notes
    return summary, out.names()


def box_of(text):
    try:
        west, south, east, north = (float(part) for part in text.split(","))
    except ValueError:
        raise ValueError("a box is WEST,SOUTH,EAST,NORTH in degrees") from None
    if west > east or south > north:
        raise ValueError("a box has its west before its east, and its south before its north")
    return west, south, east, north


def _checked(call):
    """For argparse: the sentence of a ValueError."""
    def convert_text(text):
        try:
            return call(text)
        except ValueError as fault:
            raise argparse.ArgumentTypeError(str(fault)) from None
    return convert_text


def _least(least, kind=int, most=10**9):
    def number(text):
        value = kind(text)
        if not least <= value <= most:
            raise ValueError(f"{text} is out of range: {least} to {most} is wanted")
        return value
    return _checked(number)


def command(words):
    if words[:1] == ["legs"]:
        return legs_command(words[1:])
    asked = writing.Words(__doc__, "gtfs")
    asked.add_argument("feed", help="a folder or a zip; `legs` is a command of its own")
    asked.add_argument("day", type=_checked(lambda text: date_of(text) and text), help="the first day, as 20261123")
    asked.add_argument("name", help="NAME of the files that are written")
    asked.add_argument("--days", type=_least(1, most=MOST_DAYS), default=USUAL["days"], help="how many days (default: 1)")
    asked.add_argument("--back", type=_least(0, most=MOST_DAYS), default=USUAL["back"], help="how many days before are looked at for trips that go on beyond midnight (default: 2)")
    writing.add_unit(asked)
    asked.add_argument("--change", type=_least(0), default=USUAL["change"], metavar="SECONDS", help="the least time of a change at a stop; transfers.txt may say otherwise for a stop (default: 0)")
    asked.add_argument("--stations", type=_least(1), metavar="SECONDS", help="the time from any stop of a station to any other one of it, if transfers.txt doesn't tell one (default: none)")
    asked.add_argument("--walk", type=_least(1, float), metavar="METRES", help="walks between stops within this radius (default: none)")
    asked.add_argument("--pace", type=_least(0.1, float), default=USUAL["pace"], metavar="M/S", help="metres per second of a walk (default: 1.2)")
    asked.add_argument("--detour", type=_least(1, float), default=USUAL["detour"], help="how many times the beeline a walk is (default: 1.3)")
    asked.add_argument("--streets", metavar="NAME", help="join in a network that `earliest osm --profile foot` has written; stops are linked to it within --walk metres (default: 500)")
    asked.add_argument("--routes", action="append", metavar="ROUTE", help="only this route, by its id or name; may be given several times")
    asked.add_argument("--types", action="append", metavar="TYPE", help="only routes of this route_type; may be given several times")
    asked.add_argument("--box", type=_checked(box_of), metavar="W,S,E,N", help="only rides between stops in this box, in degrees")
    asked.add_argument("--from", dest="starts", metavar="STOP", action="append", default=[], help="a stop to start from, by its id or name, or with --streets a place as 11.34,44.49, for NAME.ss")
    asked.add_argument("--to", dest="goals", metavar="STOP", action="append", default=[], help="a stop to go to, for NAME.p2p with --from")
    given = asked.parse_args(words)
    if given.goals and not given.starts:
        asked.error("--to needs --from")
    summary, files = convert(given.feed, given.day, given.name, **{key: value for key, value in vars(given).items() if key in USUAL})
    summary.tell()
    print("written: " + ", ".join(files))
    return 0


def main(words=None):
    return ended("gtfs", command, words)


if __name__ == "__main__":
    sys.exit(main(sys.argv[1:]))
