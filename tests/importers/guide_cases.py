"""What docs/guide/real-data.md says of files, options and calls. (Its commands run with those of all pages, in tests/cli/documents.py.)"""
import os
import re
import subprocess
import sys

import support
from support import ROOT

PAGE = os.path.join(ROOT, "docs", "guide", "real-data.md")


def losses_of_the_page(room):
    """What the page says of files is so: every end of a name that an importer writes is there."""
    with open(PAGE, encoding="utf-8") as page:
        text = page.read()
    for end in (".gr", ".tp", ".co", ".nodes.csv", ".arcs.csv", ".shapes.csv", ".rides.csv", ".trips.csv", ".ss", ".p2p"):
        yield f"NAME{end} stands in the guide", f"NAME{end}" in text, True
    for name in ("osm", "gtfs", "sumo", "functions", "nearest", "isochrones"):
        told = support.ran(name, "--help").out
        missing = [word for word in ("--profile", "--largest", "--keep-nodes", "--turns", "--no-restrictions", "--reader", "--days", "--back", "--change", "--stations", "--walk", "--pace", "--detour", "--streets", "--routes", "--types", "--box", "--data", "--vehicle", "--max-speed", "--period", "--rounding", "--input-units", "--end", "--ss", "--write", "--band", "--units", "--reach", "--shapes", "--problem", "--unit", "--from", "--to") if word in told and word not in text]
        yield f"options of {name} stand in the guide", missing, []


def calls_of_the_page(room):
    """The calls from Python write what the commands write, and raise what they refuse."""
    osm, gtfs, telling = (support.module(name) for name in ("osm", "gtfs", "importing.telling"))
    examples = os.path.join(ROOT, "examples")
    _, files = osm.convert(os.path.join(examples, "osm", "town.osm"), os.path.join(room, "a"), profile="bicycle", largest=True, starts=["10.0,50.001"])
    support.good("osm", os.path.join(examples, "osm", "town.osm"), os.path.join(room, "b"), "--profile", "bicycle", "--largest", "--from", "10.0,50.001")
    summary, more = gtfs.convert(os.path.join(examples, "transit"), "20261123", os.path.join(room, "c"), walk=400, change=120)
    told = support.good("gtfs", os.path.join(examples, "transit"), "20261123", os.path.join(room, "d"), "--walk", "400", "--change", "120")
    for mine, other, paths in (("a", "b", files), ("c", "d", more)):
        for path in paths:
            end = os.path.basename(path)[1:]
            yield f"{mine}{end} from Python", support.text(room, mine + end), support.text(room, other + end)
    yield "the summary", list(summary.lines()), told.out.split("\n")[:-2]
    try:
        gtfs.convert(os.path.join(room, "nowhere"), "20261123", os.path.join(room, "e"))
    except telling.Refused as fault:
        yield "a refusal from Python", "isn't there" in str(fault), True


MEMORY = """import sys
from earliest import gtfs, osm
kind, small, large, name = sys.argv[1:]
found = []
for path in (small, large):
    (osm.convert(path, name) if kind == "osm" else gtfs.convert(path, "20261123", name))
    found.append(next(1024 * int(line.split()[1]) for line in open("/proc/self/status") if line.startswith("VmHWM")))
print(found[1] - found[0])
"""


def memory_of_the_page(room):
    """What an import takes beyond a small one's memory is at most what the guide says, for each way and node, and for each call."""
    with open(PAGE, encoding="utf-8") as page:
        told = re.search(r"Plan with (\d+) bytes of memory for each way and node .* and with (\d+) for each call", page.read())
    yield "the guide says how much", told is not None, True

    def town(side):
        """A grid of streets with seven bends between two crossings: its text, and how many ways and nodes it has."""
        nodes, ways = {}, []
        for street in range(side):
            for along in (True, False):
                ways.append([])
                for step in range(8 * side - 7):
                    x, y = (step, 8 * street) if along else (8 * street, step)
                    nodes[10_000 * y + x] = f'<node id="{10_000 * y + x}" lon="{10 + 0.0002 * x:.4f}" lat="{50 + 0.0002 * y:.4f}" version="1"/>\n'
                    ways[-1].append(10_000 * y + x)
        return '<osm version="0.6">\n' + "".join(nodes[node] for node in sorted(nodes)) + "".join(f'<way id="{place}" version="1">' + "".join(f'<nd ref="{ref}"/>' for ref in way) + '<tag k="highway" v="residential"/></way>\n' for place, way in enumerate(ways, 1)) + "</osm>", len(nodes) + len(ways)

    def feed(trips):
        days = ",".join(("monday", "tuesday", "wednesday", "thursday", "friday", "saturday", "sunday"))
        return {"stops.txt": "stop_id,stop_name,stop_lat,stop_lon\n" + "".join(f"{stop},{stop},47.{stop:03},8\n" for stop in range(500)), "routes.txt": "route_id,route_short_name,route_type\nr,r,3\n", "trips.txt": "route_id,service_id,trip_id\n" + "".join(f"r,all,t{trip}\n" for trip in range(trips)),
                "stop_times.txt": "trip_id,arrival_time,departure_time,stop_id,stop_sequence\n" + "".join(f"t{trip},{(minute := 3 * trip % 1200 + 2 * call + trip * call % 2) // 60}:{minute % 60:02}:00,{minute // 60}:{minute % 60:02}:00,{(7 * trip + call) % 500},{call}\n" for trip in range(trips) for call in range(40)),
                "calendar.txt": f"service_id,{days},start_date,end_date\nall,1,1,1,1,1,1,1,20260101,20261231\n"}

    streets, count_of_streets = town(120)
    for kind, name, small, large, count, most in (("osm", "town.osm", town(5)[0], streets, count_of_streets, 1), ("gtfs", "feed", feed(5), feed(2500), 100_000, 2)):
        paths = [support.put(os.path.join(room, size), name, contents) for size, contents in (("small", small), ("large", large))]
        ran = subprocess.run([sys.executable, "-c", MEMORY, kind, *paths, os.path.join(room, "out")], capture_output=True, text=True, check=False, env={**os.environ, "PYTHONPATH": os.path.dirname(support.PACKAGE)})
        yield f"memory of {kind} is measured", (ran.returncode, ran.stderr), (0, "")
        taken = int(ran.stdout or 0)
        yield f"memory of {kind}: {taken / count:.0f} bytes for each, at most {told[most]}", taken <= int(told[most]) * count, True


CASES = (memory_of_the_page, calls_of_the_page, losses_of_the_page)
