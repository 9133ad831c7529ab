"""A road network of OpenStreetMap data (.osm, .osm.bz2, .osm.pbf), for cars, bicycles or walkers.

    python3 -m earliest.osm town.osm.pbf town --profile car --from 11.34,44.49

writes town.gr, town.co, town.nodes.csv, town.arcs.csv and town.shapes.csv, and with --from and --to the texts of sources (town.ss) and
of pairs (town.p2p). What was taken and what was left out is told at the end.

Turn restrictions split the crossings that have them: such a crossing has a node to start from, a node to end at, and a node for each
arc after which not every turn is allowed. The column `use` of NAME.nodes.csv says which is which.
"""
import sys
from array import array

from .importing import geography, osm_reading, writing
from .importing.osm_network import CUT, KNOWN, Extract, Network
from .importing.osm_turns import Costs, Joined, Split, Turns
from .importing.profile import Profile, names as profile_names
from .importing.telling import Refused, Summary, ended


def place_of(text, which):
    try:
        longitude, latitude = (float(part) for part in text.split(","))
    except ValueError:
        raise Refused(f"{which} {text!r}: longitude and latitude in degrees are wanted, as 11.34,44.49") from None
    if not (-180 <= longitude <= 180 and -90 <= latitude <= 90):
        raise Refused(f"{which} {text!r} is no place: longitude is -180 to 180, and latitude -90 to 90")
    return longitude, latitude


def nearest_nodes(asked, which, split, summary):
    """The nodes that are nearest to places, of those to start from or to end at. Few are asked, so each looks at all nodes."""
    found, wanted = [], ("both", "start" if which == "--from" else "end")
    for text in asked:
        place = place_of(text, which)
        metres, number = min((geography.metres(*place, *split.joined.network.place(node)), number) for number, (node, use) in enumerate(split.described(), 1) if use in wanted)
        summary.note(f"{which} {text}: node {number}, {metres:.0f} m away")
        found.append(number)
    return found


def convert(path, name, profile="car", unit="hundredths", largest=False, keep_nodes=False, turns=False, restrictions=True, starts=(), goals=(), reader="auto"):
    """Writes the network of an extract and returns its summary."""
    summary, profile, per_second = Summary(), Profile(profile), writing.UNITS[unit]
    with writing.Outputs(name) as out:
        source = osm_reading.Source(path, reader)
        extract = Extract(source, profile, summary, turns)
        if not restrictions and extract.restrictions:
            summary.leave("turn restrictions, as --no-restrictions asks", count=len(extract.restrictions))
            extract.restrictions = []
        network = Network(extract, summary, keep_nodes)
        if largest:
            network.largest()
        rules = Turns(network)
        joined = Joined(network, rules.crossings(), not keep_nodes)
        passed = sum(joined.passed) + sum(1 for flag in extract.flags if flag & (KNOWN | CUT) == KNOWN)
        split = Split(joined, rules.forbidden, Costs(joined, profile) if turns else None)
        if passed:
            summary.take("nodes of degree two joined into arcs; NAME.shapes.csv keeps where they lie", count=passed)
        if split.states:
            summary.take("crossings split for turns", count=len(split.end_number))
        _write(out, path, split, per_second, summary, starts, goals)
        if not turns and not keep_nodes:
            summary.note("turns take no time, and turning round at a crossing is allowed unless a restriction forbids it; --turns adds the profile's seconds")
        summary.note(f"read by {source.reader}; speeds of {profile.path}; distances on a sphere")
    summary.notes += out.notes
    return summary, out.names()


def _write(out, path, split, per_second, summary, starts, goals):
    joined, network = split.joined, split.joined.network
    extract, arcs = network.extract, network.arcs
    ids = array("q")
    nodes = out.file(".nodes.csv")
    nodes.write("node,id,longitude,latitude,use\n")
    for number, (node, use) in enumerate(split.described(), 1):
        longitude, latitude = network.place(node)
        ids.append(int(extract.ids.all[network.origin(node)]))
        nodes.write(f"{number},{ids[-1]},{longitude:.7f},{latitude:.7f},{use}\n")
    count = split.count()
    writing.limits_kept(split.nodes, count)
    graph, table, shapes = out.file(".gr"), out.file(".arcs.csv"), out.file(".shapes.csv")
    graph.write(writing.unit_comment(per_second, path) + f"p sp {split.nodes} {count}\n")
    table.write("arc,way,from,to,length\n")
    shapes.write("arc,longitudes and latitudes\n")
    for number, (tail, head, arc, turning) in enumerate(split.arcs(), 1):
        if arc is None:
            graph.write(f"a {tail} {head} 0\n")
            table.write(f"{number},,{ids[tail - 1]},{ids[head - 1]},0\n")
            continue
        row = joined.row(arc)
        first = row[0]
        if len(row) == 1:
            ways, seconds, metres = extract.way_ids[arcs.way[first]], arcs.seconds[first], arcs.metres[first]
        else:
            ways = ";".join(map(str, dict.fromkeys(extract.way_ids[arcs.way[it]] for it in row)))
            seconds, metres = sum(arcs.seconds[it] for it in row), sum(arcs.metres[it] for it in row)
        weight = int((seconds + turning) * per_second + 0.5)
        if weight > writing.MOST_WEIGHT:
            weight = writing.weight_of(seconds + turning, per_second, f"way {ways}")
        graph.write(f"a {tail} {head} {weight}\n")
        table.write(f"{number},{ways},{ids[tail - 1]},{ids[head - 1]},{metres:.2f}\n")
        if len(row) > 1 or abs(arcs.end[first] - arcs.start[first]) > 1:
            between = joined.places(arc)
            if len(between) > 2:
                shapes.write(f"{number}," + " ".join([f"{extract.x[it] / 1e7:.7f} {extract.y[it] / 1e7:.7f}" for it in between]) + "\n")
    writing.write_coordinates(out.file(".co"), lambda: ((number, *network.place(node)) for number, (node, _) in enumerate(split.described(), 1)), True, path)
    writing.write_starts(out, nearest_nodes(starts, "--from", split, summary), nearest_nodes(goals, "--to", split, summary))
    summary.take("nodes", split.nodes)
    summary.take("arcs", count)


def command(words):
    asked = writing.Words(__doc__, "osm")
    asked.add_argument("file", help="an extract: .osm, .osm.bz2, .osm.gz, or with pyosmium .osm.pbf")
    asked.add_argument("name", help="NAME of the files that are written")
    asked.add_argument("--profile", default="car", help=f"{', '.join(profile_names())}, or a file like those in earliest/importing/profiles (default: car)")
    writing.add_unit(asked)
    asked.add_argument("--largest", action="store_true", help="keep the largest part in which every node can be reached from every other")
    asked.add_argument("--keep-nodes", action="store_true", help="don't join nodes of degree two: each node of a way is one of the network")
    asked.add_argument("--turns", action="store_true", help="turns and traffic signals take the seconds of the profile's [turns]; this splits nearly all crossings")
    asked.add_argument("--no-restrictions", action="store_true", help="leave turn restrictions out")
    asked.add_argument("--from", dest="starts", metavar="LON,LAT", action="append", default=[], help="a place to start from, for NAME.ss; may be given several times")
    asked.add_argument("--to", dest="goals", metavar="LON,LAT", action="append", default=[], help="a place to go to, for NAME.p2p with --from")
    asked.add_argument("--reader", choices=("auto", "pyosmium", "python"), default="auto", help="what reads the file (default: pyosmium if it is there)")
    given = asked.parse_args(words)
    if given.goals and not given.starts:
        asked.error("--to needs --from")
    for which, texts in (("--from", given.starts), ("--to", given.goals)):
        for text in texts:
            place_of(text, which)
    summary, files = convert(given.file, given.name, given.profile, given.unit, given.largest, given.keep_nodes, given.turns, not given.no_restrictions, given.starts, given.goals, given.reader)
    summary.tell()
    print("written: " + ", ".join(files))
    return 0


def main(words=None):
    return ended("osm", command, words)


if __name__ == "__main__":
    sys.exit(main(sys.argv[1:]))
