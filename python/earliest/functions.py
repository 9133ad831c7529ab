"""A network of travel time functions as published with time-dependent contraction hierarchies, as classes of `points`.

    python3 -m earliest.functions germany.tpgr germany

reads a text (first line `NODES ARCS POINTS PERIOD`, then for each arc `TAIL HEAD COUNT TIME VALUE TIME VALUE ..`, nodes counted from 0),
or a folder with the vectors first_out, head, first_ipp_of_arc, ipp_departure_time and ipp_travel_time (32 bits each, little-endian), and
longitude and latitude if they are there. It writes NAME.gr, NAME.tp, NAME.nodes.csv and NAME.arcs.csv, and NAME.co with coordinates.

A function of one value becomes a plain weight. The classes need an engine that knows the kind `points`.
"""
import os
import sys
from array import array

from .importing import writing
from .importing.telling import Refused, Summary, ended


def text_arcs(path):
    """First (nodes, period), then (line, tail, head, [(time, value)]) of each arc; nodes are counted from 1."""
    try:
        with open(path, encoding="ascii") as text:
            lines = ((number, line.split()) for number, line in enumerate(text, 1))
            lines = ((number, fields) for number, fields in lines if fields)
            line, head = next(lines, (0, []))
            if len(head) != 4:
                raise Refused(f"{path}, line {line}: the first line is wanted as NODES ARCS POINTS PERIOD")
            nodes, arcs, points = (_number(path, line, field, int) for field in head[:3])
            yield nodes, _number(path, line, head[3], float), arcs
            seen = given = 0
            for line, fields in lines:
                if len(fields) < 3:
                    raise Refused(f"{path}, line {line}: an arc is wanted as TAIL HEAD COUNT and its points")
                tail, to, count = (_number(path, line, field, int) for field in fields[:3])
                if not (0 <= tail < nodes and 0 <= to < nodes):
                    raise Refused(f"{path}, line {line}: nodes are 0 to {nodes - 1}, and the arc is from {tail} to {to}")
                if count < 1 or len(fields) != 3 + 2 * count:
                    raise Refused(f"{path}, line {line}: {count} points are told, and {(len(fields) - 3) / 2:g} are there")
                values = [_number(path, line, field, float) for field in fields[3:]]
                seen, given = seen + 1, given + count
                yield f"{path}, line {line}", tail + 1, to + 1, list(zip(values[::2], values[1::2]))
            if seen != arcs:
                raise Refused(f"{path}: {arcs} arcs are told, and {seen} are there")
            if points != given:
                raise Refused(f"{path}: {points} points are told, and {given} are there")
    except UnicodeDecodeError:
        raise Refused(f"{path} is no text of travel time functions") from None


def _number(path, line, field, kind):
    try:
        value = kind(field)
    except ValueError:
        raise Refused(f"{path}, line {line}: a number is wanted, not {field!r}") from None
    if not 0 <= value < 2**53:
        raise Refused(f"{path}, line {line}: {field} is out of range")
    return value


def vector(folder, name, kind="I"):
    path = os.path.join(folder, name)
    if not os.path.isfile(path):
        raise Refused(f"{folder} has no vector {name}")
    found, size = array(kind), os.path.getsize(path)
    if size % found.itemsize:
        raise Refused(f"{path} has {size} bytes, and a multiple of {found.itemsize} is wanted")
    with open(path, "rb") as file:
        found.fromfile(file, size // found.itemsize)
    if sys.byteorder == "big":
        found.byteswap()
    return found


def vector_arcs(folder, period):
    """As text_arcs, of a folder of vectors."""
    first_out, heads, firsts = (vector(folder, name) for name in ("first_out", "head", "first_ipp_of_arc"))
    times, values = (vector(folder, name) for name in ("ipp_departure_time", "ipp_travel_time"))
    nodes = len(first_out) - 1
    if nodes < 1 or first_out[0] != 0 or first_out[-1] != len(heads) or len(firsts) != len(heads) + 1 or firsts[-1] != len(times) or len(times) != len(values):
        raise Refused(f"{folder}: the lengths of the vectors don't fit each other")
    yield nodes, period, len(heads)
    for node in range(nodes):
        if first_out[node] > first_out[node + 1]:
            raise Refused(f"{folder}: first_out falls at node {node}")
        for arc in range(first_out[node], first_out[node + 1]):
            low, high = firsts[arc], firsts[arc + 1]
            if heads[arc] >= nodes or low >= high:
                raise Refused(f"{folder}: arc {arc} leads to a node that isn't there, or has no point")
            yield f"{folder}, arc {arc}", node + 1, heads[arc] + 1, list(zip(times[low:high], values[low:high]))


RAISED = "points raised by one or two units, as rounding let the later overtake"


def checked(where, points, period):
    """The points of a function in one period: their times rise, and a last one at its end is the first one once more."""
    last = -1.0
    for time, _ in points:
        if time <= last:
            raise Refused(f"{where}: the times of the points don't rise")
        last = time
    if last < period or len(points) == 1 and last == period:
        return points
    if last > period or (points[0][0] == 0 and points[-1][1] != points[0][1]):
        raise Refused(f"{where}: a point is beyond the period of {period:g}, or differs from the first one a period before")
    return points[:-1] if points[0][0] == 0 else [(0.0, points[-1][1])] + points[:-1]


def raised(where, steps, period, summary):
    """Steps in units by which nobody overtakes: rounding moves a point by at most a unit each way, and what is more is refused."""
    found, latest = [], -1
    for at, took in steps:
        if at + took < latest:
            if latest - at - took > 2:
                raise Refused(f"{where}: who leaves at {at} units arrives before who left earlier, which `points` doesn't allow")
            summary.leave(RAISED)
            took = latest - at
        latest = at + took
        found.append((at, took))
    over = latest - period - sum(found[0])
    if over > 2:
        raise Refused(f"{where}: who leaves at the end of a period arrives after who leaves at the begin of the next, which `points` doesn't allow")
    if over > 0:
        summary.leave(RAISED)
        found[0] = found[0][0], found[0][1] + over
        for place in range(1, len(found)):
            found[place] = found[place][0], max(found[place][1], sum(found[place - 1]) - found[place][0])
    return found


def steps_of(where, points, period, scale, summary):
    """A function in units: its least value, and (time, value less the least) where it isn't always that."""
    whole, rounded = int(period * scale + 0.5), {}
    for time, value in checked(where, points, period):
        at = min(int(time * scale + 0.5), whole - 1)
        if at in rounded:
            summary.leave("points that fall on the time of another by the unit, so that one of them is kept")
        else:
            rounded[at] = int(value * scale + 0.5)
    found = raised(where, sorted(rounded.items()), whole, summary)
    least = min(took for _, took in found)
    if all(took == least for _, took in found):
        return least, None
    return least, [(at, took - least) for at, took in found]


def write_nodes(out, path, nodes, starts, goals, summary):
    """The table of nodes, with coordinates if a folder has them, and the nodes to start from and to go to."""
    rows, places = out.table(".nodes.csv", ("node", "id", "longitude", "latitude")), None
    if os.path.isdir(path) and all(os.path.isfile(os.path.join(path, it)) for it in ("longitude", "latitude")):
        places = list(zip(vector(path, "longitude", "f"), vector(path, "latitude", "f")))
        if len(places) != nodes:
            raise Refused(f"{path}: there are {nodes} nodes, and coordinates of {len(places)}")
        writing.write_coordinates(out.file(".co"), lambda: ((node, *place) for node, place in enumerate(places, 1)), True, path)
    else:
        summary.note("there are no coordinates, so there is no NAME.co")
    for node in range(nodes):
        rows.writerow((node + 1, node, *(f"{part:.7f}" for part in places[node])) if places else (node + 1, node, "", ""))
    for which, texts in (("--from", starts), ("--to", goals)):
        for node in texts:
            if not 0 <= node < nodes:
                raise Refused(f"{which} {node}: nodes are 0 to {nodes - 1}, as in the input")
    writing.write_starts(out, [node + 1 for node in starts], [node + 1 for node in goals])


def convert(path, name, unit="hundredths", input_units=None, period=None, starts=(), goals=()):
    """Writes the network and returns its summary. `input_units` is how many units of the input a second has."""
    summary, per_second = Summary(), writing.UNITS[unit]
    if not os.path.exists(path):
        raise Refused(f"{path} isn't there")
    folder = os.path.isdir(path)
    per_input = input_units or (1000 if folder else 1)
    scale = per_second / per_input
    with writing.Outputs(name) as out:
        source = vector_arcs(path, period or 86_400 * per_input) if folder else text_arcs(path)
        nodes, cycle, announced = next(source)
        cycle = period or cycle
        if not 1 <= cycle * scale <= writing.MOST_PERIOD:
            raise Refused(f"{path}: a period of {cycle:g} is out of range in this unit")
        writing.limits_kept(nodes, announced)
        classes, of_arc = writing.Classes(), array("i")
        graph, arcs = out.file(".gr"), out.file(".arcs.csv")
        graph.write(writing.unit_comment(per_second, path) + f"p sp {nodes} {announced}\n")
        arcs.write("arc,way,from,to,length\n")
        for where, tail, head, points in source:
            least, steps = steps_of(where, points, cycle, scale, summary)
            if least > writing.MOST_WEIGHT:
                raise Refused(f"{where}: a travel time is beyond the greatest weight; take a coarser --unit")
            graph.write(f"a {tail} {head} {least}\n")
            of_arc.append(classes.number("points", int(cycle * scale + 0.5), steps) if steps else 0)
            arcs.write(f"{len(of_arc)},,{tail - 1},{head - 1},\n")
        classes.checked("take a part of the network, or a coarser --unit, so that more functions are equal")
        classes.write(out.file(".tp"), lambda: enumerate(of_arc, 1), path)
        write_nodes(out, path, nodes, starts, goals, summary)
    plain = sum(1 for number in of_arc if not number)
    for what, count in (("arcs with a function", len(of_arc) - plain), ("arcs that always take the same time", plain), ("classes of points", len(classes)), ("nodes", nodes), ("arcs", len(of_arc))):
        summary.take(what, count)
    summary.note(f"the input is taken to have {per_input} units a second, and a period of {cycle:g} of them; node N of the input is node N + 1")
    summary.note("the kind `points` takes the straight line between two points, rounded down to the unit")
    summary.notes += out.notes
    return summary, out.names()


def command(words):
    asked = writing.Words(__doc__, "functions")
    asked.add_argument("functions", help="a text, or a folder of vectors")
    asked.add_argument("name", help="NAME of the files that are written")
    writing.add_unit(asked)
    asked.add_argument("--input-units", type=int, metavar="N", help="how many units of the input a second has (default: 1 for a text, 1000 for vectors)")
    asked.add_argument("--period", type=int, metavar="UNITS", help="the period in units of the input (default: as the text says, a day for vectors)")
    asked.add_argument("--from", dest="starts", type=int, metavar="NODE", action="append", default=[], help="a node to start from, counted from 0 as in the input, for NAME.ss")
    asked.add_argument("--to", dest="goals", type=int, metavar="NODE", action="append", default=[], help="a node to go to, for NAME.p2p with --from")
    given = asked.parse_args(words)
    if given.goals and not given.starts:
        asked.error("--to needs --from")
    if any(it is not None and it < 1 for it in (given.input_units, given.period)):
        asked.error("--input-units and --period are at least 1")
    summary, files = convert(given.functions, given.name, given.unit, given.input_units, given.period, given.starts, given.goals)
    summary.tell()
    print("written: " + ", ".join(files))
    return 0


def main(words=None):
    return ended("functions", command, words)


if __name__ == "__main__":
    sys.exit(main(sys.argv[1:]))
