"""Travel time functions: the classes of `points` that are written, beside the functions themselves.

They are evaluated by a separate program, from the format's definition.
"""
import os
import random
import struct

from support import ROOT, arrivals, good, least, put, refused, summary_has, text


def function_at(points, period, time):
    """A travel time function at a time: the straight line between its points, over the end of the period too."""
    time %= period
    if len(points) == 1:
        return points[0][1]
    for (low, value), (high, other) in zip(points, points[1:]):
        if low <= time <= high:
            return value + (other - value) * (time - low) / (high - low)
    (low, value), (high, other) = points[-1], (points[0][0] + period, points[0][1])
    if time < points[0][0]:
        time += period
    return value + (other - value) * (time - low) / (high - low)


class Written:
    """A network with classes of points, and arrivals by the format's definition."""

    def __init__(self, room, name):
        self.arcs = [tuple(map(int, line.split()[1:])) for line in text(room, name + ".gr").split("\n") if line.startswith("a ")]
        self.classes, self.of_arc, faults = {}, {}, []
        lines = [line.split() for line in text(room, name + ".tp").split("\n") if line and line[0] != "c"]
        head, current = lines[0], 0
        for fields in lines[1:]:
            if fields[0] == "k":
                current = int(fields[1])
                self.classes[current] = int(fields[3]), int(fields[4]), []
                if fields[2] != "points" or current != len(self.classes):
                    faults.append(fields)
            elif fields[0] == "v":
                self.classes[current][2].append((int(fields[1]), int(fields[2])))
            else:
                self.of_arc[int(fields[1])] = int(fields[2])
        if [int(it) for it in head[2:]] != [len(self.classes), len(self.of_arc)]:
            faults.append(head)
        for period, count, steps in self.classes.values():
            if len(steps) != count or any(high <= low for (low, _), (high, _) in zip(steps, steps[1:])) or steps[-1][0] >= period or any(low + one > high + two for (low, one), (high, two) in zip(steps, steps[1:])) or sum(steps[-1]) > period + sum(steps[0]):
                faults.append(steps)
        self.faults = faults

    def arrive(self, arc, departure):
        _, _, weight = self.arcs[arc - 1]
        if arc not in self.of_arc:
            return departure + weight
        period, _, steps = self.classes[self.of_arc[arc]]
        at = departure % period
        before = [step for step in steps if step[0] <= at]
        after = [step for step in steps if step[0] > at]
        low, one = before[-1] if before else (steps[-1][0] - period, steps[-1][1])
        high, two = after[0] if after else (steps[0][0] + period, steps[0][1])
        return departure + weight + (one * (high - at) + two * (at - low)) // (high - low)

    def search(self, source, departure):
        return least([(source, departure)], lambda node, time: [(head, self.arrive(number, time)) for number, (tail, head, _) in enumerate(self.arcs, 1) if tail == node])


def tpgr(nodes, arcs, period):
    return f"{nodes} {len(arcs)} {sum(len(points) for _, _, points in arcs)} {period}\n" + "".join(f"{tail} {head} {len(points)} " + " ".join(f"{time} {value}" for time, value in points) + "\n" for tail, head, points in arcs)


def read(path):
    with open(path, encoding="ascii") as file:
        head, *rows = [line.split() for line in file if line.strip()]
    return float(head[3]), [(int(row[0]), int(row[1]), list(zip(map(float, row[3::2]), map(float, row[4::2])))) for row in rows]


def near(room, name, arcs, period, scale, times, slack=2.0):
    """Whether each arc takes what its function says, to within rounding of a value, of the times of its points, and downward."""
    written = Written(room, name)
    if written.faults:
        return written.faults
    for number, (_, _, points) in enumerate(arcs, 1):
        steep = max([1.0] + [abs((other - value) / (high - low)) for (low, value), (high, other) in zip(points, points[1:] + [(points[0][0] + period, points[0][1])]) if high > low])
        for time in times:
            departure = round(time * scale)
            mine, other = written.arrive(number, departure) - departure, function_at(points, period, departure / scale) * scale
            if abs(mine - other) > slack + steep:
                return f"arc {number} at {time}: {mine} and {other}"
    return "all"


def searches(room, name, arcs, nodes, period, scale, slack):
    """Whether searches on what was written arrive when searches on the functions do, and the engine's exactly so."""
    written = Written(room, name)
    for source in range(min(nodes, 4)):
        for time in (0, period * 0.3, period * 0.37, period * 0.99):
            mine = written.search(source + 1, round(time * scale))
            wanted = least([(source, time)], lambda node, at: [(head, at + function_at(points, period, at)) for tail, head, points in arcs if tail == node])
            if {node - 1 for node in mine} != set(wanted) or any(abs(mine[node + 1] - wanted[node] * scale) > slack for node in wanted):
                return f"from {source} at {time}: {mine} and {wanted}"
            found = arrivals(room, name, source + 1, round(time * scale))
            if found != [mine.get(node) for node in range(1, nodes + 1)]:
                return f"from {source} at {time}: the engine's {found} and {mine}"
    return "all"


def example(room):
    path = os.path.join(ROOT, "examples", "functions", "four.tpgr")
    told = good("functions", path, os.path.join(room, "four"), "--from", "0", "--to", "3")
    period, arcs = read(path)
    yield "functions of the example", near(room, "four", arcs, period, 100, range(0, 86400, 97)), "all"
    yield "searches on the example", searches(room, "four", arcs, 4, period, 100, 10), "all"
    yield "what was taken is told", [summary_has(told, part) for part in ("3 arcs with a function", "2 arcs that always take the same time", "3 classes of points", "no coordinates")], [True] * 4
    yield "sources and pairs", (text(room, "four.ss"), text(room, "four.p2p")), ("p aux sp ss 1\ns 1\n", "p aux sp p2p 1\nq 1 4\n")


def random_functions(room):
    """Functions at random with the steepest falls that are allowed, in seconds and in hundredths."""
    for seed in range(10):
        draw = random.Random(seed)
        period, nodes, arcs = 3600, 6, []
        for _ in range(14):
            times = sorted(draw.sample(range(period), draw.randint(1, 6)))
            values = [draw.randint(30, 900)]
            for low, high in zip(times, times[1:]):
                values.append(max(values[-1] - (high - low), draw.randint(1, 900)) if draw.random() < 0.8 else max(1, values[-1] - (high - low)))
            while values[-1] + times[-1] > period + times[0] + values[0]:
                values[0] += 1
                for place in range(1, len(times)):
                    values[place] = max(values[place], values[place - 1] + times[place - 1] - times[place])
                values[-1] = min(values[-1], max(period + times[0] + values[0] - times[-1], values[-2] + times[-2] - times[-1])) if len(times) > 1 else values[-1]
            arcs.append((draw.randrange(nodes), draw.randrange(nodes), list(zip(map(float, times), map(float, values)))))
        put(room, "x.tpgr", tpgr(nodes, arcs, period))
        for unit, scale in (("hundredths", 100), ("seconds", 1), ("milliseconds", 1000)):
            good("functions", os.path.join(room, "x.tpgr"), os.path.join(room, "x"), "--unit", unit)
            yield f"random functions {seed} in {unit}", near(room, "x", arcs, period, scale, range(0, 2 * period, 61)), "all"
            yield f"searches on random functions {seed} in {unit}", searches(room, "x", arcs, nodes, period, scale, 12), "all"


def vectors(room):
    """The same functions as a folder of vectors, in milliseconds, with coordinates."""
    period, arcs = read(os.path.join(ROOT, "examples", "functions", "four.tpgr"))
    arcs.sort(key=lambda arc: arc[0])
    first_out = [sum(1 for tail, _, _ in arcs if tail < node) for node in range(5)]
    firsts = [0]
    for _, _, points in arcs:
        firsts.append(firsts[-1] + len(points))
    pieces = {"first_out": ("I", first_out), "head": ("I", [head for _, head, _ in arcs]), "first_ipp_of_arc": ("I", firsts), "ipp_departure_time": ("I", [int(1000 * time) for _, _, points in arcs for time, _ in points]),
              "ipp_travel_time": ("I", [int(1000 * value) for _, _, points in arcs for _, value in points]), "longitude": ("f", [8.5, 8.25, 8.75, 9.0]), "latitude": ("f", [47.5, 47.25, 47.0, 47.75])}
    folder = put(room, "vectors", {name: struct.pack(f"<{len(values)}{kind}", *values) for name, (kind, values) in pieces.items()})
    good("functions", folder, os.path.join(room, "v"))
    put(room, "x.tpgr", tpgr(4, arcs, 86400))
    good("functions", os.path.join(room, "x.tpgr"), os.path.join(room, "x"))
    yield "vectors are as the text", [[line for line in text(room, name + end).split("\n") if line[:2] != "c "] for name, end in (("v", ".gr"), ("v", ".tp"))], [[line for line in text(room, name + end).split("\n") if line[:2] != "c "] for name, end in (("x", ".gr"), ("x", ".tp"))]
    yield "coordinates", text(room, "v.co").split("\n")[2:], ["v 1 8500000 47500000", "v 2 8250000 47250000", "v 3 8750000 47000000", "v 4 9000000 47750000", ""]
    for name, contents, part in (("without head", None, "no vector head"), ("cut", struct.pack("<5I", *pieces["head"][1])[:-1], "multiple of 4"), ("shorter", struct.pack("<4I", 1, 2, 3, 1), "don't fit"), ("beyond the nodes", struct.pack("<5I", 1, 2, 9, 3, 3), "isn't there")):
        if contents is None:
            os.remove(os.path.join(folder, "head"))
        else:
            put(room, os.path.join("vectors", "head"), contents)
        *told, reason = refused("functions", room, folder, os.path.join(room, "none"))
        yield f"refused: vectors {name}", (*told, part in reason), (True, True, [], True)


def edges_of_the_period(room):
    """A point at the end of the period, one that is the first once more, points that fall together, equal functions."""
    arcs = [(0, 1, [(0.0, 60.0), (1800.0, 120.0), (3600.0, 60.0)]), (1, 2, [(900.0, 100.0), (3600.0, 40.0)]), (2, 0, [(0.0, 5.0), (100.001, 9.0), (100.002, 9.001), (200.0, 5.0)]), (0, 2, [(0.0, 60.0), (1800.0, 120.0)]), (1, 0, [(0.0, 7.0), (1000.0, 7.0)])]
    put(room, "x.tpgr", tpgr(3, arcs, 3600))
    told = good("functions", os.path.join(room, "x.tpgr"), os.path.join(room, "x"))
    shown = [(0, 1, arcs[0][2][:2]), (1, 2, [(0.0, 40.0), (900.0, 100.0)]), *arcs[2:]]
    yield "functions at the end of the period", near(room, "x", shown, 3600, 100, range(0, 7200, 7)), "all"
    written = Written(room, "x")
    yield "equal functions share a class", (len(written.classes), written.of_arc[1] == written.of_arc[4], 5 in written.of_arc), (3, True, False)
    yield "points that fall together are told", summary_has(told, "1 points that fall on the time of another"), True


def rounding(room):
    """If whole seconds would let the later overtake, in a period or over its end, points are raised and reported."""
    arcs = [(0, 1, [(0.6, 19.6), (10.4, 9.8)]), (1, 0, [(0.4, 10.4), (3590.5, 20.3)])]
    put(room, "x.tpgr", tpgr(2, arcs, 3600))
    told = good("functions", os.path.join(room, "x.tpgr"), os.path.join(room, "x"), "--unit", "seconds")
    yield "rounded points don't overtake", near(room, "x", arcs, 3600, 1, range(0, 7200, 3)), "all"
    yield "points that were raised are told", summary_has(told, "2 points raised by one or two units"), True
    written = Written(room, "x")
    for arc in (1, 2):
        yield f"nobody overtakes on arc {arc}", all(written.arrive(arc, time) <= written.arrive(arc, time + 1) for time in range(7300)), True


def hostile(room):
    whole = tpgr(3, [(0, 1, [(0.0, 60.0), (1800.0, 120.0)]), (1, 2, [(0.0, 5.0)])], 3600)
    for name, contents, part in (
        ("an empty text", "", "first line"), ("no numbers", "x y z w\n", "'x'"), ("fewer arcs than told", whole.replace("3 2 3", "3 3 3"), "3 arcs are told"), ("fewer points than told", whole.replace("3 2 3 ", "3 2 4 "), "4 points are told"),
        ("a point that is cut", whole.replace(" 120.0", ""), "points are told"), ("a node that isn't there", whole.replace("1 2 1", "1 7 1"), "from 1 to 7"), ("a travel time below 0", whole.replace("120.0", "-1"), "out of range"),
        ("a number that is none", whole.replace("120.0", "nan"), "out of range"), ("times that fall", whole.replace("1800.0", "0.0"), "don't rise"), ("a point beyond the period", whole.replace("1800.0", "3601"), "beyond the period"),
        ("somebody overtakes", tpgr(2, [(0, 1, [(0.0, 900.0), (100.0, 5.0)])], 3600), "arrives before"), ("overtaking over the end of the period", tpgr(2, [(0, 1, [(0.0, 5.0), (3599.0, 900.0)])], 3600), "end of a period"),
        ("bytes", b"\xff\xfe\x00", "no text"), ("no nodes", "0 0 0 3600\n", "nothing is left"), ("more nodes than there may be", "99999999999 1 1 3600\n0 1 1 0 5\n", "is the most"),
    ):
        *told, reason = refused("functions", room, put(room, "x.tpgr", contents), os.path.join(room, "none"))
        yield f"refused: {name}", (*told, part in reason), (True, True, [], True)
    *told, reason = refused("functions", room, os.path.join(room, "nowhere"), os.path.join(room, "none"))
    yield "refused: a file that isn't there", (*told, "isn't there" in reason), (True, True, [], True)
    *told, reason = refused("functions", room, put(room, "x.tpgr", whole), os.path.join(room, "none"), "--from", "3")
    yield "refused: a node to start from that isn't there", (*told, "0 to 2" in reason), (True, True, [], True)


def too_many_classes(room):
    count = 65_536
    put(room, "x.tpgr", tpgr(2, [(0, 1, [(0.0, 10.0), (100.0, 10.0 + 0.01 * (number + 1))]) for number in range(count)], 3600))
    *told, reason = refused("functions", room, os.path.join(room, "x.tpgr"), os.path.join(room, "none"))
    yield "refused: too many classes", (*told, f"{count} different classes" in reason), (True, True, [], True)


CASES = (example, random_functions, vectors, edges_of_the_period, rounding, hostile, too_many_classes)
