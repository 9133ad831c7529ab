"""Speeds, trips and points through the program: worked values, faults with their lines, and random texts of
timetables, compared with a separate reader and arrivals that go line by line and time by time as
docs/guide/formats.md and docs/guide/travel-times.md say."""
import os
import random
import subprocess
import tempfile

HORIZON = 2**48 - 1
NAMES = {1: "NoProblemLine", 2: "SecondProblemLine", 3: "UnknownLine", 4: "FieldCount", 5: "BadNumber", 6: "OutOfRange", 7: "TooManyLines", 8: "TooFewLines", 9: "BadKind"}

# A class with its steps, a weight, and arrivals by departure.
VALUES = (
    ("full-speed-is-plain", "speeds 7 2/v 0 1000/v 4 1000", 3, {0: 3, 3: 6, 6: 9, HORIZON - 3: HORIZON, HORIZON - 2: None, HORIZON: None}),
    ("closed-stretch", "speeds 10 2/v 0 1000/v 6 0", 3, {0: 3, 3: 6, 4: 11, 6: 13, 9: 13, 10: 13, 13: 16}),
    ("half-speed-then-full", "speeds 20 2/v 0 500/v 10 1000", 3, {0: 6, 4: 10, 5: 11, 6: 11, 7: 12, 9: 13, 10: 13, 18: 22}),
    ("over-the-period", "speeds 10 2/v 0 250/v 5 1000", 3, {7: 10, 8: 14, 9: 16, 10: 17, 15: 18}),
    ("over-four-periods", "speeds 10 2/v 0 250/v 5 1000", 25, {0: 40, 3: 43, 9: 49}),
    ("never-above-2-to-48", "speeds 4294967296 2/v 0 1/v 1 0", 1, {0: 4290672328705, 1: 4294967296001, HORIZON: None}),
    ("never-above-2-to-48, heavy", "speeds 4294967296 2/v 0 1/v 1 0", 4294967295, {0: None, HORIZON: None}),
    ("weight-of-zero", "speeds 10 2/v 0 0/v 5 1000", 0, {0: 0, 3: 3, 5: 5, 10: 10}),
    ("weight-of-one", "speeds 10 2/v 0 0/v 5 1000", 1, {0: 6, 3: 6, 5: 6, 9: 10, 10: 16}),
    ("weight-of-zero at the horizon", "speeds 4294967296 2/v 0 1/v 1 0", 0, {HORIZON: HORIZON}),
    ("next-departure", "trips 10 2/v 2 0/v 7 4", 3, {0: 5, 2: 5, 3: 14, 7: 14, 8: 15, 9: 15, 12: 15, 13: 24}),
    ("next-departure, weight 0", "trips 10 2/v 2 0/v 7 4", 0, {2: 2, 7: 11, 8: 12, HORIZON: None}),
    ("last-departure", "trips 0 2/v 2 0/v 7 4", 3, {0: 5, 3: 14, 7: 14, 8: None}),
    ("equal-arrivals", "trips 0 2/v 2 9/v 7 4", 1, {2: 12, 3: 12, 7: 12}),
    ("points-values", "points 100 2/v 10 0/v 30 40", 3, {10: 13, 11: 16, 20: 43, 30: 73, 31: 73, 40: 78, 70: 93, 109: 112, 110: 113}),
    ("points-values, without a period", "points 0 2/v 10 0/v 30 40", 3, {0: 3, 10: 13, 30: 73, 1000: 1043}),
    ("points at the limits", "points 0 2/v 0 4294967296/v 281474976710655 0", 4294967295, {0: 8589934591, 281470681743360: None, HORIZON: None, 4294967296: 12884836350}),
    ("one point", "points 10 1/v 7 5", 1, {0: 6, 6: 12, 7: 13, HORIZON - 6: HORIZON, HORIZON - 5: None}),
    ("points a period apart at most", "points 4294967296 2/v 0 4294967296/v 4294967295 4294967295", 0, {0: 4294967296, 2147483648: 6442450943}),
)

# Texts of timetables of a network with one arc, with the line and the number of their fault; None if they
# have none.
TEXTS = (
    ("all-but-the-last-zero", "p tp 1 0/k 1 speeds 10 2/v 0 0/v 5 0", (4, 6)),
    ("all-but-the-last-zero", "p tp 1 0/k 1 speeds 10 1/v 0 0", (3, 6)),
    ("all-but-the-last-zero", "p tp 1 0/k 1 speeds 10 3/v 0 0/v 1 7/v 2 0", None),
    ("no-overtaking", "p tp 1 0/k 1 trips 20 2/v 2 9/v 7 3", (4, 6)),
    ("no-overtaking", "p tp 1 0/k 1 trips 20 2/v 2 9/v 7 4", None),
    ("no-overtaking", "p tp 1 0/k 1 trips 10 2/v 2 0/v 7 6", (4, 6)),
    ("no-overtaking", "p tp 1 0/k 1 trips 10 2/v 2 0/v 7 5", None),
    ("no-overtaking", "p tp 1 0/k 1 trips 0 2/v 2 0/v 7 6", None),
    ("no-overtaking", "p tp 1 0/k 1 trips 10 1/v 9 4294967296", None),
    ("no-overtaking", "p tp 1 0/k 1 trips 10 3/v 0 0/v 1 20/v 2 19", (5, 6)),
    ("no-overtaking", "p tp 1 0/k 1 trips 10 3/v 0 0/v 1 20/v 2 8", (5, 6)),
    ("too-few-steps", "p tp 2 0/k 1 speeds 10 2/v 0 1000/k 2 plain", (4, 8)),
    ("too-few-steps", "p tp 1 1/k 1 speeds 10 2/v 0 1000/t x", (4, 8)),
    ("too-few-steps", "p tp 1 0/k 1 speeds 10 2/v 0 1000/x", (4, 3)),
    ("too-few-steps", "p tp 1 0/k 1 speeds 10 2/v 0 1000/p tp 1 0", (4, 2)),
    ("too-few-steps", "p tp 1 0/k 1 speeds 10 2/v 0 1000", (0, 8)),
    ("too-few-steps", "p tp 1 0/k 1 trips 0 1", (0, 8)),
    ("too-few-steps", "p tp 1 0/k 1 speeds 10 2//c x/v 0 1//v 1 0", None),
    ("too-many-steps", "p tp 1 0/k 1 speeds 10 1/v 0 1000/v 5 x", (4, 7)),
    ("too-many-steps", "p tp 0 0/v 0 0", (2, 7)),
    ("too-many-steps", "v 0 0", (1, 1)),
    ("step-ranges", "p tp 1 0/k 1 speeds 10 1/v 0", (3, 4)),
    ("step-ranges", "p tp 1 0/k 1 speeds 10 1/v 1 x", (3, 5)),
    ("step-ranges", "p tp 1 0/k 1 speeds 10 1/v 1 1", (3, 6)),
    ("step-ranges", "p tp 1 0/k 1 speeds 10 2/v 0 1/v 0 1", (4, 6)),
    ("step-ranges", "p tp 1 0/k 1 speeds 10 2/v 0 1/v 9 0", None),
    ("step-ranges", "p tp 1 0/k 1 speeds 10 2/v 0 1/v 10 1", (4, 6)),
    ("step-ranges", "p tp 1 0/k 1 speeds 10 1/v 0 1000000", None),
    ("step-ranges", "p tp 1 0/k 1 speeds 10 1/v 0 1000001", (3, 6)),
    ("step-ranges", "p tp 1 0/k 1 trips 10 1/v 10 0", (3, 6)),
    ("step-ranges", "p tp 1 0/k 1 trips 10 1/v 9 4294967297", (3, 6)),
    ("step-ranges", "p tp 1 0/k 1 trips 0 1/v 281474976710655 0", None),
    ("step-ranges", "p tp 1 0/k 1 trips 0 1/v 281474976710656 0", (3, 6)),
    ("step-ranges", "p tp 1 0/k 1 speeds 0 1", (2, 6)),
    ("step-ranges", "p tp 1 0/k 1 speeds 10 0", (2, 6)),
    ("step-ranges", "p tp 1 0/k 1 speeds 10 65537", (2, 6)),
    ("step-ranges", "p tp 1 0/k 1 trips 4294967297 1", (2, 6)),
    ("step-ranges", "p tp 1 0/k 1 speeds 10", (2, 4)),
    ("step-ranges", "p tp 0 0/k 1 speeds 10 1", (2, 7)),
    ("points-faults", "p tp 1 0/k 1 points 100 2/v 10 50/v 30 20", (4, 6)),
    ("points-faults", "p tp 1 0/k 1 points 100 2/v 10 0/v 30 200", (4, 6)),
    ("points-faults", "p tp 1 0/k 1 points 100 2/v 10 0/v 100 0", (4, 6)),
    ("points-faults", "p tp 1 0/k 1 points 100 2/v 10 0", (0, 8)),
    ("points-faults", "p tp 1 0/k 1 points 4294967297 1", (2, 6)),
    ("points-faults", "p tp 1 0/k 1 points 100 0", (2, 6)),
    ("points-faults", "p tp 1 0/k 1 points 100", (2, 4)),
    ("points-faults", "p tp 1 0/k 1 points 100 1/v 99 4294967296", None),
)

# A network, its timetables, one source, words, and the report.
REPORTS = (
    ("long-way-round", "p sp 3 3/a 1 3 9/a 1 2 4/a 2 3 4/", "p tp 1 1/k 1 speeds 20 2/v 0 1000/v 4 250/t 3 1/", "--walks",
     "s 1 0/d 1 0/w 1 0/d 2 4/w 2 1 2/d 3 9/w 3 1 1/"),
    ("long-way-round", "p sp 3 3/a 1 3 9/a 1 2 4/a 2 3 4/", "p tp 1 1/k 1 speeds 20 2/v 0 1000/v 4 250/t 3 1/", "--walks --depart 16",
     "s 1 16/d 1 16/w 1 0/d 2 20/w 2 1 2/d 3 24/w 3 2 2 3/"),
) + tuple(
    ("ride-or-walk", "p sp 2 2/a 1 2 5/a 1 2 12/", "p tp 1 1/k 1 trips 10 1/v 6 0/t 1 1/", f"--walks --depart {left}", f"s 1 {left}/d 1 {left}/w 1 0/d 2 {at}/w 2 1 {arc}/")
    for left, at, arc in ((0, 11, 1), (6, 11, 1), (7, 19, 2), (9, 21, 1)))


class Files:
    """A folder with the files of runs."""

    def __init__(self, program, folder):
        self.program, self.folder = program, folder

    def run(self, words, **texts):
        for name, text in texts.items():
            with open(os.path.join(self.folder, name), "w", encoding="ascii") as file:
                file.write(text)
        run = subprocess.run([self.program, *words.split()], cwd=self.folder, stdin=subprocess.DEVNULL, capture_output=True, timeout=60)
        return run.returncode, run.stdout.decode(), run.stderr.decode()


def worked(files):
    """The worked examples by their names."""
    for name, kind, weight, arrivals in VALUES:
        table = f"p tp 1 1/k 1 {kind}/t 1 1".replace("/", "\n")
        for departure, arrival in arrivals.items():
            was = files.run(f"run gr ss --tp tp --depart {departure}", gr=f"p sp 2 1\na 1 2 {weight}\n", ss="p aux sp ss 1\ns 1\n", tp=table)
            end = "inf" if arrival is None else arrival
            yield f"{name}, weight {weight}, left at {departure}", was, (0, f"s 1 {departure}\nd 1 {departure}\nd 2 {end}\n", "")
    for name, text, fault in TEXTS:
        was = files.run("run gr ss --tp tp", gr="p sp 2 1\na 1 2 1\n", ss="p aux sp ss 0\n", tp=text.replace("/", "\n"))
        wanted = (0, "", "") if fault is None else (1, "", f"earliest: tp {fault[0]}: {fault[1]} {NAMES[fault[1]]}\n")
        yield f"{name}: {text}", was, wanted
    for name, gr, tp, words, report in REPORTS:
        was = files.run(f"run gr ss --tp tp {words}", gr=gr.replace("/", "\n"), ss="p aux sp ss 1\ns 1\n", tp=tp.replace("/", "\n"))
        yield f"{name} {words}", was, (0, report.replace("/", "\n"), "")
    was = files.run("pairs gr p2p --tp tp --depart 7", gr="p sp 2 1\na 1 2 5\n", p2p="p aux sp p2p 1\nq 1 2\n", tp="p tp 1 1\nk 1 trips 0 1\nv 6 0\nt 1 1\n")
    yield "ride-or-walk, no trip left", was, (0, "q 1 2 7\nd 2 inf\n", "")


class Fault(Exception):
    """The number of a fault."""


def numbers(fields, ranges):
    """The numbers in fields, each in its range; a range may depend on the numbers before it."""
    if not all(field.isascii() and field.isdigit() for field in fields):
        raise Fault(5)
    values = [int(field) for field in fields]
    for place, value in enumerate(values):
        low, high = ranges(values[:place])[place]
        if not low <= value <= high:
            raise Fault(6)
    return values


FORMS = {
    "plain": (3, lambda v: []),
    "every": (5, lambda v: [(1, 2**32), (0, (v[1:2] or [1])[0] - 1)]),
    "closed": (5, lambda v: [(0, HORIZON - 1), ((v[1:2] or [0])[0] + 1, HORIZON)]),
    "rush": (6, lambda v: [(0, HORIZON - 1), ((v[1:2] or [0])[0] + 1, HORIZON), (0, 2**32)]),
    "speeds": (5, lambda v: [(1, 2**32), (1, 65536)]),
    "trips": (5, lambda v: [(0, 2**32), (1, 65536)]),
    "points": (5, lambda v: [(0, 2**32), (1, 65536)]),
}


# The kinds that have steps.
STEPPED = ("speeds", "trips", "points")


class Table:
    """The lines of a text so far."""

    def __init__(self, arcs):
        self.arcs, self.announced, self.kinds, self.entries, self.due = arcs, None, [], [], 0

    def problem(self, fields):
        if len(fields) > 1 and fields[1] != "tp":
            raise Fault(9)
        if len(fields) != 4:
            raise Fault(4)
        self.announced = numbers(fields[2:], lambda _: [(0, 65535), (0, 268435456)])

    def kind(self, fields):
        if len(fields) > 2 and fields[2] not in FORMS:
            raise Fault(9)
        if len(fields) < 3 or len(fields) != FORMS[fields[2]][0]:
            raise Fault(4)
        number = len(self.kinds) + 1
        found = numbers([fields[1], *fields[3:]], lambda v: [(number, number)] + FORMS[fields[2]][1](v))
        if number > self.announced[0]:
            raise Fault(7)
        self.kinds.append([fields[2], *found[1:], []])
        self.due = found[2] if fields[2] in STEPPED else 0

    def entry(self, fields):
        if len(fields) != 3:
            raise Fault(4)
        found = numbers(fields[1:], lambda _: [(1, self.arcs), (0, self.announced[0])])
        if len(self.entries) == self.announced[1]:
            raise Fault(7)
        self.entries.append(found)

    def step(self, fields):
        name, period, _, steps = self.kinds[-1]
        if len(fields) != 3:
            raise Fault(4)
        time, value = numbers(fields[1:], lambda _: [(0, 2**100), (0, 2**100)])
        if steps and time <= steps[-1][0] or time >= (period or HORIZON + 1) or (name == "speeds" and not steps and time):
            raise Fault(6)
        if name == "speeds" and (value > 1000000 or (self.due == 1 and value == 0 and not any(speed for _, speed in steps))):
            raise Fault(6)
        if name != "speeds" and (value > 2**32 or (steps and time + value < sum(steps[-1])) or (period and self.due == 1 and steps and time + value > period + sum(steps[0]))):
            raise Fault(6)
        steps.append((time, value))
        self.due -= 1

    def line(self, fields):
        if fields[0] not in ("p", "k", "t", "v"):
            raise Fault(3)
        if fields[0] != "p" and self.announced is None:
            raise Fault(1)
        if fields[0] == "p" and self.announced is not None:
            raise Fault(2)
        if self.due and fields[0] != "v":
            raise Fault(8)
        if fields[0] == "v" and not self.due:
            raise Fault(7)
        {"p": self.problem, "k": self.kind, "t": self.entry, "v": self.step}[fields[0]](fields)

    def end(self):
        if self.announced is None:
            raise Fault(1)
        if self.due or len(self.kinds) < self.announced[0] or len(self.entries) < self.announced[1]:
            raise Fault(8)


def read(text, arcs):
    """The table of a text and None; or None, and the line and the number of its fault."""
    table, count = Table(arcs), 0
    try:
        for count, line in enumerate(text.split("\n")[: -1 if text.endswith("\n") else None], 1):
            fields = line.replace("\t", " ").removesuffix("\r").split(" ")
            fields = [field for field in fields if field]
            if fields and not fields[0].startswith("c"):
                table.line(fields)
        count = 0
        table.end()
    except Fault as fault:
        return None, (count, fault.args[0])
    return table, None


def arrive(kind, weight, departure):
    """The arrival by a kind, time by time."""
    if kind is None or kind[0] == "plain":
        return departure + weight
    name, steps = kind[0], kind[-1]
    if name == "every":
        time = departure
        while time % kind[1] != kind[2]:
            time += 1
        return time + weight
    if name == "closed":
        return (kind[2] if kind[1] <= departure < kind[2] else departure) + weight
    if name == "rush":
        if departure < kind[1]:
            return departure + weight
        return max(departure + weight, min(departure, kind[2]) + weight + kind[3])
    period = kind[1]
    if name == "speeds":
        moved, time = 0, departure
        while moved < 1000 * weight:
            moved += [speed for begins, speed in steps if begins <= time % period][-1]
            time += 1
        return time
    if name == "points":
        time = departure % period if period else departure
        around = [(at - period, value) for at, value in steps] + steps + [(at + period, value) for at, value in steps] if period else [(-1, steps[0][1]), *steps, (2**49, steps[-1][1])]
        (early, first), (late, last) = next(pair for pair in zip(around, around[1:]) if pair[0][0] <= time < pair[1][0])
        return departure + weight + (first * (late - time) + last * (time - early)) // (late - early)
    rides = [(time + turn * period, extra) for turn in range(departure // (period or HORIZON) + 2) for time, extra in steps if period or turn == 0]
    return min([time + weight + extra for time, extra in rides if time >= departure], default=None)


def some_text(words, arcs):
    """A text of timetables, most often one without a fault."""
    lines, kinds = [], words.randint(0, 4)
    for number in range(1, kinds + 1):
        name = words.choice(["plain", "every", "closed", "rush"] + list(STEPPED) * 3)
        if name in STEPPED:
            count, period = words.randint(1, 5), words.randint(5, 40)
            if name != "speeds" and words.random() < 0.3:
                period = 0
            times = sorted(words.sample(range(period or 60), count))
            if name == "speeds":
                times[0] = 0
                values = [words.choice([0, 1, 250, 500, 1000, 1500, 40000]) for _ in times]
                values[-1] = values[-1] or words.choice([0, 1000, 1000, 1000])
            else:
                ends, values = 0, []
                for time in times:
                    ends = max(ends, time + words.randint(0, 6))
                    values.append(ends - time)
            lines.append(f"k {number} {name} {period} {count}")
            lines += [f"v {time} {value}" for time, value in zip(times, values)]
        else:
            lines.append(f"k {number} " + {"plain": "plain", "every": "every 10 3", "closed": "closed 5 20", "rush": "rush 4 9 6"}[name])
        if words.random() < 0.3:
            lines.append(words.choice(["", "c v 0 0", "  "]))
    entries = words.randint(0, 5)
    for _ in range(entries):
        place = words.randint(0, len(lines)) if words.random() < 0.05 else len(lines)
        lines.insert(place, f"t {words.randint(1, arcs)} {words.randint(0, kinds)}")
    lines.insert(0, f"p tp {kinds} {entries}")
    return "\n".join(spoilt(words, lines)) + words.choice(["", "\n"])


def spoilt(words, lines):
    """The lines, changed in half of the cases."""
    place = words.randrange(len(lines))
    for _ in range(words.choice([0, 0, 1, 2])):
        change = words.randrange(6)
        place = words.randrange(len(lines))
        fields = lines[place].split(" ")
        if change == 0:
            lines = lines[:place] + lines[place + 1 :] or ["p tp 0 0"]
        elif change == 1:
            lines.insert(place, lines[place])
        elif change == 2:
            fields[words.randrange(len(fields))] = words.choice(["0", "1", "7", "007", "39", "40", "x", "-1", "99999999999999999999999", "speeds", "points", "v"])
            lines[place] = " ".join(fields)
        elif change == 3:
            lines[place] = "\t".join(fields) + words.choice(["", " ", "\r", " 1"])
        elif change == 4:
            lines[place] = " ".join(fields[:-1])
        else:
            other = words.randrange(len(lines))
            lines[place], lines[other] = lines[other], lines[place]
    return lines


def at_random(files, count=250):
    """Random texts: their fault, or their arrivals."""
    words = random.Random(20261123)
    for number in range(count):
        arcs = words.randint(1, 4)
        weights = [words.randint(0, 9) for _ in range(arcs)]
        departure = words.randint(0, 90)
        graph = f"p sp {arcs + 1} {arcs}\n" + "".join(f"a 1 {head} {weight}\n" for head, weight in enumerate(weights, 2))
        text = some_text(words, arcs)
        table, fault = read(text, arcs)
        was = files.run(f"run gr ss --tp tp --depart {departure}", gr=graph, ss="p aux sp ss 1\ns 1\n", tp=text)
        if table is None:
            wanted = (1, "", f"earliest: tp {fault[0]}: {fault[1]} {NAMES[fault[1]]}\n")
        else:
            class_of = dict(table.entries)
            ends = [arrive(table.kinds[class_of[arc] - 1] if class_of.get(arc, 0) else None, weight, departure) for arc, weight in enumerate(weights, 1)]
            lines = [f"s 1 {departure}", f"d 1 {departure}"] + [f"d {head} {'inf' if end is None else end}" for head, end in enumerate(ends, 2)]
            wanted = (0, "\n".join(lines) + "\n", "")
        yield f"random timetables {number}: {text!r}", was, wanted


def results(program):
    """All of these: name, result, expected result."""
    with tempfile.TemporaryDirectory() as folder:
        files = Files(os.path.abspath(program), folder)
        return [*worked(files), *at_random(files)]
