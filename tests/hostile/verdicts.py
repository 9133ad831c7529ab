"""What `check` says of a report, by the part "What `check` accepts" of docs/guide/commands.md and by docs/design/checker.md: the lines in
their form first, for the whole report, then the first problem with a fault."""
from reading import number_of, spoken
from reference import HORIZON, walk_of

NAMES = {1: "BadLine", 2: "NotAttained", 3: "NotLeast", 5: "NotCanonical"}


class Wrong(Exception):
    """The first fault of a report: its number and its line, 0 if the report ends too early."""

    def __init__(self, number, line):
        self.number, self.line = number, line
        super().__init__(f"check {number} {NAMES[number]} line {line}")


def numbers(fields):
    return [number_of(field) for field in fields]


def is_walk_line(fields, node):
    """Whether a line is `w NODE K` with K arcs."""
    said = numbers(fields[1:])
    return len(said) >= 2 and None not in said and said[0] == node and said[1] == len(said) - 2


def formed(road, problems, text, turned):
    """The lines of a report that has its form: for each problem the rows (line, node, time, walk), with None as `walk` for a `d` line and
    else a (line, arcs)."""
    begins, never = (b"t", b"none") if turned else (b"s", b"inf")
    lines = list(spoken(text))
    at, found = 0, []

    def next_line():
        if at == len(lines):
            raise Wrong(1, 0)
        return lines[at]

    for starts in problems:
        for start in starts:
            line, fields = next_line()
            if len(fields) != 3 or fields[0] != begins or numbers(fields[1:]) != list(start):
                raise Wrong(1, line)
            at += 1
        rows = []
        for node in range(1, road.nodes + 1):
            line, fields = next_line()
            time = number_of(fields[2]) if len(fields) == 3 else None
            if len(fields) != 3 or fields[0] != b"d" or number_of(fields[1]) != node or (fields[2] != never and (time is None or time > HORIZON)):
                raise Wrong(1, line)
            at, walk = at + 1, None
            if time is not None and at < len(lines) and lines[at][1][0] == b"w":
                if not is_walk_line(lines[at][1], node):
                    raise Wrong(1, lines[at][0])
                walk = lines[at][0], numbers(lines[at][1][3:])
                at += 1
            rows.append((line, node, time, walk))
        found.append(rows)
    if at < len(lines):
        raise Wrong(1, lines[at][0])
    return found


def judge(road, starts, rows, turned):
    """Raises the first fault of a problem: a time or a walk that isn't attained, then a walk that isn't canonical, then a time that a start
    or an arc improves. Levels and canonical walks are those of the reported times."""
    times = [None, *(time for _, _, time, _ in rows)]
    levels, links = road.links(starts, times, turned)
    for line, node, time, walk in rows:
        if time is not None and node not in levels:
            raise Wrong(2, line)
        if walk and time not in road.runs(starts, walk[1], node, turned):
            raise Wrong(2, walk[0])
    for _, node, _, walk in rows:
        if walk and walk[1] != walk_of(links, node, turned):
            raise Wrong(5, walk[0])
    offers = {}
    for node, time in starts:
        offers.setdefault(node, []).append(time)
    for node, time in enumerate(times):
        if time is not None:
            for number, other in road.ways(node, turned):
                offers.setdefault(other, []).append(road.over(number, time, turned))
    for line, node, time, _ in rows:
        for offer in offers.get(node, ()):
            if offer is not None and (time is None or (offer > time if turned else offer < time)):
                raise Wrong(3, line)


def verdict(road, problems, text, turned=False):
    """The first fault of a report, or None if it is right."""
    try:
        for starts, rows in zip(problems, formed(road, problems, text, turned)):
            judge(road, starts, rows, turned)
    except Wrong as wrong:
        return wrong
    return None
